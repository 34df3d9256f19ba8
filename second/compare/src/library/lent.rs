//! Memory that is lent for a call, by its address and its length.

/// Bytes or other numbers that are lent for a call, to be read.
#[derive(Clone, Copy)]
pub enum Lent<'a, T = u8> {
    These(&'a [T]),
    /// None, which may be said to stand at any address.
    NothingAt(usize),
}

impl<T> Lent<'_, T> {
    pub(super) fn pointer(&self) -> *const T {
        match self {
            Lent::These(items) => items.as_ptr(),
            Lent::NothingAt(address) => *address as *const T,
        }
    }

    pub(super) fn length(&self) -> usize {
        match self {
            Lent::These(items) => items.len(),
            Lent::NothingAt(_) => 0,
        }
    }
}

/// Bytes that are lent for a call, to be written.
pub enum Room<'a> {
    These(&'a mut [u8]),
    /// None, which may be said to stand at any address.
    NothingAt(usize),
}

impl Room<'_> {
    pub(super) fn pointer(&mut self) -> *mut u8 {
        match self {
            Room::These(bytes) => bytes.as_mut_ptr(),
            Room::NothingAt(address) => *address as *mut u8,
        }
    }

    pub(super) fn length(&self) -> usize {
        match self {
            Room::These(bytes) => bytes.len(),
            Room::NothingAt(_) => 0,
        }
    }
}
