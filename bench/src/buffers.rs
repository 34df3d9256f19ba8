//! Buffers at chosen places of a page. Where two of them stand at the same
//! place of their pages, the processor takes a load from one for a load of what
//! was just stored in the other, and everything is several times slower.

use bench::inputs::Input;

const PAGE: usize = 4096;

/// Bytes that start at a chosen place of a page.
pub struct Placed {
    room: Vec<u8>,
    start: usize,
    length: usize,
}

impl Placed {
    /// So many bytes, the one at `index` being at the place `offset` of its
    /// page.
    fn new(length: usize, index: usize, offset: usize) -> Placed {
        let room = vec![0; length + PAGE];
        let at = room.as_ptr() as usize + index;
        let start = (PAGE + offset - at % PAGE) % PAGE;
        Placed {
            room,
            start,
            length,
        }
    }

    pub fn bytes(&self) -> &[u8] {
        &self.room[self.start..][..self.length]
    }

    pub fn bytes_mut(&mut self) -> &mut [u8] {
        &mut self.room[self.start..][..self.length]
    }
}

/// What is lent for preparing an input's segment; all programs have the same.
pub struct Buffers {
    pub image: Placed,
    pub output: Placed,
    pub marks: Placed,
}

impl Buffers {
    /// The image, and an output and marks that are just long enough.
    pub fn new(input: &Input) -> Buffers {
        let mut image = Placed::new(input.image.len(), input.stored.start, 64 * 7 + 16);
        image.bytes_mut().copy_from_slice(&input.image);
        Buffers {
            image,
            output: Placed::new(input.allocation, 0, 64 * 27 + 32),
            marks: Placed::new(input.stored.len(), 0, 64 * 45 + 48),
        }
    }
}
