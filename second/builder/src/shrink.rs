//! Makes an image shorter and emptier while something still holds of it.

/// A bound on the calls of the predicate that suits a test run.
pub const USUAL_CALLS: usize = 4_000;

/// Cuts the tail and then zeroes ranges, by halves, as long as `still` holds.
/// `still` is called at most `calls` times. If it doesn't hold of `bytes`
/// itself, the bytes come back as they are.
pub fn shrink(bytes: &[u8], calls: usize, still: impl FnMut(&[u8]) -> bool) -> Vec<u8> {
    let mut search = Search {
        bytes: bytes.to_vec(),
        left: calls,
        still,
    };
    if search.holds() {
        search.cut_tail();
        search.zero_ranges();
        // Zeroed ranges may have made more of the tail needless.
        search.cut_tail();
    }
    search.bytes
}

struct Search<F> {
    bytes: Vec<u8>,
    left: usize,
    still: F,
}

impl<F: FnMut(&[u8]) -> bool> Search<F> {
    /// Whether the predicate holds of the present bytes; never with no call left.
    fn holds(&mut self) -> bool {
        if self.left == 0 {
            return false;
        }
        self.left -= 1;
        (self.still)(&self.bytes)
    }

    fn cut_tail(&mut self) {
        let mut cut = self.bytes.len().div_ceil(2);
        while cut > 0 && self.left > 0 {
            if cut > self.bytes.len() || !self.cut(cut) {
                cut /= 2;
            }
        }
    }

    fn cut(&mut self, count: usize) -> bool {
        let removed = self.bytes.split_off(self.bytes.len() - count);
        let holds = self.holds();
        if !holds {
            self.bytes.extend_from_slice(&removed);
        }
        holds
    }

    fn zero_ranges(&mut self) {
        let mut size = self.bytes.len().div_ceil(2);
        while size > 0 && self.left > 0 {
            let mut start = 0;
            while start < self.bytes.len() && self.left > 0 {
                let end = (start + size).min(self.bytes.len());
                self.zero(start, end);
                start = end;
            }
            size /= 2;
        }
    }

    fn zero(&mut self, start: usize, end: usize) {
        if self.bytes[start..end].iter().all(|byte| *byte == 0) {
            return;
        }
        let held = self.bytes[start..end].to_vec();
        self.bytes[start..end].fill(0);
        if !self.holds() {
            self.bytes[start..end].copy_from_slice(&held);
        }
    }
}
