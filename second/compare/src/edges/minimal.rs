//! Small images for the edges, written byte by byte.

/// An image whose fields are put one by one.
#[derive(Clone)]
pub struct Minimal {
    bytes: Vec<u8>,
    /// Where the NE header stands.
    header: usize,
}

impl Minimal {
    /// 128 bytes: "MZ", and an NE header at 64 without tables and with shift 0.
    pub fn new() -> Self {
        Minimal::with_header_at(64)
    }

    /// The same with the NE header further on; it ends the image.
    pub fn with_header_at(place: usize) -> Self {
        let bytes = vec![0; place + 64];
        let image = Minimal {
            bytes,
            header: place,
        };
        image
            .put(0, b"MZ")
            .put_dword(0x3C, place as u32)
            .put(place, b"NE")
    }

    pub fn bytes(&self) -> &[u8] {
        &self.bytes
    }

    /// Where the NE header stands.
    pub fn header(&self) -> usize {
        self.header
    }

    /// Cuts the image or adds zeros.
    pub fn length(mut self, length: usize) -> Self {
        self.bytes.resize(length, 0);
        self
    }

    /// Puts bytes at a place from the file's start.
    pub fn put(mut self, at: usize, bytes: &[u8]) -> Self {
        self.bytes[at..at + bytes.len()].copy_from_slice(bytes);
        self
    }

    pub fn put_word(self, at: usize, word: u16) -> Self {
        self.put(at, &word.to_le_bytes())
    }

    pub fn put_dword(self, at: usize, dword: u32) -> Self {
        self.put(at, &dword.to_le_bytes())
    }

    /// Puts a word of the NE header.
    pub fn ne_word(self, offset: usize, word: u16) -> Self {
        let at = self.header + offset;
        self.put_word(at, word)
    }

    /// Puts a double word of the NE header.
    pub fn ne_dword(self, offset: usize, dword: u32) -> Self {
        let at = self.header + offset;
        self.put_dword(at, dword)
    }

    /// Puts a segment record: sector, length, flags, allocation.
    pub fn record(self, at: usize, words: [u16; 4]) -> Self {
        let put = |image: Self, (index, word): (usize, &u16)| image.put_word(at + 2 * index, *word);
        words.iter().enumerate().fold(self, put)
    }
}
