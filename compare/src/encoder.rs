//! Encodes CBOR items, each with the shortest head.

#![forbid(unsafe_code)]

pub const NUMBER: u8 = 0;
pub const NEGATIVE: u8 = 1;
pub const BYTES: u8 = 2;
pub const TEXT: u8 = 3;
const ARRAY: u8 = 4;
pub const TRUE: u8 = 0xF5;
pub const NULL: u8 = 0xF6;

/// `None` where the bytes do not fit.
pub type Put = Option<()>;

/// Takes an encoding, piece by piece.
pub trait Encoder {
    fn put(&mut self, bytes: &[u8]) -> Put;

    /// The head of an array.
    fn array(&mut self, count: usize) -> Put {
        self.head(ARRAY, count as u64)
    }

    /// A text or a byte string.
    #[inline]
    fn string(&mut self, major: u8, content: &[u8]) -> Put {
        self.head(major, content.len() as u64)?;
        self.put(content)
    }

    /// The shortest head.
    #[inline]
    fn head(&mut self, major: u8, argument: u64) -> Put {
        let major = major << 5;
        match argument {
            0..=23 => self.put(&[major | argument as u8]),
            24..=0xFF => self.put(&[major | 24, argument as u8]),
            0x100..=0xFFFF => {
                self.put(&[major | 25])?;
                self.put(&(argument as u16).to_be_bytes())
            }
            0x1_0000..=0xFFFF_FFFF => {
                self.put(&[major | 26])?;
                self.put(&(argument as u32).to_be_bytes())
            }
            _ => {
                self.put(&[major | 27])?;
                self.put(&argument.to_be_bytes())
            }
        }
    }
}

/// Writes the encoding to the start of lent bytes.
pub struct Buffer<'b> {
    bytes: &'b mut [u8],
    length: usize,
}

impl<'b> Buffer<'b> {
    pub fn new(bytes: &'b mut [u8]) -> Self {
        Buffer { bytes, length: 0 }
    }

    /// What has been written.
    pub fn into_written(self) -> &'b [u8] {
        &self.bytes[..self.length]
    }
}

impl Encoder for Buffer<'_> {
    #[inline]
    fn put(&mut self, bytes: &[u8]) -> Put {
        let end = self.length + bytes.len();
        self.bytes.get_mut(self.length..end)?.copy_from_slice(bytes);
        self.length = end;
        Some(())
    }
}

/// Measures the encoding, of any length.
#[derive(Default)]
pub struct Meter {
    length: usize,
}

impl Meter {
    pub fn length(&self) -> usize {
        self.length
    }
}

impl Encoder for Meter {
    #[inline]
    fn put(&mut self, bytes: &[u8]) -> Put {
        self.length += bytes.len();
        Some(())
    }
}

/// How many items follow the opening of a reference: up to the last one that is set.
pub fn items_after(path: bool, query: bool, fragment: bool) -> usize {
    match (path, query, fragment) {
        (_, _, true) => 3,
        (_, true, false) => 2,
        (true, false, false) => 1,
        (false, false, false) => 0,
    }
}
