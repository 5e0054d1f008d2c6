//! CBOR items and their encoding.

#[derive(Clone)]
pub enum Item {
    Number(u64),
    Negative(u64),
    Bytes(Vec<u8>),
    Text(Vec<u8>),
    Array(Vec<Item>),
    True,
    Null,
}

/// An encoding, and where its heads begin.
#[derive(Default)]
pub struct Encoded {
    pub bytes: Vec<u8>,
    pub heads: Vec<usize>,
}

impl Item {
    pub fn encoded(&self) -> Encoded {
        let mut encoded = Encoded::default();
        encoded.put(self);
        encoded
    }
}

impl Encoded {
    /// The encoding of an array.
    pub fn array(items: &[Item]) -> Self {
        let mut encoded = Encoded::default();
        encoded.heads.push(0);
        encoded.put_items(items);
        encoded
    }

    fn put(&mut self, item: &Item) {
        self.heads.push(self.bytes.len());
        match item {
            Item::Number(n) => self.bytes.extend(head(0, *n)),
            Item::Negative(n) => self.bytes.extend(head(1, *n)),
            Item::Bytes(content) => self.put_content(2, content),
            Item::Text(content) => self.put_content(3, content),
            Item::Array(items) => self.put_items(items),
            Item::True => self.bytes.push(0xF5),
            Item::Null => self.bytes.push(0xF6),
        }
    }

    fn put_items(&mut self, items: &[Item]) {
        self.bytes.extend(head(4, items.len() as u64));
        items.iter().for_each(|item| self.put(item));
    }

    fn put_content(&mut self, major: u8, content: &[u8]) {
        self.bytes.extend(head(major, content.len() as u64));
        self.bytes.extend(content);
    }
}

/// The shortest head.
pub fn head(major: u8, argument: u64) -> Vec<u8> {
    let bytes = match argument {
        0..=23 => 0,
        24..=0xFF => 1,
        0x100..=0xFFFF => 2,
        0x1_0000..=0xFFFF_FFFF => 4,
        _ => 8,
    };
    head_of(major, argument, bytes)
}

/// The head with the argument in `bytes` bytes: 0, 1, 2, 4 or 8.
pub fn head_of(major: u8, argument: u64, bytes: usize) -> Vec<u8> {
    let info = match bytes {
        0 => argument as u8,
        1 => 24,
        2 => 25,
        4 => 26,
        _ => 27,
    };
    let mut head = vec![(major << 5) | info];
    head.extend(&argument.to_be_bytes()[8 - bytes..]);
    head
}

/// The length of a head by its first byte.
pub fn head_length(first: u8) -> usize {
    match first & 0x1F {
        24 => 2,
        25 => 3,
        26 => 5,
        27 => 9,
        _ => 1,
    }
}
