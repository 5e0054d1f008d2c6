//! Encodings, written apart from the generator's.

/// The bytes of hexadecimal words.
pub fn bytes(hex: &str) -> Vec<u8> {
    let digits: Vec<u32> = hex.chars().filter_map(|c| c.to_digit(16)).collect();
    digits
        .chunks(2)
        .map(|pair| ((pair[0] << 4) | pair[1]) as u8)
        .collect()
}

pub fn head(major: u8, argument: usize) -> Vec<u8> {
    match argument {
        0..=23 => vec![(major << 5) | argument as u8],
        24..=255 => vec![(major << 5) | 24, argument as u8],
        256..=65535 => vec![(major << 5) | 25, (argument >> 8) as u8, argument as u8],
        _ => panic!("no test needs {argument}"),
    }
}

pub fn text_of(content: &[u8]) -> Vec<u8> {
    [head(3, content.len()), content.to_vec()].concat()
}

pub fn text(length: usize) -> Vec<u8> {
    text_of(&vec![b'a'; length])
}

pub fn array(items: &[Vec<u8>]) -> Vec<u8> {
    [head(4, items.len()), items.concat()].concat()
}

/// An array of texts of these lengths.
pub fn texts(lengths: &[usize]) -> Vec<u8> {
    let items: Vec<_> = lengths.iter().map(|&length| text(length)).collect();
    array(&items)
}

/// The lengths of texts whose array has `size` bytes: all but the last are the longest, and that one has a head of two bytes.
pub fn filling(size: usize) -> Vec<usize> {
    let left = size - head(4, size / 257).len();
    let mut lengths = vec![255; left / 257];
    lengths.push(left % 257 - 2);
    assert_eq!(texts(&lengths).len(), size);
    lengths
}
