// Mixed links, as gateways send them: absolute ones with addresses or names, references to resolve, texts of ASCII and of other characters, some damaged.
use crate::{address, Random};

fn head(out: &mut Vec<u8>, major: u8, n: u64) {
    let major = major << 5;
    match n {
        0..=23 => out.push(major | n as u8),
        24..=0xff => out.extend([major | 24, n as u8]),
        _ => {
            out.push(major | 25);
            out.extend((n as u16).to_be_bytes());
        }
    }
}

fn text(out: &mut Vec<u8>, t: &str) {
    head(out, 3, t.len() as u64);
    out.extend(t.as_bytes());
}

const NULL: u8 = 0xf6;
const TRUE: u8 = 0xf5;
const WORDS: [&str; 12] = [".well-known", "core", "position", "gnss", "1", "bow", "stern", "raw", "fix-2d", "λιμάνι", "距離", "Schleppzug-Nr.7"];
const NAMES: [&str; 8] = ["tug", "harbour", "example", "org", "node-17", "r2d2", "antwerp", "local"];

// An array of so many of these texts.
fn texts(random: &mut Random, of: &[&str], n: usize) -> Vec<u8> {
    let mut out = Vec::new();
    head(&mut out, 4, n as u64);
    for _ in 0..n {
        text(&mut out, of[random.below(of.len())]);
    }
    out
}

fn words(random: &mut Random, most: usize) -> Vec<u8> {
    let n = random.below(most + 1);
    texts(random, &WORDS, n)
}

fn parameters(random: &mut Random) -> Vec<u8> {
    let mut out = Vec::new();
    let n = 1 + random.below(3);
    head(&mut out, 4, n as u64);
    for _ in 0..n {
        text(&mut out, &format!("{}={}", NAMES[random.below(NAMES.len())], random.below(1000)));
    }
    out
}

fn authority(random: &mut Random) -> Vec<u8> {
    let mut items = Vec::new();
    let mut n = 1;
    match random.below(20) {
        0..=7 => {
            head(&mut items, 2, 4);
            items.extend((random.next() as u32).to_be_bytes());
        }
        8..=10 => {
            head(&mut items, 2, 16);
            items.extend([0x20, 1, 0x0d, 0xb8, 0, 0, 0, 0]);
            items.extend(random.next().to_be_bytes());
        }
        _ => {
            n = 1 + random.below(4);
            for _ in 0..n {
                text(&mut items, NAMES[random.below(NAMES.len())]);
            }
        }
    }
    if random.below(5) < 2 {
        head(&mut items, 0, 1024 + random.below(64000) as u64);
        n += 1;
    }
    let mut out = Vec::new();
    head(&mut out, 4, n as u64);
    out.extend(items);
    out
}

// The items of a link: what is unset at the end is left off, elsewhere it is null.
fn joined(opening: Vec<Vec<u8>>, rest: [Option<Vec<u8>>; 3]) -> Vec<u8> {
    let last = rest.iter().rposition(Option::is_some).map_or(0, |k| k + 1);
    let mut out = Vec::new();
    head(&mut out, 4, (opening.len() + last) as u64);
    out.extend(opening.concat());
    for item in &rest[..last] {
        match item {
            Some(bytes) => out.extend(bytes),
            None => out.push(NULL),
        }
    }
    out
}

// The opening of a link: by its kind a scheme as a number (0 to 5), as a text (6) or none (7) with an authority, or a discard.
fn opening(random: &mut Random, kind: usize) -> Vec<Vec<u8>> {
    let mut item = Vec::new();
    match kind {
        0..=5 => {
            head(&mut item, 1, [0, 1, 6, 7][random.below(4)]);
            vec![item, authority(random)]
        }
        6 => {
            text(&mut item, ["http", "https", "mqtt", "urn"][random.below(4)]);
            vec![item, authority(random)]
        }
        7 => vec![vec![NULL], authority(random)],
        _ => {
            head(&mut item, 0, 1 + random.below(4) as u64);
            vec![item]
        }
    }
}

// Path, which so many of ten links have, query and fragment.
fn rest(random: &mut Random, paths: usize) -> [Option<Vec<u8>>; 3] {
    let path = (random.below(10) < paths).then(|| words(random, 6));
    let query = (random.below(10) < 3).then(|| parameters(random));
    let fragment = (random.below(20) < 1).then(|| {
        let mut out = Vec::new();
        text(&mut out, WORDS[random.below(WORDS.len())]);
        out
    });
    [path, query, fragment]
}

fn link(random: &mut Random, kind: usize) -> Vec<u8> {
    let opening = opening(random, kind);
    joined(opening, rest(random, 9))
}

fn absolute(random: &mut Random) -> Vec<u8> {
    let kind = random.below(7);
    link(random, kind)
}

// A reference that discards all segments, some or none.
fn relative(random: &mut Random) -> Vec<u8> {
    let discard = match random.below(8) {
        0 => TRUE,
        1..=3 => 0,
        _ => 1 + random.below(4) as u8,
    };
    let rest = rest(random, 7);
    // The array of only 0 is written as the empty array.
    let opening = match discard {
        0 if rest.iter().all(Option::is_none) => vec![],
        _ => vec![vec![discard]],
    };
    joined(opening, rest)
}

// A reference as it stands in a document: relative, with an authority, or absolute.
fn reference(random: &mut Random) -> Vec<u8> {
    match random.below(10) {
        0 => absolute(random),
        1 => link(random, 7),
        _ => relative(random),
    }
}

// One byte changed, or bytes cut off, or one added.
fn damage(random: &mut Random, link: &mut Vec<u8>) {
    let at = random.below(link.len());
    match random.below(3) {
        0 => link[at] = random.next() as u8,
        1 => link.truncate(at),
        _ => link.push(random.next() as u8),
    }
}

// So many links, one of ten damaged.
pub fn mixed(n: usize) -> Vec<Vec<u8>> {
    let mut random = Random::new();
    (0..n)
        .map(|_| {
            let kind = random.below(10);
            let mut bytes = link(&mut random, kind);
            if random.below(10) == 0 {
                damage(&mut random, &mut bytes);
            }
            bytes
        })
        .collect()
}

// So many pairs of an absolute link and a reference to resolve against it, one of ten damaged in one of the two.
pub fn pairs(n: usize) -> Vec<(Vec<u8>, Vec<u8>)> {
    let mut random = Random::new();
    (0..n)
        .map(|_| {
            let mut pair = (absolute(&mut random), reference(&mut random));
            match random.below(20) {
                0 => damage(&mut random, &mut pair.0),
                1 => damage(&mut random, &mut pair.1),
                _ => {}
            }
            pair
        })
        .collect()
}

// So many absolute links whose texts are mostly of characters that are escaped.
pub fn escaped(n: usize) -> Vec<Vec<u8>> {
    const WORDS: [&str; 8] = ["λιμάνι", "距離", "Ψαρόβαρκα", "порт", "港湾", "größe", "שרטון", "曳船 7"];
    let mut random = Random::new();
    (0..n)
        .map(|_| {
            let labels = 1 + random.below(2);
            let opening = vec![vec![0x20], texts(&mut random, &WORDS, labels)];
            let segments = 1 + random.below(4);
            let path = texts(&mut random, &WORDS, segments);
            let query = (random.below(10) < 3).then(|| texts(&mut random, &WORDS, 1));
            joined(opening, [Some(path), query, None])
        })
        .collect()
}

// So many absolute links with an IPv6 address, of which four of ten groups are zero, and a short path.
pub fn addressed(n: usize) -> Vec<Vec<u8>> {
    let mut random = Random::new();
    (0..n)
        .map(|_| {
            let mut authority = vec![0x81, 0x50];
            for _ in 0..8 {
                let group = if random.below(10) < 4 { 0 } else { random.next() as u16 >> (4 * random.below(4)) };
                authority.extend(group.to_be_bytes());
            }
            let path = words(&mut random, 2);
            joined(vec![vec![0x20], authority], [Some(path), None, None])
        })
        .collect()
}

// So many absolute links with an IPv4-mapped address and a short path.
pub fn mapped(n: usize) -> Vec<Vec<u8>> {
    let mut random = Random::new();
    (0..n)
        .map(|_| {
            let mut authority = vec![0x81, 0x50];
            authority.extend(address::mapped(&mut random));
            let path = words(&mut random, 2);
            joined(vec![vec![0x20], authority], [Some(path), None, None])
        })
        .collect()
}

// So many absolute links with an IPv4 address and a path of so many segments, of 1 to 15 bytes each.
pub fn segmented(n: usize, segments: usize) -> Vec<Vec<u8>> {
    let mut random = Random::new();
    (0..n)
        .map(|_| {
            let opening = vec![vec![0x20], vec![0x81, 0x44, 198, 51, 100, 1]];
            joined(opening, [Some(texts(&mut random, &WORDS, segments)), None, None])
        })
        .collect()
}

// So many absolute links with a host of so many labels and a short path.
pub fn named(n: usize, labels: usize) -> Vec<Vec<u8>> {
    let mut random = Random::new();
    (0..n)
        .map(|_| {
            let opening = vec![vec![0x20], texts(&mut random, &NAMES, labels)];
            joined(opening, [Some(words(&mut random, 2)), None, None])
        })
        .collect()
}

// The lengths and the numbers of segments that are measured.
pub const SIZES: [usize; 10] = [8, 16, 32, 64, 128, 256, 512, 1024, 2048, 4096];
pub const SEGMENTS: [usize; 10] = [0, 1, 2, 4, 8, 16, 32, 64, 128, 160];

// An absolute link of at most so many bytes, and few less: no path at 8 bytes, else one of segments of 7 bytes, or of 32 longer ones.
pub fn sized(size: usize) -> Vec<u8> {
    let opening = vec![vec![0x20], vec![0x81, 0x44, 198, 51, 100, 1]];
    if size == 8 {
        return joined(opening, [None, None, None]);
    }
    let left = size - 10;
    let count = (left / 8).clamp(1, 32);
    let mut path = Vec::new();
    head(&mut path, 4, count as u64);
    for k in 0..count {
        let share = left * (k + 1) / count - left * k / count;
        text(&mut path, &"s".repeat(if share < 26 { (share - 1).min(23) } else { share - 2 }));
    }
    joined(opening, [Some(path), None, None])
}
