//! Makes requests to write components.

use super::item::Item;
use super::random::Random;
use super::reference::{self, Made};
use super::room;
use crate::lines::{hex, write_from_itself};

/// A request to write a reference: from its own bytes where it is accepted, or from other lent bytes, with a fault or without.
pub fn request(random: &mut Random) -> String {
    let (made, parts) = sayable(random);
    let length = made.encoded.bytes.len();
    let room = room(random, length);
    if random.chance(25) {
        if let Some(request) = write_from_itself(&made.encoded.bytes, room) {
            return request;
        }
    }
    let lent = Lent::of(random, &parts);
    let words: Vec<String> = parts.iter().map(|part| lent.words(random, part)).collect();
    format!("write {room} {}{}", hex(&lent.bytes), words.concat())
}

/// A reference that components can say, and what they say.
fn sayable(random: &mut Random) -> (Made, Vec<Part>) {
    loop {
        let mut made = match random.below(100) {
            0..39 => reference::reference(random, 0),
            39..92 => {
                let slips = random.pick(&[1, 2]);
                reference::reference(random, slips)
            }
            92..94 => reference::bracketed(random),
            _ => reference::around_longest(random),
        };
        if random.chance(8) {
            change_authority(random, &mut made.items);
        }
        if let Some(parts) = Parts::of(&made.items) {
            return (made, parts);
        }
    }
}

/// Takes the authority away, or leaves a port or nothing in it.
fn change_authority(random: &mut Random, items: &mut [Item]) {
    if let [Item::Null | Item::Negative(_) | Item::Text(_), authority, ..] = items {
        *authority = match random.below(4) {
            0 => Item::Array(vec![]),
            1 => Item::Array(vec![Item::Number(5683)]),
            _ => Item::Null,
        };
    }
}

/// Words of components, or a text or an address.
enum Part {
    Words(String),
    Text(Vec<u8>),
}

/// Components, part by part.
#[derive(Default)]
struct Parts {
    parts: Vec<Part>,
}

impl Parts {
    /// The components by which these items are written; `None` where there are none.
    fn of(items: &[Item]) -> Option<Vec<Part>> {
        let mut said = Parts::default();
        let mut after = match items {
            [Item::True | Item::Number(_), after @ ..] => after.iter(),
            [_, _, after @ ..] => after.iter(),
            [_] | [] => [].iter(),
        };
        match items {
            [] => said.words(" discard 0".to_string()),
            [Item::True, ..] => said.words(" discard all".to_string()),
            [Item::Number(count), ..] => said.words(format!(" discard {count}")),
            [scheme, ..] => {
                said.scheme(scheme)?;
                said.authority(items.get(1))?;
            }
        }
        said.array(after.next(), " path", " segment")?;
        said.array(after.next(), " query", " parameter")?;
        match after.next() {
            None | Some(Item::Null) => {}
            Some(fragment) => said.text(" fragment", fragment)?,
        }
        after.next().is_none().then_some(said.parts)
    }

    fn words(&mut self, words: String) {
        self.parts.push(Part::Words(words));
    }

    fn text(&mut self, name: &str, item: &Item) -> Option<()> {
        let Item::Text(text) = item else { return None };
        self.words(name.to_string());
        self.parts.push(Part::Text(text.clone()));
        Some(())
    }

    fn scheme(&mut self, scheme: &Item) -> Option<()> {
        match scheme {
            Item::Null => self.words(" scheme none".to_string()),
            Item::Negative(number) => self.words(format!(" scheme number {number}")),
            text => self.text(" scheme text", text)?,
        }
        Some(())
    }

    fn authority(&mut self, authority: Option<&Item>) -> Option<()> {
        let items = match authority {
            None | Some(Item::Null) => return Some(()),
            Some(Item::Array(items)) => items,
            Some(_) => return None,
        };
        self.words(" authority".to_string());
        let (host, port) = match items.split_last() {
            Some((Item::Number(port), host)) => (host, format!(" port {port}")),
            _ => (&items[..], String::new()),
        };
        match host {
            [Item::Bytes(address)] => {
                self.words(" address".to_string());
                self.parts.push(Part::Text(address.clone()));
            }
            labels => self.texts(" label", labels)?,
        }
        self.words(port);
        Some(())
    }

    fn array(&mut self, array: Option<&Item>, name: &str, text: &str) -> Option<()> {
        match array {
            None | Some(Item::Null) => Some(()),
            Some(Item::Array(items)) => {
                self.words(name.to_string());
                self.texts(text, items)
            }
            Some(_) => None,
        }
    }

    fn texts(&mut self, name: &str, items: &[Item]) -> Option<()> {
        items.iter().try_for_each(|item| self.text(name, item))
    }
}

/// Lent bytes, and how spans of them are made.
struct Lent {
    bytes: Vec<u8>,
    /// In percent, how often a span is another one inside, and how often it is one at the edges.
    inside: u64,
    edges: u64,
}

impl Lent {
    /// The texts one after the other, or with bytes between them.
    fn of(random: &mut Random, parts: &[Part]) -> Self {
        let gaps = random.chance(50);
        let mut bytes = Vec::new();
        for part in parts {
            if let (Part::Text(text), false) = (part, random.chance(2)) {
                bytes.extend(text);
            }
            if gaps {
                let length = random.index(4);
                bytes.extend(random.bytes(length));
            }
        }
        let (inside, edges) =
            random.pick(&[(0, 0), (0, 0), (0, 0), (0, 20), (0, 5), (10, 0), (100, 0)]);
        Lent {
            bytes,
            inside,
            edges,
        }
    }

    fn words(&self, random: &mut Random, part: &Part) -> String {
        let text = match part {
            Part::Words(words) => return words.clone(),
            Part::Text(text) => text,
        };
        let (start, length) = match self.place(text) {
            Some(start) if !random.chance(self.inside) => (start as u64, text.len() as u64),
            _ => self.anywhere(random),
        };
        let (start, length) = if random.chance(self.edges) {
            self.at_an_edge(random, start, length)
        } else {
            (start, length)
        };
        format!(" {start} {length}")
    }

    /// The first place of a text.
    fn place(&self, text: &[u8]) -> Option<usize> {
        let Some(first) = text.first() else {
            return Some(0);
        };
        let mut parts = self.bytes.windows(text.len());
        parts.position(|part| part[0] == *first && part == text)
    }

    /// A span inside, mostly a short one.
    fn anywhere(&self, random: &mut Random) -> (u64, u64) {
        let start = random.index(self.bytes.len() + 1);
        let left = self.bytes.len() - start;
        let length = random.index(left + 1);
        let short = length.min(random.index(20));
        (
            start as u64,
            random.pick(&[short, short, short, length]) as u64,
        )
    }

    /// A span near the end, around 2^64 or just outside, some of them with a sum that would wrap around to a span inside.
    fn at_an_edge(&self, random: &mut Random, start: u64, length: u64) -> (u64, u64) {
        let end = self.bytes.len() as u64;
        random.pick(&[
            (end, 0),
            (end + 1, 0),
            (end, 1),
            (start, end - start),
            (start, end - start + 1),
            (start, start.wrapping_neg()),
            (start, u64::MAX - start),
            (start, u64::MAX),
            (length.wrapping_neg(), length),
            (length.wrapping_neg(), length.wrapping_add(end)),
            (u64::MAX - length, length),
            (u64::MAX, 0),
            (u64::MAX, 1),
            (u64::MAX, u64::MAX),
            (1 << 63, 1 << 63),
            (start + (1 << 32), length),
            (start, length + (1 << 32)),
        ])
    }
}
