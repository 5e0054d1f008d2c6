//! Answers requests of the line protocol (`docs/LINES.md`).

mod components;

use crate::meant::{self, meant};
use crate::options::options;
use crate::reader::read;
use crate::refusal::Refusal;
use crate::resolver::resolve;
use crate::uri_text::{longest, uri_text};
use crate::views;
use crate::writer::{write, Components};
pub use components::{write_from_answer, write_from_itself};

/// The longest line that is taken, without its line feed.
pub const MAX_LINE: usize = 65_536;

/// The largest room.
pub const MAX_ROOM: usize = 16_384;

/// An answer, or why the line is no request.
type Answer = Result<String, &'static str>;

/// Answers a call from the words after its name.
type Call = fn(&mut Words) -> Answer;

/// The calls known here. A new call is a function and a row.
const CALLS: [(&str, Call); 8] = [
    ("read", read_call),
    ("write", write_call),
    ("resolve", resolve_call),
    ("text", text_call),
    ("options", options_call),
    ("same", same_call),
    ("segment", segment_call),
    ("authority", authority_call),
];

/// The known call that the line begins with.
pub fn call(line: &[u8]) -> Option<&'static str> {
    let word = line.split(|&b| b == b' ').next()?;
    CALLS
        .iter()
        .map(|&(name, _)| name)
        .find(|name| name.as_bytes() == word)
}

/// The answer to one line; both are without the line feed.
pub fn answer(line: &[u8]) -> String {
    request(line).unwrap_or_else(|why| format!("? {why}"))
}

fn request(line: &[u8]) -> Answer {
    if line.len() > MAX_LINE {
        return Err("the line is too long");
    }
    let mut words = Words { rest: Some(line) };
    let name = words.next()?;
    let (_, call) = CALLS
        .iter()
        .find(|(known, _)| known.as_bytes() == name)
        .ok_or("unknown call")?;
    let answer = call(&mut words)?;
    words.end()?;
    Ok(answer)
}

fn read_call(words: &mut Words) -> Answer {
    let input = words.bytes()?;
    Ok(match read(&input) {
        Ok(reference) => format!("0{}", components::said(&reference, &hex)),
        Err(refusal) => refused(refusal),
    })
}

fn write_call(words: &mut Words) -> Answer {
    let room = words.room()?;
    let lent = words.bytes()?;
    let mut labels = Vec::new();
    let opening = components::opening(words, &mut labels)?;
    let path = components::texts(words, "path", "segment")?;
    let query = components::texts(words, "query", "parameter")?;
    let components = Components {
        opening,
        path: path.as_deref(),
        query: query.as_deref(),
        fragment: components::fragment(words)?,
    };
    Ok(written(room, |room| write(&components, &lent, room)))
}

fn resolve_call(words: &mut Words) -> Answer {
    let room = words.room()?;
    let base = words.bytes()?;
    let reference = words.bytes()?;
    Ok(written(room, |room| resolve(&base, &reference, room)))
}

fn text_call(words: &mut Words) -> Answer {
    let room = words.room()?;
    let input = words.bytes()?;
    Ok(written(room, |room| uri_text(&input, room)))
}

fn options_call(words: &mut Words) -> Answer {
    let request = OptionsRequest::of(words)?;
    Ok(written(request.room, |room| {
        options(&request.input, &request.address, request.port, room)
    }))
}

/// The options that an `options` request means, as words of `NUMBER:HEX`; or `? ` and why there are none.
pub fn meant_by(line: &[u8]) -> String {
    options_meant(line).unwrap_or_else(|why| format!("? {why}"))
}

fn options_meant(line: &[u8]) -> Answer {
    let mut words = Words { rest: Some(line) };
    if !words.next_is("options") {
        return Err("another call");
    }
    let request = OptionsRequest::of(&mut words)?;
    words.end()?;
    let options = meant(&request.input, &request.address, request.port);
    Ok(meant::words(&options.ok_or("refused")?))
}

/// The words of an `options` request.
struct OptionsRequest {
    room: usize,
    input: Vec<u8>,
    address: Vec<u8>,
    port: u16,
}

impl OptionsRequest {
    fn of(words: &mut Words) -> Result<Self, &'static str> {
        Ok(OptionsRequest {
            room: words.room()?,
            input: words.bytes()?,
            address: words.bytes()?,
            port: words.port()?,
        })
    }
}

fn same_call(words: &mut Words) -> Answer {
    let first = text_of(&words.bytes()?);
    let second = text_of(&words.bytes()?);
    let number = |text: &Result<_, Refusal>| text.as_ref().err().map_or(0, |r| r.number());
    let same = if first.is_ok() && first == second {
        "equal"
    } else {
        "different"
    };
    Ok(format!("{} {} {same}", number(&first), number(&second)))
}

/// The URI text with room enough.
fn text_of(input: &[u8]) -> Result<Vec<u8>, Refusal> {
    let mut room = vec![0; longest(input.len())];
    let length = uri_text(input, &mut room)?;
    room.truncate(length);
    Ok(room)
}

fn segment_call(words: &mut Words) -> Answer {
    let input = words.bytes()?;
    let n = words.number()?;
    Ok(viewed(views::segment(&input, n)))
}

fn authority_call(words: &mut Words) -> Answer {
    let reference = words.bytes()?;
    let base = words.bytes()?;
    Ok(viewed(views::authority(&reference, &base)))
}

/// What a refusal opens an answer with: its number, and of 1 to 8 also its place.
fn refused(refusal: Refusal) -> String {
    match refusal.number() {
        number @ 1..=8 => format!("{number} at {}", refusal.place),
        number => number.to_string(),
    }
}

/// The answer of a call that gives a view.
fn viewed(view: Result<&[u8], Refusal>) -> String {
    match view {
        Ok(view) => format!("0 {}", hex(view)),
        Err(refusal) => format!("{} -", refused(refusal)),
    }
}

/// The answer of a call that writes to a room of this length: its number, what it wrote, and whether it kept every other byte.
fn written(length: usize, call: impl FnOnce(&mut [u8]) -> Result<usize, Refusal>) -> String {
    let before: Vec<u8> = (0..length).map(|place| place as u8 ^ 0xA5).collect();
    let mut room = before.clone();
    let (number, length) = match call(&mut room) {
        Ok(length) => ("0".to_string(), length),
        Err(refusal) => (refused(refusal), 0),
    };
    let kept = if room[length..] == before[length..] {
        "kept"
    } else {
        "touched"
    };
    format!("{number} {length} {} {kept}", hex(&room[..length]))
}

/// The words of a line, each read in the form that its place asks for.
#[derive(Clone)]
struct Words<'a> {
    /// `None` where the last word has been taken.
    rest: Option<&'a [u8]>,
}

impl<'a> Words<'a> {
    fn next(&mut self) -> Result<&'a [u8], &'static str> {
        let rest = self.rest.ok_or("a word is missing")?;
        let Some(space) = rest.iter().position(|&b| b == b' ') else {
            self.rest = None;
            return Ok(rest);
        };
        self.rest = Some(&rest[space + 1..]);
        Ok(&rest[..space])
    }

    /// Takes the next word where it is `name`.
    fn next_is(&mut self, name: &str) -> bool {
        let mut after = self.clone();
        let is = after.next() == Ok(name.as_bytes());
        if is {
            *self = after;
        }
        is
    }

    fn bytes(&mut self) -> Result<Vec<u8>, &'static str> {
        match self.next()? {
            b"-" => Ok(Vec::new()),
            b"" => Err("no bytes"),
            word => unhex(word).ok_or("not hexadecimal"),
        }
    }

    fn number(&mut self) -> Result<u64, &'static str> {
        let word = self.next()?;
        if !word.iter().all(u8::is_ascii_digit) {
            return Err("not a number");
        }
        let word = std::str::from_utf8(word).map_err(|_| "not a number")?;
        word.parse().map_err(|_| "no number up to 2^64 - 1")
    }

    fn size(&mut self) -> Result<usize, &'static str> {
        usize::try_from(self.number()?).map_err(|_| "no size of this machine")
    }

    fn room(&mut self) -> Result<usize, &'static str> {
        match self.size()? {
            room @ 0..=MAX_ROOM => Ok(room),
            _ => Err("the room is too long"),
        }
    }

    fn port(&mut self) -> Result<u16, &'static str> {
        u16::try_from(self.number()?).map_err(|_| "no port")
    }

    fn end(&self) -> Result<(), &'static str> {
        match self.rest {
            None => Ok(()),
            Some(_) => Err("a word too many"),
        }
    }
}

/// Lower-case hexadecimal, `-` for no bytes.
pub fn hex(bytes: &[u8]) -> String {
    const DIGITS: &[u8; 16] = b"0123456789abcdef";
    if bytes.is_empty() {
        return "-".to_string();
    }
    let mut word = String::with_capacity(2 * bytes.len());
    for nibble in bytes.iter().flat_map(|b| [b >> 4, b & 15]) {
        word.push(char::from(DIGITS[usize::from(nibble)]));
    }
    word
}

fn unhex(word: &[u8]) -> Option<Vec<u8>> {
    let (pairs, odd) = word.as_chunks::<2>();
    if !odd.is_empty() {
        return None;
    }
    pairs
        .iter()
        .map(|&[high, low]| Some((nibble(high)? << 4) | nibble(low)?))
        .collect()
}

fn nibble(digit: u8) -> Option<u8> {
    match digit {
        b'0'..=b'9' => Some(digit - b'0'),
        b'a'..=b'f' => Some(digit - b'a' + 10),
        _ => None,
    }
}
