//! Components as words: those that were read, and those to be written.

use super::{hex, Words};
use crate::reader::{self, Reference, Texts};
use crate::writer::{Authority, Discard, Host, Opening, Scheme, Span};

/// The components of a reference as words, each with a space before it; `text` says a text or an address.
pub fn said(reference: &Reference, text: &dyn Fn(&[u8]) -> String) -> String {
    let mut words = String::new();
    match &reference.opening {
        reader::Opening::Discard(reader::Discard::All) => words += " discard all",
        reader::Opening::Discard(reader::Discard::Last(count)) => {
            words += &format!(" discard {count}");
        }
        reader::Opening::Authority(scheme, authority) => {
            words += &scheme_said(scheme, text);
            words += &authority_said(authority, text);
        }
    }
    if let Some(path) = reference.path {
        words += " path";
        words += &texts_said("segment", path, text);
    }
    if let Some(query) = reference.query {
        words += " query";
        words += &texts_said("parameter", query, text);
    }
    if let Some(fragment) = reference.fragment {
        words += &format!(" fragment {}", text(fragment.as_bytes()));
    }
    words
}

fn scheme_said(scheme: &reader::Scheme, text: &dyn Fn(&[u8]) -> String) -> String {
    match scheme {
        reader::Scheme::None => " scheme none".to_string(),
        reader::Scheme::Number(number) => format!(" scheme number {number}"),
        reader::Scheme::Text(name) => format!(" scheme text {}", text(name.as_bytes())),
    }
}

fn authority_said(authority: &reader::Authority, text: &dyn Fn(&[u8]) -> String) -> String {
    let host = match authority.host {
        reader::Host::Address(address) => format!(" address {}", text(address)),
        reader::Host::Labels(labels) => texts_said("label", labels, text),
    };
    let port = authority
        .port
        .map_or(String::new(), |port| format!(" port {port}"));
    format!(" authority{host}{port}")
}

fn texts_said(name: &str, texts: Texts, text: &dyn Fn(&[u8]) -> String) -> String {
    texts
        .iter()
        .map(|content| format!(" {name} {}", text(content)))
        .collect()
}

/// The request that writes an accepted input from the spans at which its own texts stand.
pub fn write_from_itself(input: &[u8], room: usize) -> Option<String> {
    let reference = reader::read(input).ok()?;
    let span = |text: &[u8]| {
        let start = text.as_ptr() as usize - input.as_ptr() as usize;
        format!("{start} {}", text.len())
    };
    let words = said(&reference, &span);
    Some(format!("write {room} {}{words}", hex(input)))
}

/// The request that writes what an answer of `read` says, its texts one after the other in the lent bytes.
pub fn write_from_answer(answer: &str, room: usize) -> Option<String> {
    let mut lent = String::new();
    let mut request = String::new();
    let mut words = answer.strip_prefix("0 ")?.split(' ');
    while let Some(word) = words.next() {
        request += &format!(" {word}");
        if let "text" | "address" | "label" | "segment" | "parameter" | "fragment" = word {
            let text = words.next()?.trim_matches('-');
            request += &format!(" {} {}", lent.len() / 2, text.len() / 2);
            lent += text;
        }
    }
    if lent.is_empty() {
        lent += "-";
    }
    Some(format!("write {room} {lent}{request}"))
}

type Taken<T> = Result<T, &'static str>;

/// The opening that the next words give; its labels are kept in `labels`.
pub fn opening<'c>(words: &mut Words, labels: &'c mut Vec<Span>) -> Taken<Opening<'c>> {
    match words.next()? {
        b"discard" if words.next_is("all") => Ok(Opening::Discard(Discard::All)),
        b"discard" => Ok(Opening::Discard(Discard::Last(words.number()?))),
        b"scheme" => {
            let scheme = scheme(words)?;
            let authority = if words.next_is("authority") {
                Some(authority(words, labels)?)
            } else {
                None
            };
            Ok(Opening::Authority(scheme, authority))
        }
        _ => Err("no opening"),
    }
}

fn scheme(words: &mut Words) -> Taken<Scheme> {
    match words.next()? {
        b"none" => Ok(Scheme::None),
        b"number" => Ok(Scheme::Number(words.number()?)),
        b"text" => Ok(Scheme::Text(span(words)?)),
        _ => Err("no scheme"),
    }
}

fn authority<'c>(words: &mut Words, labels: &'c mut Vec<Span>) -> Taken<Authority<'c>> {
    let host = if words.next_is("address") {
        Host::Address(span(words)?)
    } else {
        *labels = spans(words, "label")?;
        Host::Labels(labels)
    };
    let port = if words.next_is("port") {
        Some(words.number()?)
    } else {
        None
    };
    Ok(Authority { host, port })
}

/// A path or a query, whose first word is `name`.
pub fn texts(words: &mut Words, name: &str, text: &str) -> Taken<Option<Vec<Span>>> {
    if words.next_is(name) {
        spans(words, text).map(Some)
    } else {
        Ok(None)
    }
}

pub fn fragment(words: &mut Words) -> Taken<Option<Span>> {
    if words.next_is("fragment") {
        span(words).map(Some)
    } else {
        Ok(None)
    }
}

/// The spans of any number of texts, each after the word `name`.
fn spans(words: &mut Words, name: &str) -> Taken<Vec<Span>> {
    let mut spans = Vec::new();
    while words.next_is(name) {
        spans.push(span(words)?);
    }
    Ok(spans)
}

fn span(words: &mut Words) -> Taken<Span> {
    let start = words.size()?;
    let length = words.size()?;
    Ok(Span { start, length })
}
