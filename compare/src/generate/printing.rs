//! Makes requests on absolute references: for their URI text, and for whether two are the same.

use super::damage::damage;
use super::link::{around_longest, around_mapped, default_port, faulty, ipv4, no_paths};
use super::link::{Bytes, Host, Link, Text};
use super::random::Random;
use super::reference::{self, Maker};
use super::{input, room};
use crate::lines::{hex, MAX_ROOM};
use crate::reader::MAX_INPUT;
use crate::uri_text::{longest, uri_text};
use std::net::Ipv6Addr;

/// A request for the text, with a room around its length or of room enough.
pub fn text_request(random: &mut Random) -> String {
    let input = printed(random);
    let length = uri_text(&input, &mut [0; longest(MAX_INPUT)]).unwrap_or(input.len());
    let room = if random.chance(10) {
        longest(input.len()).min(MAX_ROOM)
    } else {
        room(random, length)
    };
    format!("text {room} {}", hex(&input))
}

/// A request that compares the texts of two inputs.
pub fn same_request(random: &mut Random) -> String {
    let mut pair = pair(random).map(|input| hex(&input));
    if random.chance(50) {
        pair.reverse();
    }
    let [first, second] = pair;
    format!("same {first} {second}")
}

fn printed(random: &mut Random) -> Vec<u8> {
    match random.below(100) {
        0..35 => Link::new(random, Bytes::Allowed).encoded().bytes,
        35..45 => Link::new(random, Bytes::Any).encoded().bytes,
        45..50 => {
            let mut encoded = Link::new(random, Bytes::Allowed).encoded();
            damage(random, &mut encoded);
            encoded.bytes
        }
        50..70 => reference::absolute(random, 0).encoded.bytes,
        70..73 => around_longest(random),
        73..86 => input(random).bytes,
        _ => faulty(random),
    }
}

fn pair(random: &mut Random) -> [Vec<u8>; 2] {
    let mut first = Link::new(random, Bytes::Allowed);
    let mut second = first.clone();
    match random.below(100) {
        0..10 => {}
        10..25 => {
            first.path = random.pick(&no_paths());
            second.path = random.pick(&no_paths());
        }
        25..49 => change(random, &mut second),
        49..52 => [first.host, second.host] = around_mapped_hosts(random),
        52..75 => {
            first = Link::full(random);
            second = first.clone();
            confuse(random, &mut second);
        }
        75..77 => second = Link::new(random, Bytes::Allowed),
        77..79 => {
            let long = around_longest(random);
            let other = if random.chance(50) {
                long.clone()
            } else {
                second.encoded().bytes
            };
            return [long, other];
        }
        79..82 => {
            let input = reference::absolute(random, 0).encoded.bytes;
            let mut other = input.clone();
            let place = random.index(other.len());
            other[place] ^= random.pick(&[0, 1, 2, 0x20]);
            return [input, other];
        }
        82..94 => return [faulty(random), second.encoded().bytes],
        94..98 => return [faulty(random), faulty(random)],
        _ => return [input(random).bytes, second.encoded().bytes],
    }
    [first, second].map(|link| link.encoded().bytes)
}

/// An address around a mapped one, and a host that would print like it if a rule were left out.
fn around_mapped_hosts(random: &mut Random) -> [Host; 2] {
    let ipv4 = ipv4(random);
    let address = around_mapped(random, &ipv4);
    let other = match random.below(3) {
        0 => Host::Labels(address_labels(random, &address)),
        1 => Host::Address(around_mapped(random, &ipv4)),
        _ => Host::Address(ipv4),
    };
    [Host::Address(address), other]
}

/// Changes one component.
fn change(random: &mut Random, link: &mut Link) {
    match random.below(6) {
        0 => link.scheme = Maker::brief(random).set_scheme(),
        1 => change_host(random, &mut link.host),
        2 => {
            link.port = match link.port {
                None => Some(random.pick(&[default_port(&link.scheme), 0])),
                Some(port) => random.pick(&[None, None, Some(port ^ 1), Some(port / 10)]),
            }
        }
        3 => change_list(random, &mut link.path),
        4 => change_list(random, &mut link.query),
        _ => match &mut link.fragment {
            None => link.fragment = Some(vec![]),
            Some(text) if text.is_empty() => link.fragment = None,
            Some(text) => change_text(random, text),
        },
    }
}

fn change_host(random: &mut Random, host: &mut Host) {
    match host {
        Host::Address(address) => {
            let place = random.index(address.len());
            match random.below(4) {
                0 => address[place] ^= 1,
                1 => address[place] = 0,
                2 => address.reverse(),
                _ => address.resize(20 - address.len(), 0),
            }
        }
        Host::Labels(labels) => match random.below(6) {
            0 => *host = Host::Address(ipv4(random)),
            1 => labels.push(b"a".to_vec()),
            _ => change_texts(random, labels),
        },
    }
}

fn change_list(random: &mut Random, list: &mut Option<Vec<Text>>) {
    match list {
        None => *list = Some(vec![vec![]]),
        Some(_) if random.chance(10) => *list = None,
        Some(texts) => match random.below(4) {
            0 => texts.push(vec![]),
            1 => texts.insert(0, vec![]),
            _ => change_texts(random, texts),
        },
    }
}

/// Drops a text, changes it, swaps two, or moves a part of one to the next.
fn change_texts(random: &mut Random, texts: &mut Vec<Text>) {
    if texts.is_empty() {
        return;
    }
    let place = random.index(texts.len());
    match random.below(4) {
        0 if texts.len() > 1 => drop(texts.remove(place)),
        1 => texts.swap(0, place),
        2 if place > 0 => {
            let begin = texts[place - 1].clone();
            let split = begin.len().saturating_sub(1);
            let moved = [&begin[split..], &texts[place]].concat();
            texts[place - 1].truncate(split);
            texts[place] = moved;
        }
        _ => change_text(random, &mut texts[place]),
    }
}

/// Changes a plain byte, or adds one.
fn change_text(random: &mut Random, text: &mut Text) {
    let plain: Vec<usize> = (0..text.len()).filter(|&k| text[k] < 0x80).collect();
    if plain.is_empty() || random.chance(30) {
        return text.push(b'a');
    }
    text[random.pick(&plain)] = random.pick(b"a/?#&%:@ +");
}

/// Makes a link whose text would be the same if one rule of section 6 or of the labels were left out.
fn confuse(random: &mut Random, link: &mut Link) {
    let path = link.path.get_or_insert_default();
    let query = link.query.get_or_insert_default();
    match random.below(12) {
        0 => join(random, path, b"/"),
        1 => join(random, query, b"&"),
        2 => {
            let query = link.query.take().unwrap_or_default().join(&b'&');
            add_to_last(path, b"?", &query);
        }
        3 => {
            let fragment = link.fragment.take().unwrap_or_default();
            add_to_last(query, b"#", &fragment);
        }
        4 => {
            let port = link.port.take().unwrap_or_default().to_string();
            if let Host::Labels(labels) = &mut link.host {
                add_to_last(labels, b":", port.as_bytes());
            }
        }
        5 => {
            let path = link.path.take().unwrap_or_default().join(&b'/');
            if let Host::Labels(labels) = &mut link.host {
                add_to_last(labels, b"/", &path);
            }
        }
        6 => match &mut link.host {
            Host::Labels(labels) => join(random, labels, b"."),
            Host::Address(address) => link.host = Host::Labels(address_labels(random, address)),
        },
        7 => {
            let place = random.index(path.len());
            escape_one(random, &mut path[place], false);
        }
        8 => {
            let place = random.index(query.len());
            escape_one(random, &mut query[place], false);
        }
        9 => escape_one(random, link.fragment.get_or_insert_default(), false),
        10 => match &mut link.host {
            Host::Labels(labels) => escape_one(random, &mut labels[0], true),
            Host::Address(address) => link.host = Host::Labels(address_labels(random, address)),
        },
        // Empty texts.
        _ => match random.below(3) {
            0 => path.push(vec![]),
            1 => query.push(vec![]),
            _ => *path = vec![vec![]],
        },
    }
}

/// Makes one text of two neighbours.
fn join(random: &mut Random, texts: &mut Vec<Text>, between: &[u8]) {
    if texts.len() > 1 {
        let place = 1 + random.index(texts.len() - 1);
        let text = texts.remove(place);
        add_to_last(&mut texts[..place], between, &text);
    }
}

fn add_to_last(texts: &mut [Text], between: &[u8], text: &[u8]) {
    if let Some(last) = texts.last_mut() {
        last.extend(between);
        last.extend(text);
    }
}

/// Puts "%" and digits in place of a plain byte.
fn escape_one(random: &mut Random, text: &mut Text, label: bool) {
    let plain: Vec<usize> = (0..text.len()).filter(|&k| text[k] < 0x80).collect();
    if !plain.is_empty() {
        let place = random.pick(&plain);
        let escaped = if label {
            format!("%{:02x}", text[place])
        } else {
            format!("%{:02X}", text[place])
        };
        text.splice(place..place + 1, escaped.into_bytes());
    }
}

/// Labels that read as the address does, in brackets or without them: one label, or those between the dots.
fn address_labels(random: &mut Random, address: &[u8]) -> Vec<Text> {
    let bare = match <[u8; 16]>::try_from(address) {
        Ok(address) => Ipv6Addr::from(address).to_string(),
        Err(_) => {
            let octets: Vec<_> = address.iter().map(u8::to_string).collect();
            octets.join(".")
        }
    };
    let text = random.pick(&[format!("[{bare}]"), bare]);
    if random.chance(30) {
        return vec![text.into_bytes()];
    }
    text.split('.').map(Text::from).collect()
}
