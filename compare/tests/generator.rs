//! That the requests made from a seed are the same, and that they are not dull.

mod answered;

use answered::{requests_of, unhex, Words, ANSWERED, COUNT};
use compare::generate::Generator;
use compare::lines;
use compare::options::{options, ENOUGH};
use compare::reader::{read, Discard, Host, Opening, Reference, Scheme, Texts};
use compare::reader::{MAX_INPUT, MAX_SEGMENTS};
use compare::refusal::Refusal;
use compare::resolver::resolve;
use compare::uri_text::{longest, uri_text};
use std::collections::BTreeMap;
use std::net::Ipv6Addr;

fn requests(seed: u64) -> impl Iterator<Item = Vec<u8>> {
    Generator::new(seed).take(COUNT)
}

/// How often each word begins the answers to the requests of each call.
fn first_words() -> BTreeMap<&'static str, BTreeMap<String, usize>> {
    let mut words: BTreeMap<_, BTreeMap<_, _>> = BTreeMap::new();
    for (request, answer) in ANSWERED.iter() {
        let Some(call) = lines::call(request) else {
            continue;
        };
        let word = answer.split(' ').next().unwrap_or_default();
        let words = words.entry(call).or_default();
        *words.entry(word.to_string()).or_default() += 1;
    }
    words
}

#[test]
fn a_seed_gives_the_same_requests() {
    assert!(requests(5).eq(requests(5)));
    assert!(!requests(5).eq(requests(6)));
}

#[test]
fn a_request_is_one_line() {
    assert!(ANSWERED.iter().all(|(line, _)| !line.contains(&b'\n')));
}

#[test]
fn every_number_comes_often() {
    let words = first_words();
    for (call, numbers) in [
        ("read", &["0", "1", "2", "3", "4", "5", "6", "7"][..]),
        ("segment", &["0", "1", "2", "3", "4", "5", "6", "7", "18"]),
        ("write", &["0", "2", "4", "5", "6", "10"]),
        (
            "resolve",
            &["0", "1", "2", "3", "4", "5", "6", "7", "8", "9", "10"],
        ),
        ("authority", &["0", "1", "2", "3", "4", "5", "6", "7", "8"]),
        ("text", &["0", "1", "2", "3", "4", "5", "6", "7", "8", "10"]),
        ("same", &["0", "1", "2", "3", "4", "5", "6", "7", "8"]),
        (
            "options",
            &[
                "0", "1", "2", "3", "4", "5", "6", "7", "8", "10", "11", "12",
            ],
        ),
    ] {
        let words = &words[call];
        let all: usize = words.values().sum();
        for &number in numbers {
            let often = words.get(number).copied().unwrap_or_default();
            assert!(
                often * 100 >= all,
                "{call}: {number} comes {often} times of {all}"
            );
        }
    }
}

/// What is written has whole and shortest heads, and nothing after the array.
#[test]
fn writing_never_answers_1_3_or_7() {
    let words = first_words();
    for number in ["1", "3", "7"] {
        assert!(!words["write"].contains_key(number), "{number}");
    }
}

/// The place follows 1 to 8 alone, and none of the numbers of `same`. That of writing is 0.
#[test]
fn places_follow_their_numbers() {
    for call in [
        "read", "segment", "write", "resolve", "authority", "text", "options",
    ] {
        for (request, answer) in requests_of(call) {
            let placed = matches!(answer[0], "1" | "2" | "3" | "4" | "5" | "6" | "7" | "8");
            let place = match answer[..] {
                [_, "at", place, ..] => place.parse::<usize>().ok(),
                _ => None,
            };
            assert_eq!(place.is_some(), placed, "{request:?}: {answer:?}");
            if call == "write" {
                assert_eq!(place.unwrap_or(0), 0, "{request:?}");
            }
        }
    }
    assert!(requests_of("same").all(|(_, answer)| answer.len() == 3));
}

#[test]
fn some_lines_are_no_requests() {
    let none = ANSWERED
        .iter()
        .filter(|(_, answer)| answer.starts_with("? "))
        .count();
    assert!((COUNT / 100..COUNT / 20).contains(&none), "{none}");
}

/// The accepted inputs of the read requests.
fn accepted() -> Vec<Vec<u8>> {
    requests_of("read")
        .map(|(words, _)| unhex(words[1]))
        .filter(|input| read(input).is_ok())
        .collect()
}

fn strings(texts: Texts<'_>) -> Vec<&str> {
    let text = |text| str::from_utf8(text).expect("UTF-8");
    texts.iter().map(text).collect()
}

fn labels<'a>(reference: &Reference<'a>) -> Vec<&'a str> {
    match reference.opening {
        Opening::Authority(_, authority) => match authority.host {
            Host::Labels(labels) => strings(labels),
            Host::Address(_) => vec![],
        },
        Opening::Discard(_) => vec![],
    }
}

fn path<'a>(reference: &Reference<'a>) -> Option<Vec<&'a str>> {
    reference.path.map(strings)
}

fn query<'a>(reference: &Reference<'a>) -> Option<Vec<&'a str>> {
    reference.query.map(strings)
}

/// How many segments the path has; none where it is unset.
fn segments(reference: &Reference) -> usize {
    reference.path.map_or(0, Texts::len)
}

fn parameters(reference: &Reference) -> usize {
    reference.query.map_or(0, Texts::len)
}

/// Whether one of the texts has this length.
fn has_length(texts: Option<Texts>, length: usize) -> bool {
    texts.is_some_and(|texts| texts.iter().any(|text| text.len() == length))
}

fn port(reference: &Reference) -> Option<u16> {
    match &reference.opening {
        Opening::Authority(_, authority) => authority.port,
        Opening::Discard(_) => None,
    }
}

fn scheme_length(reference: &Reference) -> usize {
    match reference.opening {
        Opening::Authority(Scheme::Text(text), _) => text.len(),
        _ => 0,
    }
}

fn name_length(reference: &Reference) -> usize {
    labels(reference).join(".").len()
}

type Property = (&'static str, fn(&Reference) -> bool);

#[test]
fn every_limit_is_reached() {
    let properties: [Property; 17] = [
        ("discard 127", |r| {
            r.opening == Opening::Discard(Discard::Last(127))
        }),
        ("scheme of 16", |r| scheme_length(r) == 16),
        ("8 labels", |r| labels(r).len() == 8),
        ("8 labels and a port", |r| {
            labels(r).len() == 8 && port(r).is_some()
        }),
        ("label of 1", |r| {
            labels(r).iter().any(|label| label.len() == 1)
        }),
        ("label of 63", |r| {
            labels(r).iter().any(|label| label.len() == 63)
        }),
        ("name of 255", |r| name_length(r) == 255),
        ("port 65535", |r| port(r) == Some(65535)),
        ("empty path", |r| r.path.is_some_and(Texts::is_empty)),
        ("one segment less than the most", |r| {
            segments(r) == MAX_SEGMENTS - 1
        }),
        ("the most segments", |r| segments(r) == MAX_SEGMENTS),
        ("segment of 255", |r| has_length(r.path, 255)),
        ("16 parameters", |r| parameters(r) == 16),
        ("parameter of 255", |r| has_length(r.query, 255)),
        ("fragment of 0", |r| r.fragment == Some("")),
        ("fragment of 255", |r| {
            r.fragment.is_some_and(|text| text.len() == 255)
        }),
        ("null before the fragment", |r| {
            r.path.is_none() && r.query.is_none() && r.fragment.is_some()
        }),
    ];
    let inputs = accepted();
    let references: Vec<_> = inputs
        .iter()
        .map(|input| read(input).expect("accepted"))
        .collect();
    for (name, holds) in properties {
        let often = references
            .iter()
            .filter(|reference| holds(reference))
            .count();
        assert!(often >= 10, "{name}: {often} times");
    }
    let longest = inputs.iter().filter(|input| input.len() == MAX_INPUT);
    let longest: Vec<_> = longest
        .map(|input| segments(&read(input).expect("accepted")))
        .collect();
    assert!(
        longest.len() >= 10,
        "the longest input: {} times",
        longest.len()
    );
    let both = longest
        .iter()
        .filter(|&&count| count == MAX_SEGMENTS)
        .count();
    assert!(both >= 5, "the same with the most segments: {both} times");
}

/// A property of the words of a request and of its answer.
type WriteProperty = (&'static str, fn(&[&str], &[&str]) -> bool);

fn count(words: &[&str], name: &str) -> usize {
    words.iter().filter(|&&word| word == name).count()
}

fn has(words: &[&str], part: &[&str]) -> bool {
    words.windows(part.len()).any(|words| words == part)
}

/// Whether the word after `name` is a number over `most`.
fn over(words: &[&str], name: &str, most: u64) -> bool {
    words.windows(2).any(|pair| {
        let number = pair[1].parse::<u64>();
        pair[0] == name && number.is_ok_and(|number| number > most)
    })
}

/// Starts and lengths of the spans, and the length of the lent bytes.
fn spans(words: &[&str]) -> (Vec<(u64, u64)>, u64) {
    const TEXTS: [&str; 6] = [
        "text", "address", "label", "segment", "parameter", "fragment",
    ];
    let span = |words: &[&str]| {
        let texts = TEXTS.contains(&words[0]);
        texts.then(|| (words[1].parse().unwrap(), words[2].parse().unwrap()))
    };
    let lent = words[2].trim_matches('-').len() as u64 / 2;
    (words.windows(3).filter_map(span).collect(), lent)
}

fn any_span(words: &[&str], holds: fn(u64, u64, u64) -> bool) -> bool {
    let (spans, lent) = spans(words);
    spans
        .into_iter()
        .any(|(start, length)| holds(start, length, lent))
}

#[test]
fn every_limit_of_writing_is_passed() {
    let properties: [WriteProperty; 31] = [
        ("8 labels", |r, a| count(r, "label") == 8 && a[0] == "0"),
        ("9 labels", |r, _| count(r, "label") == 9),
        ("the most segments", |r, a| {
            count(r, "segment") == MAX_SEGMENTS && a[0] == "0"
        }),
        ("one segment over", |r, a| {
            count(r, "segment") == MAX_SEGMENTS + 1 && a[0] == "4"
        }),
        ("16 parameters", |r, a| {
            count(r, "parameter") == 16 && a[0] == "0"
        }),
        ("17 parameters", |r, _| count(r, "parameter") == 17),
        ("no parameters", |r, _| {
            count(r, "query") == 1 && count(r, "parameter") == 0
        }),
        ("no labels", |r, _| r.last() == Some(&"authority")),
        ("no labels, something after", |r, _| {
            has(r, &["authority", "path"])
        }),
        ("no labels but a port", |r, _| {
            has(r, &["authority", "port"])
        }),
        ("discard over", |r, _| over(r, "discard", 127)),
        ("port over", |r, _| over(r, "port", 65535)),
        ("scheme number over", |r, _| over(r, "number", 9)),
        ("large scheme number", |r, _| over(r, "number", 1 << 32)),
        ("large port", |r, _| over(r, "port", 1 << 32)),
        ("large discard", |r, _| over(r, "discard", 1 << 32)),
        ("no scheme and no authority", |r, _| {
            r[3..] == ["scheme", "none"]
        }),
        ("the same, something after", |r, _| {
            has(r, &["scheme", "none", "path"])
        }),
        ("no authority", |r, _| {
            has(r, &["scheme", "number", "0", "path"])
        }),
        ("room exact", |r, a| a[0] == "0" && r[1] == a[1]),
        ("the longest, and the room one short", |r, a| {
            a[0] == "10" && r[1] == (MAX_INPUT - 1).to_string()
        }),
        ("empty room", |r, a| r[1] == "0" && a[0] == "10"),
        ("largest room", |r, a| r[1] == "16384" && a[0] == "0"),
        ("the longest less one byte", |_, a| {
            a[1] == (MAX_INPUT - 1).to_string()
        }),
        ("the longest", |_, a| a[1] == MAX_INPUT.to_string()),
        ("empty span at the end", |r, a| {
            a[0] == "0" && any_span(r, |start, length, lent| length == 0 && start == lent)
        }),
        ("empty span past the end", |r, _| {
            any_span(r, |start, length, lent| length == 0 && start == lent + 1)
        }),
        ("span one too long", |r, _| {
            any_span(r, |start, length, lent| {
                start.checked_add(length) == Some(lent + 1)
            })
        }),
        ("sum of 2^64", |r, _| {
            any_span(r, |start, length, _| {
                start != 0 && start.wrapping_add(length) == 0
            })
        }),
        ("sum over 2^64", |r, _| {
            any_span(r, |start, length, lent| {
                start.checked_add(length).is_none() && start.wrapping_add(length) <= lent
            })
        }),
        ("sum of 2^64 - 1", |r, _| {
            any_span(r, |start, length, _| {
                start.checked_add(length) == Some(u64::MAX)
            })
        }),
    ];
    let requests: Vec<_> = requests_of("write").collect();
    for (name, holds) in properties {
        let often = requests
            .iter()
            .filter(|(request, answer)| holds(request, answer))
            .count();
        assert!(often >= 5, "{name}: {often} times of {}", requests.len());
    }
}

/// The words of each resolve request that is one: the room, the base and the reference.
fn resolve_requests() -> Vec<(usize, Vec<u8>, Vec<u8>)> {
    requests_of("resolve")
        .map(|(words, _)| (room(&words), unhex(words[2]), unhex(words[3])))
        .collect()
}

fn room(words: &[&str]) -> usize {
    words[1].parse().expect("a room")
}

/// A base and a reference that are accepted, the length of the room, and what resolving with room enough gives: a length or 9.
struct Pair<'a> {
    base: Reference<'a>,
    reference: Reference<'a>,
    base_path: Vec<&'a str>,
    appended: Vec<&'a str>,
    room: usize,
    outcome: Result<usize, u8>,
}

impl<'a> Pair<'a> {
    /// `None` where the base or the reference is refused, or the base not absolute.
    fn of((room, base, reference): &'a (usize, Vec<u8>, Vec<u8>)) -> Option<Self> {
        let outcome = resolve(base, reference, &mut [0; MAX_INPUT]).map_err(Refusal::number);
        let [base, reference] = [read(base).ok()?, read(reference).ok()?];
        let pair = Pair {
            base,
            reference,
            base_path: path(&base).unwrap_or_default(),
            appended: path(&reference).unwrap_or_default(),
            room: *room,
            outcome,
        };
        pair.base.absolute().is_some().then_some(pair)
    }

    /// What is left of the base's path by the discard alone.
    fn kept(&self) -> &[&'a str] {
        let discard = self.discard().unwrap_or(usize::MAX);
        &self.base_path[..self.base_path.len().saturating_sub(discard)]
    }

    /// How many segments the reference discards; `None` where it discards all.
    fn discard(&self) -> Option<usize> {
        match self.reference.opening {
            Opening::Discard(Discard::Last(count)) => Some(count.into()),
            _ => None,
        }
    }

    fn keeps_all(&self) -> bool {
        self.discard() == Some(0)
    }

    fn segments(&self) -> usize {
        self.kept().len() + self.appended.len()
    }

    /// The length of a result with segments and no query but the reference's.
    fn length(&self) -> usize {
        let head = |number: usize| if number < 24 { 1 } else { 2 };
        let text = |text: &&str| text.len() + head(text.len());
        let texts = |texts: &[&str]| texts.iter().map(text).sum::<usize>();
        let scheme = match self.reference.absolute().or(self.base.absolute()) {
            Some((Scheme::Text(scheme), _)) => text(&scheme),
            _ => 1,
        };
        let authority = match (&self.base.opening, &self.reference.opening) {
            (_, Opening::Authority(_, authority)) | (Opening::Authority(_, authority), _) => {
                authority.encoded.len()
            }
            _ => 0,
        };
        let path = head(self.segments()) + texts(self.kept()) + texts(&self.appended);
        let after = match (query(&self.reference), self.reference.fragment) {
            (Some(query), None) => 1 + texts(&query),
            (None, Some(fragment)) => 1 + text(&fragment),
            (Some(query), Some(fragment)) => 1 + texts(&query) + text(&fragment),
            (None, None) => 0,
        };
        1 + scheme + authority + path + after
    }
}

impl Pair<'_> {
    /// Whether the length alone is over its size, by one byte.
    fn is_one_byte_over(&self) -> bool {
        self.reference.path.is_some()
            && (1..=MAX_SEGMENTS).contains(&self.segments())
            && self.length() == MAX_INPUT + 1
            && self.outcome == Err(9)
    }
}

type PairProperty = (&'static str, fn(&Pair) -> bool);

#[test]
fn every_sort_of_pair_is_resolved() {
    let properties: [PairProperty; 39] = [
        ("one segment less than the most", |p| {
            p.segments() == MAX_SEGMENTS - 1 && p.outcome.is_ok()
        }),
        ("the most segments", |p| {
            p.segments() == MAX_SEGMENTS && p.outcome.is_ok()
        }),
        ("the most segments, some of each", |p| {
            (1..MAX_SEGMENTS).contains(&p.kept().len())
                && p.segments() == MAX_SEGMENTS
                && p.outcome.is_ok()
        }),
        ("one segment over", |p| {
            p.segments() == MAX_SEGMENTS + 1 && p.outcome == Err(9)
        }),
        ("twice the most segments", |p| {
            p.segments() == 2 * MAX_SEGMENTS
        }),
        ("the longest less one byte", |p| {
            p.outcome == Ok(MAX_INPUT - 1)
        }),
        ("the longest", |p| p.outcome == Ok(MAX_INPUT)),
        ("the longest, of both paths", |p| {
            p.outcome == Ok(MAX_INPUT) && !p.kept().is_empty() && !p.appended.is_empty()
        }),
        ("the longest, of the most segments", |p| {
            p.outcome == Ok(MAX_INPUT) && p.segments() == MAX_SEGMENTS
        }),
        ("one byte over, of few segments", |p| {
            p.is_one_byte_over() && p.segments() < 24
        }),
        ("one byte over, of more", |p| {
            p.is_one_byte_over() && (24..MAX_SEGMENTS).contains(&p.segments())
        }),
        ("one byte over, of the most segments", |p| {
            p.is_one_byte_over() && p.segments() == MAX_SEGMENTS
        }),
        ("discard 0", |p| p.discard() == Some(0)),
        ("discard 1", |p| p.discard() == Some(1)),
        ("discard one less than there are", |p| {
            p.discard().map(|count| count + 1) == Some(p.base_path.len())
        }),
        ("discard as many as there are", |p| {
            p.discard() == Some(p.base_path.len())
        }),
        ("discard one more than there are", |p| {
            p.discard() == Some(p.base_path.len() + 1)
        }),
        ("discard 127", |p| p.discard() == Some(127)),
        ("discard 127 of more", |p| {
            p.discard() == Some(127) && p.base_path.len() > 127
        }),
        ("discard true", |p| {
            p.reference.opening == Opening::Discard(Discard::All)
        }),
        ("base of one empty segment", |p| {
            p.base_path == [""] && p.keeps_all() && p.reference.path.is_none()
        }),
        ("base of one empty segment, another appended", |p| {
            p.base_path == [""] && p.keeps_all() && p.appended == [""]
        }),
        ("base of one empty segment, others appended", |p| {
            p.base_path == [""] && p.keeps_all() && p.appended.len() > 1
        }),
        ("one empty segment kept", |p| {
            p.base_path.len() > 1 && p.kept() == [""] && p.appended.is_empty()
        }),
        ("one empty segment appended", |p| {
            p.base_path.len() > 1 && p.kept().is_empty() && p.appended == [""]
        }),
        ("two empty segments, one of each", |p| {
            p.base_path.len() > 1 && p.kept() == [""] && p.appended == [""]
        }),
        ("one segment over, the last one empty", |p| {
            p.segments() == MAX_SEGMENTS + 1 && p.appended.last() == Some(&"")
        }),
        (
            "base with query and fragment, nothing of the reference",
            |p| {
                p.base.query.is_some()
                    && p.base.fragment.is_some()
                    && p.keeps_all()
                    && p.reference.path.is_none()
                    && p.reference.query.is_none()
                    && p.reference.fragment.is_none()
            },
        ),
        ("base with query, empty path", |p| {
            p.base.query.is_some()
                && p.keeps_all()
                && p.reference.path.is_some_and(Texts::is_empty)
                && p.reference.query.is_none()
        }),
        ("base with query, only a fragment", |p| {
            p.base.query.is_some()
                && p.keeps_all()
                && p.reference.path.is_none()
                && p.reference.query.is_none()
                && p.reference.fragment.is_some()
        }),
        ("base with query, only a query", |p| {
            p.base.query.is_some()
                && p.keeps_all()
                && p.reference.path.is_none()
                && p.reference.query.is_some()
                && p.reference.fragment.is_none()
        }),
        ("query and fragment", |p| {
            p.reference.path.is_none()
                && p.reference.query.is_some()
                && p.reference.fragment.is_some()
        }),
        ("authority without scheme", |p| {
            matches!(p.reference.opening, Opening::Authority(Scheme::None, _))
        }),
        ("absolute reference", |p| p.reference.absolute().is_some()),
        ("room exact", |p| p.outcome == Ok(p.room)),
        ("room one short", |p| p.outcome == Ok(p.room + 1)),
        ("empty room", |p| p.room == 0),
        ("largest room", |p| p.room == 16384 && p.outcome.is_ok()),
        ("over a size, and the room too short", |p| {
            p.outcome == Err(9) && p.room < 10
        }),
    ];
    let requests = resolve_requests();
    let pairs: Vec<_> = requests.iter().filter_map(Pair::of).collect();
    for (name, holds) in properties {
        let often = pairs.iter().filter(|pair| holds(pair)).count();
        assert!(often >= 5, "{name}: {often} times of {}", pairs.len());
    }
}

#[test]
fn some_bases_are_refused_or_not_absolute() {
    let requests = resolve_requests();
    let bases = || requests.iter().map(|(_, base, _)| read(base));
    let refused = bases().filter(Result::is_err).count();
    let discards = bases()
        .flatten()
        .filter(|base| matches!(base.opening, Opening::Discard(_)));
    let no_schemes = bases()
        .flatten()
        .filter(|base| matches!(base.opening, Opening::Authority(Scheme::None, _)));
    for often in [refused, discards.count(), no_schemes.count()] {
        assert!(often >= 20, "{often}");
    }
}

/// Bases are refused at their start, later, at their end and for their length, and told at that place; those that are not absolute at 0.
#[test]
fn bases_are_refused_at_every_sort_of_place() {
    for call in ["resolve", "authority"] {
        let mut often = BTreeMap::new();
        for (words, answer) in requests_of(call).filter(|(_, answer)| answer[0] == "8") {
            let base = unhex(words[2]);
            let (sort, place) = match read(&base) {
                Ok(_) => ("not absolute", 0),
                Err(refusal) => match refusal.place {
                    0 => ("start", 0),
                    MAX_INPUT => ("length", MAX_INPUT),
                    place if place == base.len() => ("end", place),
                    place => ("later", place),
                },
            };
            assert_eq!(answer[1..3], ["at", &place.to_string()], "{words:?}");
            *often.entry(sort).or_insert(0) += 1;
        }
        for sort in ["not absolute", "start", "length", "end", "later"] {
            let often = often.get(sort).copied().unwrap_or(0);
            assert!(often >= 10, "{call}, {sort}: {often} times");
        }
    }
}

/// An input to print, the length of the room, and the length of the text or the number with room enough.
struct Printed {
    room: usize,
    input: Vec<u8>,
    outcome: Result<usize, u8>,
}

fn text_requests() -> Vec<Printed> {
    requests_of("text")
        .map(|(words, _)| {
            let input = unhex(words[2]);
            let outcome = uri_text(&input, &mut vec![0; longest(input.len())]);
            Printed {
                room: room(&words),
                outcome: outcome.map_err(Refusal::number),
                input,
            }
        })
        .collect()
}

fn address<'a>(reference: &Reference<'a>) -> &'a [u8] {
    match &reference.opening {
        Opening::Authority(_, authority) => match authority.host {
            Host::Address(address) => address,
            Host::Labels(_) => &[],
        },
        Opening::Discard(_) => &[],
    }
}

/// The groups of an IPv6 address, or none.
fn groups(reference: &Reference) -> Vec<u16> {
    match address(reference) {
        address if address.len() == 16 => address
            .chunks(2)
            .map(|pair| u16::from_be_bytes([pair[0], pair[1]]))
            .collect(),
        _ => vec![],
    }
}

/// The first twelve bytes of an IPv4-mapped address.
const MAPPED: [u8; 12] = [0, 0, 0, 0, 0, 0, 0, 0, 0, 0, 0xFF, 0xFF];

/// The last four bytes of an IPv4-mapped address.
fn mapped<'a>(reference: &Reference<'a>) -> Option<&'a [u8]> {
    address(reference).strip_prefix(&MAPPED)
}

/// The byte in which an address is one bit off a mapped one.
fn one_bit_off(reference: &Reference) -> Option<usize> {
    let pairs = address(reference).iter().zip(&MAPPED);
    let bits: Vec<_> = pairs.map(|(a, b)| (a ^ b).count_ones()).collect();
    let place = bits.iter().position(|&count| count == 1)?;
    (bits.len() == MAPPED.len() && bits.iter().sum::<u32>() == 1).then_some(place)
}

/// Bytes in dotted decimal.
fn dotted(octets: &[u8]) -> String {
    let octets: Vec<_> = octets.iter().map(u8::to_string).collect();
    octets.join(".")
}

/// The lengths of the runs of zero groups, in order.
fn runs(reference: &Reference) -> Vec<usize> {
    groups(reference)
        .split(|&group| group != 0)
        .map(<[u16]>::len)
        .filter(|&length| length > 0)
        .collect()
}

fn scheme<'a>(reference: &Reference<'a>) -> Option<Scheme<'a>> {
    reference.absolute().map(|(scheme, _)| scheme)
}

fn has_default_port(reference: &Reference) -> bool {
    let default = match scheme(reference) {
        Some(Scheme::Number(0 | 6)) => 5683,
        Some(Scheme::Number(1 | 7)) => 5684,
        Some(Scheme::Number(8)) => 80,
        Some(Scheme::Number(9)) => 443,
        _ => return false,
    };
    port(reference) == Some(default)
}

#[test]
fn every_sort_of_reference_is_printed() {
    let properties: [Property; 31] = [
        ("scheme text", |r| {
            matches!(scheme(r), Some(Scheme::Text(_)))
        }),
        ("all groups zero", |r| runs(r) == [8]),
        ("no group zero", |r| {
            groups(r).len() == 8 && runs(r).is_empty()
        }),
        ("a lone zero group", |r| runs(r) == [1]),
        ("lone zero groups", |r| runs(r) == [1, 1, 1]),
        ("two runs of two", |r| runs(r) == [2, 2]),
        ("two runs of three", |r| runs(r) == [3, 3]),
        ("a longer run after a shorter one", |r| runs(r) == [2, 3]),
        ("a shorter run after a longer one", |r| runs(r) == [3, 2]),
        ("a run of seven", |r| runs(r) == [7]),
        ("a run at the start", |r| {
            groups(r).starts_with(&[0, 0]) && runs(r) == [2]
        }),
        ("a run at the end", |r| {
            groups(r).ends_with(&[0, 0]) && runs(r) == [2]
        }),
        ("a group with leading zeros", |r| {
            groups(r).iter().any(|group| (1..0x1000).contains(group))
        }),
        ("a mapped address of zeros", |r| mapped(r) == Some(&[0; 4])),
        ("a mapped address of 255", |r| mapped(r) == Some(&[255; 4])),
        ("eleven zero bytes and FF", |r| {
            groups(r).starts_with(&[0, 0, 0, 0, 0, 0xFF])
        }),
        ("an IPv4-compatible address", |r| {
            groups(r).starts_with(&[0; 6]) && groups(r)[6] != 0
        }),
        ("an IPv4-translated address", |r| {
            groups(r).starts_with(&[0, 0, 0, 0, 0xFFFF, 0])
        }),
        ("port 0", |r| port(r) == Some(0)),
        ("port 9", |r| port(r) == Some(9)),
        ("port 10", |r| port(r) == Some(10)),
        ("port 65535", |r| port(r) == Some(65535)),
        ("the default port", has_default_port),
        ("path unset", |r| r.path.is_none()),
        ("empty path", |r| r.path.is_some_and(Texts::is_empty)),
        ("one empty segment", |r| {
            r.path.is_some_and(Texts::is_one_empty)
        }),
        ("two empty segments", |r| {
            path(r).as_deref() == Some(&["", ""])
        }),
        ("the most segments", |r| segments(r) == MAX_SEGMENTS),
        ("one empty parameter", |r| {
            r.query.is_some_and(Texts::is_one_empty)
        }),
        ("16 parameters", |r| parameters(r) == 16),
        ("fragment of 0", |r| r.fragment == Some("")),
    ];
    let requests = text_requests();
    let printed: Vec<_> = requests
        .iter()
        .filter(|request| request.outcome.is_ok())
        .map(|request| read(&request.input).expect("printed"))
        .collect();
    let often = |holds: &dyn Fn(&Reference) -> bool| {
        printed.iter().filter(|reference| holds(reference)).count()
    };
    for (name, holds) in properties {
        let often = often(&holds);
        assert!(often >= 5, "{name}: {often} times of {}", printed.len());
    }
    for number in [0, 1, 6, 7, 8, 9] {
        let often = often(&|r| scheme(r) == Some(Scheme::Number(number)));
        assert!(often >= 5, "scheme {number}: {often} times");
    }
    for octet in [0, 9, 10, 99, 100, 255] {
        let alone = often(&|r| address(r).len() == 4 && address(r).contains(&octet));
        assert!(alone >= 5, "octet {octet}: {alone} times");
        for place in 0..4 {
            let mapped = often(&|r| mapped(r).is_some_and(|last| last[place] == octet));
            assert!(mapped >= 5, "octet {octet}, mapped: {mapped} times");
        }
    }
    for place in 0..12 {
        let often = often(&|r| one_bit_off(r) == Some(place));
        assert!(often >= 5, "byte {place} one bit off: {often} times");
    }
}

type RoomProperty = (&'static str, fn(&Printed) -> bool);

#[test]
fn rooms_around_the_text() {
    let properties: [RoomProperty; 10] = [
        ("exact", |p| p.outcome == Ok(p.room)),
        ("one short", |p| p.outcome == Ok(p.room + 1)),
        ("one over", |p| p.room > 0 && p.outcome == Ok(p.room - 1)),
        ("empty", |p| p.outcome.is_ok() && p.room == 0),
        ("enough for any", |p| {
            p.outcome.is_ok() && p.room == longest(p.input.len())
        }),
        ("largest", |p| p.outcome.is_ok() && p.room == 16384),
        ("of a reference that is not absolute, empty", |p| {
            p.outcome == Err(8) && p.room == 0
        }),
        ("of a refused input, empty", |p| {
            p.outcome == Err(5) && p.room == 0
        }),
        ("of the longest input", |p| {
            p.outcome.is_ok() && p.input.len() == MAX_INPUT
        }),
        ("of a text over twice the longest input", |p| {
            p.outcome.is_ok_and(|length| length > 2 * MAX_INPUT)
        }),
    ];
    let requests = text_requests();
    for (name, holds) in properties {
        let often = requests.iter().filter(|request| holds(request)).count();
        assert!(often >= 5, "{name}: {often} times of {}", requests.len());
    }
}

#[test]
fn every_byte_is_printed_in_every_place() {
    let mut seen = [[false; 256]; 4];
    let mut see = |place: usize, texts: &[&str]| {
        for byte in texts.iter().flat_map(|text| text.bytes()) {
            seen[place][usize::from(byte)] = true;
        }
    };
    for request in text_requests() {
        if request.outcome.is_ok() {
            let reference = read(&request.input).expect("printed");
            see(0, &labels(&reference));
            see(1, &path(&reference).unwrap_or_default());
            see(2, &query(&reference).unwrap_or_default());
            see(3, reference.fragment.as_slice());
        }
    }
    for (place, seen) in seen.iter().enumerate() {
        for byte in 0..=255 {
            let utf8 = !matches!(byte, 0xC0 | 0xC1 | 0xF5..=0xFF);
            let label = !matches!(byte, b'.' | b'A'..=b'Z' | b'[' | b']');
            let possible = utf8 && (label || place > 0);
            assert_eq!(
                seen[usize::from(byte)],
                possible,
                "{byte:02x}, place {place}"
            );
        }
    }
}

/// The components that two absolute references differ in.
fn differences(a: &Reference, b: &Reference) -> Vec<&'static str> {
    [
        ("scheme", scheme(a) != scheme(b)),
        ("host", address(a) != address(b) || labels(a) != labels(b)),
        ("port", port(a) != port(b)),
        ("path", a.path != b.path),
        ("query", a.query != b.query),
        ("fragment", a.fragment != b.fragment),
    ]
    .into_iter()
    .filter(|&(_, differs)| differs)
    .map(|(name, _)| name)
    .collect()
}

type SameProperty = (&'static str, fn(&Reference, &Reference) -> bool);

/// Whether `one` is `two` with two neighbours made one text.
fn joined(two: Option<Vec<&str>>, one: Option<Vec<&str>>, between: &str) -> bool {
    let (Some(two), Some(one)) = (two, one) else {
        return false;
    };
    two.len() == one.len() + 1 && two != one && two.join(between) == one.join(between)
}

/// The byte in place of which the second list has "%" and its digits, where that is how the two differ.
fn escaped(first: Option<Vec<&str>>, second: Option<Vec<&str>>) -> Option<u8> {
    let [first, second] = [first, second].map(|texts| texts.unwrap_or_default().join(" "));
    first.bytes().enumerate().find_map(|(place, byte)| {
        let [before, after] = [&first.as_bytes()[..place], &first.as_bytes()[place + 1..]];
        let digits = format!("%{byte:02x}");
        [digits.to_uppercase(), digits]
            .iter()
            .any(|digits| [before, digits.as_bytes(), after].concat() == second.as_bytes())
            .then_some(byte)
    })
}

#[test]
fn every_sort_of_pair_is_compared() {
    let properties: [SameProperty; 35] = [
        ("nothing", |a, b| differences(a, b).is_empty()),
        ("scheme", |a, b| differences(a, b) == ["scheme"]),
        ("host", |a, b| differences(a, b) == ["host"]),
        ("port", |a, b| differences(a, b) == ["port"]),
        ("path", |a, b| differences(a, b) == ["path"]),
        ("query", |a, b| differences(a, b) == ["query"]),
        ("fragment", |a, b| differences(a, b) == ["fragment"]),
        ("a number and a text", |a, b| {
            differences(a, b) == ["scheme"]
                && matches!(scheme(a), Some(Scheme::Number(_)))
                && matches!(scheme(b), Some(Scheme::Text(_)))
        }),
        ("an address and labels", |a, b| {
            differences(a, b) == ["host"] && address(a).len() == 16 && !labels(b).is_empty()
        }),
        ("4 and 16 bytes", |a, b| {
            differences(a, b) == ["host"] && address(a).len() == 4 && address(b).len() == 16
        }),
        ("a mapped address and the 4 bytes in it", |a, b| {
            differences(a, b) == ["host"] && mapped(a) == Some(address(b))
        }),
        ("a mapped address and one bit off it", |a, b| {
            differences(a, b) == ["host"]
                && mapped(a).is_some_and(|last| address(b).ends_with(last))
                && one_bit_off(b).is_some()
        }),
        ("a mapped address and a compatible one", |a, b| {
            let compatible = |last: &[u8]| address(b) == [&[0; 12], last].concat();
            differences(a, b) == ["host"] && mapped(a).is_some_and(compatible)
        }),
        ("a mapped address and labels that read so", |a, b| {
            let reads_so = |last| labels(b).join(".") == format!("::ffff:{}", dotted(last));
            differences(a, b) == ["host"] && mapped(a).is_some_and(reads_so)
        }),
        ("the default port left off", |a, b| {
            differences(a, b) == ["port"] && port(a).is_none() && has_default_port(b)
        }),
        ("unset and an empty path", |a, b| {
            differences(a, b) == ["path"] && a.path.is_none() && path(b) == Some(vec![])
        }),
        ("unset and one empty segment", |a, b| {
            differences(a, b) == ["path"] && a.path.is_none() && path(b) == Some(vec![""])
        }),
        ("an empty path and one empty segment", |a, b| {
            differences(a, b) == ["path"] && path(a) == Some(vec![]) && path(b) == Some(vec![""])
        }),
        ("one empty segment and two", |a, b| {
            differences(a, b) == ["path"]
                && path(a) == Some(vec![""])
                && path(b) == Some(vec!["", ""])
        }),
        ("query unset and one empty parameter", |a, b| {
            differences(a, b) == ["query"] && a.query.is_none() && query(b) == Some(vec![""])
        }),
        ("one empty parameter and two", |a, b| {
            differences(a, b) == ["query"]
                && query(a) == Some(vec![""])
                && query(b) == Some(vec!["", ""])
        }),
        ("fragment unset and empty", |a, b| {
            differences(a, b) == ["fragment"] && a.fragment.is_none() && b.fragment == Some("")
        }),
        ("segments joined", |a, b| {
            differences(a, b) == ["path"] && joined(path(a), path(b), "/")
        }),
        ("parameters joined", |a, b| {
            differences(a, b) == ["query"] && joined(query(a), query(b), "&")
        }),
        ("a query in a segment", |a, b| {
            differences(a, b) == ["path", "query"]
                && b.query.is_none()
                && path(b).is_some_and(|path| path.last().is_some_and(|text| text.contains('?')))
        }),
        ("a fragment in a parameter", |a, b| {
            differences(a, b) == ["query", "fragment"]
                && b.fragment.is_none()
                && query(b).is_some_and(|query| query.last().is_some_and(|text| text.contains('#')))
        }),
        ("a port in a label", |a, b| {
            differences(a, b) == ["host", "port"]
                && port(b).is_none()
                && labels(b).last().is_some_and(|label| label.contains(':'))
        }),
        ("a path in a label", |a, b| {
            differences(a, b) == ["host", "path"]
                && path(b).is_none()
                && labels(b).last().is_some_and(|label| label.contains('/'))
        }),
        ("a byte of a label as digits", |a, b| {
            differences(a, b) == ["host"] && escaped(Some(labels(a)), Some(labels(b))).is_some()
        }),
        ("a byte of a segment as digits", |a, b| {
            differences(a, b) == ["path"] && escaped(path(a), path(b)).is_some()
        }),
        ("a slash of a segment as digits", |a, b| {
            differences(a, b) == ["path"] && escaped(path(a), path(b)) == Some(b'/')
        }),
        ("a byte of a parameter as digits", |a, b| {
            differences(a, b) == ["query"] && escaped(query(a), query(b)).is_some()
        }),
        ("an ampersand of a parameter as digits", |a, b| {
            differences(a, b) == ["query"] && escaped(query(a), query(b)) == Some(b'&')
        }),
        ("a byte of a fragment as digits", |a, b| {
            differences(a, b) == ["fragment"]
                && escaped(
                    a.fragment.map(|text| vec![text]),
                    b.fragment.map(|text| vec![text]),
                )
                .is_some()
        }),
        ("all", |a, b| differences(a, b).len() == 6),
    ];
    let inputs = pairs_printed("0", "0");
    let pairs: Vec<_> = inputs
        .iter()
        .map(|pair| pair.each_ref().map(|input| read(input).expect("printed")))
        .collect();
    for (name, holds) in properties {
        let often = pairs
            .iter()
            .filter(|[a, b]| holds(a, b) || holds(b, a))
            .count();
        assert!(often >= 5, "{name}: {often} times of {}", pairs.len());
    }
}

/// The inputs of the `same` requests that are answered with these numbers.
fn pairs_printed(first: &str, second: &str) -> Vec<[Vec<u8>; 2]> {
    requests_of("same")
        .filter(|(_, answer)| answer[..2] == [first, second])
        .map(|(words, _)| [unhex(words[1]), unhex(words[2])])
        .collect()
}

/// Labels that would print as an address are refused, and so is a label with a dot or a bracket.
#[test]
fn some_pairs_are_refused_by_the_rules_of_labels() {
    let pairs = pairs_printed("0", "6");
    let printed: Vec<_> = pairs
        .iter()
        .map(|[printed, _]| read(printed).expect("printed"))
        .collect();
    let addresses = printed.iter().filter(|r| address(r).len() == 4).count();
    let names = printed.iter().filter(|r| labels(r).len() > 1).count();
    assert!(addresses >= 10 && names >= 10, "{addresses}, {names}");
    // An IPv6 address, and its text with the brackets as a label.
    let bracketed = pairs
        .iter()
        .zip(&printed)
        .filter(|([_, refused], printed)| {
            <[u8; 16]>::try_from(address(printed)).is_ok_and(|address| {
                let label = format!("[{}]", Ipv6Addr::from(address));
                let mut parts = refused.windows(label.len());
                parts.any(|part| part == label.as_bytes())
            })
        });
    let bracketed = bracketed.count();
    assert!(bracketed >= 10, "{bracketed}");
}

#[test]
fn one_or_both_of_a_pair_are_refused() {
    let numbers = ["1", "2", "3", "4", "5", "6", "7", "8"];
    let often = |first: &str, second: &str| pairs_printed(first, second).len();
    for number in numbers {
        let [first, second] = [often(number, "0"), often("0", number)];
        assert!(first >= 10 && second >= 10, "{number}: {first}, {second}");
    }
    let both = numbers.map(|first| numbers.map(|second| often(first, second)));
    let both: usize = both.as_flattened().iter().sum();
    assert!(both >= 50, "{both}");
}

/// A request for options: the words, and the length of the options or the number with room enough.
struct Asked {
    room: usize,
    input: Vec<u8>,
    address: Vec<u8>,
    port: u16,
    outcome: Result<usize, u8>,
}

fn options_requests() -> Vec<Asked> {
    requests_of("options")
        .map(|(words, _)| {
            let [input, address] = [unhex(words[2]), unhex(words[3])];
            let port = words[4].parse().expect("a port");
            let outcome = options(&input, &address, port, &mut [0; ENOUGH]);
            Asked {
                room: room(&words),
                outcome: outcome.map_err(Refusal::number),
                input,
                address,
                port,
            }
        })
        .collect()
}

/// A link that has options or none, and its destination.
struct Link<'a> {
    reference: Reference<'a>,
    address: &'a [u8],
    port: u16,
}

impl<'a> Link<'a> {
    /// `None` where it is refused.
    fn of(asked: &'a Asked) -> Option<Self> {
        asked.outcome.ok()?;
        Some(Link {
            reference: read(&asked.input).ok()?,
            address: &asked.address,
            port: asked.port,
        })
    }

    fn default_port(&self) -> u16 {
        match scheme(&self.reference) {
            Some(Scheme::Number(0 | 6)) => 5683,
            Some(Scheme::Number(1 | 7)) => 5684,
            Some(Scheme::Number(8)) => 80,
            _ => 443,
        }
    }

    /// The port, or else the default one.
    fn own_port(&self) -> u16 {
        port(&self.reference).unwrap_or(self.default_port())
    }

    fn own_address(&self) -> &'a [u8] {
        address(&self.reference)
    }

    fn mapped(&self) -> Option<&'a [u8]> {
        mapped(&self.reference)
    }

    fn has_host(&self) -> bool {
        self.own_address() != self.address
    }

    fn has_port(&self) -> bool {
        self.own_port() != self.port
    }

    fn path(&self) -> Option<Texts<'a>> {
        Some(self.reference.segments())
    }

    fn has_path(&self) -> bool {
        !self.reference.segments().is_empty()
    }

    fn has_query(&self) -> bool {
        self.reference.query.is_some()
    }

    /// Whether there are options of the host, the port, the path and the query.
    fn has(&self) -> [bool; 4] {
        [
            self.has_host(),
            self.has_port(),
            self.has_path(),
            self.has_query(),
        ]
    }

    /// How many bytes of the addresses differ; `None` where they are not of one length.
    fn differences(&self) -> Option<usize> {
        let [own, other] = [self.own_address(), self.address];
        let differ = own.iter().zip(other).filter(|(own, other)| own != other);
        (own.len() == other.len()).then(|| differ.count())
    }
}

type LinkProperty = (&'static str, fn(&Link) -> bool);

#[test]
fn every_sort_of_link_is_asked() {
    let properties: [LinkProperty; 43] = [
        ("the same address of 4 bytes", |l| {
            l.differences() == Some(0) && l.address.len() == 4
        }),
        ("the same address of 16 bytes", |l| {
            l.differences() == Some(0) && l.address.len() == 16
        }),
        ("4 bytes, one differs", |l| {
            l.differences() == Some(1) && l.address.len() == 4
        }),
        ("16 bytes, one differs", |l| {
            l.differences() == Some(1) && l.address.len() == 16
        }),
        ("the first byte differs", |l| {
            l.differences() == Some(1) && l.address[0] != l.own_address()[0]
        }),
        ("the last byte differs", |l| {
            l.differences() == Some(1) && l.address.last() != l.own_address().last()
        }),
        ("4 bytes to a mapped address", |l| {
            l.own_address().len() == 4 && l.address == [&MAPPED, l.own_address()].concat()
        }),
        ("a mapped address, the same", |l| {
            l.mapped().is_some() && !l.has_host()
        }),
        ("a mapped address to the 4 bytes in it", |l| {
            l.mapped() == Some(l.address)
        }),
        ("a mapped address, one of the first bytes differs", |l| {
            l.differences() == Some(1) && l.mapped().is_some_and(|last| l.address.ends_with(last))
        }),
        ("a mapped address, one of the last bytes differs", |l| {
            l.differences() == Some(1) && l.mapped().is_some() && l.address.starts_with(&MAPPED)
        }),
        ("one bit off a mapped address, to that one", |l| {
            l.differences() == Some(1) && l.mapped().is_none() && l.address.starts_with(&MAPPED)
        }),
        ("16 bytes to their last 4", |l| {
            l.own_address().len() == 16 && l.own_address().ends_with(l.address) && l.has_host()
        }),
        ("4 bytes to 16 that begin with them", |l| {
            l.own_address().len() == 4 && l.address.starts_with(l.own_address()) && l.has_host()
        }),
        ("labels to 4 bytes", |l| {
            l.own_address().is_empty() && l.address.len() == 4
        }),
        ("labels to 16 bytes", |l| {
            l.own_address().is_empty() && l.address.len() == 16
        }),
        ("the default port written, the same", |l| {
            has_default_port(&l.reference) && !l.has_port()
        }),
        ("the default port written, another", |l| {
            has_default_port(&l.reference) && l.has_port()
        }),
        ("the default port left off, the same", |l| {
            port(&l.reference).is_none() && !l.has_port()
        }),
        ("the default port left off, another", |l| {
            port(&l.reference).is_none() && l.has_port()
        }),
        ("another port, to the default one", |l| {
            l.own_port() != l.default_port() && l.port == l.default_port()
        }),
        ("another port, the same", |l| {
            l.own_port() != l.default_port() && !l.has_port()
        }),
        ("the port one more", |l| {
            l.own_port().checked_add(1) == Some(l.port)
        }),
        ("the port one less", |l| {
            l.port.checked_add(1) == Some(l.own_port())
        }),
        ("ports with the same low byte", |l| {
            l.has_port() && l.own_port() % 256 == l.port % 256
        }),
        ("ports with the same high byte", |l| {
            l.has_port() && l.own_port() / 256 == l.port / 256
        }),
        ("path unset", |l| l.reference.path.is_none()),
        ("empty path", |l| path(&l.reference) == Some(vec![])),
        ("one empty segment", |l| {
            path(&l.reference) == Some(vec![""])
        }),
        ("one empty segment and nothing else", |l| {
            path(&l.reference) == Some(vec![""]) && l.has() == [false; 4]
        }),
        ("one empty segment and a query", |l| {
            path(&l.reference) == Some(vec![""]) && l.has() == [false, false, false, true]
        }),
        ("two empty segments", |l| {
            path(&l.reference) == Some(vec!["", ""])
        }),
        ("the most segments", |l| {
            segments(&l.reference) == MAX_SEGMENTS
        }),
        ("one empty parameter", |l| {
            query(&l.reference) == Some(vec![""])
        }),
        ("16 parameters", |l| parameters(&l.reference) == 16),
        ("8 labels", |l| labels(&l.reference).len() == 8),
        ("a byte that a URI would escape", |l| {
            name_length(&l.reference) > 0 && labels(&l.reference).concat().contains(['%', '/', ' '])
        }),
        ("a segment of 23", |l| has_length(l.path(), 23)),
        ("a segment of 24", |l| has_length(l.path(), 24)),
        ("a parameter of 23", |l| has_length(l.reference.query, 23)),
        ("a parameter of 24", |l| has_length(l.reference.query, 24)),
        ("labels of 63 and a further one", |l| {
            let label = |label: &&str| label.len() == 63;
            name_length(&l.reference) > 63 && labels(&l.reference).iter().any(label)
        }),
        ("segments of over 900 bytes", |l| {
            l.reference
                .segments()
                .iter()
                .map(<[u8]>::len)
                .sum::<usize>()
                > 900
        }),
    ];
    let requests = options_requests();
    let links: Vec<_> = requests.iter().filter_map(Link::of).collect();
    let all = links.len();
    let reached = |name: String, holds: &dyn Fn(&Link) -> bool| {
        let often = links.iter().filter(|link| holds(link)).count();
        assert!(often >= 5, "{name}: {often} times of {all}");
    };
    for (name, holds) in properties {
        reached(name.to_string(), &holds);
    }
    for number in [0, 1, 6, 7, 8, 9] {
        reached(format!("scheme {number}"), &|l| {
            scheme(&l.reference) == Some(Scheme::Number(number))
        });
    }
    for number in [0, 1, 255, 256, 65_535] {
        reached(format!("port {number}"), &|l| {
            port(&l.reference) == Some(number) && l.has_port()
        });
        reached(format!("to port {number}"), &|l| {
            l.port == number && l.has_port()
        });
        reached(format!("port {number}, the same"), &|l| {
            port(&l.reference) == Some(number) && !l.has_port()
        });
    }
    for length in [0, 1, 12, 13, 14, 254, 255] {
        reached(format!("a segment of {length}"), &|l| {
            has_length(l.path(), length)
        });
        reached(format!("a parameter of {length}"), &|l| {
            has_length(l.reference.query, length)
        });
        if length > 0 {
            reached(format!("a name of {length}"), &|l| {
                name_length(&l.reference) == length
            });
        }
    }
    for length in [12, 13, 14] {
        reached(format!("an address text of {length}"), &|l| {
            let address = l.own_address();
            address.len() == 4 && l.has_host() && dotted(address).len() == length
        });
    }
    for length in [7, 15] {
        reached(format!("a mapped address, {length} bytes dotted"), &|l| {
            l.has_host() && l.mapped().is_some_and(|last| dotted(last).len() == length)
        });
    }
    // All combinations of options, and with them each difference of two numbers.
    for bits in 0..16 {
        let has = [1, 2, 4, 8].map(|bit| bits & bit != 0);
        reached(format!("{has:?}"), &|l| l.has() == has);
        if has[3] {
            reached(format!("{has:?}, a long parameter"), &|l| {
                let first = l.reference.parameters().iter().next();
                l.has() == has && first.is_some_and(|first| first.len() > 12)
            });
        }
    }
}

type AskedProperty = (&'static str, fn(&Asked) -> bool);

#[test]
fn rooms_and_refusals_of_options() {
    let properties: [AskedProperty; 21] = [
        ("room exact", |a| a.outcome == Ok(a.room)),
        ("room one short", |a| a.outcome == Ok(a.room + 1)),
        ("room one over", |a| {
            a.room > 0 && a.outcome == Ok(a.room - 1)
        }),
        ("no room", |a| {
            a.outcome.is_ok_and(|length| length > 0) && a.room == 0
        }),
        ("no options, no room", |a| a.outcome == Ok(0) && a.room == 0),
        ("no options, some room", |a| {
            a.outcome == Ok(0) && a.room > 0
        }),
        ("largest room", |a| a.outcome.is_ok() && a.room == 16_384),
        ("longer than the longest input", |a| {
            a.outcome.is_ok_and(|length| length > MAX_INPUT)
        }),
        ("the longest input", |a| {
            a.outcome.is_ok() && a.input.len() == MAX_INPUT
        }),
        ("11, no room", |a| a.outcome == Err(11) && a.room == 0),
        ("8, no room", |a| a.outcome == Err(8) && a.room == 0),
        ("5, no room", |a| a.outcome == Err(5) && a.room == 0),
        ("12, no room", |a| a.outcome == Err(12) && a.room == 0),
        ("12 before 1 to 7", |a| {
            a.outcome == Err(12) && read(&a.input).is_err()
        }),
        ("12 before 8", |a| {
            a.outcome == Err(12) && read(&a.input).is_ok_and(|r| r.absolute().is_none())
        }),
        ("12 before 11", |a| {
            a.outcome == Err(12)
                && read(&a.input).is_ok_and(|r| r.absolute().is_some() && r.fragment.is_some())
        }),
        ("8 before 11", |a| {
            a.outcome == Err(8) && read(&a.input).is_ok_and(|r| r.fragment.is_some())
        }),
        ("a discard", |a| {
            read(&a.input).is_ok_and(|r| matches!(r.opening, Opening::Discard(_)))
        }),
        ("a scheme text, no fragment", |a| {
            a.outcome == Err(11) && read(&a.input).is_ok_and(|r| r.fragment.is_none())
        }),
        ("an empty fragment", |a| {
            a.outcome == Err(11)
                && read(&a.input).is_ok_and(|r| scheme_length(&r) == 0 && r.fragment == Some(""))
        }),
        ("a fragment", |a| {
            a.outcome == Err(11)
                && read(&a.input).is_ok_and(|r| {
                    scheme_length(&r) == 0 && r.fragment.is_some_and(|f| !f.is_empty())
                })
        }),
    ];
    let requests = options_requests();
    for (name, holds) in properties {
        let often = requests.iter().filter(|request| holds(request)).count();
        assert!(often >= 5, "{name}: {often} times of {}", requests.len());
    }
    for length in [0, 1, 3, 5, 15, 17] {
        let often = requests.iter().filter(|a| a.address.len() == length);
        assert!(often.count() >= 5, "an address of {length} bytes");
    }
}

/// Lines of `options` that are no requests: by a word missing, one too many, a port over its size, and bytes that are none.
#[test]
fn some_lines_of_options_are_no_requests() {
    let lines: Vec<Words> = ANSWERED
        .iter()
        .filter(|(request, _)| lines::call(request) == Some("options"))
        .filter(|(_, answer)| answer.starts_with("? "))
        .map(|(request, _)| str::from_utf8(request).expect("ASCII").split(' ').collect())
        .collect();
    let reached = |name: &str, holds: fn(&[&str]) -> bool| {
        let often = lines.iter().filter(|words| holds(words)).count();
        assert!(often >= 5, "{name}: {often} times of {}", lines.len());
    };
    reached("a word missing", |words| words.len() < 5);
    reached("a word too many", |words| words.len() > 5);
    reached("port 65536", |words| {
        words.len() == 5 && words[4] == "65536"
    });
    reached("a large port", |words| {
        words.len() == 5 && words[4].len() > 12
    });
    reached("an input of odd digits", |words| {
        words.len() == 5 && words[2].len() % 2 == 1
    });
    reached("an address of odd digits", |words| {
        words.len() == 5 && words[3].len() % 2 == 1
    });
    reached("no address", |words| {
        words.len() == 5 && words[3].is_empty()
    });
}
