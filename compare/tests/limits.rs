//! That the requests made from a seed meet every size at its limit, one below and one over, and every fault of every item.

mod answered;

use answered::{requests_of, unhex, Words};
use compare::reader::{read, MAX_INPUT, MAX_SEGMENTS};
use compare::refusal::Refusal;
use std::collections::BTreeMap;
use std::fmt::Debug;

/// What an item is by its place and its kind.
#[derive(Clone, Copy, Debug, PartialEq, Eq, PartialOrd, Ord)]
enum Part {
    Outer,
    /// The first item where no kind of opening stands.
    Opening,
    Discard,
    AllDiscarded,
    NoScheme,
    SchemeNumber,
    SchemeText,
    Authority,
    /// The first item of an authority where neither an address nor a label stands.
    Host,
    Address,
    Label,
    NinthLabel,
    Port,
    /// An item of an authority after its port.
    AfterPort,
    /// Another further item of an authority, where neither a label nor a port may stand.
    Further,
    Path,
    Segment,
    Query,
    Parameter,
    Fragment,
    End,
}

/// An item, as far as it is there.
#[derive(Clone, Copy)]
struct Item<'a> {
    part: Part,
    first: Option<u8>,
    /// The number of its head.
    number: Option<u64>,
    /// What is left of the input after the first byte.
    rest: &'a [u8],
    /// What is left of the input after the head.
    after: &'a [u8],
}

impl<'a> Item<'a> {
    /// The item that a part of an input begins with.
    fn of(part: Part, input: &'a [u8]) -> Self {
        let (first, rest) = match input {
            [first, rest @ ..] => (Some(*first), rest),
            [] => (None, input),
        };
        let mut item = Item {
            part,
            first,
            number: None,
            rest,
            after: &[],
        };
        if let Some((number, after)) = rest.split_at_checked(item.width()) {
            let sum = |sum, byte: &u8| sum << 8 | u64::from(*byte);
            item.number = match item.width() {
                0 => Some(item.info()),
                _ => Some(number.iter().fold(0, sum)),
            };
            item.after = after;
        }
        item
    }

    fn major(&self) -> Option<u8> {
        self.first.map(|first| first >> 5)
    }

    fn info(&self) -> u64 {
        u64::from(self.first.unwrap_or_default() & 0x1F)
    }

    /// How many bytes of the head come after the first.
    fn width(&self) -> usize {
        match self.info() {
            24 => 1,
            25 => 2,
            26 => 4,
            27 => 8,
            _ => 0,
        }
    }

    /// What is wrong with its head, also where something else decides.
    fn head_fault(&self) -> Option<Fault> {
        let least = match self.width() {
            0 => 0,
            1 => 24,
            width => 1 << (4 * width),
        };
        match self.number {
            _ if self.info() >= 28 => Some(Fault::Reserved),
            None => Some(Fault::HeadCut),
            Some(number) => (number < least).then_some(Fault::NotShortest),
        }
    }

    fn content(&self) -> Option<&'a [u8]> {
        let length = match self.major()? {
            2 | 3 => usize::try_from(self.number?).ok()?,
            _ => 0,
        };
        self.after.get(..length)
    }
}

#[derive(Clone, Copy, Debug, PartialEq, Eq, PartialOrd, Ord)]
enum Fault {
    NoFirstByte,
    Kind,
    /// Too many or too few items with this opening, or in the outer array.
    Items,
    FinalNull,
    Reserved,
    HeadCut,
    NotShortest,
    Range,
    ContentCut,
    NotUtf8,
    Rule,
    Tail,
}

/// An input with its items up to the one that is refused, in order.
struct Walked<'a> {
    input: &'a [u8],
    refusal: Option<Refusal>,
    items: Vec<Item<'a>>,
}

impl<'a> Walked<'a> {
    fn of(input: &'a [u8]) -> Self {
        Walked::until(input, read(input).err())
    }

    /// The items up to a refusal. An input that is too long is not walked over.
    fn until(input: &'a [u8], refusal: Option<Refusal>) -> Self {
        let mut walked = Walked {
            input,
            refusal,
            items: vec![],
        };
        if input.len() <= MAX_INPUT {
            walked.reference(input);
        }
        walked
    }

    /// The item at which the input is refused, and why.
    fn fault(&self) -> Option<(&Item<'a>, Fault)> {
        let item = self.items.last()?;
        let fault = match (self.refusal?.number(), item.part) {
            (1, _) if item.first.is_none() => Fault::NoFirstByte,
            (1, _) if item.number.is_none() => Fault::HeadCut,
            (1, _) => Fault::ContentCut,
            (2, Part::Path | Part::Query | Part::Fragment) if item.first == Some(0xF6) => {
                Fault::FinalNull
            }
            (2, Part::Outer) if item.major() == Some(4) => Fault::Items,
            (
                2,
                Part::Discard
                | Part::AllDiscarded
                | Part::NoScheme
                | Part::SchemeNumber
                | Part::SchemeText,
            ) => Fault::Items,
            (2, _) => Fault::Kind,
            (3, _) if item.info() >= 28 => Fault::Reserved,
            (3, _) => Fault::NotShortest,
            (4, _) => Fault::Range,
            (5, _) => Fault::NotUtf8,
            (6, _) => Fault::Rule,
            _ => Fault::Tail,
        };
        Some((item, fault))
    }

    /// Walks over a reference; `None` from the item on that is refused.
    fn reference(&mut self, input: &'a [u8]) -> Option<()> {
        let (count, mut rest) = self.item(Part::Outer, input)?;
        let mut left = count;
        if left > 0 {
            let opening = opening(rest);
            (_, rest) = self.item(opening, rest)?;
            left -= 1;
            if !matches!(opening, Part::Discard | Part::AllDiscarded) {
                rest = self.authority(rest)?;
                left -= 1;
            }
        }
        for (list, text) in [(Part::Path, Part::Segment), (Part::Query, Part::Parameter)] {
            if left > 0 {
                rest = self.list(list, text, rest)?;
                left -= 1;
            }
        }
        if left > 0 {
            (_, rest) = self.item(Part::Fragment, rest)?;
        }
        if !rest.is_empty() {
            self.item(Part::End, rest)?;
        }
        Some(())
    }

    fn authority(&mut self, input: &'a [u8]) -> Option<&'a [u8]> {
        let (count, mut rest) = self.item(Part::Authority, input)?;
        let mut last = Part::Authority;
        let mut labels = 0;
        for _ in 0..count {
            let major = rest.first().map(|first| first >> 5);
            let part = match (last, major) {
                (Part::Authority, Some(2)) => Part::Address,
                (Part::Authority | Part::Label, Some(3)) if labels == 8 => Part::NinthLabel,
                (Part::Authority | Part::Label, Some(3)) => Part::Label,
                (Part::Authority, _) => Part::Host,
                (Part::Address | Part::Label, Some(0)) => Part::Port,
                (Part::Port, _) => Part::AfterPort,
                _ => Part::Further,
            };
            (_, rest) = self.item(part, rest)?;
            labels += u64::from(part == Part::Label);
            last = part;
        }
        Some(rest)
    }

    fn list(&mut self, list: Part, text: Part, input: &'a [u8]) -> Option<&'a [u8]> {
        let (count, mut rest) = self.item(list, input)?;
        if input[0] == 0xF6 {
            return Some(rest);
        }
        for _ in 0..count {
            (_, rest) = self.item(text, rest)?;
        }
        Some(rest)
    }

    /// The number of an item's head, and what is left after its content.
    fn item(&mut self, part: Part, input: &'a [u8]) -> Option<(u64, &'a [u8])> {
        let item = Item::of(part, input);
        let place = self.input.len() - input.len();
        self.items.push(item);
        if self.refusal.is_some_and(|refusal| refusal.place == place) {
            return None;
        }
        let content = item.content()?;
        Some((item.number?, &item.after[content.len()..]))
    }
}

fn opening(input: &[u8]) -> Part {
    match input.first() {
        Some(0x00..=0x1F) => Part::Discard,
        Some(0x20..=0x3F) => Part::SchemeNumber,
        Some(0x60..=0x7F) => Part::SchemeText,
        Some(0xF5) => Part::AllDiscarded,
        Some(0xF6) => Part::NoScheme,
        _ => Part::Opening,
    }
}

/// How often each thing is met.
struct Tally<T> {
    often: BTreeMap<T, usize>,
}

impl<T: Ord + Debug> Tally<T> {
    fn of(met: impl IntoIterator<Item = T>) -> Self {
        let mut often = BTreeMap::new();
        for thing in met {
            *often.entry(thing).or_default() += 1;
        }
        Tally { often }
    }

    #[track_caller]
    fn has_all(&self, things: impl IntoIterator<Item = T>) {
        let missed: Vec<_> = things
            .into_iter()
            .map(|thing| (self.often.get(&thing).copied().unwrap_or_default(), thing))
            .filter(|&(often, _)| often < 3)
            .collect();
        assert!(missed.is_empty(), "met less than 3 times: {missed:?}");
    }
}

/// The inputs of the read requests.
fn inputs() -> Vec<Vec<u8>> {
    requests_of("read")
        .map(|(words, _)| unhex(words[1]))
        .collect()
}

fn walked(inputs: &[Vec<u8>]) -> impl Iterator<Item = Walked<'_>> {
    inputs.iter().map(|input| Walked::of(input))
}

#[test]
fn every_fault_of_every_item() {
    use Fault::*;
    use Part::*;
    let inputs = inputs();
    let met = Tally::of(walked(&inputs).filter_map(|walked| {
        let (item, fault) = walked.fault()?;
        Some((item.part, fault))
    }));
    let head = [Reserved, HeadCut, NotShortest];
    let text = [Range, ContentCut, NotUtf8];
    let mut wanted = Vec::new();
    for (part, faults) in [
        (Outer, &[NoFirstByte, Kind, Items][..]),
        (Opening, &[NoFirstByte, Kind]),
        (Discard, &[Range, Items]),
        (AllDiscarded, &[Items]),
        (NoScheme, &[Items]),
        (SchemeNumber, &[Rule, Items]),
        (SchemeText, &[Rule, Items]),
        (Authority, &[NoFirstByte, Kind, Range, Rule]),
        (Host, &[NoFirstByte, Kind]),
        (Address, &[Range, ContentCut]),
        (Label, &[Rule]),
        (NinthLabel, &[Range]),
        (Port, &[Range]),
        (AfterPort, &[NoFirstByte, Kind]),
        (Further, &[NoFirstByte, Kind]),
        (Path, &[NoFirstByte, Kind, FinalNull, Range]),
        (Segment, &[NoFirstByte, Kind, Rule]),
        (Query, &[NoFirstByte, Kind, FinalNull, Range]),
        (Parameter, &[NoFirstByte, Kind]),
        (Fragment, &[NoFirstByte, Kind, FinalNull]),
        (End, &[Tail]),
    ] {
        wanted.extend(faults.iter().map(|&fault| (part, fault)));
        if !matches!(
            part,
            Opening | AllDiscarded | NoScheme | Host | AfterPort | Further | End
        ) {
            wanted.extend(head.map(|fault| (part, fault)));
        }
        if matches!(part, SchemeText | Label | Segment | Parameter | Fragment) {
            wanted.extend(text.map(|fault| (part, fault)));
        }
    }
    met.has_all(wanted);
}

/// After a port an item is refused by its first byte, though its head is bad too. Only kinds are counted that some place allows.
#[test]
fn bad_heads_after_a_port() {
    use Fault::*;
    let inputs = inputs();
    let met = Tally::of(walked(&inputs).filter_map(|walked| {
        let (item, fault) = walked.fault()?;
        let allowed = item.major()? <= 4;
        (allowed && item.part == Part::AfterPort).then_some((fault, item.head_fault()?))
    }));
    met.has_all([Reserved, HeadCut, NotShortest].map(|head| (Kind, head)));
}

/// Sizes that are allowed, in inputs that are accepted, and sizes that are not, where the input is refused for them.
#[test]
fn every_size_at_its_limit_one_below_and_one_over() {
    use Part::*;
    const MOST: u64 = MAX_SEGMENTS as u64;
    let inputs = inputs();
    let accepted = Tally::of(
        walked(&inputs)
            .filter(|walked| walked.refusal.is_none())
            .flat_map(|walked| walked.items)
            .filter(|item| item.first != Some(0xF6))
            .map(|item| (item.part, item.number.expect("accepted"))),
    );
    let refused = Tally::of(walked(&inputs).filter_map(|walked| {
        let (item, _) = walked.fault()?;
        Some((item.part, item.number?, walked.refusal?.number()))
    }));
    let mut within = Vec::new();
    let mut outside = Vec::new();
    for (part, allowed, not_allowed) in [
        (Outer, &[0, 1, 2, 3, 4, 5][..], &[][..]),
        (Discard, &[0, 1, 23, 24, 126, 127], &[128, 129, u64::MAX]),
        (SchemeText, &[1, 2, 15, 16], &[0, 17]),
        (Authority, &[1, 2, 8, 9], &[0, 10]),
        (Address, &[4, 16], &[0, 3, 5, 15, 17]),
        (Label, &[1, 2, 62, 63], &[0, 64, 65, 255, 256]),
        (NinthLabel, &[], &[1]),
        (Port, &[0, 1, 65_534, 65_535], &[65_536, 65_537, u64::MAX]),
        (Path, &[0, 1, 2, MOST - 1, MOST], &[MOST + 1, MOST + 2]),
        (Segment, &[0, 1, 23, 24, 254, 255], &[256, 257]),
        (Query, &[1, 2, 15, 16], &[0, 17, 18]),
        (Parameter, &[0, 1, 23, 24, 254, 255], &[256, 257]),
        (Fragment, &[0, 1, 23, 24, 254, 255], &[256, 257]),
    ] {
        within.extend(allowed.iter().map(|&number| (part, number)));
        outside.extend(not_allowed.iter().map(|&number| (part, number, 4)));
    }
    within.extend([0, 1, 6, 7, 8, 9].map(|number| (SchemeNumber, number)));
    let unknown = [2, 3, 4, 5, 10, 23, 24, 255, 256, 257, 1 << 32, u64::MAX];
    outside.extend(unknown.map(|number| (SchemeNumber, number, 6)));
    outside.extend([(Outer, 6, 2), (Outer, 7, 2)]);
    accepted.has_all(within);
    refused.has_all(outside);
}

/// The number of labels, and their length with the dots between them.
#[test]
fn names_around_their_size() {
    let inputs = inputs();
    let name = |walked: Walked| {
        let number = match walked.fault() {
            None => 0,
            Some((item, Fault::Rule)) if item.part == Part::Authority => 6,
            Some(_) => return None,
        };
        // The rule over all labels is told at the authority, before them, so the walk goes on as if nothing were refused.
        let lengths: Vec<_> = Walked::until(walked.input, None)
            .items
            .iter()
            .filter(|item| item.part == Part::Label)
            .filter_map(|item| item.number)
            .collect();
        let dots = lengths.len().checked_sub(1)? as u64;
        Some((lengths.len(), lengths.iter().sum::<u64>() + dots, number))
    };
    let names: Vec<_> = walked(&inputs).filter_map(name).collect();
    let counts = Tally::of(names.iter().map(|&(count, _, number)| (count, number)));
    counts.has_all([1, 2, 3, 4, 5, 6, 7, 8].map(|count| (count, 0)));
    // Four labels that look like an IPv4 address.
    counts.has_all([(4, 6)]);
    let lengths = Tally::of(names.iter().map(|&(_, length, number)| (length, number)));
    lengths.has_all([(1, 0), (253, 0), (254, 0), (255, 0), (256, 6), (257, 6)]);
}

/// Heads of each width: the largest number that is too small for it, and the least that is not.
#[test]
fn heads_of_every_width() {
    let inputs = inputs();
    let heads: Vec<_> = walked(&inputs)
        .flat_map(|walked| {
            let fault = walked.fault().map(|(_, fault)| fault);
            let count = walked.items.len();
            let head = |(place, item): (usize, Item)| {
                let fault = fault.filter(|_| place + 1 == count);
                (item.width(), item.number, item.rest.len(), fault)
            };
            let heads = walked.items.into_iter().enumerate().map(head);
            heads.collect::<Vec<_>>()
        })
        .collect();
    let not_shortest = Tally::of(heads.iter().filter_map(|&(width, number, _, fault)| {
        (fault == Some(Fault::NotShortest)).then_some((width, number?))
    }));
    let judged = Tally::of(heads.iter().filter_map(|&(width, number, _, fault)| {
        (fault != Some(Fault::NotShortest)).then_some((width, number?))
    }));
    let least = [(1, 24), (2, 1 << 8), (4, 1 << 16), (8, 1 << 32)];
    judged.has_all(least);
    not_shortest.has_all(least.map(|(width, least)| (width, least - 1)));
    not_shortest.has_all(least.map(|(width, _)| (width, 0)));
    let cut = Tally::of(heads.iter().filter_map(|&(width, _, left, fault)| {
        (fault == Some(Fault::HeadCut)).then_some((width, left))
    }));
    cut.has_all([1, 2, 4, 8].map(|width| (width, 0)));
    cut.has_all([2, 4, 8].map(|width| (width, width - 1)));
    let reserved = Tally::of(walked(&inputs).filter_map(|walked| {
        let (item, fault) = walked.fault()?;
        (fault == Fault::Reserved).then_some(item.info())
    }));
    reserved.has_all([28, 29, 30, 31]);
    let kinds = Tally::of(walked(&inputs).filter_map(|walked| {
        let (item, fault) = walked.fault()?;
        (fault == Fault::Kind).then_some(item.first?)
    }));
    // Maps, tags, and of major type 7 what is not F5 or F6.
    kinds.has_all([
        0xA0, 0xC0, 0xE0, 0xF4, 0xF7, 0xF8, 0xF9, 0xFA, 0xFB, 0xFC, 0xFF,
    ]);
    kinds.has_all([0xF5, 0xF6]);
}

/// A content that is cut: nothing of it is there, or all but its last byte.
#[test]
fn contents_are_cut_anywhere() {
    let inputs = inputs();
    let cut = Tally::of(walked(&inputs).filter_map(|walked| {
        let (item, fault) = walked.fault()?;
        let missing = item.number?.checked_sub(item.after.len() as u64)?;
        (fault == Fault::ContentCut).then_some((item.after.is_empty(), missing == 1))
    }));
    cut.has_all([(true, true), (true, false), (false, true), (false, false)]);
}

/// A lead byte, by the range that says how many bytes follow and which second bytes are allowed.
fn lead(byte: u8) -> &'static str {
    match byte {
        0x00..=0x7F => "00 to 7F",
        0x80..=0xBF => "80 to BF",
        0xC0..=0xC1 => "C0 to C1",
        0xC2..=0xDF => "C2 to DF",
        0xE0 => "E0",
        0xE1..=0xEC => "E1 to EC",
        0xED => "ED",
        0xEE..=0xEF => "EE to EF",
        0xF0 => "F0",
        0xF1..=0xF3 => "F1 to F3",
        0xF4 => "F4",
        0xF5..=0xFF => "F5 to FF",
    }
}

#[test]
fn characters_of_every_lead_byte() {
    use Part::*;
    let inputs = inputs();
    let characters = Tally::of(
        walked(&inputs)
            .filter(|walked| walked.refusal.is_none())
            .flat_map(|walked| walked.items)
            .filter(|item| item.major() == Some(3))
            .flat_map(|item| {
                let text = str::from_utf8(item.content().expect("accepted")).expect("accepted");
                let leads = text.char_indices().map(|(place, _)| text.as_bytes()[place]);
                leads
                    .map(move |byte| (item.part, lead(byte)))
                    .collect::<Vec<_>>()
            }),
    );
    for part in [Label, Segment, Parameter, Fragment] {
        let ranges = [0x00, 0xC2, 0xE0, 0xE1, 0xED, 0xEE, 0xF0, 0xF1, 0xF4];
        characters.has_all(ranges.map(|byte| (part, lead(byte))));
    }
}

/// The first two bytes of characters, where the second one is at an end of its range.
#[test]
fn second_bytes_at_the_ends_of_their_ranges() {
    let inputs = inputs();
    let seconds = Tally::of(
        walked(&inputs)
            .filter(|walked| walked.refusal.is_none())
            .flat_map(|walked| walked.items)
            .filter(|item| item.major() == Some(3))
            .flat_map(|item| {
                let bytes = item.content().expect("accepted");
                bytes.windows(2).map(|pair| (lead(pair[0]), pair[1]))
            }),
    );
    let broken =
        Tally::of(broken(&inputs).filter_map(|bytes| Some((lead(bytes[0]), *bytes.get(1)?))));
    let [mut inside, mut outside] = [vec![], vec![]];
    for (first, low, high) in [
        (0xC2, 0x80, 0xBF),
        (0xE0, 0xA0, 0xBF),
        (0xE1, 0x80, 0xBF),
        (0xED, 0x80, 0x9F),
        (0xEE, 0x80, 0xBF),
        (0xF0, 0x90, 0xBF),
        (0xF1, 0x80, 0xBF),
        (0xF4, 0x80, 0x8F),
    ] {
        inside.extend([(lead(first), low), (lead(first), high)]);
        outside.extend([(lead(first), low - 1), (lead(first), high + 1)]);
    }
    seconds.has_all(inside);
    broken.has_all(outside);
}

/// Of each text that is not UTF-8 the bytes from the first fault on.
fn broken(inputs: &[Vec<u8>]) -> impl Iterator<Item = Vec<u8>> + '_ {
    walked(inputs).filter_map(|walked| {
        let (item, fault) = walked.fault()?;
        let content = item.content()?;
        let valid = str::from_utf8(content).err()?.valid_up_to();
        (fault == Fault::NotUtf8).then(|| content[valid..].to_vec())
    })
}

/// Where a character is broken: its lead byte, how many of its bytes are right, and whether the text ends there.
#[test]
fn characters_are_broken_everywhere() {
    let inputs = inputs();
    let met = Tally::of(broken(&inputs).map(|bytes| {
        let error = str::from_utf8(&bytes).expect_err("broken");
        let right = error.error_len().unwrap_or(bytes.len());
        (lead(bytes[0]), right, right == bytes.len())
    }));
    let mut wanted = Vec::from([0x80, 0xC0, 0xF5].map(|first| (lead(first), 1, false)));
    for (first, length) in [
        (0xC2, 2),
        (0xE0, 3),
        (0xE1, 3),
        (0xED, 3),
        (0xEE, 3),
        (0xF0, 4),
        (0xF1, 4),
        (0xF4, 4),
    ] {
        for right in 1..length {
            wanted.extend([false, true].map(|cut| (lead(first), right, cut)));
        }
    }
    met.has_all(wanted);
}

/// Whether a label has a bracket.
fn has_bracket(label: &[u8]) -> bool {
    label.iter().any(|byte| matches!(byte, b'[' | b']'))
}

/// Whether a bracket, and no other rule, refuses a label.
fn only_bracket(label: &[u8]) -> bool {
    let other = |byte: &u8| matches!(byte, b'.' | b'A'..=b'Z');
    has_bracket(label) && !label.iter().any(other)
}

/// Where the label at `place` stands among `count`.
fn place_of(place: usize, count: usize) -> &'static str {
    match place {
        _ if count == 1 => "the only label",
        0 => "the first label",
        _ if place + 1 == count => "the last label",
        _ => "a middle label",
    }
}

const LABEL_PLACES: [&str; 4] = [
    "the only label", "the first label", "a middle label", "the last label",
];

/// For each input of each call: where the label stands that is refused for a bracket, with the number that the call then has.
#[test]
fn brackets_in_every_call() {
    let mut met = Vec::new();
    let mut wanted = Vec::new();
    for (call, input, number, told) in [
        ("read", 1, 0, "6"),
        ("segment", 1, 0, "6"),
        ("resolve", 2, 0, "8"),
        ("resolve", 3, 0, "6"),
        ("authority", 1, 0, "6"),
        ("authority", 2, 0, "8"),
        ("text", 2, 0, "6"),
        ("same", 1, 0, "6"),
        ("same", 2, 1, "6"),
        ("options", 2, 0, "6"),
    ] {
        let bracket = |(words, answer): (Words, Words)| {
            let bytes = unhex(words[input]);
            let walked = Walked::of(&bytes);
            let (item, fault) = walked.fault()?;
            let refused = fault == Fault::Rule && item.part == Part::Label;
            if !refused || !only_bracket(item.content()?) {
                return None;
            }
            let labels = |walked: &Walked| {
                let labels = walked.items.iter().filter(|item| item.part == Part::Label);
                labels.count()
            };
            let place = labels(&walked) - 1;
            let count = labels(&Walked::until(&bytes, None));
            Some((call, input, place_of(place, count), answer[number]))
        };
        met.extend(requests_of(call).filter_map(bracket));
        wanted.extend(LABEL_PLACES.map(|place| (call, input, place, told)));
    }
    met.extend(requests_of("write").flat_map(|(words, answer)| {
        let lent = unhex(words[2]);
        let label = |part: &[&str]| {
            let [start, length] = [part[1], part[2]].map(|word| word.parse::<usize>().ok());
            let text = lent.get(start?..)?.get(..length?)?;
            Some(str::from_utf8(text).is_ok() && only_bracket(text))
        };
        let labels: Vec<_> = words
            .windows(3)
            .filter(|part| part[0] == "label")
            .map(|part| label(part).unwrap_or_default())
            .collect();
        let brackets = labels.iter().enumerate().filter(|&(_, bracket)| *bracket);
        let place = |(place, _)| ("write", 0, place_of(place, labels.len()), answer[0]);
        brackets.map(place).collect::<Vec<_>>()
    }));
    wanted.extend(LABEL_PLACES.map(|place| ("write", 0, place, "6")));
    Tally::of(met).has_all(wanted);
}

/// Labels with a bracket where something else is wrong too: what decides.
#[test]
fn brackets_beside_other_faults() {
    use Fault::*;
    let inputs = inputs();
    // Faults of the same item, which come before.
    let before = Tally::of(walked(&inputs).filter_map(|walked| {
        let (item, fault) = walked.fault()?;
        // As much of the content as is there.
        let length = usize::try_from(item.number?).ok()?.min(item.after.len());
        has_bracket(&item.after[..length]).then_some((item.part, fault))
    }));
    before.has_all([NotShortest, Range, ContentCut, NotUtf8].map(|fault| (Part::Label, fault)));
    before.has_all([(Part::SchemeText, Rule), (Part::NinthLabel, Range)]);
    // Faults of later items, and of all labels.
    let after = Tally::of(walked(&inputs).flat_map(|walked| {
        let Some((&item, Rule)) = walked.fault() else {
            return vec![];
        };
        let content = item.content().unwrap_or_default();
        if item.part != Part::Label || !only_bracket(content) {
            return vec![];
        }
        let all = Walked::until(walked.input, None).items;
        let labels = all.iter().filter(|item| item.part == Part::Label);
        let lengths: Vec<_> = labels.filter_map(|item| item.number).collect();
        let later = &all[walked.items.len()..];
        let is_refused = |item: &Item| match item.part {
            Part::Port => item.number > Some(65_535),
            Part::Segment => matches!(item.content(), Some(b"." | b"..")),
            Part::End => true,
            _ => false,
        };
        let mut met: Vec<_> = later
            .iter()
            .filter(|item| is_refused(item))
            .map(|item| format!("{:?}", item.part))
            .collect();
        if lengths.iter().sum::<u64>() + lengths.len() as u64 > 256 {
            met.push("the total".to_string());
        }
        met
    }));
    after.has_all(["Port", "Segment", "End", "the total"].map(str::to_string));
}

/// Lengths and numbers of components, with the number answered.
#[test]
fn every_size_of_components() {
    let met = Tally::of(requests_of("write").flat_map(|(words, answer)| {
        let texts = words.windows(3).filter_map(|part| match part[0] {
            "text" | "address" | "label" | "segment" | "parameter" | "fragment" => {
                Some((part[0], part[2].parse().ok()?))
            }
            _ => None,
        });
        let numbers = words.windows(2).filter_map(|part| match part[0] {
            "discard" | "port" | "number" => Some((part[0], part[1].parse::<u64>().ok()?)),
            _ => None,
        });
        let said = texts.chain(numbers);
        said.map(|(name, number)| (name, number, answer[0]))
            .collect::<Vec<_>>()
    }));
    let mut wanted = Vec::new();
    for (name, allowed, not_allowed) in [
        ("discard", &[0, 1, 126, 127][..], &[128, u64::MAX][..]),
        ("text", &[1, 15, 16], &[0, 17]),
        ("address", &[4, 16], &[0, 3, 5, 15, 17]),
        ("label", &[1, 62, 63], &[0, 64]),
        ("port", &[0, 65_534, 65_535], &[65_536, u64::MAX]),
        ("segment", &[0, 1, 254, 255], &[256]),
        ("parameter", &[0, 1, 254, 255], &[256]),
        ("fragment", &[0, 1, 254, 255], &[256]),
    ] {
        wanted.extend(allowed.iter().map(|&number| (name, number, "0")));
        wanted.extend(not_allowed.iter().map(|&number| (name, number, "4")));
    }
    wanted.extend([0, 1, 6, 7, 8, 9].map(|number| ("number", number, "0")));
    wanted.extend([2, 5, 10, u64::MAX].map(|number| ("number", number, "6")));
    met.has_all(wanted);
}

/// The length of what the words of components say, as an encoding.
fn encoded_length(words: &[&str]) -> usize {
    let head = |number: u64| match number {
        0..=23 => 1,
        24..=0xFF => 2,
        0x100..=0xFFFF => 3,
        0x1_0000..=0xFFFF_FFFF => 5,
        _ => 9,
    };
    let number = |place: usize| words[place].parse::<u64>().unwrap_or(0);
    let count = |name: &str| words.iter().filter(|&&word| word == name).count();
    let length = |(place, word): (usize, &&str)| match *word {
        "text" | "address" | "label" | "segment" | "parameter" | "fragment" => {
            head(number(place + 2)) + number(place + 2) as usize
        }
        "discard" | "number" | "port" => head(number(place + 1)),
        "none" | "authority" => 1,
        "path" => head(count("segment") as u64),
        "query" => head(count("parameter") as u64),
        _ => 0,
    };
    // A lone 0 is not written.
    if words.len() == 2 && words[0] == "discard" && words[1].parse() == Ok(0) {
        return 1;
    }
    // The nulls before what is set.
    let [path, query, fragment] = ["path", "query", "fragment"].map(|name| count(name) > 0);
    let nulls = usize::from(!path && (query || fragment)) + usize::from(!query && fragment);
    let lengths = words.iter().enumerate().map(length);
    1 + nulls + lengths.sum::<usize>()
}

/// The number of segments, and the length of the encoding, with the number answered.
#[test]
fn the_largest_components() {
    const MOST: usize = MAX_SEGMENTS;
    let said: Vec<_> = requests_of("write")
        .map(|(words, answer)| {
            let segments = words.iter().filter(|&&word| word == "segment").count();
            (segments, encoded_length(&words[3..]), answer)
        })
        .collect();
    // An encoding that is written has that length.
    for (_, length, answer) in &said {
        if answer[0] == "0" {
            assert_eq!(answer[1], length.to_string());
        }
    }
    let around = |most| {
        [
            (most - 1, "0"),
            (most, "0"),
            (most + 1, "4"),
            (most + 2, "4"),
        ]
    };
    let segments = Tally::of(said.iter().map(|(count, _, answer)| (*count, answer[0])));
    segments.has_all(around(MOST));
    let lengths = Tally::of(said.iter().map(|(_, length, answer)| (*length, answer[0])));
    lengths.has_all(around(MAX_INPUT));
}

/// For each call that writes, where it is done with room enough: how long the room is beside what is written.
#[test]
fn rooms_around_what_is_written() {
    for call in ["write", "resolve", "text", "options"] {
        let rooms = requests_of(call).filter_map(|(words, _)| {
            let room: usize = words[1].parse().expect("a room");
            let enough = [&[words[0], "16384"], &words[2..]].concat().join(" ");
            let answer = compare::lines::answer(enough.as_bytes());
            let length = answer.strip_prefix("0 ")?.split(' ').next();
            let length: usize = length.and_then(|word| word.parse().ok()).expect("a length");
            Some((room, length))
        });
        let met = Tally::of(rooms.flat_map(|(room, length)| {
            let cases = [
                ("exact", room == length),
                ("one shorter", room + 1 == length),
                ("one longer", room == length + 1),
                ("empty", room == 0 && length > 0),
                ("largest", room == 16_384),
            ];
            cases
                .into_iter()
                .filter(|&(_, holds)| holds)
                .map(|(name, _)| (call, name))
        }));
        met.has_all(
            ["exact", "one shorter", "one longer", "empty", "largest"].map(|name| (call, name)),
        );
    }
}

/// For each input of each call the largest size and one byte less, where the call is done, and one byte more, with the number that it
/// then has, and the place where one is told.
#[test]
fn the_longest_inputs_of_every_call() {
    let mut met = Vec::new();
    let mut wanted = Vec::new();
    let [limit, base] = [4, 8].map(|number| format!("{number} at {MAX_INPUT}"));
    for (call, input, number, over) in [
        ("read", 1, 0, &*limit),
        ("segment", 1, 0, &limit),
        ("resolve", 2, 0, &base),
        ("resolve", 3, 0, &limit),
        ("authority", 1, 0, &limit),
        ("authority", 2, 0, &base),
        ("text", 2, 0, &limit),
        ("same", 1, 0, "4"),
        ("same", 2, 1, "4"),
        ("options", 2, 0, &limit),
    ] {
        let length = |(words, answer): (Words, Words)| {
            let told = match answer[number..] {
                [number, "at", place, ..] => format!("{number} at {place}"),
                [number, ..] => number.to_string(),
                [] => panic!("no number"),
            };
            (call, input, words[input].len() / 2, told)
        };
        met.extend(requests_of(call).map(length));
        wanted.extend(
            [
                (MAX_INPUT - 1, "0"),
                (MAX_INPUT, "0"),
                (MAX_INPUT + 1, over),
            ]
            .map(|(length, told)| (call, input, length, told.to_string())),
        );
    }
    Tally::of(met).has_all(wanted);
}

#[test]
fn segments_around_the_last() {
    let met = Tally::of(requests_of("segment").filter_map(|(words, _)| {
        let input = unhex(words[1]);
        let reference = read(&input).ok()?;
        let n: u64 = words[2].parse().expect("a number");
        let path = reference.path;
        let count = path.unwrap_or_default().len() as u64;
        let from_end = match n.checked_sub(count) {
            Some(0) => "the first that is not there",
            Some(_) if n > 1 << 32 => "far past the end",
            Some(_) => "past the end",
            None if n + 1 == count => "the last",
            None => "before the last",
        };
        let path = match path {
            None => "unset",
            Some(path) if path.is_empty() => "empty",
            Some(path) if path.is_one_empty() => "one empty segment",
            Some(path) if path.len() == MAX_SEGMENTS => "the most segments",
            Some(_) => "segments",
        };
        Some((path, from_end))
    }));
    for path in [
        "unset", "empty", "one empty segment", "segments", "the most segments",
    ] {
        met.has_all(
            [
                "the first that is not there",
                "past the end",
                "far past the end",
            ]
            .map(|place| (path, place)),
        );
    }
    met.has_all([("one empty segment", "the last"), ("segments", "the last")]);
    met.has_all([("the most segments", "the last")]);
    met.has_all(["segments", "the most segments"].map(|path| (path, "before the last")));
}
