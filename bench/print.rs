// URI texts: of links, and of references resolved against a base.
use crate::links::{SEGMENTS, SIZES};
use crate::{agree, compare, links, packed, resolve, room, Call};
use compare::reader::MAX_INPUT;
use compare::uri_text::{longest, uri_text};

extern "C" {
    fn bench_text(s: *const u8, length: usize, room: *mut u8, size: usize) -> u64;
}

// The length of a room that is long enough for every link.
const ENOUGH: usize = longest(MAX_INPUT);

// The room for the text.
fn text_room() -> &'static mut [u8; ENOUGH] {
    static mut ROOM: [u8; ENOUGH] = [0; ENOUGH];
    unsafe { (&raw mut ROOM).as_mut().unwrap() }
}

fn rattle_text(s: &[u8], size: usize) -> u64 {
    unsafe { bench_text(s.as_ptr(), s.len(), text_room().as_mut_ptr(), size) }
}

fn rust_text(s: &[u8], size: usize) -> u64 {
    packed(uri_text(s, &mut text_room()[..size]))
}

// A link, and the length of the room that is lent.
type Input = (Vec<u8>, usize);

const CALLS: [Call<Input, u64>; 2] = [("rattle", |(s, size)| rattle_text(s, *size)), ("rust", |(s, size)| rust_text(s, *size))];

// The answer of resolving, and 2^32 times that of printing what it wrote, or 0 where it wrote nothing.
fn resolved_and_printed(resolved: u64, text: fn(&[u8], usize) -> u64) -> u64 {
    match resolved % 256 {
        0 => resolved + (text(&room()[..resolved as usize / 256], ENOUGH) << 32),
        _ => resolved,
    }
}

fn rattle_both(pair: &resolve::Input) -> u64 {
    resolved_and_printed(resolve::rattle(pair), rattle_text)
}

fn rust_both(pair: &resolve::Input) -> u64 {
    resolved_and_printed(resolve::rust(pair), rust_text)
}

const BOTH: [Call<resolve::Input, u64>; 2] = [("rattle", rattle_both), ("rust", rust_both)];

// The answer, and both whole rooms.
fn written<I>(call: fn(&I) -> u64, input: &I) -> (u64, Vec<u8>, Vec<u8>) {
    room().fill(0xa5);
    text_room().fill(0xa5);
    (call(input), room().to_vec(), text_room().to_vec())
}

type Written = (u64, Vec<u8>, Vec<u8>);

const WRITTEN: [Call<Input, Written>; 2] = [("rattle", |link| written(CALLS[0].1, link)), ("rust", |link| written(CALLS[1].1, link))];
const BOTH_WRITTEN: [Call<resolve::Input, Written>; 2] = [("rattle", |pair| written(rattle_both, pair)), ("rust", |pair| written(rust_both, pair))];

fn sized(size: usize) -> Vec<Vec<u8>> {
    vec![links::sized(size); 64]
}

// With a room that is long enough for every link.
fn roomy(links: Vec<Vec<u8>>) -> Vec<Input> {
    links.into_iter().map(|s| (s, ENOUGH)).collect()
}

// With a room that is as long as the text.
fn exact(links: Vec<Vec<u8>>) -> Vec<Input> {
    links
        .into_iter()
        .map(|s| {
            let size = rust_text(&s, ENOUGH) as usize / 256;
            (s, size)
        })
        .collect()
}

fn segmented(segments: usize) -> Vec<Vec<u8>> {
    links::segmented(crate::inputs(), segments)
}

fn measure_in(lend: fn(Vec<Vec<u8>>) -> Vec<Input>) {
    compare("mixed links", &[10_000], |n| lend(links::mixed(n)), &CALLS);
    compare("escaped links", &[4096], |n| lend(links::escaped(n)), &CALLS);
    compare("IPv6 links", &[4096], |n| lend(links::addressed(n)), &CALLS);
    compare("mapped links", &[4096], |n| lend(links::mapped(n)), &CALLS);
    compare("segments", &SEGMENTS, |n| lend(segmented(n)), &CALLS);
    compare("bytes of a link", &SIZES, |n| lend(sized(n)), &CALLS);
}

pub fn measure() {
    for pair in &links::pairs(10_000) {
        agree(pair, &BOTH_WRITTEN);
    }
    let made = [links::mixed(10_000), links::escaped(4096), links::addressed(4096), links::mapped(4096)].concat();
    let inputs = [made, SEGMENTS.map(segmented).concat(), SIZES.map(sized).concat()].concat();
    for link in roomy(inputs.clone()).iter().chain(&exact(inputs)) {
        agree(link, &WRITTEN);
    }
    println!("print: numbers, lengths and rooms agree");
    println!("resolved and printed");
    compare("mixed pairs", &[10_000], links::pairs, &BOTH);
    println!("printed, in a room of {ENOUGH} bytes");
    measure_in(roomy);
    println!("printed, in a room as long as the text");
    measure_in(exact);
}
