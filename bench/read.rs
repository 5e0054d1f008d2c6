// Reading links: the refusal, or the components, with the spans of the texts in an array that is lent.
use crate::{agree, compare, links, packed, spans, Call};
use compare::generate::Generator;
use compare::reader::{self, Span};

extern "C" {
    fn bench_read(s: *const u8, length: usize, spans: *mut usize) -> u64;
    fn bench_segments(s: *const u8, length: usize, spans: *mut usize) -> usize;
}

type Input = Vec<u8>;

fn rattle(s: &Input) -> u64 {
    unsafe { bench_read(s.as_ptr(), s.len(), spans().as_mut_ptr().cast()) }
}

// The components are made in full, and then dropped.
fn rust(s: &Input) -> u64 {
    match std::hint::black_box(reader::read_spans(s, spans())) {
        Ok(_) => 0,
        Err(refusal) => packed(Err(refusal)),
    }
}

fn rattle_segments(s: &Input) -> usize {
    unsafe { bench_segments(s.as_ptr(), s.len(), spans().as_mut_ptr().cast()) }
}

fn rust_segments(s: &Input) -> usize {
    reader::read(s).ok().and_then(|r| r.path.map(|p| p.len())).unwrap_or(0)
}

const CALLS: [Call<Input, u64>; 2] = [("rattle", rattle), ("rust", rust)];
const SEGMENTS: [Call<Input, usize>; 2] = [("rattle", rattle_segments), ("rust", rust_segments)];

// The answer, and where it is 0 what the array holds, of which every place held another span before.
fn stored(call: fn(&Input) -> u64, s: &Input) -> (u64, Vec<Span>) {
    spans().fill(Span { start: usize::MAX, length: usize::MAX });
    let answer = call(s);
    (answer, if answer == 0 { spans().to_vec() } else { Vec::new() })
}

const STORED: [Call<Input, (u64, Vec<Span>)>; 2] = [("rattle", |s| stored(rattle, s)), ("rust", |s| stored(rust, s))];

// The inputs of the read requests that the comparison generates.
fn requests(n: usize) -> Vec<Input> {
    let hex = |word: &[u8]| -> Option<Input> {
        let digit = |b: u8| (b as char).to_digit(16).map(|d| d as u8);
        if word == b"-" {
            return Some(Vec::new());
        }
        word.chunks(2).map(|pair| Some(digit(pair[0])? << 4 | digit(*pair.get(1)?)?)).collect()
    };
    Generator::new(1).filter_map(|line| hex(line.strip_prefix(b"read ")?)).take(n).collect()
}

pub fn measure() {
    let sized = |size: usize| vec![links::sized(size); 64];
    let segmented = |n| links::segmented(crate::inputs(), n);
    let inputs = [links::mixed(10_000), requests(10_000), links::SEGMENTS.map(segmented).concat(), links::SIZES.map(sized).concat()].concat();
    for input in &inputs {
        agree(input, &STORED);
        agree(input, &SEGMENTS);
    }
    println!("read: the numbers, the places, the spans and the segments agree");
    compare("mixed links", &[10_000], links::mixed, &CALLS);
    compare("requests", &[10_000], requests, &CALLS);
    compare("segments", &links::SEGMENTS, segmented, &CALLS);
    compare("bytes of a link", &links::SIZES, sized, &CALLS);
}
