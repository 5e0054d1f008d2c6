// References resolved against a base.
use crate::links::{SEGMENTS, SIZES};
use crate::{agree, compare, links, packed, room, Call};
use compare::resolver;

extern "C" {
    fn bench_resolve(base: *const u8, base_length: usize, reference: *const u8, reference_length: usize, room: *mut u8, size: usize) -> u64;
}

// The base and the reference.
pub type Input = (Vec<u8>, Vec<u8>);

pub fn rattle((base, reference): &Input) -> u64 {
    let room = room();
    unsafe { bench_resolve(base.as_ptr(), base.len(), reference.as_ptr(), reference.len(), room.as_mut_ptr(), room.len()) }
}

pub fn rust((base, reference): &Input) -> u64 {
    packed(resolver::resolve(base, reference, room()))
}

const CALLS: [Call<Input, u64>; 2] = [("rattle", rattle), ("rust", rust)];

// The answer, and the whole room.
fn written(call: fn(&Input) -> u64, pair: &Input) -> (u64, Vec<u8>) {
    room().fill(0xa5);
    (call(pair), room().to_vec())
}

const WRITTEN: [Call<Input, (u64, Vec<u8>)>; 2] = [("rattle", |pair| written(rattle, pair)), ("rust", |pair| written(rust, pair))];

// With a reference that drops the last segment and appends one.
fn with_reference(bases: Vec<Vec<u8>>) -> Vec<Input> {
    bases.into_iter().map(|base| (base, b"\x82\x01\x81\x67segment".to_vec())).collect()
}

// A base of so many bytes.
fn sized(size: usize) -> Vec<Input> {
    with_reference(vec![links::sized(size); 64])
}

// Bases of so many segments.
fn segmented(segments: usize) -> Vec<Input> {
    with_reference(links::segmented(crate::inputs(), segments))
}

pub fn measure() {
    for pair in links::pairs(10_000).iter().chain(&SIZES.map(sized).concat()).chain(&SEGMENTS.map(segmented).concat()) {
        agree(pair, &WRITTEN);
    }
    println!("resolve: numbers, lengths and rooms agree");
    compare("mixed pairs", &[10_000], links::pairs, &CALLS);
    compare("segments of a base", &SEGMENTS, segmented, &CALLS);
    compare("bytes of a base", &SIZES, sized, &CALLS);
}
