// Measures the proved functions against plain Rust, after a comparison of their answers. Arguments: the names of the parts to measure (none: all).
use compare::reader::{Span, MAX_INPUT, MAX_TEXTS};
use compare::refusal::Refusal;
use std::hint::black_box;
use std::time::Instant;

// Moves the functions that are linked after it by PAD bytes: the time of short inputs depends on where a loop stands.
std::arch::global_asm!(concat!(".text\n.p2align 6\n.globl placement\nplacement: .skip ", env!("PAD"), "\nret"));

extern "C" {
    fn placement();
}

mod address;
mod escape;
mod items;
mod links;
mod options;
mod print;
mod read;
mod resolve;
mod utf8;
mod write;

// A generator with a fixed seed.
pub struct Random(u64);

impl Random {
    pub fn new() -> Random {
        Random(88172645463325252)
    }

    pub fn next(&mut self) -> u64 {
        self.0 ^= self.0 << 13;
        self.0 ^= self.0 >> 7;
        self.0 ^= self.0 << 17;
        self.0
    }

    pub fn below(&mut self, n: usize) -> usize {
        (self.next() % n as u64) as usize
    }
}

// The room that the writing calls are lent.
pub fn room() -> &'static mut [u8] {
    static mut ROOM: [u8; MAX_INPUT] = [0; MAX_INPUT];
    unsafe { (&raw mut ROOM).as_mut().unwrap() }
}

// The array that the reading calls are lent for the starts and lengths of texts.
pub fn spans() -> &'static mut [Span; MAX_TEXTS] {
    static mut SPANS: [Span; MAX_TEXTS] = [Span { start: 0, length: 0 }; MAX_TEXTS];
    unsafe { (&raw mut SPANS).as_mut().unwrap() }
}

// An answer as one number: 256 times the length written; or a refusal's number and 256 times its place.
pub fn packed(answer: Result<usize, Refusal>) -> u64 {
    match answer {
        Ok(length) => 256 * length as u64,
        Err(refusal) => refusal.number() as u64 + 256 * refusal.place as u64,
    }
}

// How many calls a turn makes, at least.
const CALLS: usize = 4096;

// How many inputs there are of each size, the variable INPUTS. So many as are called in a turn are more than the processor learns the way through.
pub fn inputs() -> usize {
    match std::env::var("INPUTS") {
        Ok(n) => n.parse().ok().filter(|n| (1..=CALLS).contains(n)).expect("INPUTS is a number from 1 to 4096"),
        Err(_) => CALLS,
    }
}

pub type Call<I, O> = (&'static str, fn(&I) -> O);

// Ends the program where two calls differ on an input.
pub fn agree<I: std::fmt::Debug, O: PartialEq + std::fmt::Debug>(input: &I, calls: &[Call<I, O>]) {
    let first = calls[0].1(input);
    for (name, call) in &calls[1..] {
        let other = call(input);
        if other != first {
            eprintln!("{}: {:?}, {}: {:?}, on {:02x?}", calls[0].0, first, name, other, input);
            std::process::exit(1);
        }
    }
}

// A table: for each size the least time of each call, in ns, over all inputs of that size, and the first's ratio to the fastest other. The calls take turns.
pub fn compare<I, O>(name: &str, sizes: &[usize], inputs: impl Fn(usize) -> Vec<I>, calls: &[Call<I, O>]) {
    print!("{name:<16}");
    for (call, _) in calls {
        print!("{call:>10}");
    }
    println!("{:>8}", "ratio");
    for &size in sizes {
        let inputs = inputs(size);
        let calls_made = CALLS.max(inputs.len());
        let mut best = vec![f64::MAX; calls.len()];
        for _ in 0..100 {
            for (best, (_, call)) in best.iter_mut().zip(calls) {
                let call = black_box(*call);
                let start = Instant::now();
                for input in inputs.iter().cycle().take(calls_made) {
                    black_box(call(input));
                }
                let each = start.elapsed().as_secs_f64() * 1e9 / calls_made as f64;
                *best = best.min(each);
            }
        }
        print!("{size:>16}");
        for time in &best {
            print!("{time:>10.2}");
        }
        let rust = best[1..].iter().copied().fold(f64::MAX, f64::min);
        println!("{:>8.2}", best[0] / rust);
    }
}

fn main() {
    black_box(placement as *const ());
    let names: Vec<String> = std::env::args().skip(1).collect();
    let parts: [(&str, fn()); 9] = [
        ("utf8", utf8::measure),
        ("items", items::measure),
        ("escape", escape::measure),
        ("address", address::measure),
        ("read", read::measure),
        ("write", write::measure),
        ("resolve", resolve::measure),
        ("print", print::measure),
        ("options", options::measure),
    ];
    for (name, measure) in parts {
        if names.is_empty() || names.iter().any(|n| n == name) {
            measure();
        }
    }
}
