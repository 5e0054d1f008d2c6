// Links read, and written again from the components that reading reports.
use crate::links::SIZES;
use crate::{agree, compare, links, room, spans, Call};
use compare::reader::{self, Reference};
use compare::refusal::Refusal;
use compare::writer::{self, Components, Span};

extern "C" {
    fn bench_rewrite(s: *const u8, length: usize, spans: *mut usize, room: *mut u8, size: usize) -> usize;
}

type Input = Vec<u8>;

fn rattle(s: &Input) -> usize {
    let room = room();
    unsafe { bench_rewrite(s.as_ptr(), s.len(), spans().as_mut_ptr().cast(), room.as_mut_ptr(), room.len()) }
}

// Where a part of the input stands in it.
fn span(input: &[u8], part: &[u8]) -> Span {
    Span { start: part.as_ptr() as usize - input.as_ptr() as usize, length: part.len() }
}

// Writes what was read. The spans are those of the labels, of the segments and of the parameters, one after the other.
fn write(reference: &Reference, spans: &[Span], input: &[u8], room: &mut [u8]) -> Result<usize, Refusal> {
    let mut rest = spans;
    let mut next = |texts: reader::Texts| {
        let (first, others) = rest.split_at(texts.len());
        rest = others;
        first
    };
    let opening = match reference.opening {
        reader::Opening::Discard(reader::Discard::All) => writer::Opening::Discard(writer::Discard::All),
        reader::Opening::Discard(reader::Discard::Last(n)) => writer::Opening::Discard(writer::Discard::Last(n as u64)),
        reader::Opening::Authority(scheme, authority) => {
            let scheme = match scheme {
                reader::Scheme::None => writer::Scheme::None,
                reader::Scheme::Number(n) => writer::Scheme::Number(n as u64),
                reader::Scheme::Text(text) => writer::Scheme::Text(span(input, text.as_bytes())),
            };
            let host = match authority.host {
                reader::Host::Address(address) => writer::Host::Address(span(input, address)),
                reader::Host::Labels(labels) => writer::Host::Labels(next(labels)),
            };
            writer::Opening::Authority(scheme, Some(writer::Authority { host, port: authority.port.map(u64::from) }))
        }
    };
    let components = Components {
        opening,
        path: reference.path.map(&mut next),
        query: reference.query.map(&mut next),
        fragment: reference.fragment.map(|f| span(input, f.as_bytes())),
    };
    writer::write(&components, input, room)
}

fn rust(s: &Input) -> usize {
    reader::read_spans(s, spans()).ok().and_then(|reference| write(&reference, spans(), s, room()).ok()).unwrap_or(0)
}

const CALLS: [Call<Input, usize>; 2] = [("rattle", rattle), ("rust", rust)];

// What is written: the input again, or nothing.
fn written(call: fn(&Input) -> usize, s: &Input) -> Vec<u8> {
    room().fill(0);
    room()[..call(s)].to_vec()
}

const WRITTEN: [Call<Input, Vec<u8>>; 2] = [("rattle", |s| written(rattle, s)), ("rust", |s| written(rust, s))];

pub fn measure() {
    let sized = |size: usize| vec![links::sized(size); 64];
    for input in links::mixed(10_000).iter().chain(&SIZES.map(sized).concat()) {
        agree(input, &WRITTEN);
    }
    println!("write: what is written agrees");
    compare("mixed links", &[10_000], links::mixed, &CALLS);
    compare("bytes of a link", &SIZES, sized, &CALLS);
}
