// The options of requests.
use crate::links::{SEGMENTS, SIZES};
use crate::{agree, compare, links, packed, Call, Random};
use compare::options::{options, ENOUGH};
use compare::reader::{self, Authority, Host, Opening, Scheme};

extern "C" {
    fn bench_options(s: *const u8, length: usize, address: *const u8, address_length: usize, port: u16, room: *mut u8, size: usize) -> u64;
}

// A link, and the address and the port that the request is sent to.
type Input = (Vec<u8>, Vec<u8>, u16);

// The room for the options of every link.
fn options_room() -> &'static mut [u8; ENOUGH] {
    static mut ROOM: [u8; ENOUGH] = [0; ENOUGH];
    unsafe { (&raw mut ROOM).as_mut().unwrap() }
}

fn rattle((s, address, port): &Input) -> u64 {
    unsafe { bench_options(s.as_ptr(), s.len(), address.as_ptr(), address.len(), *port, options_room().as_mut_ptr(), ENOUGH) }
}

fn rust((s, address, port): &Input) -> u64 {
    packed(options(s, address, *port, options_room()))
}

const CALLS: [Call<Input, u64>; 2] = [("rattle", rattle), ("rust", rust)];

// The answer, and the whole room.
fn written(call: fn(&Input) -> u64, input: &Input) -> (u64, Vec<u8>) {
    options_room().fill(0xa5);
    (call(input), options_room().to_vec())
}

const WRITTEN: [Call<Input, (u64, Vec<u8>)>; 2] = [("rattle", |input| written(rattle, input)), ("rust", |input| written(rust, input))];

// The address and the port of a link; where it has no address, a fixed one, and where it has no port, the default of the schemes that links have as numbers.
fn own(s: &[u8]) -> (Vec<u8>, u16) {
    let (scheme, authority) = match reader::read(s) {
        Ok(reader::Reference { opening: Opening::Authority(scheme, authority), .. }) => (scheme, Some(authority)),
        _ => (Scheme::None, None),
    };
    let address = match &authority {
        Some(Authority { host: Host::Address(address), .. }) => address.to_vec(),
        _ => vec![198, 51, 100, 1],
    };
    let default = if matches!(scheme, Scheme::Number(1 | 7)) { 5684 } else { 5683 };
    (address, authority.and_then(|a| a.port).unwrap_or(default))
}

// Sent to the link's own address and port, so that neither is written.
fn near(links: Vec<Vec<u8>>) -> Vec<Input> {
    links
        .into_iter()
        .map(|s| {
            let (address, port) = own(&s);
            (s, address, port)
        })
        .collect()
}

// Sent to another address of the same length and to another port, so that both are written.
fn far(links: Vec<Vec<u8>>) -> Vec<Input> {
    near(links)
        .into_iter()
        .map(|(s, mut address, port)| {
            *address.last_mut().unwrap() ^= 1;
            (s, address, port ^ 1)
        })
        .collect()
}

// A third sent to the link's own address and port, a third to another address, a third to another address and port.
fn varied(links: Vec<Vec<u8>>) -> Vec<Input> {
    let mut random = Random::new();
    let near = near(links.clone());
    let far = far(links);
    near.into_iter()
        .zip(far)
        .map(|((s, address, port), (_, other_address, other_port))| match random.below(3) {
            0 => (s, address, port),
            1 => (s, other_address, port),
            _ => (s, other_address, other_port),
        })
        .collect()
}

fn mixed(n: usize) -> Vec<Input> {
    varied(links::mixed(n))
}

// Only requests that are not refused.
fn accepted(n: usize) -> Vec<Input> {
    mixed(3 * n).into_iter().filter(|input| rust(input) % 256 == 0).take(n).collect()
}

fn sized(size: usize) -> Vec<Vec<u8>> {
    vec![links::sized(size); 64]
}

pub fn measure() {
    const LABELS: [usize; 4] = [1, 2, 4, 8];
    let segmented = |n| links::segmented(crate::inputs(), n);
    let named = |n| links::named(crate::inputs(), n);
    for input in mixed(10_000).iter().chain(&accepted(4096)) {
        agree(input, &WRITTEN);
    }
    let made = [SIZES.map(sized).concat(), SEGMENTS.map(segmented).concat(), LABELS.map(named).concat()].concat();
    let links = [made, links::addressed(4096), links::mapped(4096)].concat();
    for input in near(links.clone()).iter().chain(&far(links)) {
        agree(input, &WRITTEN);
    }
    println!("options: numbers, lengths and rooms agree");
    compare("mixed links", &[10_000], mixed, &CALLS);
    compare("not refused", &[4096], accepted, &CALLS);
    compare("IPv6 links", &[4096], |n| far(links::addressed(n)), &CALLS);
    compare("labels", &LABELS, |n| far(named(n)), &CALLS);
    compare("segments", &SEGMENTS, |n| far(segmented(n)), &CALLS);
    compare("bytes of a link", &SIZES, |n| far(sized(n)), &CALLS);
}
