// The text of an IPv6 address (RFC 5952).
use crate::{Call, compare, inputs, Random, room};
use std::net::Ipv6Addr;

extern "C" {
    fn bench_put_ipv6(room: *mut u8, room_length: usize, src: *const u8, length: usize) -> usize;
}

type Input = [u8; 16];

fn rattle(address: &Input) -> usize {
    let room = room();
    unsafe { bench_put_ipv6(room.as_mut_ptr(), room.len(), address.as_ptr(), 16) }
}

static DIGITS: &[u8; 16] = b"0123456789abcdef";

fn put_group(room: &mut [u8], at: usize, g: u16) -> usize {
    let mut o = at;
    for shift in [12, 8, 4] {
        if g >> shift != 0 {
            room[o] = DIGITS[(g >> shift & 15) as usize];
            o += 1;
        }
    }
    room[o] = DIGITS[(g & 15) as usize];
    o + 1
}

fn put_groups(room: &mut [u8], at: usize, groups: &[u16]) -> usize {
    let mut o = at;
    for (k, &g) in groups.iter().enumerate() {
        if 0 < k {
            room[o] = b':';
            o += 1;
        }
        o = put_group(room, o, g);
    }
    o
}

fn put_octets(room: &mut [u8], at: usize, octets: &[u8]) -> usize {
    let mut o = at;
    for (k, &b) in octets.iter().enumerate() {
        if 0 < k {
            room[o] = b'.';
            o += 1;
        }
        for power in [100, 10] {
            if power <= b {
                room[o] = b'0' + b / power % 10;
                o += 1;
            }
        }
        room[o] = b'0' + b % 10;
        o += 1;
    }
    o
}

#[inline(never)]
fn text(room: &mut [u8], address: &[u8; 16]) -> usize {
    let mut groups = [0; 8];
    for (g, b) in groups.iter_mut().zip(address.chunks_exact(2)) {
        *g = u16::from_be_bytes([b[0], b[1]]);
    }
    let (mut here, mut at, mut size) = (0, 8, 0);
    for k in (0..8).rev() {
        here = if groups[k] == 0 { here + 1 } else { 0 };
        if size <= here {
            (at, size) = (k, here);
        }
    }
    if size < 2 {
        return put_groups(room, 0, &groups);
    }
    if (at, size) == (0, 5) && groups[5] == 0xffff {
        room[..7].copy_from_slice(b"::ffff:");
        return put_octets(room, 7, &address[12..]);
    }
    let o = put_groups(room, 0, &groups[..at]);
    room[o..o + 2].copy_from_slice(b"::");
    put_groups(room, o + 2, &groups[at + size..])
}

fn rust(address: &Input) -> usize {
    text(room(), address)
}

// The standard library's.
fn library(address: &Input) -> usize {
    use std::io::Write;
    let all = room().len();
    let mut left: &mut [u8] = room();
    write!(left, "{}", Ipv6Addr::from(*address)).unwrap();
    all - left.len()
}

const CALLS: [Call<Input, usize>; 3] = [("rattle", rattle), ("rust", rust), ("std", library)];

fn address(random: &mut Random, zeros: usize) -> Input {
    let mut a = [0; 16];
    for k in 0..8 {
        if zeros <= random.below(100) {
            let g = (random.next() as u16) >> (4 * random.below(4));
            a[2 * k..2 * k + 2].copy_from_slice(&g.to_be_bytes());
        }
    }
    a
}

// An IPv4-mapped address.
pub fn mapped(random: &mut Random) -> Input {
    let mut a = [0; 16];
    a[10..12].fill(0xff);
    a[12..].copy_from_slice(&(random.next() as u32).to_be_bytes());
    a
}

// A mapped address, one with each octet 0 to 255 in each place, and all that are one bit off it in the first 12 bytes.
fn around_mapped(random: &mut Random) -> Vec<Input> {
    let mapped = mapped(random);
    let mut addresses = vec![mapped];
    for place in 12..16 {
        for octet in 0..=255 {
            let mut a = mapped;
            a[place] = octet;
            addresses.push(a);
        }
    }
    for bit in 0..96 {
        let mut a = mapped;
        a[bit / 8] ^= 1 << (bit % 8);
        addresses.push(a);
    }
    addresses
}

// The texts on every pattern of zero groups, on random addresses and around mapped ones.
fn check() {
    let mut random = Random::new();
    let pattern = |zeros: u32, other: u8| {
        let byte = |i: usize| if zeros >> (i / 2) & 1 == 1 { 0 } else { other | (i as u8 + 1) };
        std::array::from_fn(byte)
    };
    let mut addresses: Vec<Input> = (0..256).flat_map(|zeros| [pattern(zeros, 0), pattern(zeros, 0xff)]).collect();
    addresses.extend((0..200_000).map(|k| address(&mut random, k % 100)));
    addresses.extend((0..100).flat_map(|_| around_mapped(&mut random)));
    for a in addresses {
        let texts = CALLS.map(|(_, call)| {
            room().fill(0);
            let n = call(&a);
            String::from_utf8(room()[..n].to_vec()).unwrap()
        });
        assert!(texts[0] == texts[1] && texts[0] == texts[2], "different texts: {texts:?}");
    }
}

pub fn measure() {
    check();
    println!("address: the texts agree");
    let rows: [(&str, fn(&mut Random) -> Input); 4] = [
        ("no zeros", |random| address(random, 0)),
        ("some zeros", |random| address(random, 40)),
        ("many zeros", |random| address(random, 80)),
        ("mapped", mapped),
    ];
    for (name, address) in rows {
        let made = |_: usize| {
            let mut random = Random::new();
            (0..inputs()).map(|_| address(&mut random)).collect::<Vec<Input>>()
        };
        compare(name, &[16], made, &CALLS);
    }
}
