//! URI text: the table of the rules, every byte in every place, addresses, the refusals in their order, the bound, and that two
//! references have one text exactly where they are the same.

mod encode;
#[path = "encode/not_absolute.rs"]
mod not_absolute;
mod told;

use compare::generate::Generator;
use compare::reader::{read, Host, Scheme, Texts};
use compare::reader::{MAX_INPUT, MAX_LABELS, MAX_PARAMETERS, MAX_SEGMENTS, MAX_TEXTS};
use compare::resolver::resolve;
use compare::uri_text::{longest, uri_text};
use encode::{array, bytes, filling, head, text_of};
use not_absolute::NOT_ABSOLUTE;
use std::collections::{BTreeMap, BTreeSet};
use std::net::{Ipv4Addr, Ipv6Addr};
use told::told;

/// The text, or the number and the place, with room enough.
fn printed(input: &[u8]) -> Result<String, (u8, usize)> {
    let mut room = vec![7; longest(input.len())];
    let length = uri_text(input, &mut room).map_err(told)?;
    room.truncate(length);
    Ok(String::from_utf8(room).expect("a text is ASCII"))
}

#[track_caller]
fn prints(hex: &str, text: &str) {
    assert_eq!(printed(&bytes(hex)), Ok(text.to_string()), "{hex}");
}

/// The base of the table.
const BASE: &str = "83 20 82 44 C6336401 19F0B0 82 6B 2E77656C6C2D6B6E6F776E 64 636F7265";

#[test]
fn table() {
    prints(BASE, "coap://198.51.100.1:61616/.well-known/core");
    for (reference, text) in [
        ("80", "coap://198.51.100.1:61616/.well-known/core"),
        ("82 00 80", "coap://198.51.100.1:61616/.well-known/core"),
        (
            "82 00 81 61 61",
            "coap://198.51.100.1:61616/.well-known/core/a",
        ),
        ("82 01 81 61 61", "coap://198.51.100.1:61616/.well-known/a"),
        ("81 18 7F", "coap://198.51.100.1:61616/"),
        ("82 02 81 60", "coap://198.51.100.1:61616/"),
        (
            "83 00 F6 81 60",
            "coap://198.51.100.1:61616/.well-known/core?",
        ),
        ("82 01 81 60", "coap://198.51.100.1:61616/.well-known/"),
    ] {
        resolved_prints(BASE, reference, text);
    }
    let full = "85 20 81 61 68 81 61 70 81 61 71 61 66";
    prints(full, "coap://h/p?q#f");
    resolved_prints(full, "80", "coap://h/p?q");
    resolved_prints(full, "82 00 80", "coap://h/p");
}

#[track_caller]
fn resolved_prints(base: &str, reference: &str, text: &str) {
    let mut room = [0; MAX_INPUT];
    let length = resolve(&bytes(base), &bytes(reference), &mut room);
    let resolved = &room[..length.expect("it resolves")];
    assert_eq!(printed(resolved), Ok(text.to_string()), "{reference}");
}

#[test]
fn schemes() {
    prints("82 20 81 61 68", "coap://h/");
    prints("82 21 81 61 68", "coaps://h/");
    prints("82 26 81 61 68", "coap+tcp://h/");
    prints("82 27 81 61 68", "coaps+tcp://h/");
    prints("82 28 81 61 68", "coap+ws://h/");
    prints("82 29 81 61 68", "coaps+ws://h/");
    prints("82 61 61 81 61 68", "a://h/");
    prints("82 67 612E622D632B39 81 61 68", "a.b-c+9://h/");
    prints(
        "82 70 6162636465666768696A6B6C6D6E6F70 81 61 68",
        "abcdefghijklmnop://h/",
    );
}

#[test]
fn labels_and_ports() {
    prints("82 20 82 61 68 61 69", "coap://h.i/");
    prints("82 20 83 61 31 61 32 61 33", "coap://1.2.3/");
    prints("82 20 84 61 31 61 32 61 33 62 3034", "coap://1.2.3.04/");
    for (port, text) in [
        (0, "0"),
        (9, "9"),
        (10, "10"),
        (99, "99"),
        (100, "100"),
        (999, "999"),
        (1000, "1000"),
        (5683, "5683"),
        (5684, "5684"),
        (9999, "9999"),
        (10_000, "10000"),
        (65_535, "65535"),
    ] {
        let named = [bytes("82 20 82 61 68"), head(0, port)].concat();
        assert_eq!(printed(&named), Ok(format!("coap://h:{text}/")));
        let address = [bytes("82 20 82 44 01020304"), head(0, port)].concat();
        assert_eq!(printed(&address), Ok(format!("coap://1.2.3.4:{text}/")));
    }
    // Every number, as the library prints it.
    for port in 0..=65_535 {
        let input = [bytes("82 20 82 61 68"), head(0, port)].concat();
        assert_eq!(printed(&input), Ok(format!("coap://h:{port}/")));
    }
}

#[test]
fn paths_queries_fragments() {
    let prints = |rest: &str, count: u8, text: &str| {
        let hex = format!("{:02X} 20 81 61 68 {rest}", 0x82 + count);
        prints(&hex, &format!("coap://h{text}"));
    };
    prints("80", 1, "/");
    prints("81 60", 1, "/");
    prints("82 60 60", 1, "//");
    prints("82 60 61 61", 1, "//a");
    prints("82 61 61 60", 1, "/a/");
    prints("83 61 61 60 61 62", 1, "/a//b");
    prints("F6 81 60", 2, "/?");
    prints("80 81 60", 2, "/?");
    prints("81 60 81 60", 2, "/?");
    prints("81 61 61 82 60 60", 2, "/a?&");
    prints("81 61 61 82 61 62 63 633D64", 2, "/a?b&c=d");
    prints("F6 F6 60", 3, "/#");
    prints("F6 F6 61 66", 3, "/#f");
    prints("F6 81 60 60", 3, "/?#");
    prints("81 60 81 61 71 61 66", 3, "/?q#f");
}

/// What stands bare in the four places: labels, segments, parameters, fragments.
const LETTERS_AND_DIGITS: &str = "ABCDEFGHIJKLMNOPQRSTUVWXYZabcdefghijklmnopqrstuvwxyz0123456789";
const BARE: [&str; 4] = [
    "-._~!$&'()*+,;=",
    "-._~!$&'()*+,;=:@",
    "-._~!$'()*+,;=:@/?",
    "-._~!$&'()*+,;=:@/?",
];

/// An absolute reference that has a text in one of these places, and what its text is before and after that one's.
fn with_text(place: usize, text: &[u8]) -> (Vec<u8>, [&'static str; 2]) {
    let text = text_of(text);
    let of = |before: &str| [bytes(before), text.clone()].concat();
    match place {
        0 => (of("82 20 81"), ["coap://", "/"]),
        // A further segment, so that an empty text is printed too.
        1 => (of("83 20 81 61 68 82 61 61"), ["coap://h/a/", ""]),
        2 => (of("84 20 81 61 68 F6 81"), ["coap://h/?", ""]),
        _ => (of("85 20 81 61 68 F6 F6"), ["coap://h/#", ""]),
    }
}

/// Where that text begins.
const BEGINS: [usize; 4] = [3, 8, 7, 7];

/// The text by the rules, byte by byte.
fn escaped(place: usize, text: &[u8]) -> String {
    text.iter()
        .map(|&byte| {
            let character = char::from(byte);
            let bare = LETTERS_AND_DIGITS.contains(character) || BARE[place].contains(character);
            if bare && byte.is_ascii() {
                character.to_string()
            } else {
                format!("%{byte:02X}")
            }
        })
        .collect()
}

#[test]
fn every_byte_in_every_place() {
    let mut characters: BTreeMap<u8, String> = BTreeMap::new();
    let planes = [0x10000..0x110_000, 0..0xD800, 0xE000..0x10000];
    for character in planes.into_iter().flatten().step_by(61).chain(0..0x800) {
        let character = char::from_u32(character).expect("no surrogate").to_string();
        for byte in character.bytes() {
            characters.insert(byte, character.clone());
        }
    }
    for (place, begin) in BEGINS.into_iter().enumerate() {
        for byte in 0..=255 {
            let text = match characters.get(&byte) {
                Some(character) => character.as_bytes(),
                None => &[byte],
            };
            let (input, [before, after]) = with_text(place, text);
            let utf8 = !matches!(byte, 0xC0 | 0xC1 | 0xF5..=0xFF);
            let rule = match place {
                0 => matches!(byte, b'.' | b'A'..=b'Z' | b'[' | b']'),
                1 => byte == b'.',
                _ => false,
            };
            let expected = match (utf8, rule) {
                (false, _) => Err((5, begin)),
                (true, true) => Err((6, begin)),
                (true, false) => Ok(format!("{before}{}{after}", escaped(place, text))),
            };
            assert_eq!(printed(&input), expected, "{byte:02x}, place {place}");
        }
    }
}

#[test]
fn texts_of_all_lengths() {
    // Bare ones, escaped ones, and both by turns.
    for pattern in [&b"a"[..], b" ", b"a ", b"aaa a", b"\xC3\xA9", b"/?:@&"] {
        for place in 0..4 {
            for length in 1..=63 {
                let mut text: Vec<u8> = pattern.iter().copied().cycle().take(length).collect();
                if text.last() == Some(&0xC3) {
                    text.pop();
                    text.push(b'-');
                }
                let (input, [before, after]) = with_text(place, &text);
                let expected = format!("{before}{}{after}", escaped(place, &text));
                assert_eq!(printed(&input), Ok(expected));
            }
        }
    }
    let whole = (0..=0x7F).collect::<Vec<u8>>();
    for place in 1..4 {
        let (input, [before, after]) = with_text(place, &whole);
        let expected = format!("{before}{}{after}", escaped(place, &whole));
        assert_eq!(printed(&input), Ok(expected));
    }
    let (input, _) = with_text(1, b"");
    assert_eq!(printed(&input), Ok("coap://h/a/".to_string()));
}

#[test]
fn ipv4() {
    for octet in 0..=255 {
        for place in 0..4 {
            let mut address = [7; 4];
            address[place] = octet;
            let input = [bytes("82 20 81 44"), address.to_vec()].concat();
            let expected = format!("coap://{}/", Ipv4Addr::from(address));
            assert_eq!(printed(&input), Ok(expected));
        }
    }
    prints("82 20 81 44 00090A63", "coap://0.9.10.99/");
    prints("82 20 81 44 64C7FFFF", "coap://100.199.255.255/");
}

fn printed_ipv6(address: impl Into<Ipv6Addr>) -> String {
    let address = address.into().octets();
    let text = printed(&[&bytes("82 20 81 50"), &address[..]].concat()).expect("an address");
    let host = text.strip_prefix("coap://[");
    let host = host.and_then(|text| text.strip_suffix("]/"));
    host.expect("brackets").to_string()
}

#[test]
fn ipv6() {
    for (groups, text) in [
        ([0x2001, 0xDB8, 0, 0, 1, 0, 0, 1], "2001:db8::1:0:0:1"),
        ([0; 8], "::"),
        ([0, 0, 0, 0, 0, 0, 0, 1], "::1"),
        ([1, 0, 0, 0, 0, 0, 0, 0], "1::"),
        ([1, 0, 0, 2, 0, 0, 0, 3], "1:0:0:2::3"),
        ([1, 0, 2, 3, 4, 5, 6, 7], "1:0:2:3:4:5:6:7"),
        ([0, 1, 2, 3, 4, 5, 6, 0], "0:1:2:3:4:5:6:0"),
        ([0, 0, 1, 2, 3, 4, 5, 6], "::1:2:3:4:5:6"),
        ([1, 2, 3, 4, 5, 6, 0, 0], "1:2:3:4:5:6::"),
        ([0, 0, 1, 0, 0, 0, 1, 0], "0:0:1::1:0"),
        ([0, 0, 1, 0, 0, 1, 0, 0], "::1:0:0:1:0:0"),
        ([0, 1, 0, 1, 0, 1, 0, 1], "0:1:0:1:0:1:0:1"),
        ([0, 1, 0, 0, 1, 0, 0, 1], "0:1::1:0:0:1"),
        ([1, 2, 3, 4, 0, 0, 0, 0], "1:2:3:4::"),
        (
            [0xFFFF, 0xFFF, 0xFF, 0xF, 0x1000, 0x100, 0x10, 0x1],
            "ffff:fff:ff:f:1000:100:10:1",
        ),
        (
            [
                0xABCD, 0xEF01, 0x2345, 0x6789, 0xABCD, 0xEF01, 0x2345, 0x6789,
            ],
            "abcd:ef01:2345:6789:abcd:ef01:2345:6789",
        ),
        // IPv4-mapped.
        ([0, 0, 0, 0, 0, 0xFFFF, 0xC000, 0x201], "::ffff:192.0.2.1"),
        ([0, 0, 0, 0, 0, 0xFFFF, 0, 0], "::ffff:0.0.0.0"),
        ([0, 0, 0, 0, 0, 0xFFFF, 0xA64, 0xFF], "::ffff:10.100.0.255"),
        // No other one is dotted.
        ([0, 0, 0, 0, 0, 0xFFFE, 0xC000, 0x201], "::fffe:c000:201"),
        ([0, 0, 0, 0, 0, 0xFEFF, 0xC000, 0x201], "::feff:c000:201"),
        ([0, 0, 0, 0, 0, 0x7FFF, 0xC000, 0x201], "::7fff:c000:201"),
        ([0, 0, 0, 0, 0, 0xFF, 0xC000, 0x201], "::ff:c000:201"),
        ([0, 0, 0, 0, 0, 0, 0xC000, 0x201], "::c000:201"),
        ([0, 0, 0, 0, 1, 0xFFFF, 0xC000, 0x201], "::1:ffff:c000:201"),
        (
            [0x8000, 0, 0, 0, 0, 0xFFFF, 0xC000, 0x201],
            "8000::ffff:c000:201",
        ),
        ([0, 0, 0, 0, 0xFFFF, 0, 0xC000, 0x201], "::ffff:0:c000:201"),
        (
            [0x64, 0xFF9B, 0, 0, 0, 0, 0xC000, 0x201],
            "64:ff9b::c000:201",
        ),
    ] {
        assert_eq!(printed_ipv6(groups), text);
        assert_eq!(Ipv6Addr::from(groups).to_string(), text);
    }
}

/// Every choice of zero groups, as the library prints it.
#[test]
fn zero_groups() {
    for zeros in 0..256 {
        for other in [1, 0xF0, 0xABC, 0x1234, 0xFFFF] {
            let groups: [u16; 8] =
                std::array::from_fn(|place| if zeros >> place & 1 == 1 { 0 } else { other });
            let expected = Ipv6Addr::from(groups).to_string();
            assert_eq!(printed_ipv6(groups), expected);
        }
    }
}

/// Every octet of a mapped address, as the library prints it in an address of 4 bytes.
#[test]
fn mapped_octets() {
    for octet in 0..=255 {
        for place in 0..4 {
            for other in [0, 7, 10, 255] {
                let mut address = [other; 4];
                address[place] = octet;
                let address = Ipv4Addr::from(address);
                let text = printed_ipv6(address.to_ipv6_mapped());
                assert_eq!(text, format!("::ffff:{address}"));
            }
        }
    }
    let mapped = "50 00000000000000000000FFFF C0000201";
    prints(
        &format!("82 21 82 {mapped} 19F0B0"),
        "coaps://[::ffff:192.0.2.1]:61616/",
    );
}

/// An address is mapped by all of its first twelve bytes: with any one bit of them changed it is in hex groups.
#[test]
fn one_bit_off_a_mapped_address() {
    for last in [[192, 0, 2, 1], [10, 100, 0, 255], [0; 4], [255; 4]] {
        let mapped = Ipv4Addr::from(last).to_ipv6_mapped();
        assert!(printed_ipv6(mapped).contains('.'));
        for bit in 32..128 {
            let address = Ipv6Addr::from(u128::from(mapped) ^ 1 << bit);
            let text = printed_ipv6(address);
            assert!(!text.contains('.'), "{text}");
            assert_eq!(text, address.to_string());
        }
    }
}

#[test]
fn every_group() {
    for group in 0..=u16::MAX {
        let text = printed_ipv6([group, 1, 1, 1, 1, 1, 1, group]);
        assert_eq!(text, format!("{group:x}:1:1:1:1:1:1:{group:x}"));
        let expected = match group {
            0 => "::c000:201".to_string(),
            0xFFFF => "::ffff:192.0.2.1".to_string(),
            _ => format!("::{group:x}:c000:201"),
        };
        let text = printed_ipv6([0, 0, 0, 0, 0, group, 0xC000, 0x201]);
        assert_eq!(text, expected);
    }
}

#[test]
fn refusals_in_their_order() {
    let in_no_room = |input: &[u8]| uri_text(input, &mut []).map_err(told);
    for &(hex, number, place) in NOT_ABSOLUTE {
        assert_eq!(printed(&bytes(hex)), Err((number, place)), "{hex}");
        assert_eq!(in_no_room(&bytes(hex)), Err((number, place)), "{hex}");
    }
    assert_eq!(in_no_room(&[0x80; MAX_INPUT + 1]), Err((4, MAX_INPUT)));
    assert_eq!(in_no_room(&bytes("82 20 81 61 68")), Err((10, 0)));
}

#[test]
fn rooms() {
    let inputs = [
        bytes(BASE),
        bytes("82 20 81 61 68"),
        bytes("85 29 82 61 69 00 82 60 61 20 81 62 C3A9 60"),
        bytes("82 20 81 50 20010DB8000000000001000000000001"),
        bytes("82 20 81 50 00000000000000000000FFFFC0000201"),
    ];
    for input in inputs {
        let text = printed(&input).expect("a text");
        for length in 0..text.len() + 3 {
            let mut room = vec![7; length + 2];
            let outcome = uri_text(&input, &mut room[..length]).map_err(told);
            let expected = if length < text.len() {
                Err((10, 0))
            } else {
                Ok(text.len())
            };
            assert_eq!(outcome, expected, "{length}");
            let written = outcome.unwrap_or(0);
            assert_eq!(room[..written], text.as_bytes()[..written]);
            assert!(room[written..].iter().all(|&byte| byte == 7), "{length}");
        }
    }
    for refused in ["80", "82 20", "82 20 81 61 68 00"] {
        let mut room = [7; 40];
        assert!(uri_text(&bytes(refused), &mut room).is_err());
        assert_eq!(room, [7; 40]);
    }
}

#[test]
fn the_longest_inputs() {
    // `coap://h` has 5 bytes, with the head of the outer array.
    let lengths = filling(MAX_INPUT - 5);
    let total: usize = lengths.iter().sum();
    let with = |lengths: &[usize], byte: u8| {
        let segments: Vec<_> = lengths
            .iter()
            .map(|&length| text_of(&vec![byte; length]))
            .collect();
        [bytes("83 20 81 61 68"), array(&segments)].concat()
    };
    assert_eq!(with(&lengths, b'a').len(), MAX_INPUT);
    let text = printed(&with(&lengths, b'a')).expect("a text");
    assert_eq!(text.len(), "coap://h".len() + lengths.len() + total);
    let text = printed(&with(&lengths, b' ')).expect("a text");
    assert_eq!(text.len(), "coap://h".len() + lengths.len() + 3 * total);
    let over = with(&filling(MAX_INPUT - 4), b' ');
    assert_eq!(printed(&over), Err((4, MAX_INPUT)));
}

/// The most texts of every sort, some of them escaped: each by itself, and the last ones.
#[test]
fn the_most_texts() {
    let list = |count: usize, escaped: &dyn Fn(usize) -> bool| -> Vec<&str> {
        (0..count)
            .map(|place| if escaped(place) { "a b" } else { "c-d" })
            .collect()
    };
    let check = |escaped: &dyn Fn(usize) -> bool| {
        let labels = list(MAX_LABELS, escaped);
        let path = list(MAX_SEGMENTS, &|place| escaped(place + MAX_LABELS));
        let query = list(MAX_PARAMETERS, &|place| {
            escaped(place + MAX_LABELS + MAX_SEGMENTS)
        });
        let encoded = |texts: &[&str]| {
            let items: Vec<_> = texts.iter().map(|text| text_of(text.as_bytes())).collect();
            array(&items)
        };
        let fragment = text_of(b"e f");
        let lists = [&labels, &path, &query].map(|texts| encoded(texts));
        let input = [&bytes("85 20"), lists.concat().as_slice(), &fragment].concat();
        let text = format!(
            "coap://{}/{}?{}#e f",
            labels.join("."),
            path.join("/"),
            query.join("&")
        );
        assert_eq!(printed(&input), Ok(text.replace(' ', "%20")));
    };
    for place in 0..MAX_TEXTS {
        check(&|other| other == place);
        check(&|other| other != place);
    }
    check(&|_| false);
    check(&|_| true);
    check(&|place| place % 2 == 0);
}

/// The bytes of the words of requests that are bytes.
fn generated(seed: u64) -> impl Iterator<Item = Vec<u8>> {
    Generator::new(seed).take(40_000).flat_map(|request| {
        let line = String::from_utf8_lossy(&request).into_owned();
        let call = line.split(' ').next().unwrap_or_default();
        let skip = match call {
            "text" | "resolve" => 2,
            "same" | "read" => 1,
            _ => usize::MAX,
        };
        let words = line.split(' ').skip(skip);
        let digits = |word: &&str| word.chars().all(|c| c.is_ascii_hexdigit());
        let even = |word: &&str| word.len().is_multiple_of(2);
        let inputs = words.filter(digits).filter(even).map(bytes);
        inputs.collect::<Vec<_>>()
    })
}

/// An encoding of n bytes has a text of at most 3n + 4: a scheme's number prints as up to 6 bytes more than three times its own, "://" and
/// "/" are 4, the heads of the array and of the authority print nothing, which is 6 less, and no other item has over three times its bytes.
#[test]
fn the_bound() {
    for (hex, text) in [
        ("82 27 81 44 FFFFFFFF", "coaps+tcp://255.255.255.255/"),
        ("82 27 82 44 64C7FFFF 17", "coaps+tcp://100.199.255.255:23/"),
    ] {
        prints(hex, text);
        assert_eq!(text.len(), 3 * bytes(hex).len() + 4);
    }
    // The longest and the shortest text of a mapped address.
    for (last, length) in [([255; 4], 24), ([0; 4], 16)] {
        let mapped = Ipv4Addr::from(last).to_ipv6_mapped().octets();
        let input = [&bytes("82 27 81 50"), &mapped[..]].concat();
        let text = printed(&input).expect("a text");
        assert_eq!(text.len(), "coaps+tcp:///".len() + length);
        assert!(text.len() <= longest(input.len()));
    }
    let mut closest = usize::MAX;
    let mut inputs = 0;
    for input in generated(2) {
        if let Ok(text) = printed(&input) {
            closest = closest.min(longest(input.len()) - text.len());
            inputs += 1;
        }
    }
    assert!(closest >= 9, "{closest}");
    assert!(closest <= 12, "{closest}");
    assert!(inputs > 10_000, "{inputs}");
    assert_eq!(longest(0), 13);
    assert_eq!(longest(MAX_INPUT), 3 * MAX_INPUT + 13);
}

/// The items of an absolute reference that section 8 compares.
#[derive(Clone, Debug, PartialEq, Eq, PartialOrd, Ord)]
struct Items {
    scheme: Result<u8, String>,
    host: Result<Vec<u8>, Vec<String>>,
    port: Option<u16>,
    path: Vec<String>,
    query: Option<Vec<String>>,
    fragment: Option<String>,
}

/// `None` where the input is refused or not absolute.
fn items(input: &[u8]) -> Option<Items> {
    let reference = read(input).ok()?;
    let (scheme, authority) = reference.absolute()?;
    let text = |text: &[u8]| String::from_utf8(text.to_vec()).expect("UTF-8");
    let owned = |texts: Texts| texts.iter().map(text).collect();
    let mut path: Vec<String> = reference.path.map(owned).unwrap_or_default();
    if path == [""] {
        path.clear();
    }
    Some(Items {
        scheme: match scheme {
            Scheme::Number(number) => Ok(number),
            Scheme::Text(name) => Err(name.to_string()),
            Scheme::None => return None,
        },
        host: match authority.host {
            Host::Address(address) => Ok(address.to_vec()),
            Host::Labels(labels) => Err(owned(labels)),
        },
        port: authority.port,
        path,
        query: reference.query.map(owned),
        fragment: reference.fragment.map(str::to_string),
    })
}

/// Checks that among all inputs items have one text, and a text one list of items; gives how many there are of these.
fn one_text_for_the_same(inputs: impl Iterator<Item = Vec<u8>>) -> usize {
    let mut texts = BTreeMap::new();
    let mut same = BTreeMap::new();
    for input in inputs {
        let (items, text) = match (items(&input), printed(&input)) {
            (Some(items), Ok(text)) => (items, text),
            (None, Err(_)) => continue,
            (items, text) => panic!("{input:02x?}: {items:?}, {text:?}"),
        };
        let known = texts.entry(items.clone()).or_insert_with(|| text.clone());
        assert_eq!(*known, text, "{input:02x?}");
        let known = same.entry(text).or_insert_with(|| items.clone());
        assert_eq!(*known, items, "{input:02x?}");
    }
    assert_eq!(texts.len(), same.len());
    texts.len()
}

#[test]
fn generated_references_have_one_text_where_they_are_the_same() {
    let inputs: Vec<_> = generated(3).collect();
    let absolute = inputs.iter().filter(|input| items(input).is_some());
    let absolute = absolute.collect::<BTreeSet<_>>().len();
    let texts = one_text_for_the_same(inputs.into_iter());
    assert!(texts > 5000 && texts < absolute, "{texts} of {absolute}");
}

/// The lists of one text and of two.
fn lists(all: &[&str]) -> Vec<Vec<u8>> {
    let texts: Vec<_> = all.iter().map(|text| text_of(text.as_bytes())).collect();
    let one = texts.iter().map(|text| array(std::slice::from_ref(text)));
    let two = texts
        .iter()
        .flat_map(|a| texts.iter().map(|b| array(&[a.clone(), b.clone()])));
    one.chain(two).collect()
}

const NULL: u8 = 0xF6;

/// All of what may be mixed up within a path, a query and a fragment.
#[test]
fn small_references_have_one_text_where_they_are_the_same() {
    let texts = ["", "a", "/", "a/a", "&", "a&a", "?", "%2F", "#a"];
    let mut paths = lists(&texts);
    paths.extend([vec![NULL], array(&[])]);
    let mut queries = lists(&texts);
    queries.push(vec![NULL]);
    let fragments = [None, Some(""), Some("a"), Some("#a")];
    let mut inputs = Vec::new();
    for path in &paths {
        for query in &queries {
            for fragment in fragments {
                let mut rest = vec![path.clone(), query.clone()];
                rest.extend(fragment.map(|text| text_of(text.as_bytes())));
                while rest.last() == Some(&vec![NULL]) {
                    rest.pop();
                }
                let mut items = vec![bytes("20"), bytes("81 61 68")];
                items.extend(rest);
                inputs.push(array(&items));
            }
        }
    }
    let count = inputs.len();
    // Each of three paths is no path: two more than need be, for every query and fragment.
    let expected = count - 2 * queries.len() * fragments.len();
    assert_eq!(one_text_for_the_same(inputs.into_iter()), expected);
}

/// All of what may be mixed up within the scheme, the authority and the first segment.
#[test]
fn small_authorities_have_one_text_where_they_are_the_same() {
    let schemes: Vec<_> = [0, 1, 6, 7, 8, 9].map(|number| head(1, number)).into();
    let names = ["a", "coa", "coap+", "coaps+w"].map(|name| text_of(name.as_bytes()));
    let schemes: Vec<_> = schemes.into_iter().chain(names).collect();
    let labels = [
        "h", "1", "2", "h:1", "[::1]", "[", "::1", "%2e", "h/1", "h@1", "0x1",
    ];
    let labels: Vec<_> = labels
        .iter()
        .map(|label| text_of(label.as_bytes()))
        .collect();
    let mut hosts: Vec<Vec<Vec<u8>>> = labels.iter().map(|label| vec![label.clone()]).collect();
    for a in &labels {
        for b in &labels {
            hosts.push(vec![a.clone(), b.clone()]);
            let [one, two] = [labels[1].clone(), labels[2].clone()];
            hosts.push(vec![one, two, a.clone(), b.clone()]);
        }
    }
    hosts.extend([vec![bytes("44 01020102")], vec![bytes("44 01020101")]]);
    for last in [0, 1, 2] {
        let address = [vec![0x50], vec![0; 15], vec![last]].concat();
        hosts.push(vec![address]);
    }
    // What would print as the mapped address does, or as the one of 4 bytes in it, if a rule were left out.
    hosts.extend([
        vec![bytes("50 00000000000000000000FFFF01020102")],
        vec![bytes("50 0000000000000000FFFF000001020102")],
        vec![bytes("50 00000000000000000000000001020102")],
        ["::ffff:1", "2", "1", "2"]
            .map(|label| text_of(label.as_bytes()))
            .to_vec(),
    ]);
    let mut inputs = Vec::new();
    for scheme in &schemes {
        for host in &hosts {
            for port in [None, Some(0), Some(1), Some(5683)] {
                for path in [None, Some("1"), Some(":1")] {
                    let mut authority = host.clone();
                    authority.extend(port.map(|port| head(0, port)));
                    let mut items = vec![scheme.clone(), array(&authority)];
                    items.extend(path.map(|text| array(&[text_of(text.as_bytes())])));
                    inputs.push(array(&items));
                }
            }
        }
    }
    let count = inputs.len();
    // Refused are four labels of "1" and "2", which are 2 * 2 hosts, and the 2 labels with a bracket: each alone, and every pair with one
    // of them, by itself and after "1" and "2".
    let refused = 4 + 2 + 2 * (11 * 11 - 9 * 9);
    let expected = count - schemes.len() * refused * 4 * 3;
    assert_eq!(one_text_for_the_same(inputs.into_iter()), expected);
}
