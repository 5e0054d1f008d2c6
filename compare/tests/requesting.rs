//! CoAP options: the examples of the rules, every length and every port, destinations, the refusals in their order, and that a parser of
//! options finds in what was written the options that the items mean.

mod encode;
#[path = "encode/not_absolute.rs"]
mod not_absolute;
mod told;

use compare::generate::Generator;
use compare::lines;
use compare::meant::{meant, words, Meant};
use compare::options::{options, ENOUGH};
use compare::reader::{MAX_INPUT, MAX_PARAMETERS, MAX_SEGMENTS};
use encode::{array, bytes, filling, head, text, text_of, texts};
use not_absolute::NOT_ABSOLUTE;
use std::net::{Ipv4Addr, Ipv6Addr};
use told::told;

/// The options, or the number and the place, with room enough.
fn asked(input: &[u8], address: &[u8], port: u16) -> Result<Vec<u8>, (u8, usize)> {
    let mut room = vec![7; ENOUGH];
    let length = options(input, address, port, &mut room).map_err(told)?;
    room.truncate(length);
    Ok(room)
}

#[track_caller]
fn gives(input: &str, address: &str, port: u16, expected: &str) {
    let outcome = asked(&bytes(input), &bytes(address), port);
    assert_eq!(outcome, Ok(bytes(expected)), "{input} to {address} {port}");
}

/// The base of the table, 198.51.100.1:61616.
const BASE: &str = "83 20 82 44 C6336401 19F0B0 82 6B 2E77656C6C2D6B6E6F776E 64 636F7265";

#[test]
fn examples() {
    let path = "2E77656C6C2D6B6E6F776E 04 636F7265";
    gives(BASE, "C6336401", 61_616, &format!("BB {path}"));
    gives(BASE, "C6336401", 5683, &format!("72 F0B0 4B {path}"));
    let query = "84 20 81 44 C6336401 F6 81 61 61";
    gives(query, "C6336401", 5683, "D1 02 61");
    let empty_segment = "83 20 81 44 C6336401 81 60";
    gives(empty_segment, "C6336401", 5683, "");
}

const H: &str = "61 68";

/// A path and a query after a host that is the destination's or not, and a port that is or not: every difference of two numbers.
#[test]
fn every_difference() {
    for (path, query, [none, host, port, both]) in [
        ("F6", "", ["", "31 68", "70", "31 68 40"]),
        ("81 60", "", ["", "31 68", "70", "31 68 40"]),
        ("80", "", ["", "31 68", "70", "31 68 40"]),
        (
            "82 60 60",
            "",
            ["B0 00", "31 68 80 00", "70 40 00", "31 68 40 40 00"],
        ),
        (
            "81 61 61",
            "",
            ["B1 61", "31 68 81 61", "70 41 61", "31 68 40 41 61"],
        ),
        ("F6", "81 60", ["D0 02", "31 68 C0", "70 80", "31 68 40 80"]),
        (
            "81 60",
            "81 60",
            ["D0 02", "31 68 C0", "70 80", "31 68 40 80"],
        ),
        (
            "80",
            "82 60 61 62",
            [
                "D0 02 01 62", "31 68 C0 01 62", "70 80 01 62", "31 68 40 80 01 62",
            ],
        ),
        (
            "81 61 61",
            "81 60",
            [
                "B1 61 40", "31 68 81 61 40", "70 41 61 40", "31 68 40 41 61 40",
            ],
        ),
    ] {
        let ending = match (path, query) {
            ("F6", "") => vec![],
            (_, "") => vec![bytes(path)],
            _ => vec![bytes(path), bytes(query)],
        };
        for (authority, expected) in [
            ("81 44 01020304", none),
            (&format!("81 {H}")[..], host),
            ("82 44 01020304 00", port),
            (&format!("82 {H} 00")[..], both),
        ] {
            let items = [vec![bytes("20"), bytes(authority)], ending.clone()].concat();
            let outcome = asked(&array(&items), &bytes("01020304"), 5683);
            assert_eq!(outcome, Ok(bytes(expected)), "{authority} {path} {query}");
        }
    }
}

/// The bytes before a value, after an option whose number is less by `difference`.
fn head_of(difference: usize, length: usize) -> Vec<u8> {
    let nibble = |number: usize| number.min(13) as u8;
    let more = |number: usize| number.checked_sub(13).map(|over| over as u8);
    let mut head = vec![(nibble(difference) << 4) + nibble(length)];
    head.extend(more(difference));
    head.extend(more(length));
    head
}

#[test]
fn lengths() {
    assert_eq!(head_of(15, 12), bytes("DC 02"));
    assert_eq!(head_of(15, 13), bytes("DD 02 00"));
    assert_eq!(head_of(3, 255), bytes("3D F2"));
    let own = bytes("81 44 01020304");
    let to_own = |items: &[Vec<u8>]| asked(&array(items), &bytes("01020304"), 5683);
    for length in 0..=255 {
        let value = vec![b'a'; length];
        let [segments, parameters] = [11, 15].map(|first| {
            [
                &head_of(first, length),
                &value[..],
                &head_of(0, length),
                &value,
            ]
            .concat()
        });
        let two = texts(&[length, length]);
        let path = [bytes("20"), own.clone(), two.clone()];
        assert_eq!(to_own(&path), Ok(segments), "{length}");
        let query = [bytes("20"), own.clone(), bytes("F6"), two];
        assert_eq!(to_own(&query), Ok(parameters), "{length}");
    }
    for total in 1..=255 {
        // Labels of 63, with the dots between them, and one of what is left.
        let name: String = (1..=total)
            .map(|place| if place % 64 == 0 { '.' } else { 'h' })
            .collect();
        if name.ends_with('.') {
            continue;
        }
        let labels: Vec<_> = name
            .split('.')
            .map(|label| text_of(label.as_bytes()))
            .collect();
        let host = [&head_of(3, total), name.as_bytes()].concat();
        assert_eq!(to_own(&[bytes("20"), array(&labels)]), Ok(host), "{total}");
    }
}

/// The value of a port.
fn big_endian(port: u16) -> Vec<u8> {
    match port {
        0 => vec![],
        1..=255 => vec![port as u8],
        _ => vec![(port / 256) as u8, (port % 256) as u8],
    }
}

#[test]
fn ports() {
    for (port, value) in [
        (0, "70"),
        (1, "71 01"),
        (255, "71 FF"),
        (256, "72 0100"),
        (257, "72 0101"),
        (65_280, "72 FF00"),
        (65_535, "72 FFFF"),
    ] {
        let input = array(&[bytes("20"), array(&[bytes("44 01020304"), head(0, port)])]);
        assert_eq!(asked(&input, &bytes("01020304"), 5683), Ok(bytes(value)));
    }
    for port in 0..=u16::MAX {
        let input = array(&[
            bytes("20"),
            array(&[bytes("44 01020304"), head(0, port.into())]),
        ]);
        let to = |other: u16| asked(&input, &bytes("01020304"), other);
        assert_eq!(to(port), Ok(vec![]));
        let value = big_endian(port);
        let option = [&[0x70 + value.len() as u8], &value[..]].concat();
        for other in [port ^ 1, port ^ 0x100, !port] {
            assert_eq!(to(other), Ok(option.clone()), "{port} to {other}");
        }
    }
}

#[test]
fn default_ports() {
    for (scheme, default) in [
        ("20", 5683),
        ("21", 5684),
        ("26", 5683),
        ("27", 5684),
        ("28", 80),
        ("29", 443),
    ] {
        let left_off = bytes(&format!("82 {scheme} 81 44 01020304"));
        let written = [
            bytes(&format!("82 {scheme} 82 44 01020304")),
            head(0, default),
        ]
        .concat();
        let value = big_endian(default as u16);
        let option = [&[0x70 + value.len() as u8], &value[..]].concat();
        for input in [left_off, written] {
            for port in [0, 80, 443, 5682, 5683, 5684, 5685, 65_535] {
                let expected = if usize::from(port) == default {
                    vec![]
                } else {
                    option.clone()
                };
                assert_eq!(asked(&input, &bytes("01020304"), port), Ok(expected));
            }
        }
    }
}

#[test]
fn destinations() {
    let ipv6 = "20010DB8000000000001000000000001";
    let mapped = "00000000000000000000FFFF01020304";
    let host = |text: &str| [head_of(3, text.len()), text.into()].concat();
    let to = |own: &str, other: &str| {
        let address = bytes(own);
        let item = [head(2, address.len()), address].concat();
        asked(&array(&[bytes("20"), array(&[item])]), &bytes(other), 5683)
    };
    for own in ["01020304", "00000000", ipv6, mapped] {
        assert_eq!(to(own, own), Ok(vec![]), "{own}");
        // One byte differs.
        for place in 0..bytes(own).len() {
            let mut other = bytes(own);
            other[place] ^= 1;
            let other: String = other.iter().map(|byte| format!("{byte:02x}")).collect();
            let expected = match own {
                "01020304" => "1.2.3.4",
                "00000000" => "0.0.0.0",
                _ if own == ipv6 => "[2001:db8::1:0:0:1]",
                _ => "[::ffff:1.2.3.4]",
            };
            assert_eq!(to(own, &other), Ok(host(expected)), "{other}");
        }
    }
    // 4 bytes never equal 16.
    assert_eq!(to("01020304", mapped), Ok(host("1.2.3.4")));
    assert_eq!(to(mapped, "01020304"), Ok(host("[::ffff:1.2.3.4]")));
    assert_eq!(to("00000000", &"00".repeat(16)), Ok(host("0.0.0.0")));
    assert_eq!(to(&"00".repeat(16), "00000000"), Ok(host("[::]")));
    assert_eq!(to("FFFFFFFF", ipv6), Ok(host("255.255.255.255")));
    let longest = "[ffff:ffff:ffff:ffff:ffff:ffff:ffff:ffff]";
    assert_eq!(to(&"FF".repeat(16), ipv6), Ok(host(longest)));
    // Labels are written whatever the destination is.
    let named = |label: &[u8]| array(&[bytes("20"), array(&[text_of(label)])]);
    assert_eq!(asked(&named(b"::"), &[0; 16], 5683), Ok(host("::")));
    // A label is never written as an address is.
    assert_eq!(asked(&named(b"[::]"), &[0; 16], 5683), Err((6, 3)));
    assert_eq!(asked(&named(b"[::]"), &[1; 16], 5683), Err((6, 3)));
}

/// A mapped address, and all that are one bit off it in the first twelve bytes, to each other and to the 4 bytes in it:
/// only the same bytes are the destination's.
#[test]
fn mapped_destinations() {
    let inside = Ipv4Addr::new(192, 0, 2, 1);
    let mapped = inside.to_ipv6_mapped();
    let near = (32..128).map(|bit| Ipv6Addr::from(u128::from(mapped) ^ 1 << bit));
    let addresses: Vec<_> = near.chain([mapped]).collect();
    for own in &addresses {
        let authority = [&bytes("81 50"), &own.octets()[..]].concat();
        let input = array(&[bytes("20"), authority]);
        let text = format!("[{own}]");
        let host = [head_of(3, text.len()), text.into()].concat();
        for other in &addresses {
            let expected = if own == other { &[] } else { &host[..] };
            let written = asked(&input, &other.octets(), 5683);
            assert_eq!(written.as_deref(), Ok(expected), "{own} to {other}");
        }
        assert_eq!(asked(&input, &inside.octets(), 5683), Ok(host), "{own}");
    }
    let link = "82 20 81 50 00000000000000000000FFFFC0000201";
    let host = "3D 05 5B3A3A666666663A3139322E302E322E315D";
    gives(link, "C0000201", 5683, host);
}

/// No byte is escaped.
#[test]
fn values_are_raw() {
    let raw = "%2f/?#&%é\u{0}[ ]\u{10FFFF}";
    // A label has no brackets.
    let raw_label = "%2f/?#&%é\u{0}{ }\u{10FFFF}";
    let label = text_of(raw_label.as_bytes());
    let labels = array(&[label.clone(), label]);
    let texts = array(&[text_of(raw.as_bytes())]);
    let input = array(&[bytes("20"), labels, texts.clone(), texts]);
    let options = parsed(&asked(&input, &[0; 4], 5683).expect("options")).expect("options");
    let name = [raw_label, raw_label].join(".");
    let expected = [(3, name.as_str()), (11, raw), (15, raw)];
    assert_eq!(
        options,
        expected.map(|(number, text)| (number, text.into()))
    );
}

#[test]
fn refusals_in_their_order() {
    let others = [
        // 7 before 11.
        ("85 20 81 61 68 F6 F6 60 00", 7, 8),
        ("82 61 61 81 61 68 00", 7, 6),
        // 8 before 11.
        ("85 F6 81 61 68 F6 F6 60", 8, 0),
        ("84 00 F6 F6 60", 8, 0),
        // A scheme that is a text, and a fragment that is set.
        ("82 61 61 81 61 68", 11, 0),
        ("82 65 636F617074 81 61 68", 11, 0),
        ("85 20 81 61 68 F6 F6 60", 11, 0),
        ("85 29 81 61 68 81 61 61 81 61 62 61 66", 11, 0),
        ("85 61 61 81 61 68 F6 F6 60", 11, 0),
        // 11 also where there would be no options.
        ("85 20 81 44 01020304 F6 F6 60", 11, 0),
        ("82 61 61 81 44 01020304", 11, 0),
        ("82 20 81 61 68", 10, 0),
    ];
    let in_no_room = |input: &[u8], address: &[u8]| {
        let outcome = options(input, address, 5683, &mut []);
        outcome.map_err(told)
    };
    for &(hex, number, place) in NOT_ABSOLUTE.iter().chain(&others) {
        let input = bytes(hex);
        let own = bytes("01020304");
        assert_eq!(in_no_room(&input, &own), Err((number, place)), "{hex}");
        if number != 10 {
            assert_eq!(asked(&input, &own, 5683), Err((number, place)), "{hex}");
        }
        // 12 before all.
        for length in (0..40).filter(|length| ![4, 16].contains(length)) {
            let none = vec![1; length];
            assert_eq!(in_no_room(&input, &none), Err((12, 0)), "{hex}");
            assert_eq!(asked(&input, &none, 5683), Err((12, 0)), "{hex}");
        }
    }
    let long = [0x80; MAX_INPUT + 1];
    assert_eq!(asked(&long, &[0; 4], 0), Err((4, MAX_INPUT)));
}

#[test]
fn rooms() {
    let inputs = [
        bytes(BASE),
        bytes("82 20 81 61 68"),
        bytes("82 20 81 44 01020304"),
        bytes("83 20 81 44 01020304 81 60"),
        bytes("84 29 83 61 69 62 C3A9 00 82 60 61 20 81 62 C3A9"),
        bytes("82 20 81 50 20010DB8000000000001000000000001"),
        bytes("82 20 81 50 00000000000000000000FFFF01020304"),
        [
            bytes("84 20 81 61 68"),
            texts(&[12, 13, 255]),
            texts(&[255, 0]),
        ]
        .concat(),
    ];
    for input in inputs {
        let expected = asked(&input, &bytes("01020304"), 5683).expect("options");
        for length in 0..expected.len() + 3 {
            let mut room = vec![7; length + 2];
            let outcome = options(&input, &bytes("01020304"), 5683, &mut room[..length]);
            let outcome = outcome.map_err(told);
            let fits = length >= expected.len();
            assert_eq!(
                outcome,
                fits.then_some(expected.len()).ok_or((10, 0)),
                "{length}"
            );
            let written = outcome.unwrap_or(0);
            assert_eq!(room[..written], expected[..written]);
            assert!(room[written..].iter().all(|&byte| byte == 7), "{length}");
        }
    }
    for refused in ["80", "82 20", "82 20 81 61 68 00", "82 61 61 81 61 68"] {
        let mut room = [7; 40];
        assert!(options(&bytes(refused), &[0; 4], 0, &mut room).is_err());
        assert_eq!(room, [7; 40]);
    }
}

/// Most options, and most bytes of them.
#[test]
fn the_largest_requests() {
    let many = [
        bytes("84 20 82 61 68 00"),
        texts(&[13; MAX_SEGMENTS]),
        texts(&[13; MAX_PARAMETERS]),
    ]
    .concat();
    let options = parsed(&asked(&many, &[0; 4], 1).expect("options")).expect("options");
    assert_eq!(options.len(), 2 + MAX_SEGMENTS + MAX_PARAMETERS);
    let long = |lengths: &[usize]| [bytes("83 20 81 61 68"), texts(lengths)].concat();
    let lengths = filling(MAX_INPUT - 5);
    assert_eq!(long(&lengths).len(), MAX_INPUT);
    let length = asked(&long(&lengths), &[0; 4], 5683).map(|options| options.len());
    // Each option of the path has a head of 2.
    let path: usize = lengths.iter().map(|length| 2 + length).sum();
    assert_eq!(length, Ok(2 + path));
    let over = long(&filling(MAX_INPUT - 4));
    assert_eq!(asked(&over, &[0; 4], 5683), Err((4, MAX_INPUT)));
    // A text of 13 to 23 bytes has a head of one byte, and as an option one of two. The port is left off, and is an option.
    let opening = [bytes("84 20 81 50"), vec![0xFF; 16]].concat();
    let path = texts(&[22; MAX_SEGMENTS]);
    let query = array(&vec![text(15); MAX_PARAMETERS]);
    let input = [opening, path, query].concat();
    let length = asked(&input, &[0; 16], 1).expect("options").len();
    assert_eq!(length, 43 + 3 + MAX_SEGMENTS * 24 + MAX_PARAMETERS * 17);
    assert!(length < ENOUGH);
}

/// The number and the value of each option, read from the bytes; `None` where they are no options.
fn parsed(bytes: &[u8]) -> Option<Vec<Meant>> {
    let mut rest = bytes.iter().copied();
    let mut options = Vec::new();
    let mut number = 0;
    while let Some(first) = rest.next() {
        number += extended(first / 16, &mut rest)?;
        let length = extended(first % 16, &mut rest)?;
        let value: Vec<u8> = rest.by_ref().take(length).collect();
        if value.len() != length {
            return None;
        }
        options.push((number.try_into().ok()?, value));
    }
    Some(options)
}

/// A difference or a length by its nibble, and by the bytes that may follow.
fn extended(nibble: u8, rest: &mut impl Iterator<Item = u8>) -> Option<usize> {
    let mut next = || rest.next().map(usize::from);
    match nibble {
        0..=12 => Some(nibble.into()),
        13 => Some(next()? + 13),
        14 => Some(next()? * 256 + next()? + 269),
        _ => None,
    }
}

/// The parser, on the table of the rules and more.
#[test]
fn the_parser() {
    let finds = |hex: &str| parsed(&bytes(hex)).map(|options| words(&options));
    let long = "61".repeat(269);
    for (hex, options) in [
        ("", "-"),
        (
            "72 F0B0 4B 2E77656C6C2D6B6E6F776E 04 636F7265",
            "7:f0b0 11:2e77656c6c2d6b6e6f776e 11:636f7265",
        ),
        ("D1 02 61", "15:61"),
        (
            "DD 02 00 74656D70657261747572653D31",
            "15:74656d70657261747572653d31",
        ),
        ("E0 FEF2", "65535:"),
        ("B0", "11:"),
        ("31 68 40 D1 00 61", "3:68 7: 20:61"),
        ("E0 0000 E0 0001", "269: 539:"),
        (&format!("0E 0000 {long}"), &format!("0:{long}")),
    ] {
        assert_eq!(finds(hex).as_deref(), Some(options), "{hex}");
    }
    for hex in [
        "E0 FEF3", "E0 FEF2 10", "F0", "0F", "FF", "B0 FF", "D0", "E1 00", "DD 02", "0D", "11",
        "0D 00 61",
    ] {
        assert_eq!(finds(hex), None, "{hex}");
    }
}

/// An input, a destination address and a port.
type Asked = (Vec<u8>, Vec<u8>, u16);

/// The words of the `options` requests made from a seed, but for the room.
fn generated(seed: u64) -> impl Iterator<Item = Asked> {
    let requests = Generator::new(seed).take(100_000);
    requests.filter_map(|request| {
        let is_request = !lines::answer(&request).starts_with('?');
        let line = String::from_utf8(request).ok()?;
        let mut words = line
            .strip_prefix("options ")
            .filter(|_| is_request)?
            .split(' ')
            .skip(1);
        let input = bytes(words.next()?);
        let address = bytes(words.next()?);
        Some((input, address, words.next()?.parse().ok()?))
    })
}

#[test]
fn what_was_written_is_what_is_meant() {
    let mut counts = [0; 2];
    let mut longest = 0;
    for (input, address, port) in generated(4) {
        match asked(&input, &address, port) {
            Ok(written) => {
                longest = longest.max(written.len());
                let expected = meant(&input, &address, port);
                assert_eq!(
                    parsed(&written),
                    expected,
                    "{input:02x?} to {address:02x?} {port}"
                );
                counts[0] += 1;
            }
            // 12 says nothing of the link.
            Err((12, _)) => assert!(![4, 16].contains(&address.len())),
            Err(_) => {
                assert_eq!(meant(&input, &address, port), None, "{input:02x?}");
                counts[1] += 1;
            }
        }
    }
    assert!(counts[0] > 7000 && counts[1] > 4000, "{counts:?}");
    assert!((MAX_INPUT + 1..ENOUGH).contains(&longest), "{longest}");
}

/// Links with all of these hosts, ports, paths and queries, to all of these destinations.
#[test]
fn small_requests() {
    let hosts = [
        "44 01020304",
        "44 00000000",
        "50 00000000000000000000FFFF01020304",
        "61 68",
        "61 68 61 69",
    ];
    let ports = [
        None,
        Some(0),
        Some(80),
        Some(255),
        Some(256),
        Some(5683),
        Some(65_535),
    ];
    let lists = [
        "",
        "81 60",
        "82 60 60",
        "81 61 61",
        "82 61 61 60",
        "81 6D 61616161616161616161616161",
    ];
    let addresses = ["01020304", "00000000", "00000000000000000000FFFF01020304"];
    let mut count = 0;
    for scheme in ["20", "21", "26", "27", "28", "29"] {
        for host in hosts {
            for port in ports {
                for path in ["80"].iter().chain(&lists) {
                    for query in lists {
                        let items = if host.ends_with("61 69") { 2 } else { 1 };
                        let mut authority = head(4, items + usize::from(port.is_some()));
                        authority.extend(bytes(host));
                        authority.extend(port.iter().flat_map(|&port| head(0, port)));
                        let mut all = vec![bytes(scheme), authority, bytes(path), bytes(query)];
                        if query.is_empty() {
                            all.pop();
                        }
                        match (path.is_empty(), all.len()) {
                            (true, 3) => drop(all.pop()),
                            (true, _) => all[2] = bytes("F6"),
                            (false, _) => {}
                        }
                        let input = array(&all);
                        for address in addresses {
                            for port in [0, 80, 5683, 5684] {
                                let address = bytes(address);
                                let written = asked(&input, &address, port).expect("options");
                                let expected = meant(&input, &address, port).expect("options");
                                assert_eq!(parsed(&written), Some(expected), "{input:02x?}");
                                count += 1;
                            }
                        }
                    }
                }
            }
        }
    }
    assert_eq!(count, 6 * 5 * 7 * 7 * 6 * 12);
}
