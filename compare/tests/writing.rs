//! The writer: its refusals in their order, every size at it and one over, and what is read being written again.

mod told;

use compare::generate::Generator;
use compare::lines;
use compare::reader::{read, MAX_INPUT, MAX_SEGMENTS};
use compare::writer::{write, Authority, Components, Discard, Host, Opening, Scheme, Span};
use told::told;

const LENT: &[u8] = b"abcdefgh.\xFF";

fn span(start: usize, length: usize) -> Span {
    Span { start, length }
}

const A: Span = Span {
    start: 0,
    length: 1,
};

/// The opening `discard 1` and nothing else.
const DISCARD: Components = Components {
    opening: Opening::Discard(Discard::Last(1)),
    path: None,
    query: None,
    fragment: None,
};

fn full(scheme: Scheme, authority: Option<Authority>) -> Components {
    Components {
        opening: Opening::Authority(scheme, authority),
        ..DISCARD
    }
}

fn labels(labels: &[Span], port: Option<u64>) -> Option<Authority<'_>> {
    let host = Host::Labels(labels);
    Some(Authority { host, port })
}

/// What is written from `lent`, or the number and the place, with room enough.
fn written_from(components: &Components, lent: &[u8]) -> Result<Vec<u8>, (u8, usize)> {
    let mut room = [7; MAX_INPUT];
    let length = write(components, lent, &mut room).map_err(told)?;
    Ok(room[..length].to_vec())
}

fn written(components: &Components) -> Result<Vec<u8>, (u8, usize)> {
    written_from(components, LENT)
}

#[track_caller]
fn gives(components: &Components, encoding: &[u8]) {
    assert_eq!(written(components), Ok(encoding.to_vec()));
}

/// Every refusal has place 0, though the reader has one for what it refuses of the encoding.
#[track_caller]
fn refused(components: &Components, number: u8) {
    assert_eq!(written(components), Err((number, 0)));
}

#[test]
fn openings() {
    let discard = |discard| Components {
        opening: Opening::Discard(discard),
        ..DISCARD
    };
    gives(&discard(Discard::All), b"\x81\xF5");
    gives(&discard(Discard::Last(0)), b"\x80");
    gives(&discard(Discard::Last(127)), b"\x81\x18\x7F");
    refused(&discard(Discard::Last(128)), 4);
    refused(&discard(Discard::Last(u64::MAX)), 4);
    let host = labels(&[A], None);
    gives(&full(Scheme::None, host), b"\x82\xF6\x81\x61a");
    gives(&full(Scheme::Number(9), host), b"\x82\x29\x81\x61a");
    gives(&full(Scheme::Text(A), host), b"\x82\x61a\x81\x61a");
    refused(&full(Scheme::Number(2), host), 6);
    refused(&full(Scheme::Number(u64::MAX), host), 6);
    refused(&full(Scheme::Text(span(0, 0)), host), 4);
    refused(&full(Scheme::Text(span(8, 1)), host), 6);
    refused(&full(Scheme::Text(span(9, 1)), host), 5);
}

#[test]
fn no_scheme_and_no_authority() {
    refused(&full(Scheme::None, None), 2);
    refused(&full(Scheme::Number(0), None), 2);
    // The scheme is judged first: 81 22.
    refused(&full(Scheme::Number(2), None), 6);
    let with_path = Components {
        path: Some(&[A]),
        ..full(Scheme::None, None)
    };
    refused(&with_path, 2);
}

#[test]
fn authorities() {
    let address = |length, port| {
        let host = Host::Address(span(0, length));
        full(Scheme::None, Some(Authority { host, port }))
    };
    gives(&address(4, None), b"\x82\xF6\x81\x44abcd");
    gives(&address(4, Some(0)), b"\x82\xF6\x82\x44abcd\x00");
    gives(
        &address(4, Some(65535)),
        b"\x82\xF6\x82\x44abcd\x19\xFF\xFF",
    );
    refused(&address(4, Some(65536)), 4);
    refused(&address(4, Some(u64::MAX)), 4);
    refused(&address(5, None), 4);
    let named = |spans: &[Span], port| written(&full(Scheme::None, labels(spans, port)));
    assert_eq!(named(&[], None), Err((4, 0)));
    assert_eq!(named(&[], Some(1)), Err((2, 0)));
    assert!(named(&[A; 8], None).is_ok());
    assert!(named(&[A; 8], Some(1)).is_ok());
    assert_eq!(named(&[A; 9], None), Err((4, 0)));
    assert_eq!(named(&[A; 9], Some(1)), Err((4, 0)));
}

#[test]
fn paths_queries_fragments() {
    let with = |path, query, fragment| Components {
        path,
        query,
        fragment,
        ..DISCARD
    };
    gives(&with(Some(&[]), None, None), b"\x82\x01\x80");
    gives(&with(None, Some(&[A]), None), b"\x83\x01\xF6\x81\x61a");
    gives(&with(None, None, Some(span(3, 0))), b"\x84\x01\xF6\xF6\x60");
    gives(
        &with(Some(&[A]), None, Some(A)),
        b"\x84\x01\x81\x61a\xF6\x61a",
    );
    refused(&with(None, Some(&[]), None), 4);
    assert!(written(&with(Some(&[A; MAX_SEGMENTS]), None, None)).is_ok());
    refused(&with(Some(&[A; MAX_SEGMENTS + 1]), None, None), 4);
    assert!(written(&with(None, Some(&[A; 16]), None)).is_ok());
    refused(&with(None, Some(&[A; 17]), None), 4);
    // A discard 0 is written where something follows it.
    let zero = Components {
        opening: Opening::Discard(Discard::Last(0)),
        ..with(Some(&[A]), None, None)
    };
    gives(&zero, b"\x82\x00\x81\x61a");
}

#[test]
fn spans() {
    let fragment = |start, length| Components {
        fragment: Some(span(start, length)),
        ..DISCARD
    };
    let end = LENT.len();
    assert!(written(&fragment(0, 9)).is_ok());
    assert!(written(&fragment(end, 0)).is_ok());
    refused(&fragment(end - 1, 1), 5);
    for (start, length) in [
        (end, 1),
        (end + 1, 0),
        (0, end + 1),
        (usize::MAX, 0),
        (usize::MAX, 1),
        (usize::MAX, 2),
        (1, usize::MAX),
        (usize::MAX, usize::MAX),
        (1 << 63, 1 << 63),
    ] {
        refused(&fragment(start, length), 4);
    }
}

#[test]
fn a_count_or_a_span_comes_before_the_reader() {
    // The scheme would be 6.
    let bad = full(Scheme::Number(2), labels(&[A], None));
    refused(&bad, 6);
    refused(&full(Scheme::Number(2), labels(&[A; 9], None)), 4);
    let segments = Components {
        path: Some(&[A; MAX_SEGMENTS + 1]),
        ..bad
    };
    refused(&segments, 4);
    let parameters = Components {
        query: Some(&[A; 17]),
        ..bad
    };
    refused(&parameters, 4);
    let outside = Components {
        fragment: Some(span(0, 99)),
        ..bad
    };
    refused(&outside, 4);
}

#[test]
fn the_longest_encoding() {
    let lent = [b'a'; 255];
    // A discard and a path in 3 bytes, texts of 257 and one with a head of 2.
    let sized = |size: usize| {
        let left = size - 3;
        let mut path = vec![span(0, 255); left / 257];
        path.push(span(0, left % 257 - 2));
        let components = Components {
            path: Some(&path),
            ..DISCARD
        };
        written_from(&components, &lent).map(|encoding| encoding.len())
    };
    // Also around the length at which the encoding is made in a longer array.
    for size in [1022, 1023, 1024, 1025, 1026, MAX_INPUT - 1, MAX_INPUT] {
        assert_eq!(sized(size), Ok(size));
    }
    assert_eq!(sized(MAX_INPUT + 1), Err((4, 0)));
    // Over the size is 4, though the reader would say 5.
    let path = vec![span(0, 255); MAX_INPUT / 255 + 1];
    let broken = Components {
        path: Some(&path),
        ..DISCARD
    };
    let lent = [0xFF; 255];
    assert_eq!(written_from(&broken, &lent), Err((4, 0)));
}

#[test]
fn rooms() {
    let mut room = [7; 3];
    for (length, expected) in [(0, Err((10, 0))), (1, Err((10, 0))), (2, Ok(2)), (3, Ok(2))] {
        room = [7; 3];
        let outcome = write(&DISCARD, LENT, &mut room[..length]).map_err(told);
        assert_eq!(outcome, expected);
        let kept = expected.unwrap_or(0);
        assert!(room[kept..].iter().all(|&b| b == 7), "{length}");
    }
    assert_eq!(room, [0x81, 0x01, 7]);
    let refused = Components {
        path: Some(&[span(9, 1)]),
        ..DISCARD
    };
    room = [7; 3];
    assert_eq!(write(&refused, LENT, &mut room).map_err(told), Err((5, 0)));
    assert_eq!(room, [7; 3]);
}

#[test]
fn what_is_read_is_written_again() {
    let requests = Generator::new(3).take(10_000);
    let answers = requests.filter_map(|request| {
        let word = String::from_utf8(request.strip_prefix(b"read ")?.to_vec()).ok()?;
        let answer = lines::answer(&request);
        answer.starts_with("0 ").then_some((word, answer))
    });
    let mut inputs = 0;
    for (word, answer) in answers {
        let length = word.len() / 2;
        let expected = format!("0 {length} {word} kept");
        let input: Vec<u8> = (0..length)
            .map(|i| u8::from_str_radix(&word[2 * i..2 * i + 2], 16).unwrap())
            .collect();
        assert!(read(&input).is_ok());
        for request in [
            lines::write_from_answer(&answer, length),
            lines::write_from_itself(&input, length),
        ] {
            assert_eq!(lines::answer(request.unwrap().as_bytes()), expected);
        }
        inputs += 1;
    }
    assert!(inputs > 500, "{inputs}");
}
