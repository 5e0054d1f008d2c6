//! Requests, answers, and lines that are no requests.

use compare::lines::{answer, call, meant_by, write_from_answer, write_from_itself, MAX_LINE};
use compare::reader::{MAX_INPUT, MAX_SEGMENTS};
use compare::refusal::Reason;
use compare::views::segment;

#[test]
fn read_answers_components() {
    let cases = [
        ("read -", "1 at 0"),
        ("read 80", "0 discard 0"),
        ("read 82f581616184", "7 at 5"),
        ("read 84187ff6816061ff", "5 at 6"),
        (
            "read 84187ff68160626162",
            "0 discard 127 query parameter - fragment 6162",
        ),
        ("read 85627a3982613a1900ff", "3 at 7"),
        (
            "read 85627a3982613a18ff82606161826161616260",
            "0 scheme text 7a39 authority label 3a port 255 path segment - segment 61 \
             query parameter 61 parameter 62 fragment -",
        ),
    ];
    for (request, expected) in cases {
        assert_eq!(answer(request.as_bytes()), expected, "{request}");
    }
}

#[test]
fn segment_answers_a_view() {
    let cases = [
        ("segment 82f58361616060 0", "0 61"),
        ("segment 82f58361616060 2", "0 -"),
        ("segment 82f58361616060 3", "18 -"),
        ("segment 82f58361616060 18446744073709551615", "18 -"),
        ("segment 82f58361616060 4294967296", "18 -"),
        ("segment 80 0", "18 -"),
        ("segment 820080 0", "18 -"),
        ("segment - 0", "1 at 0 -"),
        ("segment 821817 0", "3 at 1 -"),
        ("segment 8000 18446744073709551615", "7 at 1 -"),
    ];
    for (request, expected) in cases {
        assert_eq!(answer(request.as_bytes()), expected, "{request}");
    }
}

#[test]
fn a_view_is_a_part_of_the_input() {
    let input = [0x82, 0xF5, 0x82, 0x60, 0x61, b'a'];
    let start = |input, n| segment(input, n).map(<[u8]>::as_ptr);
    assert_eq!(start(&input, 0), Ok(input[4..].as_ptr()));
    assert_eq!(start(&input, 1), Ok(input[5..].as_ptr()));
    assert_eq!(start(&input, 2), Err(Reason::None.at(0)));
    assert_eq!(start(&input[..5], 0), Err(Reason::Cut.at(4)));
    // A lone empty segment is the empty part after its head.
    let lone = [0x82, 0xF5, 0x81, 0x60];
    assert_eq!(segment(&lone, 0), Ok(&[][..]));
    assert_eq!(start(&lone, 0), Ok(lone[4..].as_ptr()));
}

#[test]
fn write_answers_what_it_wrote() {
    let cases = [
        ("write 1 - discard 0", "0 1 80 kept"),
        ("write 0 - discard 0", "10 0 - kept"),
        ("write 00016384 - discard all", "0 2 81f5 kept"),
        // Of a refusal the place is 0, whether it is the writer's or the reader's.
        ("write 9 - discard 128 path segment 0 1", "4 at 0 0 - kept"),
        ("write 9 - discard 128", "4 at 0 0 - kept"),
        ("write 9 - scheme none", "2 at 0 0 - kept"),
        ("write 9 ff discard 1 path segment 0 1", "5 at 0 0 - kept"),
        ("write 9 2e discard 1 path segment 0 1", "6 at 0 0 - kept"),
        (
            "write 9 61 scheme number 2 authority label 0 1",
            "6 at 0 0 - kept",
        ),
        (
            "write 9 5b3a3a315d scheme number 0 authority label 0 5",
            "6 at 0 0 - kept",
        ),
        (
            "write 0 5b3a3a315d scheme none authority label 1 3 label 4 1 port 80",
            "6 at 0 0 - kept",
        ),
        (
            "write 9 5b3a3a315d scheme number 0 authority label 1 3",
            "0 7 822081633a3a31 kept",
        ),
        (
            "write 60 687a3904fe9861 scheme text 1 2 authority address 3 4 port 5683 \
             path segment 7 0 segment 6 1 query parameter 0 1 fragment 0 0",
            "0 21 85627a39824404fe98611916338260616181616860 kept",
        ),
        (
            "write 60 6162 scheme number 9 authority label 0 1 label 1 1 query parameter 2 0",
            "0 10 84298261616162f68160 kept",
        ),
    ];
    for (request, expected) in cases {
        assert_eq!(answer(request.as_bytes()), expected, "{request}");
    }
}

#[test]
fn resolve_answers_what_it_wrote() {
    let cases = [
        ("resolve 5 8220816168 80", "0 5 8220816168 kept"),
        ("resolve 4 8220816168 80", "10 0 - kept"),
        ("resolve 0 8220816168 80", "10 0 - kept"),
        (
            "resolve 00016384 8220816168 8200816161",
            "0 8 8320816168816161 kept",
        ),
        ("resolve 9 8220816168 -", "1 at 0 0 - kept"),
        ("resolve 9 8220816168 8000", "7 at 1 0 - kept"),
        ("resolve 9 8220816168 82008161c3", "5 at 3 0 - kept"),
        ("resolve 9 - -", "8 at 0 0 - kept"),
        ("resolve 9 82208161 80", "8 at 3 0 - kept"),
        ("resolve 9 822081616800 8000", "8 at 5 0 - kept"),
        ("resolve 9 80 8220816168", "8 at 0 0 - kept"),
        ("resolve 0 80 80", "8 at 0 0 - kept"),
        ("resolve 0 82f6816168 8000", "8 at 0 0 - kept"),
    ];
    for (request, expected) in cases {
        assert_eq!(answer(request.as_bytes()), expected, "{request}");
    }
}

#[test]
fn text_answers_what_it_wrote() {
    let cases = [
        ("text 9 8220816168", "0 9 636f61703a2f2f682f kept"),
        ("text 8 8220816168", "10 0 - kept"),
        ("text 0 8220816168", "10 0 - kept"),
        (
            "text 00016384 8420816120f68160",
            "0 12 636f61703a2f2f2532302f3f kept",
        ),
        (
            "text 99 8220815000000000000000000000ffffc0000201",
            "0 26 636f61703a2f2f5b3a3a666666663a3139322e302e322e315d2f kept",
        ),
        ("text 0 -", "1 at 0 0 - kept"),
        ("text 0 80", "8 at 0 0 - kept"),
        ("text 99 82f6816168", "8 at 0 0 - kept"),
        ("text 99 822081616800", "7 at 5 0 - kept"),
    ];
    for (request, expected) in cases {
        assert_eq!(answer(request.as_bytes()), expected, "{request}");
    }
}

#[test]
fn options_answers_what_it_wrote() {
    let cases = [
        ("options 2 8220816168 7f000001 5683", "0 2 3168 kept"),
        ("options 1 8220816168 7f000001 5683", "10 0 - kept"),
        ("options 0 8220816168 7f000001 5683", "10 0 - kept"),
        (
            "options 00016384 8420816120f68160 7f000001 0065535",
            "0 6 312042163380 kept",
        ),
        ("options 0 822081447f000001 7f000001 5683", "0 0 - kept"),
        ("options 9 822082447f00000100 7f000001 5683", "0 1 70 kept"),
        ("options 99 8220816168 7f0000 5683", "12 0 - kept"),
        ("options 99 8220816168 - 5683", "12 0 - kept"),
        ("options 0 - 7f 0", "12 0 - kept"),
        ("options 0 - 7f000001 0", "1 at 0 0 - kept"),
        ("options 0 80 7f000001 0", "8 at 0 0 - kept"),
        ("options 0 82f6816168 7f000001 0", "8 at 0 0 - kept"),
        ("options 0 82616181 7f000001 0", "1 at 4 0 - kept"),
        ("options 0 8261618161 7f000001 0", "1 at 4 0 - kept"),
        ("options 0 826161816168 7f000001 0", "11 0 - kept"),
        ("options 99 8520816168f6f660 7f000001 0", "11 0 - kept"),
        ("options 99 822081616800 7f000001 0", "7 at 5 0 - kept"),
    ];
    for (request, expected) in cases {
        assert_eq!(answer(request.as_bytes()), expected, "{request}");
    }
    // An address as long as a line can hold.
    let request = format!("options 9 80 {} 0", "00".repeat(32_000));
    assert_eq!(answer(request.as_bytes()), "12 0 - kept");
}

#[test]
fn meant_options_are_words() {
    let cases = [
        ("options 0 8420826168006160 7f000001 5683", "? refused"),
        (
            "options 0 84208261680082606161816162 7f000001 5683",
            "3:68 7: 11: 11:61 15:62",
        ),
        (
            "options 0 8220814400000000 7f000001 443",
            "3:302e302e302e30 7:1633",
        ),
        (
            "options 0 8220815000000000000000000000ffffc0000201 c0000201 5683",
            "3:5b3a3a666666663a3139322e302e322e315d",
        ),
        (
            "options 0 82208150000000000000000000000000c0000201 c0000201 5683",
            "3:5b3a3a633030303a3230315d",
        ),
        ("options 0 822081447f000001 7f000001 5683", "-"),
        ("options 0 80 7f000001 5683", "? refused"),
        ("options 0 8220816168 7f000001 65536", "? no port"),
        ("options 0 8220816168 7f000001 1 1", "? a word too many"),
        ("text 0 8220816168", "? another call"),
    ];
    for (request, expected) in cases {
        assert_eq!(meant_by(request.as_bytes()), expected, "{request}");
    }
}

#[test]
fn same_answers_two_numbers_and_a_word() {
    let cases = [
        ("same 8220816168 8220816168", "0 0 equal"),
        ("same 8220816168 832081616880", "0 0 equal"),
        ("same 83208161688160 832081616880", "0 0 equal"),
        ("same 8220816168 8221816168", "0 0 different"),
        ("same 8220816168 822082616819163300", "0 7 different"),
        ("same 8220816168 8220826168191633", "0 0 different"),
        ("same 8220816168 8520816168f6f660", "0 0 different"),
        (
            "same 8220815000000000000000000000ffffc0000201 82208144c0000201",
            "0 0 different",
        ),
        ("same 8220816168 -", "0 1 different"),
        ("same 80 8220816168", "8 0 different"),
        ("same 80 80", "8 8 different"),
        ("same - -", "1 1 different"),
        ("same 8000 80", "7 8 different"),
    ];
    for (request, expected) in cases {
        assert_eq!(answer(request.as_bytes()), expected, "{request}");
    }
    // The longest input that a line can hold twice is read, and refused.
    let word = "8".repeat((MAX_LINE - "same  ".len()) / 4 * 2);
    let request = format!("same {word} {word}");
    assert_eq!(answer(request.as_bytes()), "4 4 different");
}

#[test]
fn authority_answers_a_view() {
    let cases = [
        ("authority 80 8220816168", "0 816168"),
        ("authority 82f6816169 8220816168", "0 816169"),
        ("authority - 8220816168", "1 at 0 -"),
        ("authority 8000 8220816168", "7 at 1 -"),
        ("authority 82f6816169 -", "8 at 0 -"),
        ("authority 82f6816169 82208161", "8 at 3 -"),
        ("authority 8220816168 80", "8 at 0 -"),
        ("authority 8000 82f6816168", "8 at 0 -"),
    ];
    for (request, expected) in cases {
        assert_eq!(answer(request.as_bytes()), expected, "{request}");
    }
}

/// Every call that reads, with an input of each of the reader's refusals.
#[test]
fn the_readers_refusals_in_every_call() {
    let over = "80".repeat(MAX_INPUT + 1);
    for (input, number, place) in [
        ("-", 1, 0),
        ("82208161", 1, 3),
        ("822082616818", 1, 5),
        ("822083616805", 1, 6),
        ("a0", 2, 0),
        ("8220826168f6", 2, 5),
        ("82208361680516", 2, 6),
        ("82208261681805", 3, 5),
        ("82208261681a00010000", 4, 5),
        (&over, 4, MAX_INPUT),
        ("822082616161ff", 5, 5),
        ("8220826161615a", 6, 5),
        ("8220826161655b3a3a315d", 6, 5),
        ("842083615d61611904d2f6816161", 6, 3),
        ("8220846131613261336134", 6, 2),
        ("822081616800", 7, 5),
    ] {
        let told = format!("{number} at {place}");
        for (request, expected) in [
            (format!("read {input}"), told.clone()),
            (format!("segment {input} 0"), format!("{told} -")),
            (format!("text 99 {input}"), format!("{told} 0 - kept")),
            (
                format!("options 99 {input} 7f000001 0"),
                format!("{told} 0 - kept"),
            ),
            (
                format!("resolve 99 8220816168 {input}"),
                format!("{told} 0 - kept"),
            ),
            (format!("authority {input} 8220816168"), format!("{told} -")),
            // As a base it is 8, and the place is the same.
            (
                format!("resolve 99 {input} 80"),
                format!("8 at {place} 0 - kept"),
            ),
            (format!("authority 80 {input}"), format!("8 at {place} -")),
            // Here places are not told.
            (
                format!("same {input} 8220816168"),
                format!("{number} 0 different"),
            ),
            (
                format!("same 8220816168 {input}"),
                format!("0 {number} different"),
            ),
        ] {
            assert_eq!(answer(request.as_bytes()), expected, "{request}");
        }
    }
}

/// 9 to 12 and 18.
#[test]
fn other_numbers_stand_alone() {
    let segments = "6161".repeat(MAX_SEGMENTS);
    let most_segments = format!("832081616898{MAX_SEGMENTS:02x}{segments}");
    let one_more = format!("resolve 999 {most_segments} 8200816161");
    for (request, expected) in [
        (one_more.as_str(), "9 0 - kept"),
        ("resolve 4 8220816168 80", "10 0 - kept"),
        ("write 1 - discard 1", "10 0 - kept"),
        ("text 8 8220816168", "10 0 - kept"),
        ("options 1 8220816168 7f000001 5683", "10 0 - kept"),
        ("options 99 826161816168 7f000001 0", "11 0 - kept"),
        ("options 99 8220816168 7f0000 0", "12 0 - kept"),
        ("segment 8220816168 0", "18 -"),
    ] {
        assert_eq!(answer(request.as_bytes()), expected, "{request}");
    }
}

#[test]
fn more_texts_than_any_size_are_a_request() {
    for (opening, text) in [
        ("scheme none authority", "label"),
        ("discard 0 path", "segment"),
        ("discard 0 query", "parameter"),
    ] {
        let texts = format!(" {text} 0 0").repeat(2000);
        let request = format!("write 99 - {opening}{texts}");
        assert_eq!(answer(request.as_bytes()), "4 at 0 0 - kept", "{opening}");
    }
}

#[test]
fn requests_to_write_what_was_read() {
    let input = [0x84, 0xF5, 0x82, 0x60, 0x61, b'a', 0xF6, 0x61, b'b'];
    assert_eq!(
        write_from_itself(&input, 9).unwrap(),
        "write 9 84f582606161f66162 discard all path segment 4 0 segment 5 1 fragment 8 1"
    );
    let read = answer(b"read 84f582606161f66162");
    assert_eq!(
        write_from_answer(&read, 9).unwrap(),
        "write 9 6162 discard all path segment 0 0 segment 0 1 fragment 1 1"
    );
    assert_eq!(
        write_from_answer("0 discard 1 path segment -", 5).unwrap(),
        "write 5 - discard 1 path segment 0 0"
    );
    assert_eq!(write_from_itself(&input[..8], 9), None);
    assert_eq!(write_from_answer("1 at 0", 9), None);
}

#[test]
fn no_requests() {
    let lines = [
        "",
        " ",
        "read",
        "read ",
        "read  80",
        " read 80",
        "read 80 ",
        "read 80 80",
        "read 8",
        "read 8F",
        "read 8g",
        "read --",
        "reads 80",
        "Read 80",
        "segment",
        "segment 80",
        "segment 80 ",
        "segment 80 -1",
        "segment 80 +1",
        "segment 80 1a",
        "segment 80 18446744073709551616",
        "segment 80 1 1",
        "segment 0 1",
        "segment 80 100000000000000000000000000000000000000000",
        "write",
        "write 9",
        "write 9 -",
        "write 9 - ",
        "write 9 - path",
        "write - 9 discard 0",
        "write 16385 - discard 0",
        "write 18446744073709551616 - discard 0",
        "write 9 - discard",
        "write 9 - discard -",
        "write 9 - discard 0 ",
        "write 9 - discard 0 0",
        "write 9 - discard all all",
        "write 9 - discard 0 authority",
        "write 9 - discard 0 segment 0 0",
        "write 9 - discard 0 path segment 0",
        "write 9 - discard 0 path segment - 0",
        "write 9 - discard 0 path parameter 0 0",
        "write 9 - discard 0 path path",
        "write 9 - discard 0 query parameter 0 0 path",
        "write 9 - discard 0 fragment",
        "write 9 - discard 0 fragment 0",
        "write 9 - discard 0 fragment 0 18446744073709551616",
        "write 9 - discard 0 fragment 0 0 fragment 0 0",
        "write 9 - discard 0 fragment 0 0 query",
        "write 9 - scheme",
        "write 9 - scheme 0",
        "write 9 - scheme none 0",
        "write 9 - scheme number",
        "write 9 - scheme text 0",
        "write 9 - scheme none address 0 0",
        "write 9 - scheme none authority address 0",
        "write 9 - scheme none authority address 0 0 label 0 0",
        "write 9 - scheme none authority label 0 0 address 0 0",
        "write 9 - scheme none authority port",
        "write 9 - scheme none authority port 0 port 0",
        "write 9 - scheme none authority port 0 label 0 0",
        "write 9 - authority label 0 0",
        "resolve",
        "resolve ",
        "resolve 9",
        "resolve 9 8220816168",
        "resolve 9 8220816168 ",
        "resolve 9 8220816168 80 ",
        "resolve 9 8220816168 80 80",
        "resolve  8220816168 80",
        "resolve - 8220816168 80",
        "resolve 16385 8220816168 80",
        "resolve 18446744073709551616 8220816168 80",
        "resolve 9 822081616 80",
        "resolve 9 8220816168 8",
        "resolve 9 8220816168 8F",
        "text",
        "text ",
        "text 9",
        "text 9 ",
        "text 9  80",
        "text 9 80 ",
        "text 9 80 80",
        "text  80",
        "text - 80",
        "text 80 9",
        "text 16385 80",
        "text 18446744073709551616 80",
        "text 9 8",
        "text 9 8F",
        "Text 9 80",
        "same",
        "same ",
        "same 80",
        "same 80 ",
        "same  80",
        "same 80 80 ",
        "same 80 80 80",
        "same 8 80",
        "same 80 8",
        "same 80 8F",
        "same 9 80 80",
        "options",
        "options ",
        "options 9",
        "options 9 ",
        "options 9 80",
        "options 9 80 7f000001",
        "options 9 80 7f000001 ",
        "options 9 80 7f000001 80 ",
        "options 9 80 7f000001 80 80",
        "options 9 80  80",
        "options 9  7f000001 80",
        "options  80 7f000001 80",
        "options - 80 7f000001 80",
        "options 16385 80 7f000001 80",
        "options 18446744073709551616 80 7f000001 80",
        "options 9 8 7f000001 80",
        "options 9 8F 7f000001 80",
        "options 9 80 7f00000 80",
        "options 9 80 7F000001 80",
        "options 9 80 7f000001 65536",
        "options 9 80 7f000001 131072",
        "options 9 80 7f000001 18446744073709551615",
        "options 9 80 7f000001 18446744073709551616",
        "options 9 80 7f000001 -",
        "options 9 80 7f000001 -1",
        "options 9 80 7f000001 +1",
        "options 9 80 7f000001 1a",
        "options 9 80 - 65536",
        "option 9 80 7f000001 80",
        "Options 9 80 7f000001 80",
        "authority",
        "authority ",
        "authority 80",
        "authority 80 ",
        "authority 80 8220816168 ",
        "authority 80 8220816168 80",
        "authority  8220816168",
        "authority 8 8220816168",
        "authority 80 822081616",
        "authority 8F 8220816168",
        "\u{e9}",
    ];
    for line in lines {
        assert!(answer(line.as_bytes()).starts_with("? "), "{line}");
    }
    assert!(answer(b"read \xff\xff").starts_with("? "));
}

#[test]
fn the_longest_line() {
    let line = |length: usize| format!("read {}", "8".repeat(length - "read ".len()));
    let told = format!("4 at {MAX_INPUT}");
    assert_eq!(answer(line(MAX_LINE - 1).as_bytes()), told);
    assert!(answer(line(MAX_LINE + 1).as_bytes()).starts_with("? "));
}

#[test]
fn known_calls() {
    assert_eq!(call(b"read 80"), Some("read"));
    assert_eq!(call(b"segment"), Some("segment"));
    assert_eq!(call(b"write 0 -"), Some("write"));
    assert_eq!(call(b"resolve 0 - -"), Some("resolve"));
    assert_eq!(call(b"authority - -"), Some("authority"));
    assert_eq!(call(b"text 0 -"), Some("text"));
    assert_eq!(call(b"options 0 - - 0"), Some("options"));
    assert_eq!(call(b"same - -"), Some("same"));
    assert_eq!(call(b"reads 80"), None);
    assert_eq!(call(b""), None);
}
