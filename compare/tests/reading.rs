//! The reader: the table of the rules, the readings of docs/DECISIONS.md, and every size at it, one below and one over.

mod encode;

use compare::generate::Generator;
use compare::lines;
use compare::reader::{read, read_spans, Host, Opening, Span, MAX_INPUT, MAX_SEGMENTS, MAX_TEXTS};
use encode::{array, bytes, filling, text, texts};

/// A number of an accepted input is 0 and has no place.
fn outcome(input: &[u8]) -> (u8, Option<usize>) {
    match read(input) {
        Ok(_) => (0, None),
        Err(refusal) => (refusal.number(), Some(refusal.place)),
    }
}

#[track_caller]
fn refused(hex: &str, number: u8, place: usize) {
    assert_eq!(outcome(&bytes(hex)), (number, Some(place)), "{hex}");
}

#[track_caller]
fn accepted(hex: &str, components: &str) {
    let request = format!("read {}", lines::hex(&bytes(hex)));
    assert_eq!(
        lines::answer(request.as_bytes()),
        format!("0 {components}"),
        "{hex}"
    );
}

fn string(length: usize) -> Vec<u8> {
    [encode::head(2, length), vec![7; length]].concat()
}

const NULL: &[u8] = &[0xF6];
const TRUE: &[u8] = &[0xF5];
const COAP: &[u8] = &[0x20];

/// The outcome for an array of these items.
fn outcome_of(items: &[&[u8]]) -> (u8, Option<usize>) {
    let items: Vec<_> = items.iter().map(|item| item.to_vec()).collect();
    outcome(&array(&items))
}

const ACCEPTED: (u8, Option<usize>) = (0, None);

fn at(number: u8, place: usize) -> (u8, Option<usize>) {
    (number, Some(place))
}

#[test]
fn table() {
    accepted(
        "83 20 82 44 C6336401 19F0B0 82 6B 2E77656C6C2D6B6E6F776E 64 636F7265",
        "scheme number 0 authority address c6336401 port 61616 \
         path segment 2e77656c6c2d6b6e6f776e segment 636f7265",
    );
    refused("", 1, 0);
    accepted("80", "discard 0");
    refused("81 00", 2, 1);
    accepted("82 00 80", "discard 0 path");
    accepted("82 00 81 61 61", "discard 0 path segment 61");
    accepted("82 01 81 61 61", "discard 1 path segment 61");
    accepted("81 18 7F", "discard 127");
    refused("81 18 80", 4, 1);
    refused("81 18 17", 3, 1);
    accepted("82 02 81 60", "discard 2 path segment -");
    accepted("83 00 F6 81 60", "discard 0 query parameter -");
    refused("82 F5 81 62 2E 2E", 6, 3);
    refused("82 00 81 61 C3", 5, 3);
    accepted("82 01 81 60", "discard 1 path segment -");
    refused("82 20 84 61 31 61 32 61 33 61 34", 6, 2);
    refused("82 20 81 61 41", 6, 3);
    refused("82 64 63 6F 61 70 81 61 61", 6, 1);
    refused("82 00 F6", 2, 2);
    refused("80 00", 7, 1);
}

#[test]
fn reading_1_a_missing_item_has_no_first_byte() {
    refused("81", 1, 1);
    refused("85 F4", 2, 1);
    refused("82 18 17", 3, 1);
    refused("82 00", 1, 2);
    refused("82 00 82 60", 1, 4);
    refused("82 20 82 61 61", 1, 5);
}

#[test]
fn reading_2_of_major_type_7_only_true_and_null() {
    for first in 0xE0..=0xFF_u8 {
        let places: [(&[u8], usize, bool); 8] = [
            (&[], 0, false),
            (&[0x82], 1, first == 0xF5 || first == 0xF6),
            (&[0x82, 0x20], 2, false),
            (&[0x83, 0x20, 0x81], 3, false),
            (&[0x83, 0x00], 2, first == 0xF6),
            (&[0x83, 0x00, 0x81], 3, false),
            (&[0x84, 0x00, 0xF6], 3, first == 0xF6),
            (&[0x84, 0x00, 0xF6, 0xF6], 4, false),
        ];
        for (before, place, allowed) in places {
            let input = [before, &[first]].concat();
            let expected = if allowed {
                at(1, input.len())
            } else {
                at(2, place)
            };
            assert_eq!(outcome(&input), expected, "{input:02x?}");
        }
    }
}

#[test]
fn reading_2_maps_and_tags_have_no_place() {
    for first in 0xA0..=0xDF_u8 {
        for before in [
            &[][..],
            &[0x82],
            &[0x82, 0x20],
            &[0x82, 0x20, 0x81],
            &[0x82, 0x00, 0x81],
        ] {
            let input = [before, &[first]].concat();
            assert_eq!(outcome(&input), at(2, before.len()), "{input:02x?}");
        }
    }
}

#[test]
fn reading_3_the_order_within_an_item() {
    refused("81 19 00", 1, 1);
    refused("81 19 00 17", 3, 1);
    refused("81 19", 1, 1);
    refused("81 1C", 3, 1);
    refused("81 1F", 3, 1);
    refused("82 71", 4, 1);
    refused("82 62 FF", 1, 1);
    refused("82 62 41 FF", 5, 1);
    refused("82 61 41", 6, 1);
    refused("82 5F", 2, 1);
    refused("82 00 9F", 3, 2);
    refused("82 00 81 7F", 3, 3);
    refused("82 00 81 79 00 05", 3, 3);
    refused("82 00 81 79 01 00", 4, 3);
    refused("82 00 81 63 2E 2E", 1, 3);
    refused(&format!("82 00 {}", over_the_segments()), 4, 2);
}

/// The head of a path with one segment too many.
fn over_the_segments() -> String {
    lines::hex(&encode::head(4, MAX_SEGMENTS + 1))
}

#[test]
fn reading_3_heads_are_the_shortest() {
    for (hex, outcome_of_head) in [
        ("81 18 18", ACCEPTED),
        ("81 18 17", at(3, 1)),
        ("81 19 00FF", at(3, 1)),
        ("81 19 0100", at(4, 1)),
        ("81 1A 0000FFFF", at(3, 1)),
        ("81 1A 00010000", at(4, 1)),
        ("81 1B 00000000FFFFFFFF", at(3, 1)),
        ("81 1B 0000000100000000", at(4, 1)),
        ("81 1A 000100", at(1, 1)),
        ("81 1B 00000001000000", at(1, 1)),
    ] {
        assert_eq!(outcome(&bytes(hex)), outcome_of_head, "{hex}");
    }
}

#[test]
fn reading_4_more_than_five_outer_items() {
    refused("98 06", 3, 0);
    refused("98", 1, 0);
    refused("98 18", 2, 0);
    refused("86", 2, 0);
    refused("9B FFFFFFFFFFFFFFFF", 2, 0);
    refused("9F", 3, 0);
    refused("00", 2, 0);
    refused("F6", 2, 0);
}

#[test]
fn reading_5_the_opening_is_judged_before_the_number_of_items() {
    refused("81 22", 6, 1);
    refused("81 64 63 6F 61 70", 6, 1);
    refused("85 18 80", 4, 1);
    refused("81 18 00", 3, 1);
    refused("85 00", 2, 1);
    refused("85 F5", 2, 1);
    refused("81 20", 2, 1);
    refused("81 F6", 2, 1);
    refused("81 61 61", 2, 1);
    refused("81 61 FF", 5, 1);
    refused("81 00", 2, 1);
    refused("81 00 00", 2, 1);
    refused("82 00 F6", 2, 2);
    accepted("81 F5", "discard all");
    accepted("81 01", "discard 1");
}

#[test]
fn reading_6_a_scheme_number_is_in_the_table_or_6() {
    for number in 0..=23_u8 {
        let expected = match number {
            0 | 1 | 6..=9 => ACCEPTED,
            _ => at(6, 1),
        };
        let input = [0x82, 0x20 | number, 0x81, 0x61, b'a'];
        assert_eq!(outcome(&input), expected, "{number}");
    }
    refused("82 38 09 81 61 61", 3, 1);
    refused("82 38 18", 6, 1);
    refused("82 39 0100", 6, 1);
    refused("82 3A 00010000", 6, 1);
    refused("82 3B 7FFFFFFFFFFFFFFF", 6, 1);
    refused("82 3B 8000000000000000", 6, 1);
    refused("82 3B FFFFFFFFFFFFFFFF", 6, 1);
    refused("82 3B 00000000FFFFFFFF", 3, 1);
    refused("82 3F", 3, 1);
}

/// The outcome of a scheme text before the label "a".
fn scheme(text: &str) -> (u8, Option<usize>) {
    let scheme = [encode::head(3, text.len()), text.into()].concat();
    outcome_of(&[&scheme, &texts(&[1])])
}

#[test]
fn reading_6_only_the_six_names_are_refused() {
    for text in [
        "coap", "coaps", "coap+tcp", "coaps+tcp", "coap+ws", "coaps+ws",
    ] {
        assert_eq!(scheme(text), at(6, 1), "{text}");
    }
    for text in [
        "http", "urn", "a", "z0+.-", "coa", "coap+", "coaps+", "coapss", "coap+tc", "coap+wss",
    ] {
        assert_eq!(scheme(text), ACCEPTED, "{text}");
    }
    for text in [
        "Coap", "aB", "0a", "+a", ".a", "-a", "a_", "a/", "a:", "a`", "a{", "a@", "a[", "a,",
        "\u{e9}",
    ] {
        assert_eq!(scheme(text), at(6, 1), "{text}");
    }
}

#[test]
fn reading_7_the_length_comes_before_the_rule() {
    refused("82 60 81 61 61", 4, 1);
    refused("82 20 81 60", 4, 3);
    refused("83 00 F6 80", 4, 3);
}

#[test]
fn reading_8_the_items_of_an_authority() {
    refused("82 20 81 05", 2, 3);
    refused("82 20 81 20", 2, 3);
    refused("82 20 81 80", 2, 3);
    refused("82 20 82 44 01020304", 1, 8);
    refused("82 20 82 44 01020304 61", 2, 8);
    refused("82 20 82 44 01020304 44", 2, 8);
    refused("82 20 82 44 01020304 1F", 3, 8);
    refused("82 20 83 44 01020304 05", 1, 9);
    refused("82 20 83 44 01020304 05 05", 2, 9);
    refused("82 20 83 61 61 05", 1, 6);
    refused("82 20 83 61 61 05 05", 2, 6);
    refused("82 20 83 61 61 05 61", 2, 6);
    refused("82 20 83 61 61 05 FF", 2, 6);
    refused("82 20 82 61 61 44", 2, 5);
    refused("82 20 80", 4, 2);
    refused("82 20 8A", 4, 2);
    refused("82 20 F6", 2, 2);
    refused("82 20 61 61", 2, 2);
    accepted(
        "82 20 82 61 61 05",
        "scheme number 0 authority label 61 port 5",
    );
    accepted(
        "82 F6 81 44 01020304",
        "scheme none authority address 01020304",
    );
}

#[test]
fn reading_9_a_ninth_label() {
    let eight = "82 20 89 61 61 61 61 61 61 61 61 61 61 61 61 61 61 61 61";
    for (ninth, number) in [
        ("7F", 3),
        ("78", 1),
        ("78 05", 3),
        ("61", 4),
        ("60", 4),
        ("78 FF", 4),
        ("44", 2),
    ] {
        refused(&format!("{eight} {ninth}"), number, 19);
    }
    refused(eight, 1, 19);
    assert_eq!(outcome(&bytes(&format!("{eight} 05"))), ACCEPTED);
}

#[test]
fn reading_10_rules_over_all_labels_come_after_the_port() {
    let four = "61 31 61 32 61 33 61 34";
    refused(&format!("82 20 84 {four}"), 6, 2);
    refused(&format!("82 20 85 {four} 05"), 6, 2);
    refused(&format!("82 20 85 {four} 1A 00010000"), 4, 11);
    refused(&format!("82 20 85 {four} F6"), 2, 11);
    refused(&format!("82 20 85 {four}"), 1, 11);
    refused(&format!("83 20 84 {four} 00"), 6, 2);
    assert_eq!(outcome(&bytes(&format!("82 20 85 {four} 61 35"))), ACCEPTED);
    refused(
        "83 70 61616161616161616161616161616161 84 61 31 61 32 61 33 61 34",
        6,
        18,
    );
}

/// The outcome of a name with these labels.
fn name(labels: &[&str]) -> (u8, Option<usize>) {
    let labels: Vec<_> = labels
        .iter()
        .map(|label| [encode::head(3, label.len()), label.as_bytes().to_vec()].concat())
        .collect();
    outcome_of(&[COAP, &array(&labels)])
}

#[test]
fn reading_10_the_ipv4_look() {
    for label in [
        "0", "9", "10", "99", "100", "199", "200", "249", "250", "255",
    ] {
        assert_eq!(name(&[label, "1", "2", "3"]), at(6, 2), "{label}");
        assert_eq!(name(&["1", "2", "3", label]), at(6, 2), "{label}");
        assert_eq!(name(&["1", label, "3"]), ACCEPTED, "{label}");
        assert_eq!(name(&["1", "2", "3", "4", label]), ACCEPTED, "{label}");
    }
    for label in [
        "256", "260", "300", "999", "1000", "00", "01", "001", "010", "1a", "a1", "+1", "-1",
        "\u{0661}",
    ] {
        assert_eq!(name(&[label, "1", "2", "3"]), ACCEPTED, "{label}");
        assert_eq!(name(&["1", "2", "3", label]), ACCEPTED, "{label}");
    }
}

#[test]
fn reading_11_letters_are_ascii() {
    for label in [
        "\u{c9}", "@", "`", "-", "/", " ", "\0", "\u{7f}", "xn--a", "\u{ff0e}",
    ] {
        assert_eq!(name(&[label]), ACCEPTED, "{label}");
    }
    for label in ["A", "Z", "aM", "Aa", ".", "a.", ".a"] {
        assert_eq!(name(&[label]), at(6, 3), "{label}");
        assert_eq!(name(&["b", label]), at(6, 5), "{label}");
    }
    accepted(
        "82 20 82 61 61 19 1633",
        "scheme number 0 authority label 61 port 5683",
    );
    // Two bytes of 128 characters: the length is that in bytes.
    let fragment = [encode::head(3, 256), "\u{e9}".repeat(128).into_bytes()].concat();
    assert_eq!(outcome_of(&[TRUE, NULL, NULL, &fragment]), at(4, 4));
}

#[test]
fn a_label_holds_no_bracket() {
    for label in [
        "[::1]", "[", "]", "[]", "][", "[a", "a[", "]a", "a]", "a[b", "1]", "\u{e9}[",
        "]\u{10ffff}",
    ] {
        assert_eq!(name(&[label]), at(6, 3), "{label}");
        assert_eq!(name(&[label, "b", "c"]), at(6, 3), "{label}");
        assert_eq!(name(&["b", label, "c"]), at(6, 5), "{label}");
        assert_eq!(name(&["b", "c", label]), at(6, 7), "{label}");
        let last = ["a", "b", "c", "d", "e", "f", "g", label];
        assert_eq!(name(&last), at(6, 17), "{label}");
    }
    // At each place of the longest label.
    for place in 0..63 {
        for bracket in ["[", "]"] {
            let mut label = "a".repeat(63);
            label.replace_range(place..=place, bracket);
            assert_eq!(name(&[&label]), at(6, 3), "{label}");
        }
    }
    for label in [
        "::1", "\\", "^", "{", "}", "(", ")", "%5b", "\u{ff3b}", "\u{15b}", "\u{15d}",
    ] {
        assert_eq!(name(&[label]), ACCEPTED, "{label}");
        assert_eq!(name(&["b", label]), ACCEPTED, "{label}");
    }
}

/// Faults that come before the rules of a label, in an item that holds a bracket.
#[test]
fn a_bracket_after_the_other_faults_of_its_item() {
    // The kind.
    refused("82 20 81 81 61 5B", 2, 3);
    refused("82 20 82 61 61 41 5B", 2, 5);
    refused("82 20 82 44 01020304 61 5B", 2, 8);
    refused("82 20 83 61 61 05 61 5B", 2, 6);
    // The head.
    refused("82 20 81 7C 5B", 3, 3);
    refused("82 20 81 7F 61 5B FF", 3, 3);
    refused("82 20 81 79 5B", 1, 3);
    refused("82 20 81 78 01 5B", 3, 3);
    refused("82 20 82 61 61 79 0001 5D", 3, 5);
    // The length, and the number of labels.
    refused("82 20 81 60 5B", 4, 3);
    refused(&format!("82 20 81 78 40 {}", "5B".repeat(64)), 4, 3);
    refused("82 20 81 78 40 5B", 4, 3);
    refused(&format!("82 20 89 {} 61 5B", "61 61".repeat(8)), 4, 19);
    // The content.
    refused("82 20 81 62 5B", 1, 3);
    refused("82 20 81 65 5B3A3A31", 1, 3);
    refused("82 20 82 61 61 62 5D", 1, 5);
    // UTF-8.
    refused("82 20 81 62 5B FF", 5, 3);
    refused("82 20 81 62 FF 5D", 5, 3);
    refused("82 20 81 62 5D C3", 5, 3);
    refused("82 20 81 62 C3 5B", 5, 3);
    refused("82 20 82 61 61 62 5B 80", 5, 5);
    // Another rule of the same label.
    refused("82 20 81 62 5B 41", 6, 3);
    refused("82 20 81 62 2E 5D", 6, 3);
}

#[test]
fn a_bracket_after_a_fault_of_an_earlier_item() {
    refused("A2 20 81 61 5B", 2, 0);
    refused("86 20 81 61 5B", 2, 0);
    refused("98 02 20 81 61 5B", 3, 0);
    refused("82 22 81 61 5B", 6, 1);
    refused("82 61 5B 81 61 5B", 6, 1);
    refused("82 38 00 81 61 5B", 3, 1);
    refused("82 20 8A 61 5B", 4, 2);
    refused("82 20 98 01 61 5B", 3, 2);
    refused("82 20 82 05 61 5B", 2, 3);
    refused("82 20 82 7F 61 5B", 3, 3);
    refused("82 20 82 60 61 5B", 4, 3);
    refused("82 20 82 61 FF 61 5B", 5, 3);
    refused("82 20 82 61 41 61 5B", 6, 3);
    refused("82 20 82 61 5D 61 5B", 6, 3);
    refused("82 20 83 61 61 1A 00010000 61 5B", 4, 5);
    // An input that is too long.
    // The outer array, the scheme and the authority have 5 bytes.
    let authority = bytes("81 61 5B");
    let outcome = |size| outcome_of(&[COAP, &authority, &texts(&filling(size - 5))]);
    assert_eq!(outcome(MAX_INPUT + 1), at(4, MAX_INPUT));
    assert_eq!(outcome(MAX_INPUT), at(6, 3));
}

#[test]
fn a_bracket_before_a_fault_of_a_later_item() {
    for later in [
        "", "F6", "44 01020304", "1A 00010000", "18", "61", "7F", "78 01 61", "60", "61 FF",
        "61 41", "61 5D",
    ] {
        refused(&format!("82 20 82 61 5B {later}"), 6, 3);
        refused(&format!("82 20 83 61 61 61 5D {later}"), 6, 5);
    }
    let over = over_the_segments();
    for later in ["", "F6", "F5", &over, "81 61 2E", "81 61 FF", "81 62 61"] {
        refused(&format!("83 20 81 61 5B {later}"), 6, 3);
        refused(&format!("83 20 82 62 61 5D 05 {later}"), 6, 3);
    }
    refused("84 20 81 61 5B F6 80", 6, 3);
    refused("85 20 81 61 5B F6 F6 F6", 6, 3);
    refused("82 20 81 61 5B 00", 6, 3);
    // The total of the labels.
    let long = "a".repeat(63);
    let bracket = format!("[{}", &long[1..]);
    assert_eq!(name(&[&long, &long, &long, &long, "a"]), at(6, 2));
    assert_eq!(name(&[&bracket, &long, &long, &long, "a"]), at(6, 3));
    assert_eq!(name(&[&long, &bracket, &long, &long, "a"]), at(6, 68));
    assert_eq!(name(&[&long, &long, &long, &long, "]"]), at(6, 263));
    // What would look like an IPv4 address without the brackets.
    assert_eq!(name(&["1", "2", "3", "4"]), at(6, 2));
    assert_eq!(name(&["[1", "2", "3", "4]"]), at(6, 3));
    assert_eq!(name(&["1", "2", "3", "4]"]), at(6, 9));
    assert_eq!(name(&["1", "2", "3", "4", "]"]), at(6, 11));
}

/// A scheme text never had brackets; the other texts may have them.
#[test]
fn brackets_in_other_texts() {
    for text in ["[", "]", "[::1]", "a[", "]a", "a[b]"] {
        assert_eq!(scheme(text), at(6, 1), "{text}");
        let item = encode::text_of(text.as_bytes());
        let list = array(std::slice::from_ref(&item));
        let label = texts(&[1]);
        for opening in [&[TRUE][..], &[COAP, &label], &[NULL, &label]] {
            for after in [&[&list[..]][..], &[NULL, &list], &[NULL, NULL, &item]] {
                let items = [opening, after].concat();
                assert_eq!(outcome_of(&items), ACCEPTED, "{text}");
            }
        }
    }
    accepted(
        "85 20 81 61 61 81 62 5B5D 81 61 5B 61 5D",
        "scheme number 0 authority label 61 path segment 5b5d query parameter 5b fragment 5d",
    );
}

#[test]
fn reading_12_a_null_in_the_fragments_place() {
    refused("84 00 F6 F6 F6", 2, 4);
    refused("85 20 81 61 61 F6 F6 F6", 2, 7);
    refused("83 00 F6 F6", 2, 3);
    refused("84 20 81 61 61 F6 F6", 2, 6);
    accepted("84 00 F6 F6 60", "discard 0 fragment -");
    refused("84 00 F6 F6 81 60", 2, 4);
    refused("84 00 F6 F6 F5", 2, 4);
}

#[test]
fn reading_13_cuts_are_at_the_items_first_byte() {
    refused("82 00 81 63 61 61", 1, 3);
    refused("82 00 81 78 20 61", 1, 3);
    refused("82 00 81 78", 1, 3);
    refused("82 00 98", 1, 2);
    refused("82 20 81 44 010203", 1, 3);
    refused("82 20 82 61 61 19 00", 1, 5);
    refused("84 00 F6 F6 61", 1, 4);
}

#[test]
fn dots_as_segments() {
    for (segment, expected) in [
        (".", at(6, 3)),
        ("..", at(6, 3)),
        ("...", ACCEPTED),
        (".a", ACCEPTED),
        ("a.", ACCEPTED),
    ] {
        let segment = [encode::head(3, segment.len()), segment.into()].concat();
        let list = array(&[segment]);
        assert_eq!(outcome_of(&[TRUE, &list]), expected);
        assert_eq!(outcome_of(&[TRUE, NULL, &list]), ACCEPTED);
    }
}

#[test]
fn utf8_at_the_ends_of_its_ranges() {
    let well = [
        "7F", "C280", "DFBF", "E0A080", "ECBFBF", "ED9FBF", "EE8080", "EFBFBF", "F0908080",
        "F48FBFBF",
    ];
    let ill = [
        "80", "BF", "C080", "C1BF", "C27F", "C2C0", "E09FBF", "EDA080", "E180", "E18041",
        "F08FBFBF", "F4908080", "F5808080", "F09080", "FE", "FF",
    ];
    for (hex, expected) in well
        .map(|hex| (hex, ACCEPTED))
        .into_iter()
        .chain(ill.map(|hex| (hex, at(5, 4))))
    {
        let content = bytes(hex);
        let fragment = [encode::head(3, content.len()), content].concat();
        assert_eq!(
            outcome_of(&[TRUE, NULL, NULL, &fragment]),
            expected,
            "{hex}"
        );
    }
}

/// A byte that is no character, and a character of two bytes, at each place of a segment of each length.
#[test]
fn utf8_at_every_place() {
    let with = |length: usize, place: usize, bytes: &[u8]| {
        let mut content = vec![b'a'; length];
        content[place..place + bytes.len()].copy_from_slice(bytes);
        outcome_of(&[TRUE, &array(&[encode::text_of(&content)])])
    };
    for length in 1..=255 {
        for place in 0..length {
            assert_eq!(with(length, place, &[0x80]), at(5, 3), "{length}, {place}");
        }
        for place in 1..length {
            let outcome = with(length, place - 1, "\u{e9}".as_bytes());
            assert_eq!(outcome, ACCEPTED, "{length}, {place}");
        }
    }
}

#[test]
fn size_of_the_input() {
    // The outer array and the discard have a byte each.
    let sized = |size| array(&[TRUE.to_vec(), texts(&filling(size - 2))]);
    assert_eq!(sized(MAX_INPUT).len(), MAX_INPUT);
    assert_eq!(outcome(&sized(MAX_INPUT - 1)), ACCEPTED);
    assert_eq!(outcome(&sized(MAX_INPUT)), ACCEPTED);
    assert_eq!(outcome(&sized(MAX_INPUT + 1)), at(4, MAX_INPUT));
    assert_eq!(outcome(&[0x00; MAX_INPUT]), at(2, 0));
    assert_eq!(outcome(&[0xFF; MAX_INPUT]), at(2, 0));
    assert_eq!(outcome(&[0xFF; MAX_INPUT + 1]), at(4, MAX_INPUT));
    assert_eq!(outcome(&[0x80; 2 * MAX_INPUT]), at(4, MAX_INPUT));
}

/// The most segments in an input of the largest size, and one more of each.
#[test]
fn both_sizes_at_once() {
    // Before the segments 4 bytes; 10 of 26 bytes with their heads, then those of 24, and the last one with a head of 2.
    let sized = |count: usize, size: usize| {
        let last = size - 4 - 10 * 26 - (count - 11) * 24 - 2;
        let lengths = [vec![24; 10], vec![23; count - 11], vec![last]].concat();
        array(&[TRUE.to_vec(), texts(&lengths)])
    };
    assert_eq!(sized(MAX_SEGMENTS, MAX_INPUT).len(), MAX_INPUT);
    assert_eq!(outcome(&sized(MAX_SEGMENTS, MAX_INPUT - 1)), ACCEPTED);
    assert_eq!(outcome(&sized(MAX_SEGMENTS, MAX_INPUT)), ACCEPTED);
    assert_eq!(
        outcome(&sized(MAX_SEGMENTS, MAX_INPUT + 1)),
        at(4, MAX_INPUT)
    );
    assert_eq!(outcome(&sized(MAX_SEGMENTS + 1, MAX_INPUT)), at(4, 2));
    assert_eq!(
        outcome(&sized(MAX_SEGMENTS + 1, MAX_INPUT + 1)),
        at(4, MAX_INPUT)
    );
}

#[test]
fn sizes_of_the_path() {
    for (count, expected) in [
        (0, ACCEPTED),
        (1, ACCEPTED),
        (MAX_SEGMENTS - 1, ACCEPTED),
        (MAX_SEGMENTS, ACCEPTED),
        (MAX_SEGMENTS + 1, at(4, 2)),
    ] {
        assert_eq!(
            outcome_of(&[TRUE, &texts(&vec![1; count])]),
            expected,
            "{count}"
        );
    }
    for (length, expected) in [
        (0, ACCEPTED),
        (254, ACCEPTED),
        (255, ACCEPTED),
        (256, at(4, 5)),
    ] {
        assert_eq!(
            outcome_of(&[TRUE, &texts(&[1, length])]),
            expected,
            "{length}"
        );
    }
}

#[test]
fn sizes_of_the_query() {
    for (count, expected) in [
        (0, at(4, 3)),
        (1, ACCEPTED),
        (15, ACCEPTED),
        (16, ACCEPTED),
        (17, at(4, 3)),
    ] {
        assert_eq!(
            outcome_of(&[TRUE, NULL, &texts(&vec![1; count])]),
            expected,
            "{count}"
        );
    }
    for (length, expected) in [
        (0, ACCEPTED),
        (254, ACCEPTED),
        (255, ACCEPTED),
        (256, at(4, 6)),
    ] {
        assert_eq!(
            outcome_of(&[TRUE, NULL, &texts(&[1, length])]),
            expected,
            "{length}"
        );
    }
}

#[test]
fn size_of_the_fragment() {
    for (length, expected) in [
        (0, ACCEPTED),
        (254, ACCEPTED),
        (255, ACCEPTED),
        (256, at(4, 4)),
    ] {
        assert_eq!(
            outcome_of(&[TRUE, NULL, NULL, &text(length)]),
            expected,
            "{length}"
        );
    }
}

#[test]
fn sizes_of_labels() {
    // The ninth label begins after an outer head, a scheme, an array head and 8 labels of 2 bytes.
    for (count, expected) in [
        (0, at(4, 2)),
        (1, ACCEPTED),
        (7, ACCEPTED),
        (8, ACCEPTED),
        (9, at(4, 19)),
        (10, at(4, 2)),
    ] {
        assert_eq!(
            outcome_of(&[COAP, &texts(&vec![1; count])]),
            expected,
            "{count}"
        );
    }
    for (length, expected) in [
        (0, at(4, 5)),
        (1, ACCEPTED),
        (62, ACCEPTED),
        (63, ACCEPTED),
        (64, at(4, 5)),
    ] {
        assert_eq!(
            outcome_of(&[COAP, &texts(&[1, length])]),
            expected,
            "{length}"
        );
    }
}

#[test]
fn size_of_a_name() {
    for (labels, expected) in [
        (&[63, 63, 63, 62][..], ACCEPTED),
        (&[63, 63, 63, 63], ACCEPTED),
        (&[63, 63, 63, 61, 1], ACCEPTED),
        (&[63, 63, 63, 62, 1], at(6, 2)),
        (&[63, 63, 63, 63, 1], at(6, 2)),
        (&[31, 31, 31, 31, 31, 31, 31, 30], ACCEPTED),
        (&[31, 31, 31, 31, 31, 31, 31, 31], ACCEPTED),
        (&[31, 31, 31, 31, 31, 31, 31, 32], at(6, 2)),
    ] {
        assert_eq!(outcome_of(&[COAP, &texts(labels)]), expected, "{labels:?}");
    }
}

#[test]
fn size_of_an_authority() {
    // Labels and one port.
    for (items, expected) in [(8, ACCEPTED), (9, ACCEPTED), (10, at(4, 2))] {
        let mut authority = vec![text(1); items - 1];
        authority.push(vec![5]);
        assert_eq!(outcome_of(&[COAP, &array(&authority)]), expected, "{items}");
    }
}

#[test]
fn size_of_an_address() {
    for length in [0, 1, 3, 4, 5, 15, 16, 17, 24, 256] {
        let expected = if length == 4 || length == 16 {
            ACCEPTED
        } else {
            at(4, 3)
        };
        assert_eq!(
            outcome_of(&[COAP, &array(&[string(length)])]),
            expected,
            "{length}"
        );
    }
}

#[test]
fn size_of_a_scheme_text() {
    for (length, expected) in [
        (0, at(4, 1)),
        (1, ACCEPTED),
        (15, ACCEPTED),
        (16, ACCEPTED),
        (17, at(4, 1)),
    ] {
        assert_eq!(
            outcome_of(&[&text(length), &texts(&[1])]),
            expected,
            "{length}"
        );
    }
}

#[test]
fn size_of_a_port() {
    for (port, expected) in [
        ("00", ACCEPTED),
        ("19 FFFE", ACCEPTED),
        ("19 FFFF", ACCEPTED),
        ("1A 00010000", at(4, 5)),
        ("1B FFFFFFFFFFFFFFFF", at(4, 5)),
    ] {
        assert_eq!(
            outcome_of(&[COAP, &array(&[text(1), bytes(port)])]),
            expected,
            "{port}"
        );
    }
}

#[test]
fn size_of_a_discard() {
    for count in 0..=255 {
        let expected = if count > 127 { at(4, 1) } else { ACCEPTED };
        assert_eq!(
            outcome_of(&[&encode::head(0, count), &texts(&[])]),
            expected,
            "{count}"
        );
    }
    refused("81 1B FFFFFFFFFFFFFFFF", 4, 1);
}

#[test]
fn number_of_outer_items() {
    let rest = [texts(&[1]), texts(&[1]), text(1), text(1)];
    for (count, expected) in [
        (1, ACCEPTED),
        (2, ACCEPTED),
        (3, ACCEPTED),
        (4, ACCEPTED),
        (5, at(2, 1)),
    ] {
        let items = [&[TRUE.to_vec()], &rest[..count - 1]].concat();
        assert_eq!(outcome(&array(&items)), expected, "discard, {count}");
    }
    for (count, expected) in [
        (2, ACCEPTED),
        (3, ACCEPTED),
        (4, ACCEPTED),
        (5, ACCEPTED),
        (6, at(2, 0)),
    ] {
        let items = [&[COAP.to_vec(), texts(&[1])], &rest[..count - 2]].concat();
        assert_eq!(outcome(&array(&items)), expected, "scheme, {count}");
    }
}

#[test]
fn tail_is_last_and_at_the_first_byte_after() {
    refused("80 80", 7, 1);
    refused("81 F5 FF FF", 7, 2);
    refused("82 00 81 61 61 00", 7, 5);
    refused("82 00 81 62 2E 2E 00", 6, 3);
}

/// The spans of an accepted input are those of its texts in order, and no others are stored.
#[test]
fn spans_of_texts() {
    const NONE: Span = Span {
        start: usize::MAX,
        length: usize::MAX,
    };
    let inputs = Generator::new(8).take(20_000).filter_map(|request| {
        let is_request = !lines::answer(&request).starts_with('?');
        let word = request.strip_prefix(b"read ").filter(|_| is_request)?;
        Some(bytes(str::from_utf8(word).ok()?))
    });
    let mut most = 0;
    for input in inputs {
        let mut spans = [NONE; MAX_TEXTS];
        let outcome = read_spans(&input, &mut spans);
        assert_eq!(outcome, read(&input));
        let Ok(reference) = outcome else { continue };
        let labels = match reference.opening {
            Opening::Authority(_, authority) => match authority.host {
                Host::Labels(labels) => Some(labels),
                Host::Address(_) => None,
            },
            Opening::Discard(_) => None,
        };
        let lists = [labels, reference.path, reference.query];
        let texts: Vec<&[u8]> = lists.into_iter().flatten().flatten().collect();
        let (stored, others) = spans.split_at(texts.len());
        for (span, text) in stored.iter().zip(&texts) {
            let part = &input[span.start..span.start + span.length];
            assert_eq!(part.as_ptr_range(), text.as_ptr_range(), "{input:02x?}");
        }
        assert!(others.iter().all(|span| *span == NONE), "{input:02x?}");
        most = most.max(texts.len());
    }
    assert!(most >= MAX_SEGMENTS, "{most}");
}

/// A list of texts: its length, its contents and its items, and those of its first texts.
#[test]
fn lists_of_texts() {
    let lengths = [0, 1, 23, 24, 255, 0, 255];
    for count in 0..=lengths.len() {
        let input = array(&[TRUE.to_vec(), texts(&lengths[..count])]);
        let path = read(&input).ok().and_then(|reference| reference.path);
        let path = path.expect("a path");
        assert_eq!(path.len(), count);
        assert_eq!(path.is_empty(), count == 0);
        assert_eq!(path.is_one_empty(), count == 1);
        assert_eq!(path.items(), &texts(&lengths[..count])[1..]);
        assert!(path
            .iter()
            .map(<[u8]>::len)
            .eq(lengths[..count].iter().copied()));
        for first in 0..=count {
            let prefix = path.prefix(first);
            assert_eq!(prefix.len(), first);
            assert_eq!(prefix.items(), &texts(&lengths[..first])[1..]);
        }
    }
}
