//! The resolver and the authority view: the table of the rules, the steps, the refusals in their order, every size at it and one over.

mod encode;
#[path = "encode/not_absolute.rs"]
mod not_absolute;
mod told;

use compare::reader::{MAX_INPUT, MAX_SEGMENTS};
use compare::refusal::Refusal;
use compare::resolver::resolve;
use compare::views::authority;
use encode::{bytes, filling, head, text, texts};
use not_absolute::NOT_ABSOLUTE;
use told::told;

/// What is resolved, or the number and the place, with room enough.
fn resolved(base: &[u8], reference: &[u8]) -> Result<Vec<u8>, (u8, usize)> {
    let mut room = [7; MAX_INPUT];
    let length = resolve(base, reference, &mut room).map_err(told)?;
    Ok(room[..length].to_vec())
}

#[track_caller]
fn gives(base: &str, reference: &str, result: &str) {
    assert_eq!(
        resolved(&bytes(base), &bytes(reference)),
        Ok(bytes(result)),
        "{base}; {reference}"
    );
}

#[track_caller]
fn refused(base: &str, reference: &str, number: u8, place: usize) {
    assert_eq!(
        resolved(&bytes(base), &bytes(reference)),
        Err((number, place)),
        "{base}; {reference}"
    );
}

/// The base of the table, up to its path, and its two segments.
const HOST: &str = "20 82 44 C6336401 19F0B0";
const WELL_KNOWN: &str = "6B 2E77656C6C2D6B6E6F776E";
const CORE: &str = "64 636F7265";

#[test]
fn table() {
    let base = format!("83 {HOST} 82 {WELL_KNOWN} {CORE}");
    let gives = |reference, result: &str| gives(&base, reference, result);
    let refused = |reference, number, place| refused(&base, reference, number, place);
    refused("", 1, 0);
    gives("80", &base);
    refused("81 00", 2, 1);
    gives("82 00 80", &base);
    gives(
        "82 00 81 61 61",
        &format!("83 {HOST} 83 {WELL_KNOWN} {CORE} 61 61"),
    );
    gives(
        "82 01 81 61 61",
        &format!("83 {HOST} 82 {WELL_KNOWN} 61 61"),
    );
    gives("81 18 7F", &format!("82 {HOST}"));
    refused("81 18 80", 4, 1);
    refused("81 18 17", 3, 1);
    gives("82 02 81 60", &format!("82 {HOST}"));
    gives(
        "83 00 F6 81 60",
        &format!("84 {HOST} 82 {WELL_KNOWN} {CORE} 81 60"),
    );
    refused("82 F5 81 62 2E 2E", 6, 3);
    refused("82 00 81 61 C3", 5, 3);
    gives("82 01 81 60", &format!("83 {HOST} 82 {WELL_KNOWN} 60"));
    refused("82 20 84 61 31 61 32 61 33 61 34", 6, 2);
    refused("82 20 81 61 41", 6, 3);
    refused("82 64 63 6F 61 70 81 61 61", 6, 1);
    refused("82 00 F6", 2, 2);
    refused("80 00", 7, 1);
}

/// `coap://h/p?q#f`.
const FULL: &str = "85 20 81 61 68 81 61 70 81 61 71 61 66";

#[test]
fn the_bases_query_and_fragment() {
    gives(FULL, "80", "84 20 81 61 68 81 61 70 81 61 71");
    gives(FULL, "82 00 80", "83 20 81 61 68 81 61 70");
    gives(FULL, "81 F5", "82 20 81 61 68");
    gives(FULL, "81 01", "82 20 81 61 68");
    gives(FULL, "82 00 81 61 61", "83 20 81 61 68 82 61 70 61 61");
}

#[test]
fn a_query_and_a_fragment_are_copied() {
    let with = |after| format!("84 20 81 61 68 81 61 70 {after}");
    gives(FULL, "83 00 F6 81 61 72", &with("81 61 72"));
    gives(FULL, "83 00 80 81 61 72", &with("81 61 72"));
    let with = |after| format!("85 20 81 61 68 81 61 70 {after}");
    gives(FULL, "84 00 F6 F6 61 67", &with("81 61 71 61 67"));
    gives(FULL, "84 00 F6 F6 60", &with("81 61 71 60"));
    gives(FULL, "84 00 80 F6 61 67", &with("F6 61 67"));
    gives(FULL, "84 00 F6 81 61 72 61 67", &with("81 61 72 61 67"));
    gives(FULL, "83 01 F6 81 61 72", "84 20 81 61 68 F6 81 61 72");
    gives(FULL, "84 01 F6 F6 61 67", "85 20 81 61 68 F6 F6 61 67");
}

#[test]
fn a_scheme_and_an_authority_are_copied() {
    // Only the authority.
    gives(FULL, "82 F6 81 61 69", "82 20 81 61 69");
    gives(
        FULL,
        "83 F6 82 61 69 18 50 81 61 61",
        "83 20 82 61 69 18 50 81 61 61",
    );
    gives(
        "83 64 68747470 81 61 68 81 61 70",
        "82 F6 81 44 01020304",
        "82 64 68747470 81 44 01020304",
    );
    // Both, so that nothing of the base is left.
    gives(FULL, "82 21 81 61 69", "82 21 81 61 69");
    gives(FULL, "82 63 75726E 81 61 69", "82 63 75726E 81 61 69");
    gives(
        FULL,
        "85 29 82 61 69 00 82 60 61 61 81 60 60",
        "85 29 82 61 69 00 82 60 61 61 81 60 60",
    );
    // An empty path and a lone empty segment are written as unset.
    gives(FULL, "83 21 81 61 69 80", "82 21 81 61 69");
    gives(FULL, "83 21 81 61 69 81 60", "82 21 81 61 69");
    gives(
        FULL,
        "84 F6 81 61 69 81 60 81 61 72",
        "84 20 81 61 69 F6 81 61 72",
    );
}

/// `coap://h` with these segments, each of one letter, or empty where it is "-".
fn with_path(segments: &str) -> String {
    if segments.is_empty() {
        return "82 20 81 61 68".to_string();
    }
    format!("83 20 81 61 68 {}", letters(segments))
}

/// A path of such segments.
fn letters(segments: &str) -> String {
    let text = |segment: char| match segment {
        '-' => "60".to_string(),
        letter => format!("61 {:02X}", letter as u8),
    };
    let texts: Vec<String> = segments.chars().map(text).collect();
    format!("{:02X} {}", 0x80 + texts.len(), texts.join(" "))
}

#[test]
fn discards() {
    let gives = |base: &str, discard: &str, appended: &str, result: &str| {
        let reference = match (discard, appended) {
            ("00", "") => "80".to_string(),
            (_, "") => format!("81 {discard}"),
            _ => format!("82 {discard} {}", letters(appended)),
        };
        gives(&with_path(base), &reference, &with_path(result));
    };
    gives("abc", "00", "", "abc");
    gives("abc", "01", "", "ab");
    gives("abc", "02", "", "a");
    gives("abc", "03", "", "");
    gives("abc", "04", "", "");
    gives("abc", "18 7F", "", "");
    gives("abc", "F5", "", "");
    gives("abc", "00", "x", "abcx");
    gives("abc", "02", "xy", "axy");
    gives("abc", "03", "xy", "xy");
    gives("abc", "04", "xy", "xy");
    gives("abc", "F5", "xy", "xy");
    gives("", "00", "", "");
    gives("", "01", "x", "x");
    gives("", "F5", "x", "x");
    // A lone empty segment of the base is none, before anything is discarded or appended.
    gives("-", "00", "", "");
    gives("-", "00", "x", "x");
    gives("-", "01", "x", "x");
    gives("--", "00", "", "--");
    gives("--", "00", "x", "--x");
    // So is one of the result, whether it was kept or appended.
    gives("--", "01", "", "");
    gives("-a", "01", "", "");
    gives("-a", "02", "-", "");
    gives("", "00", "-", "");
    gives("-", "00", "-", "");
    gives("a", "01", "-", "");
    gives("a", "F5", "-", "");
    // An empty segment beside another is one.
    gives("-a", "01", "x", "-x");
    gives("-a", "01", "-", "--");
    gives("a", "00", "-", "a-");
    gives("a", "01", "--", "--");
}

#[test]
fn discards_of_a_full_path() {
    for (segments, discard) in [
        (MAX_SEGMENTS, 24),
        (MAX_SEGMENTS, 126),
        (MAX_SEGMENTS, 127),
        (128, 127),
        (127, 126),
        (127, 127),
        (126, 127),
        (32, 31),
        (32, 32),
        (32, 33),
        (32, 64),
        (32, 127),
    ] {
        let expected = match segments.saturating_sub(discard) {
            0 => bytes(&with_path("")),
            left => base_of(&vec![1; left]),
        };
        let reference = [vec![0x81], head(0, discard)].concat();
        assert_eq!(
            resolved(&base_of(&vec![1; segments]), &reference),
            Ok(expected),
            "{segments} - {discard}"
        );
    }
}

/// A base with a lone empty segment and a query keeps the query: only the path is dropped.
#[test]
fn a_lone_empty_segment_and_a_query() {
    let base = "84 20 81 61 68 81 60 81 61 71";
    gives(base, "80", "84 20 81 61 68 F6 81 61 71");
    gives(base, "82 00 80", "82 20 81 61 68");
    gives(base, "84 00 F6 F6 60", "85 20 81 61 68 F6 81 61 71 60");
}

#[test]
fn the_base_is_judged_first_and_always() {
    let absolute = "82 21 81 61 69";
    // The place is the one in the base, and 0 where the base is not absolute.
    for &(base, _, place) in NOT_ABSOLUTE {
        for reference in ["80", absolute, "", "80 00", "82 00 81 61 C3"] {
            refused(base, reference, 8, place);
        }
    }
    let long = base_sized(MAX_INPUT + 1);
    assert_eq!(resolved(&long, &bytes(absolute)), Err((8, MAX_INPUT)));
    assert_eq!(resolved(&long, &bytes("81 F5")), Err((8, MAX_INPUT)));
    // A fault near the end of a base: its last segment is cut.
    let lengths = filling(MAX_INPUT - 5);
    let late = base_of(&lengths);
    let last = late.len() - text(lengths[lengths.len() - 1]).len();
    assert_eq!(resolved(&late[..MAX_INPUT - 1], &[0x80]), Err((8, last)));
}

#[test]
fn the_references_refusals_come_before_those_of_the_result() {
    let base = base_of(&[1; MAX_SEGMENTS]);
    // One segment too many.
    assert_eq!(resolved(&base, &bytes("82 00 81 61 61")), Err((9, 0)));
    for (reference, number, place) in [
        ("82 00 81 61", 1, 3),
        ("82 00 82 60", 1, 4),
        ("82 00 81 00", 2, 3),
        ("82 00 81 78 01 61", 3, 3),
        ("82 00 81 79 01 00", 4, 3),
        ("82 00 81 61 FF", 5, 3),
        ("82 00 82 60 61 2E", 6, 4),
        ("82 00 81 61 61 00", 7, 5),
    ] {
        assert_eq!(resolved(&base, &bytes(reference)), Err((number, place)));
    }
    let over = appending(0, &[1; MAX_SEGMENTS + 1]);
    assert_eq!(resolved(&base, &over), Err((4, 2)));
    let long = [0x80; MAX_INPUT + 1];
    assert_eq!(resolved(&base, &long), Err((4, MAX_INPUT)));
}

/// `coap://h` with a path of segments of these lengths; 5 bytes and the path.
fn base_of(lengths: &[usize]) -> Vec<u8> {
    [bytes("83 20 81 61 68"), texts(lengths)].concat()
}

/// `coap://h` with a path, of so many bytes.
fn base_sized(size: usize) -> Vec<u8> {
    base_of(&filling(size - 5))
}

/// A reference that discards `discard` segments and appends a path of texts of these lengths.
fn appending(discard: usize, lengths: &[usize]) -> Vec<u8> {
    [vec![0x82], head(0, discard), texts(lengths)].concat()
}

#[test]
fn most_segments() {
    const MOST: usize = MAX_SEGMENTS;
    let most = base_of(&[1; MOST]);
    for (of_base, discard, appended) in [
        (MOST - 1, 0, 1),
        (MOST, 0, 0),
        (MOST, 1, 1),
        (MOST, 16, 16),
        (MOST, 127, 127),
        (MOST - 1, 127, 128),
        (MOST / 2, 0, MOST - MOST / 2),
        (1, 0, MOST - 1),
        (1, 1, MOST),
        (0, 0, MOST),
        (0, 127, MOST),
    ] {
        let base = base_of(&vec![1; of_base]);
        let outcome = resolved(&base, &appending(discard, &vec![1; appended]));
        let pair = format!("{of_base} - {discard} + {appended}");
        assert_eq!(outcome.as_ref(), Ok(&most), "{pair}");
        // One more.
        if appended < MOST {
            let outcome = resolved(&base, &appending(discard, &vec![1; appended + 1]));
            assert_eq!(outcome, Err((9, 0)), "{pair}");
        }
    }
    let as_many = appending(0, &[1; MOST]);
    assert_eq!(resolved(&most, &as_many), Err((9, 0)));
    let all = [vec![0x82, 0xF5], texts(&[1; MOST])].concat();
    assert_eq!(resolved(&most, &all).as_ref(), Ok(&most));
    // A lone empty segment of the base is not counted; an empty one that is appended is.
    assert_eq!(resolved(&base_of(&[0]), &as_many).as_ref(), Ok(&most));
    assert_eq!(resolved(&most, &appending(0, &[0])), Err((9, 0)));
}

#[test]
fn longest_result() {
    for size in [MAX_INPUT - 1, MAX_INPUT, MAX_INPUT + 1, MAX_INPUT + 2] {
        let lengths = filling(size - 5);
        for kept in [0, 1, lengths.len() / 2, lengths.len() - 1] {
            let (kept, appended) = lengths.split_at(kept);
            let outcome = resolved(&base_of(kept), &appending(0, appended));
            let expected = match size {
                0..=MAX_INPUT => Ok(base_of(&lengths)),
                _ => Err((9, 0)),
            };
            assert_eq!(outcome, expected, "{size}");
        }
    }
    // A fragment of 5, its head and the null before it are 7 bytes more.
    let fragment = bytes("84 00 F6 F6 65 6162636465");
    let longest = resolved(&base_sized(MAX_INPUT - 7), &fragment).map(|result| result.len());
    assert_eq!(longest, Ok(MAX_INPUT));
    assert_eq!(resolved(&base_sized(MAX_INPUT - 6), &fragment), Err((9, 0)));
    let empty = bytes("84 00 F6 F6 60");
    assert_eq!(resolved(&base_sized(MAX_INPUT), &empty), Err((9, 0)));
}

/// A result of the most segments and the largest size.
#[test]
fn both_sizes_at_once() {
    // Before the segments 7 bytes; 10 of 26 bytes with their heads, then those of 24, and the last one with a head of 2.
    let kept = [24; 10];
    let longest = MAX_INPUT - 7 - 10 * 26 - (MAX_SEGMENTS - 11) * 24 - 2;
    let appended = |last| [vec![23; MAX_SEGMENTS - 11], vec![last]].concat();
    let resolved = |last| resolved(&base_of(&kept), &appending(0, &appended(last)));
    let result = base_of(&[&kept, &appended(longest)[..]].concat());
    assert_eq!(result.len(), MAX_INPUT);
    assert_eq!(resolved(longest), Ok(result));
    assert_eq!(resolved(longest + 1), Err((9, 0)));
}

#[test]
fn what_falls_away_has_no_length() {
    let lengths = filling(MAX_INPUT - 5);
    let (&last, others) = lengths.split_last().expect("segments");
    let rest = base_of(others);
    let discarded = base_of(&lengths);
    assert_eq!(resolved(&discarded, &appending(1, &[])), Ok(rest.clone()));
    let longer = appending(1, &[last + 1]);
    assert_eq!(resolved(&discarded, &longer), Err((9, 0)));
    // The fragment of the base.
    let after = [vec![0xF6], text(last - 1)].concat();
    let base = [bytes("85 20 81 61 68"), texts(others), after].concat();
    assert_eq!(base.len(), MAX_INPUT);
    assert_eq!(resolved(&base, &[0x80]), Ok(rest));
    let longest = resolved(&base, &appending(0, &[last])).map(|result| result.len());
    assert_eq!(longest, Ok(MAX_INPUT));
    assert_eq!(resolved(&base, &appending(0, &[last + 1])), Err((9, 0)));
}

/// A scheme text of the base before a reference of nearly the largest size.
#[test]
fn longest_result_by_the_scheme() {
    let base = bytes("82 64 68747470 81 61 68");
    let reference = |size: usize| {
        let path = texts(&filling(size - 5));
        [bytes("83 F6 81 61 69"), path].concat()
    };
    // The scheme has 4 bytes more than the null in its place.
    let longest = resolved(&base, &reference(MAX_INPUT - 4)).map(|result| result.len());
    assert_eq!(longest, Ok(MAX_INPUT));
    let outcome = |size| resolved(&base, &reference(size));
    assert_eq!(outcome(MAX_INPUT - 3), Err((9, 0)));
    assert_eq!(outcome(MAX_INPUT), Err((9, 0)));
    assert_eq!(outcome(MAX_INPUT + 1), Err((4, MAX_INPUT)));
}

#[test]
fn over_a_size_comes_before_the_room() {
    let base = base_of(&[1; MAX_SEGMENTS]);
    let mut room = [7; 4];
    let mut outcome = |base: &[u8], reference: &[u8]| {
        let outcome = resolve(base, reference, &mut room);
        outcome.map_err(told)
    };
    assert_eq!(outcome(&base, &appending(0, &[1])), Err((9, 0)));
    assert_eq!(outcome(&base, &appending(1, &[1])), Err((10, 0)));
    let long = base_sized(MAX_INPUT);
    assert_eq!(outcome(&long, &appending(0, &[0])), Err((9, 0)));
    assert_eq!(room, [7; 4]);
}

#[test]
fn rooms() {
    let base = bytes("82 20 81 61 68");
    let reference = bytes("82 00 81 61 61");
    let result = bytes("83 20 81 61 68 81 61 61");
    for length in 0..12 {
        let mut room = [7; 12];
        let outcome = resolve(&base, &reference, &mut room[..length]).map_err(told);
        let expected = if length < 8 { Err((10, 0)) } else { Ok(8) };
        assert_eq!(outcome, expected, "{length}");
        let written = outcome.unwrap_or(0);
        assert_eq!(room[..written], result[..written]);
        assert!(room[written..].iter().all(|&b| b == 7), "{length}");
    }
    for (base, reference) in [("80", "80"), (FULL, "81"), (FULL, "80 00")] {
        let mut room = [7; 12];
        assert!(resolve(&bytes(base), &bytes(reference), &mut room).is_err());
        assert_eq!(room, [7; 12]);
    }
    let mut room = [7; MAX_INPUT + 6];
    let longest = base_sized(MAX_INPUT);
    assert_eq!(resolve(&longest, &[0x80], &mut room), Ok(MAX_INPUT));
    assert_eq!(room[..MAX_INPUT], longest);
    assert_eq!(room[MAX_INPUT..], [7; 6]);
}

/// The view is that part of the input.
#[track_caller]
fn is_part(view: Result<&[u8], Refusal>, input: &[u8], start: usize, end: usize) {
    assert_eq!(view, Ok(&input[start..end]));
    assert_eq!(view.map(<[u8]>::as_ptr), Ok(input[start..].as_ptr()));
}

#[test]
fn the_authority_shown() {
    let base = bytes("83 64 68747470 83 61 68 61 69 19 1633 81 61 70");
    let own = bytes("83 F6 82 44 01020304 00 81 61 61");
    let both = bytes("82 63 75726E 81 50 000102030405060708090A0B0C0D0E0F");
    for reference in ["80", "81 F5", "82 01 81 61 61", "84 00 F6 F6 60"] {
        is_part(authority(&bytes(reference), &base), &base, 6, 14);
    }
    is_part(authority(&own, &base), &own, 2, 9);
    is_part(authority(&both, &base), &both, 5, 23);
    is_part(authority(&base, &base), &base, 6, 14);
}

#[test]
fn the_longest_authority() {
    let item = [vec![0x89], vec![text(31); 8].concat(), bytes("19 FFFF")].concat();
    let reference = [bytes("82 F6"), item.clone()].concat();
    let end = reference.len();
    assert_eq!(end, 2 + 1 + 8 * 33 + 3);
    is_part(authority(&reference, &bytes(FULL)), &reference, 2, end);
    let base = [bytes("83 20"), item, bytes("81 60")].concat();
    is_part(authority(&[0x80], &base), &base, 2, end);
}

#[test]
fn an_authority_that_is_not_shown() {
    let own = "82 21 81 61 69";
    let refused = |reference: &[u8], base: &[u8], number, place| {
        let outcome = authority(reference, base).map_err(told);
        let pair = format!("{reference:02x?}; {base:02x?}");
        assert_eq!(outcome, Err((number, place)), "{pair}");
    };
    for &(base, _, place) in NOT_ABSOLUTE {
        for reference in [own, "80", "", "80 00"] {
            refused(&bytes(reference), &bytes(base), 8, place);
        }
    }
    for (reference, number, place) in [
        ("", 1, 0),
        ("82 20 82 61 69", 1, 5),
        ("81 00", 2, 1),
        ("81 18 17", 3, 1),
        ("81 18 80", 4, 1),
        ("82 00 81 61 C3", 5, 3),
        ("82 20 81 61 41", 6, 3),
        ("82 20 84 61 31 61 32 61 33 61 34", 6, 2),
        ("82 21 81 61 69 00", 7, 5),
    ] {
        refused(&bytes(reference), &bytes(FULL), number, place);
    }
    let long = base_sized(MAX_INPUT + 1);
    refused(&bytes(own), &long, 8, MAX_INPUT);
    refused(&[0x80; MAX_INPUT + 1], &bytes(FULL), 4, MAX_INPUT);
}
