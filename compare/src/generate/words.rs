//! Damages requests.

use super::random::Random;

/// A request with some of its words changed, which may make it none.
pub fn damaged(random: &mut Random, request: &str) -> String {
    let mut words: Vec<&str> = request.split(' ').collect();
    for _ in 0..random.pick(&[1, 1, 2]) {
        damage(random, &mut words);
    }
    words.join(" ")
}

/// Words of such requests, and others in their place.
const WORDS: [&str; 33] = [
    "",
    "-",
    "0",
    "1",
    "4",
    "16384",
    "16385",
    "65535",
    "65536",
    "7f000001",
    "18446744073709551615",
    "18446744073709551616",
    "000000000000000000000",
    "+1",
    "1a",
    "0A",
    "x",
    "all",
    "none",
    "discard",
    "scheme",
    "number",
    "text",
    "authority",
    "address",
    "label",
    "port",
    "path",
    "segment",
    "query",
    "parameter",
    "fragment",
    "Path",
];

/// Lengths of a room that are too large or none.
const ROOMS: [&str; 8] = [
    "16385",
    "16386",
    "32768",
    "65536",
    "18446744073709551615",
    "18446744073709551616",
    "-",
    "-1",
];

fn damage(random: &mut Random, words: &mut Vec<&str>) {
    let places = words.len() - 1;
    if places == 0 {
        return;
    }
    // Mostly among the first words or the last ones.
    let near = random.index(places.min(12));
    let anywhere = random.index(places);
    let place = 1 + random.pick(&[near, places - 1 - near, anywhere]);
    match random.below(7) {
        0 => words.truncate(place),
        1 => drop(words.remove(place)),
        2 => words.insert(place, words[place]),
        3 => words.insert(place, random.pick(&WORDS)),
        4 => words[place] = random.pick(&WORDS),
        5 => words.swap(place, 1 + near),
        _ => words[1] = random.pick(&ROOMS),
    }
}
