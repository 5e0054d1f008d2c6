//! The requests made from seed 1, and the answers to them.

use compare::generate::Generator;
use compare::lines;
use std::sync::LazyLock;

pub const COUNT: usize = 200_000;

pub static ANSWERED: LazyLock<Vec<(Vec<u8>, String)>> = LazyLock::new(|| {
    let answered = |request: Vec<u8>| {
        let answer = lines::answer(&request);
        (request, answer)
    };
    Generator::new(1).take(COUNT).map(answered).collect()
});

pub type Words = Vec<&'static str>;

/// The words of each line that is a request of a call, and those of its answer.
pub fn requests_of(call: &str) -> impl Iterator<Item = (Words, Words)> + '_ {
    ANSWERED
        .iter()
        .filter(move |(request, _)| lines::call(request) == Some(call))
        .filter(|(_, answer)| !answer.starts_with("? "))
        .map(|(request, answer)| {
            let request = str::from_utf8(request).expect("a request is ASCII");
            (request.split(' ').collect(), answer.split(' ').collect())
        })
}

/// The bytes that a word says.
pub fn unhex(word: &str) -> Vec<u8> {
    (0..word.len() / 2)
        .map(|i| u8::from_str_radix(&word[2 * i..2 * i + 2], 16).expect("digits"))
        .collect()
}
