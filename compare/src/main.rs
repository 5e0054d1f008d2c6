//! Compares the Rust of this package with the program `cri_lines`, answer by answer.

mod program;

use compare::generate::Generator;
use compare::lines;
use program::Case;
use std::collections::BTreeMap;
use std::fmt::{self, Display};
use std::io::{self, BufRead, BufWriter, Write};
use std::process::ExitCode;
use std::{env, fs};

const SEED: u64 = 1;
const COUNT: u64 = 300_000;
const USAGE: &str = "usage: compare [SEED [COUNT]]
       compare vectors REQUESTS ANSWERS
       compare round-trip REQUESTS..
       compare accepted CALL SEED COUNT
       compare answer
       compare meant";

fn main() -> ExitCode {
    let words: Vec<String> = env::args().skip(1).collect();
    let words: Vec<&str> = words.iter().map(String::as_str).collect();
    match run(&words) {
        Ok(()) => ExitCode::SUCCESS,
        Err(message) => {
            eprintln!("{message}");
            ExitCode::FAILURE
        }
    }
}

fn run(words: &[&str]) -> Result<(), String> {
    match *words {
        ["answer"] => each_line(lines::answer).map_err(|e| e.to_string()),
        ["meant"] => each_line(lines::meant_by).map_err(|e| e.to_string()),
        ["accepted", call, seed, count] => tell_accepted(call, number(seed)?, number(count)?),
        ["vectors", requests, answers] => compare_vectors(requests, answers),
        ["round-trip", ref requests @ ..] if !requests.is_empty() => compare_round_trip(requests),
        [] => compare_generated(SEED, COUNT),
        [seed] => compare_generated(number(seed)?, COUNT),
        [seed, count] => compare_generated(number(seed)?, number(count)?),
        _ => Err(USAGE.to_string()),
    }
}

fn number(word: &str) -> Result<u64, String> {
    word.parse().map_err(|_| USAGE.to_string())
}

/// Answers each line of standard input.
fn each_line(answer: fn(&[u8]) -> String) -> io::Result<()> {
    let mut output = BufWriter::new(io::stdout().lock());
    for line in io::stdin().lock().split(b'\n') {
        writeln!(output, "{}", answer(&line?))?;
    }
    output.flush()
}

/// Prints `count` requests of a call, made from `seed`, that the Rust answers with 0.
fn tell_accepted(call: &str, seed: u64, count: u64) -> Result<(), String> {
    let call = lines::call(call.as_bytes()).ok_or(USAGE)?;
    let mut output = BufWriter::new(io::stdout().lock());
    Generator::new(seed)
        .filter(|request| lines::call(request) == Some(call))
        .filter(|request| lines::answer(request).starts_with('0'))
        .take(count as usize)
        .try_for_each(|request| output.write_all(&[&request[..], b"\n"].concat()))
        .and_then(|()| output.flush())
        .map_err(|e| e.to_string())
}

/// Compares the answers to `count` requests made from `seed`.
fn compare_generated(seed: u64, count: u64) -> Result<(), String> {
    let requests = || Generator::new(seed).take(count as usize);
    let mut tally = Tally::default();
    let cases = requests().map(|request| {
        let answer = lines::answer(&request);
        tally.add(&request, &answer);
        Case {
            request,
            expected: answer.into_bytes(),
        }
    });
    program::compare(requests(), cases).map_err(|why| format!("{why}\nseed {seed}"))?;
    println!("equal: {tally}; seed {seed}");
    Ok(())
}

/// Compares the Rust's and the program's answers with stored ones, for the calls that both know.
fn compare_vectors(requests: &str, answers: &str) -> Result<(), String> {
    let (cases, left_out): (Vec<Case>, Vec<Case>) = stored_cases(requests, answers)?
        .into_iter()
        .partition(|case| lines::call(&case.request).is_some());
    if cases.is_empty() {
        return Err(format!("{requests}: no request of a known call"));
    }
    let mut tally = Tally::default();
    for case in &cases {
        let answer = lines::answer(&case.request);
        case.check("Rust", answer.as_bytes())?;
        tally.add(&case.request, &answer);
    }
    let sent: Vec<_> = cases.iter().map(|case| case.request.clone()).collect();
    program::compare(sent.into_iter(), cases.into_iter())?;
    println!("equal: {tally}; left out {}; {requests}", left_out.len());
    Ok(())
}

/// Has the Rust and the program write what they read, and compares it with each accepted input of the stored `read` requests. One of the
/// files has to have such an input.
fn compare_round_trip(requests: &[&str]) -> Result<(), String> {
    let mut cases = Vec::new();
    for name in requests {
        let lines = stored_lines(name)?.into_iter();
        cases.extend(lines.filter_map(round_trip).flatten());
    }
    let requests = requests.join(" ");
    if cases.is_empty() {
        return Err(format!("{requests}: no accepted input"));
    }
    for case in &cases {
        case.check("Rust", lines::answer(&case.request).as_bytes())?;
    }
    let inputs = cases.len() / 2;
    let sent: Vec<_> = cases.iter().map(|case| case.request.clone()).collect();
    program::compare(sent.into_iter(), cases.into_iter())?;
    println!("equal: {inputs} inputs written as they were read; {requests}");
    Ok(())
}

/// A `read` request of an accepted input, and the request to write its answer into a room that is just long enough.
fn round_trip(request: Vec<u8>) -> Option<[Case; 2]> {
    let input = str::from_utf8(request.strip_prefix(b"read ")?).ok()?;
    let length = input.len() / 2;
    let answer = lines::answer(&request);
    let written = Case {
        request: lines::write_from_answer(&answer, length)?.into_bytes(),
        expected: format!("0 {length} {input} kept").into_bytes(),
    };
    let read = Case {
        request,
        expected: answer.into_bytes(),
    };
    Some([read, written])
}

fn stored_cases(requests: &str, answers: &str) -> Result<Vec<Case>, String> {
    let requests_stored = stored_lines(requests)?;
    let answers_stored = stored_lines(answers)?;
    if requests_stored.len() != answers_stored.len() {
        return Err(format!(
            "{requests} and {answers}: not one answer to each request"
        ));
    }
    let cases = requests_stored.into_iter().zip(answers_stored);
    Ok(cases
        .map(|(request, expected)| Case { request, expected })
        .collect())
}

fn stored_lines(name: &str) -> Result<Vec<Vec<u8>>, String> {
    let bytes = fs::read(name).map_err(|e| format!("{name}: {e}"))?;
    let lines = bytes.strip_suffix(b"\n").unwrap_or(&bytes);
    Ok(lines.split(|&b| b == b'\n').map(<[u8]>::to_vec).collect())
}

/// How many requests of each call, and how many answers with each number.
#[derive(Default)]
struct Tally {
    calls: BTreeMap<&'static str, u64>,
    numbers: BTreeMap<u8, u64>,
}

impl Tally {
    fn add(&mut self, request: &[u8], answer: &str) {
        let number = answer.split(' ').next().and_then(|word| word.parse().ok());
        let call = match number {
            Some(_) => lines::call(request).unwrap_or("unknown"),
            None => "no request",
        };
        *self.calls.entry(call).or_default() += 1;
        if let Some(number) = number {
            *self.numbers.entry(number).or_default() += 1;
        }
    }
}

impl Display for Tally {
    fn fmt(&self, f: &mut fmt::Formatter<'_>) -> fmt::Result {
        let calls: Vec<_> = self
            .calls
            .iter()
            .map(|(call, n)| format!("{call} {n}"))
            .collect();
        let numbers: Vec<_> = self
            .numbers
            .iter()
            .map(|(no, n)| format!("{no}: {n}"))
            .collect();
        let all: u64 = self.calls.values().sum();
        write!(
            f,
            "{all} answers ({}); of number {}",
            calls.join(", "),
            numbers.join(", ")
        )
    }
}
