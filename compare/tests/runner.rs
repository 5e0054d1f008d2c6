//! That the program `compare` finds every kind of difference, and finds none where there is none.

use compare::generate::Generator;
use compare::lines;
use std::env;
use std::fs;
use std::path::PathBuf;
use std::process::{Command, Output};

/// Runs `compare` on a stand-in that has this fault.
fn compare(fault: &str, words: &[&str]) -> Output {
    let program = env!("CARGO_BIN_EXE_compare");
    let stand_in = concat!(env!("CARGO_MANIFEST_DIR"), "/tests/stand_in.sh");
    Command::new(program)
        .args(words)
        .env("CRI_LINES", stand_in)
        .env("COMPARE", program)
        .env("FAULT", fault)
        .output()
        .expect("compare starts")
}

#[track_caller]
fn equal(output: &Output, begin: &str) {
    let told = String::from_utf8_lossy(&output.stdout);
    assert!(
        output.status.success(),
        "{}",
        String::from_utf8_lossy(&output.stderr)
    );
    assert!(told.starts_with(begin), "{told}");
}

#[track_caller]
fn different(output: &Output, part: &str) {
    let told = String::from_utf8_lossy(&output.stderr);
    assert_eq!(output.status.code(), Some(1));
    assert!(output.stdout.is_empty());
    assert!(told.contains(part), "{told}");
}

#[test]
fn equal_answers() {
    let output = compare("none", &["7", "3000"]);
    equal(&output, "equal: 3000 answers");
    assert!(String::from_utf8_lossy(&output.stdout).ends_with("seed 7\n"));
    equal(&compare("free", &["7", "3000"]), "equal: 3000 answers");
}

#[test]
fn every_fault_is_told() {
    for (fault, part) in [
        ("wrong", "program: 9\n"),
        ("touched", " touched\n"),
        ("word", "program: no\n"),
        ("missing", "program: (no answer)\n"),
        ("dropped", "program: "),
        ("short", "program, cut short: "),
        ("extra", "after the last answer: 0"),
        ("code", "ended with exit status: 3"),
        ("signal", "ended with signal: 9"),
        ("silent", "program: (no answer)\n"),
    ] {
        let output = compare(fault, &["7", "3000"]);
        different(&output, part);
        different(&output, "seed 7\n");
    }
}

/// The stand-in changes the hundredth answer.
#[test]
fn the_request_is_told() {
    let request = Generator::new(7).nth(99).expect("requests do not end");
    let answer = lines::answer(&request);
    let told = format!("request:  {}\nexpected: {answer}\n", request.escape_ascii());
    different(&compare("wrong", &["7", "3000"]), &told);
}

#[test]
fn a_fault_ends_a_long_run() {
    different(&compare("wrong", &["7", "1000000000"]), "program: 9\n");
}

#[test]
fn a_program_that_is_not_there() {
    let output = Command::new(env!("CARGO_BIN_EXE_compare"))
        .env("CRI_LINES", "no/such/program")
        .output()
        .expect("compare starts");
    different(&output, "no/such/program");
}

/// Writes two files of vectors for one test, and gives their names.
fn vectors(test: &str, requests: &str, answers: &str) -> [String; 2] {
    [(requests, "req"), (answers, "ans")].map(|(lines, ending)| {
        let path = PathBuf::from(env!("CARGO_TARGET_TMPDIR")).join(format!("{test}.{ending}"));
        fs::write(&path, lines).expect("the folder of the tests can be written");
        path.display().to_string()
    })
}

#[test]
fn stored_answers() {
    let run = |test: &str, fault: &str, requests: &str, answers: &str| {
        let [requests, answers] = vectors(test, requests, answers);
        compare(fault, &["vectors", &requests, &answers])
    };
    let requests = "read 80\nlater 80\nsegment 80 0\n";
    let answers = "0 discard 0\n5\n18 -\n";
    equal(
        &run("equal", "none", requests, answers),
        "equal: 2 answers (read 1, segment 1); ",
    );
    different(
        &run("rust", "none", requests, "1\n5\n18 -\n"),
        "Rust: 0 discard 0",
    );
    different(
        &run("program", "missing", requests, answers),
        "program: (no answer)",
    );
    different(
        &run("fewer", "none", requests, "0 discard 0\n5\n"),
        "not one answer to each request",
    );
    different(
        &run("nothing", "none", "later 80\n", "5\n"),
        "no request of a known call",
    );
}

#[test]
fn a_round_trip() {
    let run = |test: &str, fault: &str, requests: &str| {
        let [requests, _] = vectors(test, requests, "");
        compare(fault, &["round-trip", &requests])
    };
    let requests = "read 82f58160\nlater 80\nread 81f6\nread 80\n";
    equal(
        &run("round_trip", "none", requests),
        "equal: 2 inputs written as they were read; ",
    );
    different(
        &run("round_trip_wrong", "later", requests),
        "expected: 0 1 80 kept\nprogram: 1 1 80 kept",
    );
    different(
        &run("round_trip_nothing", "none", "read 81f6\n"),
        "no accepted input",
    );
    // Of several files one may have no accepted input.
    let [some, _] = vectors("round_trip_some", requests, "");
    let [nothing, _] = vectors("round_trip_none", "read 81f6\n", "");
    for files in [[&nothing, &some], [&some, &nothing]] {
        equal(
            &compare("none", &["round-trip", files[0], files[1]]),
            "equal: 2 inputs written as they were read; ",
        );
    }
    different(
        &compare("none", &["round-trip", &nothing, &nothing]),
        "no accepted input",
    );
    different(&compare("none", &["round-trip"]), "usage: ");
}
