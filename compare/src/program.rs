//! Runs the program `cri_lines` and compares its answers.

use std::env;
use std::io::{self, BufRead, BufReader, BufWriter, Read, Write};
use std::process::{Child, ChildStdin, ChildStdout, Command, Stdio};
use std::thread;

/// Where the program stands, from the root of the repository. `CRI_LINES` names another.
const PROGRAM: &str = "crates/cri_lines/out/cri_lines";

/// A request and the answer expected, without their line feeds.
pub struct Case {
    pub request: Vec<u8>,
    pub expected: Vec<u8>,
}

impl Case {
    /// Compares an answer given by `who`. Where the line is no request, only the beginning `? ` counts.
    pub fn check(&self, who: &str, answer: &[u8]) -> Result<(), String> {
        let no_request = |answer: &[u8]| answer.starts_with(b"? ");
        if answer == self.expected || (no_request(answer) && no_request(&self.expected)) {
            return Ok(());
        }
        Err(self.difference(who, answer))
    }

    fn difference(&self, who: &str, answer: &[u8]) -> String {
        format!(
            "request:  {}\nexpected: {}\n{who}: {}",
            self.request.escape_ascii(),
            self.expected.escape_ascii(),
            answer.escape_ascii()
        )
    }
}

/// Sends `requests` to the program and compares its answers with those of `cases`; tells the first difference.
pub fn compare(
    requests: impl Iterator<Item = Vec<u8>> + Send,
    cases: impl Iterator<Item = Case>,
) -> Result<(), String> {
    let mut child = start()?;
    let input = child.stdin.take().expect("standard input is a pipe");
    let output = child.stdout.take().expect("standard output is a pipe");
    let outcome = thread::scope(|scope| {
        scope.spawn(|| send(requests, input));
        let outcome = compare_answers(output, cases);
        if outcome.is_err() {
            // With its reader gone, the sending ends too. An error means that the program has ended by itself.
            let _ = child.kill();
        }
        outcome
    });
    let status = child.wait().map_err(|e| e.to_string())?;
    outcome?;
    if status.success() {
        Ok(())
    } else {
        Err(format!(
            "all answers are equal, but the program ended with {status}"
        ))
    }
}

fn start() -> Result<Child, String> {
    let program = env::var("CRI_LINES").unwrap_or_else(|_| PROGRAM.to_string());
    Command::new(&program)
        .stdin(Stdio::piped())
        .stdout(Stdio::piped())
        .spawn()
        .map_err(|e| {
            format!(
                "{program}: {e}\nBuild it first, and start this from the root of the repository."
            )
        })
}

/// An error ends the sending and is not told: a program that stops reading is found by its missing answers.
fn send(requests: impl Iterator<Item = Vec<u8>>, input: ChildStdin) {
    let mut input = BufWriter::new(input);
    let send_all = || -> io::Result<()> {
        for request in requests {
            input.write_all(&request)?;
            input.write_all(b"\n")?;
        }
        input.flush()
    };
    let _ = send_all();
}

/// Closes `output` at the end, so that a program that is still writing doesn't wait for a reader.
fn compare_answers(output: ChildStdout, cases: impl Iterator<Item = Case>) -> Result<(), String> {
    let mut output = BufReader::new(output);
    let mut line = Vec::new();
    for case in cases {
        line.clear();
        output
            .read_until(b'\n', &mut line)
            .map_err(|e| e.to_string())?;
        match line.split_last() {
            Some((b'\n', answer)) => case.check("program", answer)?,
            Some(_) => return Err(case.difference("program, cut short", &line)),
            None => return Err(case.difference("program", b"(no answer)")),
        }
    }
    let mut extra = Vec::new();
    output.read_to_end(&mut extra).map_err(|e| e.to_string())?;
    if extra.is_empty() {
        Ok(())
    } else {
        Err(format!("after the last answer: {}", extra.escape_ascii()))
    }
}
