//! Runs vectors files through the plain implementation and, if it is built in,
//! through the library:
//!
//!     vectors [--plain] FILE..
//!
//! With `--plain` through the plain implementation alone.

use std::process::ExitCode;

use folvkin_compare::cases::{Caller, answer_to, from_hex, plain};
use folvkin_compare::plain::keytext::key_text;

/// How many differences are printed.
const SHOWN: usize = 20;

#[derive(Default)]
struct Tally {
    cases: usize,
    differences: usize,
}

impl Tally {
    fn compare(&mut self, by: &str, case: &str, right: &str, answer: Option<String>) {
        self.cases += 1;
        let answer = answer.unwrap_or_else(|| "(no case)".into());
        if answer != right {
            self.differences += 1;
            if self.differences <= SHOWN {
                println!("{by}: {case}\n  right  {right}\n  given  {answer}");
            }
        }
    }

    fn add(&mut self, other: &Tally) {
        self.cases += other.cases;
        self.differences += other.differences;
    }
}

/// The cases of a text and their right answers.
fn cases(text: &str) -> impl Iterator<Item = (&str, &str)> {
    text.lines()
        .filter(|line| !line.is_empty() && !line.starts_with('#'))
        .map(|line| line.split_once('\t').unwrap_or((line, "(no answer)")))
}

fn run_calls(by: &str, text: &str, caller: Caller) -> Tally {
    let mut tally = Tally::default();
    for (case, right) in cases(text) {
        tally.compare(by, case, right, answer_to(case, caller));
    }
    println!("{by}: {} cases, {} differences", tally.cases, tally.differences);
    tally
}

/// The plain implementation has the key's text of its own, besides the one
/// that is put together of key calls.
fn run_key_texts(text: &str) -> Tally {
    let mut tally = Tally::default();
    for (case, right) in cases(text) {
        if let Some(question) = case.strip_prefix("keytext ") {
            let text = from_hex(question).map(|bytes| key_text(&bytes).replace('\n', "|"));
            tally.compare("plain, key text", case, right, text);
        }
    }
    println!("plain, key text: {} cases, {} differences", tally.cases, tally.differences);
    tally
}

#[cfg(feature = "library")]
fn run_library(text: &str) -> Tally {
    run_calls("library", text, folvkin_compare::library)
}

#[cfg(not(feature = "library"))]
fn run_library(_: &str) -> Tally {
    Tally::default()
}

fn main() -> ExitCode {
    let mut files: Vec<String> = std::env::args().skip(1).collect();
    let plain_alone = files.first().is_some_and(|word| word == "--plain");
    if plain_alone {
        files.remove(0);
    }
    if files.is_empty() {
        eprintln!("usage: vectors [--plain] FILE..");
        return ExitCode::from(2);
    }
    let mut all = Tally::default();
    for file in &files {
        let text = match std::fs::read_to_string(file) {
            Ok(text) => text,
            Err(error) => {
                eprintln!("{file}: {error}");
                return ExitCode::from(2);
            }
        };
        all.add(&run_calls("plain", &text, plain));
        all.add(&run_key_texts(&text));
        if !plain_alone {
            all.add(&run_library(&text));
        }
    }
    println!("{} cases, {} differences", all.cases, all.differences);
    ExitCode::from(u8::from(all.differences != 0))
}
