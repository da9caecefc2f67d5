//! `oracle calls|draw < LINES` prints the replies or the picture, `oracle gen START COUNT` the summary.
use arena_bindings::{Limits, Oracle, RunError};
use std::io::{Read, Write};
use std::process::ExitCode;

fn read_input() -> Vec<u8> {
    let mut lines = Vec::new();
    std::io::stdin()
        .read_to_end(&mut lines)
        .expect("the input can be read");
    lines
}

fn run<'a>(oracle: &'a mut Oracle, words: &[&str]) -> Result<&'a [u8], RunError> {
    let limits = Limits::default();
    match words {
        ["calls"] => oracle.calls(&read_input(), &limits),
        ["draw"] => oracle.draw(&read_input(), &limits),
        ["gen", start, count] => {
            let number = |word: &str| word.parse().expect("a number of 64 bits");
            oracle.generate(number(start), number(count), &limits)
        }
        _ => panic!("usage: oracle calls|draw, oracle gen START COUNT"),
    }
}

fn main() -> ExitCode {
    let words: Vec<String> = std::env::args().skip(1).collect();
    let words: Vec<&str> = words.iter().map(String::as_str).collect();
    let mut oracle = Oracle::default();
    let error = match run(&mut oracle, &words) {
        Ok(text) => {
            std::io::stdout()
                .write_all(text)
                .expect("the output can be written");
            return ExitCode::SUCCESS;
        }
        Err(error) => error,
    };
    eprintln!("{error}");
    ExitCode::from(match error {
        RunError::BadLine(_) => 2,
        RunError::OutOfMemory => 3,
        RunError::InputTooLong => 6,
    })
}
