//! The proved arena and the real crate over the same lines. With the feature `fuzz` it is a libFuzzer target. Otherwise:
//! `differ random ROUNDS SEED` compares that many random inputs, and `differ show FILE` prints an input's lines.
#![cfg_attr(feature = "fuzz", no_main)]

// The driver's own sources, in the form that build.rs gives them.
#[allow(dead_code)]
mod space {
    include!(concat!(env!("OUT_DIR"), "/space.rs"));
}
#[allow(dead_code, unexpected_cfgs, clippy::all)]
mod calls {
    include!(concat!(env!("OUT_DIR"), "/calls.rs"));
}
mod shapes;

use arena_bindings::{Limits, Oracle, RunError};
use shapes::Case;
use std::fmt;

/// Both arenas, and what was compared so far.
#[derive(Default)]
struct Comparison {
    oracle: Oracle,
    inputs: u64,
    lines: u64,
    // Inputs with a chunk beyond the mapped addresses, which are not compared.
    skipped: u64,
}

impl Comparison {
    /// Runs the lines of these bytes over both arenas, and returns whether the two texts are the same. If not, prints them.
    fn agrees(&mut self, data: &[u8]) -> bool {
        let Case {
            lines,
            budget,
            refuse,
        } = shapes::case(data);
        self.inputs += 1;
        let Some(real) = calls::answer(&lines, budget, &refuse) else {
            self.skipped += 1;
            return true;
        };
        self.lines += lines.iter().filter(|&&b| b == b'\n').count() as u64;
        let limits = Limits { budget, refuse };
        let proved = self.oracle.calls(&lines, &limits);
        let same = match (&proved, &real) {
            (Ok(text), Ok(wanted)) => text == wanted,
            (Err(RunError::BadLine(n)), Err(line)) => n == line,
            _ => false,
        };
        if !same {
            let shown = |text: &[u8]| String::from_utf8_lossy(text).into_owned();
            eprintln!("DIFFER: budget {budget} refuse {:?}", limits.refuse);
            eprintln!("{}", shown(&lines));
            eprintln!("proved: {:?}", proved.map(shown));
            eprintln!("real:   {:?}", real.map(|text| shown(&text)));
        }
        same
    }
}

impl fmt::Display for Comparison {
    fn fmt(&self, f: &mut fmt::Formatter<'_>) -> fmt::Result {
        let Comparison {
            inputs,
            lines,
            skipped,
            ..
        } = self;
        write!(
            f,
            "{inputs} inputs, {lines} lines compared, {skipped} inputs skipped"
        )
    }
}

#[cfg(feature = "fuzz")]
mod target {
    use super::Comparison;
    use std::cell::RefCell;

    thread_local! {
        static COMPARISON: RefCell<Comparison> = RefCell::default();
    }

    // libFuzzer ends the process by `exit`, which drops the main thread's values.
    impl Drop for Comparison {
        fn drop(&mut self) {
            eprintln!("{self}");
        }
    }

    /// One input of libFuzzer. A difference ends the process.
    #[unsafe(no_mangle)]
    pub extern "C" fn LLVMFuzzerTestOneInput(data: *const u8, len: usize) -> i32 {
        let data = if len == 0 {
            &[][..]
        } else {
            // SAFETY: libFuzzer passes this many bytes.
            unsafe { std::slice::from_raw_parts(data, len) }
        };
        if !COMPARISON.with_borrow_mut(|both| both.agrees(data)) {
            std::process::abort();
        }
        0
    }
}

/// Compares random inputs, up to the first difference.
#[cfg(not(feature = "fuzz"))]
fn random(rounds: u64, mut state: u64) -> bool {
    let mut both = Comparison::default();
    let from = std::time::Instant::now();
    let same = (0..rounds).all(|round| {
        let mut data = Vec::new();
        for _ in 0..40 + round % 160 {
            state ^= state << 13;
            state ^= state >> 7;
            state ^= state << 17;
            data.push((state >> 32) as u8);
        }
        both.agrees(&data)
    });
    let end = if same {
        "no difference"
    } else {
        "the last one differs"
    };
    println!("{both}, {end}, {:.1} s", from.elapsed().as_secs_f64());
    same
}

#[cfg(not(feature = "fuzz"))]
fn main() -> std::process::ExitCode {
    use std::process::ExitCode;
    let words: Vec<String> = std::env::args().skip(1).collect();
    match words.iter().map(String::as_str).collect::<Vec<_>>()[..] {
        ["show", file] => {
            let case = shapes::case(&std::fs::read(file).expect("the file can be read"));
            println!("budget {} refuse {:?}", case.budget, case.refuse);
            println!("{}", String::from_utf8_lossy(&case.lines));
            ExitCode::SUCCESS
        }
        ["random", rounds, seed] => {
            let number = |word: &str| word.parse().expect("a number of 64 bits");
            // The generator would stay at 0.
            ExitCode::from(u8::from(!random(number(rounds), number(seed).max(1))))
        }
        _ => {
            eprintln!("usage: differ random ROUNDS SEED, differ show FILE");
            ExitCode::from(2)
        }
    }
}
