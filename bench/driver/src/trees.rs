//! A timed loop over trees: one text parsed again and again.

use oxc_allocator::Allocator;

use crate::{bench::timed, lint};

/// The size in bytes of a chunk that has room for the tree of the text.
const CAPACITY: usize = 1 << 22;

/// How many lines the text has, and how deep blocks are nested at most.
const COUNT: u32 = 700;
const DEEPEST: u64 = 20;

/// Statements as `bench/lint.sh` makes them: each `v` becomes a name, and each `#` a number.
const STATEMENTS: [&str; 32] = [
    "(((v * (v) * # - (# * # + v + v - v) * v * #)) * (v - (#) * #));",
    "let v = v * (v * # + -# * (v * v + v + v * v * #)) * (v) * -#;",
    "(v * (v * v * -v) * # - v);",
    "-v * # - v * v;",
    "let v = v * (((# + v)) + v * v * (v - # - # - # - v - # * #) * (v));",
    "let v = (v) + # * (# + (v - v * v) + #) * (v - (# * v));",
    "let v = (((v)) * (v) * (v) * # * --(v * v - #) - v);",
    "let v = v * v - v - (v) + (# * # * (v + v) - (#)) - (v) + (v) * ((v));",
    "let v = (((v + (v + v) * v) + v + (v) * (v * v + v)));",
    "let v = #;",
    "#;",
    "let v = v - (v + # * (# - v * v - v) * v) * (v);",
    "let v = (((# * -# * v + #)));",
    "# + # * v + -(v) - (# * ((v + #) * v * # * v * v));",
    "let v = v;",
    "v;",
    "v;",
    "--#;",
    "let v = # * ((((v)) + # - v * v)) - -(-v) + ((v + v * v) - (# * # + #));",
    "v;",
    "# - ((v)) + -(((v - v * # + v) * v * v * v) * # * v) * (v);",
    "let v = v * -v * -v - v;",
    "let v = -((v) + v * v);",
    "let v = (v * v) * (#) + (-v * -#);",
    "-((((# + v * v + v + #) + v) + v)) * (v * (# - v - v + v) - v);",
    "let v = v - ((v * (# * #) * v) * (v + # * v));",
    "let v = (# * (-v));",
    "# * v;",
    "(((v * (#))));",
    "(# - v + v - v + -(-v * # * v) - #) + -# * v * v * v;",
    "let v = v;",
    "v - (((v + v) * v * # - #) * v * # * #);",
];

/// A number below this one, by the generator of `bench/lint.sh`.
fn draw(seed: &mut u64, below: u64) -> u64 {
    *seed = *seed * 16_807 % 2_147_483_647;
    *seed / 7 % below
}

fn put_statement(text: &mut String, seed: &mut u64, statement: &str) {
    for c in statement.chars() {
        match c {
            'v' => text.push_str(&format!("v{}", draw(seed, 400))),
            '#' => text.push_str(&format!("{}", draw(seed, 100_000))),
            other => text.push(other),
        }
    }
    text.push('\n');
}

/// The text: statements, and blocks of them.
fn source() -> String {
    let mut text = String::new();
    let mut seed = 1;
    let mut depth = 0;
    for _ in 0..COUNT {
        match draw(&mut seed, 12) {
            0 if depth < DEEPEST => {
                text.push_str("{\n");
                depth += 1;
            }
            1 if depth > 0 => {
                text.push_str("}\n");
                depth -= 1;
            }
            _ => {
                let statement = STATEMENTS[draw(&mut seed, 32) as usize];
                put_statement(&mut text, &mut seed, statement);
            }
        }
    }
    for _ in 0..depth {
        text.push_str("}\n");
    }
    text
}

/// Parses the text that many times, each after a reset, and adds up its bytes and its statements.
fn parsed(allocator: &mut Allocator, src: &[u8], times: u64) -> u64 {
    let mut number = 0;
    for _ in 0..times {
        allocator.reset();
        let statements = lint::statements(allocator, src).expect("the text is a program");
        number += src.len() as u64 + statements as u64;
    }
    number
}

/// A byte of the text is one of `ops`.
pub fn tree_parse(ops: u64) -> (u64, u64) {
    let src = source();
    let mut allocator = Allocator::with_capacity(CAPACITY);
    parsed(&mut allocator, src.as_bytes(), 1);
    let times = (ops / src.len() as u64).max(1);
    timed(|| parsed(&mut allocator, src.as_bytes(), times))
}
