//! The repository's examples through the oracle, byte for byte, and its limits.
use arena_bindings::{Limits, Oracle, RunError};
use std::path::{Path, PathBuf};

fn examples() -> PathBuf {
    Path::new(env!("CARGO_MANIFEST_DIR")).join("../../examples")
}

fn read(path: PathBuf) -> Vec<u8> {
    std::fs::read(&path).unwrap_or_else(|failed| panic!("{}: {failed}", path.display()))
}

#[test]
fn calls_get_their_replies() {
    let (mut oracle, limits) = (Oracle::default(), Limits::default());
    let mut count = 0;
    for entry in std::fs::read_dir(examples().join("calls")).expect("the folder can be read") {
        let path = entry.expect("an entry").path();
        if path.extension().is_some_and(|end| end == "txt") {
            let replies = read(path.with_extension("replies"));
            assert_eq!(
                oracle.calls(&read(path.clone()), &limits),
                Ok(&replies[..]),
                "{}",
                path.display()
            );
            count += 1;
        }
    }
    assert!(count > 10);
}

#[test]
fn a_million_calls_have_their_summary() {
    let mut oracle = Oracle::default();
    let summary = read(examples().join("generated/million.summary"));
    assert_eq!(
        oracle.generate(1, 1_000_000, &Limits::default()),
        Ok(&summary[..])
    );
}

#[test]
fn blocks_have_their_picture() {
    let mut oracle = Oracle::default();
    let (lines, picture) = (
        read(examples().join("picture/blocks.txt")),
        read(examples().join("picture/blocks.svg")),
    );
    assert_eq!(oracle.draw(&lines, &Limits::default()), Ok(&picture[..]));
}

// The first chunk has 16,320 bytes, so that a block of 5 bytes is at 4096 + 16320 - 5.
#[test]
fn limits_are_kept() {
    let mut oracle = Oracle::default();
    let short = Limits {
        budget: 16_319,
        refuse: vec![],
    };
    assert_eq!(
        oracle.calls(b"alloc 7 5 1 46", &short),
        Ok(&b"allocerr refused 1\n"[..])
    );
    assert_eq!(oracle.refused, 1);
    let first = Limits {
        budget: 16_320,
        refuse: vec![1],
    };
    let replies = &b"allocerr refused 1\nplaced 20411 refused 0\n"[..];
    assert_eq!(
        oracle.calls(b"alloc 7 5 1 46\nalloc 7 5 1 46\n", &first),
        Ok(replies)
    );
    assert_eq!(oracle.refused, 1);
}

#[test]
fn a_line_that_is_no_call_is_named() {
    let mut oracle = Oracle::default();
    assert_eq!(
        oracle.calls(b"used\n\nalloc x\n", &Limits::default()),
        Err(RunError::BadLine(3))
    );
    assert_eq!(
        oracle.calls(&vec![b'\n'; 16_777_217], &Limits::default()),
        Err(RunError::InputTooLong)
    );
}

// A text longer than the first buffer of 64 KiB.
#[test]
fn a_long_text_is_complete() {
    let mut oracle = Oracle::default();
    let lines = b"used\n".repeat(20_000);
    assert_eq!(
        oracle.calls(&lines, &Limits::default()),
        Ok(&b"number 0\n".repeat(20_000)[..])
    );
}
