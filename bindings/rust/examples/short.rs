//! The shortest use of both libraries.

use arena_bindings::{Limits, Oracle, Region, RunError};
use std::mem::MaybeUninit;

fn main() -> Result<(), RunError> {
    let mut memory = [MaybeUninit::uninit(); 4096];
    let arena = Region::new(&mut memory);
    let numbers: Option<&mut [u32]> = arena.alloc_slice(&[1, 2, 3]);
    assert_eq!(numbers, Some(&mut [1, 2, 3][..]));

    let mut oracle = Oracle::default();
    let text: Result<&[u8], RunError> =
        oracle.calls(b"alloc 0 5 1 104\nread 0\n", &Limits::default());
    print!("{}", String::from_utf8_lossy(text?));
    Ok(())
}
