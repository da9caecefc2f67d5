//! The shortest use of the arena that grows.

use arena_bindings::Arena;

fn main() {
    let mut arena = Arena::new();
    let name: &mut str = arena.alloc_str("x");
    let squares: &mut [u32] = arena.alloc_slice_fill_iter((1..4).map(|n| n * n));
    println!("{name} {squares:?}");
    arena.reset();
}
