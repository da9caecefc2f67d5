//! The arena that grows.
use arena_bindings::{AllocError, Arena};
use std::alloc::Layout;

const FIRST: usize = 16384 - 64;

#[test]
fn values_are_disjoint() {
    let arena = Arena::new();
    let mut all: Vec<&mut u64> = (0..100_000).map(|n| arena.alloc(n)).collect();
    for n in &mut all {
        **n += 1;
    }
    assert!(all.iter().zip(1..).all(|(n, i)| **n == i));
    assert!(arena.used_bytes() >= 800_000);
    let text: String = (0..5000)
        .map(|n| char::from(b'a' + (n % 26) as u8))
        .collect();
    assert_eq!(arena.alloc_str(&text), &text[..]);
    assert_eq!(
        arena.alloc_slice_fill_iter(0..3000),
        (0..3000).collect::<Vec<i32>>()
    );
}

#[test]
fn chunks_double() {
    let mut arena = Arena::new();
    assert_eq!(
        (
            arena.allocated_bytes(),
            arena.used_bytes(),
            arena.chunk_capacity()
        ),
        (0, 0, 0)
    );
    arena.alloc(1u8);
    assert_eq!((arena.allocated_bytes(), arena.used_bytes()), (FIRST, 1));
    arena.alloc_layout(Layout::from_size_align(FIRST, 1).unwrap());
    // 2 * 16320 bytes and 64 more are 32704, in whole pages 32768
    assert_eq!(arena.allocated_bytes(), FIRST + 32768 - 64);
    arena.reset();
    assert_eq!(
        (arena.allocated_bytes(), arena.used_bytes()),
        (32768 - 64, 0)
    );
    assert_eq!(arena.chunk_capacity(), 32768 - 64);
    assert_eq!(Arena::with_capacity(100).allocated_bytes(), 256 - 64);
}

#[test]
fn a_scope_frees_what_it_allocated() {
    let mut arena = Arena::new();
    arena.alloc([1u8; 1000]);
    let (used, all) = (arena.used_bytes(), arena.allocated_bytes());
    let sum = arena.scope(|inner| {
        (0..50)
            .map(|n| inner.alloc_slice_fill_copy(1000, n)[999])
            .sum::<u32>()
    });
    assert_eq!(
        (sum, arena.used_bytes(), arena.allocated_bytes()),
        (1225, used, all)
    );
    let failed = std::panic::catch_unwind(std::panic::AssertUnwindSafe(|| {
        arena.scope(|inner| {
            inner.alloc([0u64; 5000]);
            panic!();
        })
    }));
    assert!(failed.is_err());
    assert_eq!((arena.used_bytes(), arena.allocated_bytes()), (used, all));
    let mut empty = Arena::new();
    empty.scope(|inner| *inner.alloc(1));
    assert_eq!(empty.allocated_bytes(), 0);
}

#[test]
fn a_checkpoint_may_be_older_than_blocks_that_were_given_back() {
    let mut arena = Arena::new();
    let layout = Layout::new::<[u8; 100]>();
    let block = arena.alloc_layout(layout);
    let mark = arena.checkpoint();
    // SAFETY: the block isn't used any more, and the checkpoint is this arena's.
    unsafe {
        arena.dealloc(block, layout);
        arena.back(mark);
    }
    assert_eq!(arena.used_bytes(), 0);
}

#[test]
fn what_is_too_large_is_an_error() {
    let arena = Arena::new();
    let large = Layout::from_size_align(isize::MAX as usize - 4095, 1).unwrap();
    assert_eq!(arena.try_alloc_layout(large), Err(AllocError));
    assert!(
        arena
            .try_alloc_slice_fill_iter::<u64, _>((0..u32::MAX as usize).map(|_| 0u64).take(0))
            .is_ok()
    );
    assert!(Arena::try_with_capacity(usize::MAX).is_err());
    assert!(Arena::try_with_capacity(isize::MAX as usize - 100).is_err());
    assert!(
        arena
            .try_alloc_slice_fill_with(usize::MAX / 2, |_| 0u16)
            .is_err()
    );
    assert_eq!(arena.allocated_bytes(), 0);
    assert_eq!(arena.try_alloc(7), Ok(&mut 7));
}

#[test]
fn empty_values_need_no_chunk() {
    let arena = Arena::new();
    arena.alloc(());
    arena.alloc_slice_copy::<u128>(&[]);
    assert_eq!(arena.allocated_bytes(), 0);
}

#[test]
fn blocks_are_aligned() {
    fn all<const M: usize>() {
        let arena = Arena::<M>::with_min_align();
        for i in 0..2000usize {
            let layout = Layout::from_size_align(i % 37, 1 << (i % 13)).unwrap();
            let at = arena.alloc_layout(layout).as_ptr().addr();
            assert!(at.is_multiple_of(layout.align()) && at.is_multiple_of(M));
        }
    }
    all::<1>();
    all::<2>();
    all::<4>();
    all::<8>();
    all::<16>();
}

#[test]
fn a_moved_arena_keeps_its_chunks() {
    let arena = Arena::new();
    arena.alloc(1);
    let moved = std::thread::spawn(move || {
        arena.alloc_str("there");
        arena
    });
    assert_eq!(moved.join().unwrap().used_bytes(), 4 + 5);
}
