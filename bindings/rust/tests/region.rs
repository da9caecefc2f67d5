//! The arena over a slice of memory.
use arena_bindings::Region;
use std::mem::MaybeUninit;

fn memory<const N: usize>() -> [MaybeUninit<u8>; N] {
    [MaybeUninit::uninit(); N]
}

#[test]
fn values_are_disjoint() {
    let mut memory = memory::<4096>();
    let arena = Region::new(&mut memory);
    let one = arena.alloc(1u8).expect("room");
    let two = arena.alloc(2u64).expect("room");
    let text = arena.alloc_str("hello").expect("room");
    let numbers = arena.alloc_slice(&[1u32, 2, 3]).expect("room");
    *two += 40;
    numbers[1] = 7;
    assert_eq!(
        (*one, *two, text, &numbers[..]),
        (1, 42, "hello", &[1, 7, 3][..])
    );
    assert_eq!((two as *const u64).addr() % 8, 0);
    assert!(arena.used() >= 1 + 8 + 5 + 12);
}

#[test]
fn a_full_arena_returns_none() {
    let mut memory = memory::<16>();
    let mut arena = Region::new(&mut memory);
    assert!(arena.alloc([0u8; 17]).is_none());
    assert!(arena.alloc([0u8; 16]).is_some());
    assert!(arena.alloc(0u8).is_none());
    arena.reset();
    assert!(arena.alloc([0u8; 16]).is_some());
    assert!(Region::new(&mut []).alloc(0u8).is_none());
    assert!(Region::new(&mut []).alloc(()).is_some());
}

#[test]
fn a_scope_frees_what_it_allocated() {
    let mut memory = memory::<256>();
    let mut arena = Region::new(&mut memory);
    arena.alloc(1u32).expect("room");
    let used = arena.used();
    let sum = arena.scope(|inner| {
        let list = inner.alloc_slice(&[1u64; 16]).expect("room");
        list.iter().sum::<u64>()
    });
    assert_eq!((sum, arena.used()), (16, used));
}

#[test]
fn vectors_grow_beside_one_another() {
    let mut memory = memory::<65536>();
    let arena = Region::new(&mut memory);
    let (mut odd, mut even) = (arena.vec::<u32>(), arena.vec::<u64>());
    for n in 0..500 {
        odd.push(2 * n + 1).expect("room");
        even.push(2 * u64::from(n)).expect("room");
    }
    let odd = odd.into_slice();
    assert!(odd.iter().copied().eq((0..500).map(|n| 2 * n + 1)));
    assert!(even.as_slice().iter().copied().eq((0..500).map(|n| 2 * n)));
}

#[test]
fn a_vector_without_room_is_unchanged() {
    let mut memory = memory::<64>();
    let arena = Region::new(&mut memory);
    let mut numbers = arena.vec::<u64>();
    let count = (0..100).take_while(|&n| numbers.push(n).is_ok()).count();
    assert!((4..=8).contains(&count));
    assert_eq!(numbers.push(100), Err(100));
    assert!(numbers.as_slice().iter().copied().eq(0..count as u64));
    // It is the newest block, so that all but the bytes above it is free again.
    numbers.free();
    assert!(arena.used() < 8);
}

#[test]
fn spare_capacity_is_freed() {
    let mut memory = memory::<256>();
    let arena = Region::new(&mut memory);
    let mut numbers = arena.vec::<u8>();
    for n in 0..33 {
        numbers.push(n).expect("room");
    }
    assert_eq!(arena.used(), 64);
    let mut few = arena.vec::<u8>();
    few.push(7).expect("room");
    assert_eq!(arena.used(), 68);
    assert_eq!(few.into_slice(), &[7]);
    assert_eq!(arena.used(), 65);
    assert!(numbers.into_slice().iter().copied().eq(0..33));
}

#[test]
fn empty_values_take_no_room() {
    let mut memory = memory::<8>();
    let arena = Region::new(&mut memory);
    let bytes = {
        let mut bytes = arena.vec::<u8>();
        bytes.push(1).expect("room");
        bytes
    };
    let mut units = arena.vec::<()>();
    units.push(()).expect("room");
    let used = arena.used();
    // The cursor moves past the vector of empty values, which grows all the same.
    bytes.free();
    for _ in 1..10 {
        units.push(()).expect("room");
    }
    assert_eq!((units.as_slice().len(), used, arena.used()), (10, 4, 0));
}
