//! std's own collections in an arena: `RUSTC_BOOTSTRAP=1 cargo test --features nightly`.
#![feature(allocator_api, btreemap_alloc)]
use arena_bindings::Arena;
use std::collections::{BTreeMap, VecDeque};

#[test]
fn they_live_in_it() {
    let arena = Arena::new();
    let mut lists: Vec<Vec<u32, &Arena>, &Arena> = Vec::new_in(&arena);
    for i in 0..100 {
        let mut list = Vec::new_in(&arena);
        list.extend(0..i);
        list.shrink_to_fit();
        lists.push(list);
    }
    assert!(
        lists
            .iter()
            .zip(0..)
            .all(|(l, i)| l.iter().copied().eq(0..i))
    );
    let boxed: Box<[u8], &Arena> = {
        let mut bytes = Vec::new_in(&arena);
        bytes.extend_from_slice(b"a slice");
        bytes.into_boxed_slice()
    };
    assert_eq!(&*boxed, b"a slice");
    let mut map = BTreeMap::new_in(&arena);
    for i in 0..5000u32 {
        map.insert(i.wrapping_mul(2654435761), i);
    }
    for i in (0..5000u32).step_by(2) {
        assert_eq!(map.remove(&i.wrapping_mul(2654435761)), Some(i));
    }
    assert_eq!(
        (map.len(), map.values().map(|&i| u64::from(i)).sum::<u64>()),
        (2500, 6_250_000)
    );
    let mut queue = VecDeque::new_in(&arena);
    for i in 0..3000 {
        queue.push_front(i);
        queue.push_back(i);
        if i % 3 == 0 {
            queue.pop_front();
        }
    }
    assert_eq!(queue.len(), 5000);
    let mut zeroed: Vec<u64, &Arena> = Vec::new_in(&arena);
    zeroed.resize(10, 0);
    zeroed.resize(4000, 7);
    assert_eq!(zeroed.iter().sum::<u64>(), 7 * 3990);
    // before the borrow ends: each is dropped, and gives its block back
    drop((lists, boxed, map, queue, zeroed));
    assert!(arena.allocated_bytes() > 0);
}
