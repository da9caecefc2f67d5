//! hashbrown 0.16.1 in an arena, against std's map.
use arena_bindings::Arena;
use hashbrown::HashMap;
use std::collections::HashMap as Std;
use std::hash::RandomState;

#[test]
fn a_map_lives_in_the_arena() {
    let arena = Arena::new();
    let mut map: HashMap<&str, u64, RandomState, &Arena> = HashMap::with_hasher_in(RandomState::new(), &arena);
    let mut same: Std<String, u64> = Std::new();
    let mut state = 1u64;
    for i in 0..40_000u64 {
        state = state.wrapping_mul(6364136223846793005).wrapping_add(1442695040888963407);
        let word = format!("w{}", (state >> 33) % 9000);
        if state >> 62 == 0 {
            assert_eq!(map.remove(&word[..]), same.remove(&word));
        } else {
            *map.entry(arena.alloc_str(&word)).or_insert(0) += i;
            *same.entry(word).or_insert(0) += i;
        }
        if i % 10_000 == 0 {
            map.shrink_to_fit();
        }
    }
    assert_eq!(map.len(), same.len());
    assert!(map.iter().all(|(k, v)| same[*k] == *v));
    let copy = map.clone();
    assert!(copy == map);
    assert!(arena.used_bytes() < arena.allocated_bytes());
}
