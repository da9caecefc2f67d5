//! Small loops over the real collections. Each line has the operations of a run,
//! the best and the median total of several runs, ns per operation of the best,
//! and a number that depends on the work alone.

use std::{alloc::Layout, hint::black_box, time::Instant};

use oxc_allocator::{
    Allocator, AllocatorPool, BitSet, Box as ArenaBox, CloneIn, HashMap, StringBuilder,
    Vec as ArenaVec,
};

use crate::{symbols, trees};

/// One loop: its name, what an operation is, how many by default, and the work.
struct Bench {
    name: &'static str,
    what: &'static str,
    ops: u64,
    /// Runs the loop once: (nanoseconds of the measured part, its number).
    run: fn(u64) -> (u64, u64),
}

pub fn timed<T>(work: impl FnOnce() -> T) -> (u64, T) {
    let began = Instant::now();
    let got = work();
    (began.elapsed().as_nanos() as u64, got)
}

fn vec_push(ops: u64) -> (u64, u64) {
    let allocator = Allocator::new();
    let (ns, vec) = timed(|| {
        let mut vec = ArenaVec::new_in(&&allocator);
        for i in 0..ops {
            vec.push(i as u32);
        }
        black_box(&mut vec);
        vec
    });
    (ns, vec.len() as u64 + vec.capacity() as u64)
}

fn vec_push_reserved(ops: u64) -> (u64, u64) {
    let allocator = Allocator::new();
    let (ns, vec) = timed(|| {
        let mut vec = ArenaVec::with_capacity_in(ops as usize, &&allocator);
        for i in 0..ops {
            vec.push(i as u32);
        }
        black_box(&mut vec);
        vec
    });
    (ns, vec.len() as u64 + vec.capacity() as u64)
}

fn vec_sum(ops: u64) -> (u64, u64) {
    let allocator = Allocator::new();
    let vec = ArenaVec::from_iter_in((0..ops).map(|i| i as u32), &&allocator);
    // One element at a time, by its index.
    timed(|| {
        let mut sum = 0u64;
        for i in 0..vec.len() {
            sum += u64::from(vec[black_box(i)]);
        }
        sum
    })
}

fn std_vec_push(ops: u64) -> (u64, u64) {
    let (ns, vec) = timed(|| {
        let mut vec = std::vec::Vec::new();
        for i in 0..ops {
            vec.push(i as u32);
        }
        black_box(&mut vec);
        vec
    });
    (ns, vec.len() as u64 + vec.capacity() as u64)
}

fn string_push_str(ops: u64) -> (u64, u64) {
    let allocator = Allocator::new();
    let (ns, text) = timed(|| {
        let mut text = StringBuilder::new_in(&allocator);
        for _ in 0..ops {
            text.push_str(black_box("hello, "));
        }
        black_box(&mut text);
        text
    });
    (ns, text.len() as u64 + text.capacity() as u64)
}

fn string_push_byte(ops: u64) -> (u64, u64) {
    let allocator = Allocator::new();
    let (ns, text) = timed(|| {
        let mut text = StringBuilder::new_in(&allocator);
        for i in 0..ops {
            text.push_ascii_byte((i % 128) as u8);
        }
        black_box(&mut text);
        text
    });
    (ns, text.len() as u64 + text.capacity() as u64)
}

/// The bits of a pass over a set of `ops` bits, in scattered order.
fn scattered(ops: u64) -> impl Iterator<Item = usize> {
    let mut x = 1u64;
    (0..ops).map(move |_| {
        x = x
            .wrapping_mul(6_364_136_223_846_793_005)
            .wrapping_add(1_442_695_040_888_963_407);
        // A number below `ops` without a division.
        ((u128::from(x) * u128::from(ops)) >> 64) as usize
    })
}

fn bitset_set(ops: u64) -> (u64, u64) {
    let allocator = Allocator::new();
    let mut set = BitSet::new_in(ops as usize, &allocator);
    let (ns, ()) = timed(|| {
        for bit in scattered(ops) {
            set.set_bit(bit);
        }
        black_box(&mut set);
    });
    (ns, set.ones().count() as u64)
}

fn bitset_set_ascending(ops: u64) -> (u64, u64) {
    let allocator = Allocator::new();
    let mut set = BitSet::new_in(ops as usize, &allocator);
    let (ns, ()) = timed(|| {
        for bit in 0..ops as usize {
            set.set_bit(black_box(bit));
        }
        black_box(&mut set);
    });
    (ns, set.ones().count() as u64)
}

fn bitset_contains(ops: u64) -> (u64, u64) {
    let allocator = Allocator::new();
    let mut set = BitSet::new_in(ops as usize, &allocator);
    for bit in (0..ops as usize).step_by(3) {
        set.set_bit(bit);
    }
    timed(|| scattered(ops).filter(|&bit| set.contains(bit)).count() as u64)
}

fn bitset_ones(ops: u64) -> (u64, u64) {
    let allocator = Allocator::new();
    let mut set = BitSet::new_in(ops as usize, &allocator);
    for bit in (0..ops as usize).step_by(3) {
        set.set_bit(bit);
    }
    timed(|| set.ones().map(|bit| bit as u64).sum::<u64>())
}

/// Distinct keys below 2^32 in scattered order.
pub fn key(i: u64) -> u32 {
    (i as u32).wrapping_mul(2_654_435_761)
}

fn map_insert(ops: u64) -> (u64, u64) {
    let allocator = Allocator::new();
    let (ns, map) = timed(|| {
        let mut map: HashMap<'_, u32, u32> = HashMap::new_in(&allocator);
        for i in 0..ops {
            map.insert(key(i), i as u32);
        }
        black_box(&mut map);
        map
    });
    (ns, map.len() as u64)
}

fn map_get(ops: u64) -> (u64, u64) {
    let allocator = Allocator::new();
    let mut map: HashMap<'_, u32, u32> = HashMap::new_in(&allocator);
    for i in 0..ops {
        map.insert(key(i), i as u32);
    }
    timed(|| {
        let mut sum = 0u64;
        for i in 0..ops {
            // Every second key is bound.
            if let Some(&v) = map.get(&key(i * 2)) {
                sum += u64::from(v);
            }
        }
        sum
    })
}

fn map_remove(ops: u64) -> (u64, u64) {
    let allocator = Allocator::new();
    let mut map: HashMap<'_, u32, u32> = HashMap::new_in(&allocator);
    for i in 0..ops {
        map.insert(key(i), i as u32);
    }
    timed(|| {
        (0..ops)
            .filter_map(|i| map.remove(&key(i)))
            .map(u64::from)
            .sum::<u64>()
    })
}

fn std_map_insert(ops: u64) -> (u64, u64) {
    let (ns, map) = timed(|| {
        let mut map = std::collections::HashMap::<u32, u32>::new();
        for i in 0..ops {
            map.insert(key(i), i as u32);
        }
        black_box(&mut map);
        map
    });
    (ns, map.len() as u64)
}

/// Layouts that the compiler can't foresee: sizes 1 to 64, alignments 1 to 8.
fn small_layouts() -> [Layout; 64] {
    std::array::from_fn(|i| Layout::from_size_align(i * 29 % 64 + 1, 1 << (i * 7 % 4)).unwrap())
}

fn alloc_small(ops: u64) -> (u64, u64) {
    let allocator = Allocator::new();
    let layouts = black_box(small_layouts());
    let (ns, sum) = timed(|| {
        let mut sum = 0u64;
        for i in 0..ops {
            let at = allocator.alloc_layout(layouts[(i % 64) as usize]);
            sum += u64::from(black_box(at).addr().get() as u8 & 1);
        }
        sum
    });
    black_box(sum);
    (ns, allocator.used_bytes() as u64)
}

fn alloc_fixed(ops: u64) -> (u64, u64) {
    let allocator = Allocator::new();
    let (ns, ()) = timed(|| {
        for i in 0..ops {
            black_box(allocator.alloc(i));
        }
    });
    (ns, allocator.used_bytes() as u64)
}

fn alloc_warm(ops: u64) -> (u64, u64) {
    // As `alloc_small`, in a chunk that is reset before it is full.
    let mut allocator = Allocator::with_capacity(1 << 20);
    let layouts = black_box(small_layouts());
    let (ns, used) = timed(|| {
        let mut used = 0u64;
        let mut left = ops;
        while left > 0 {
            let now = left.min(16384);
            for i in 0..now {
                black_box(allocator.alloc_layout(layouts[(i % 64) as usize]));
            }
            left -= now;
            used += allocator.used_bytes() as u64;
            allocator.reset();
        }
        used
    });
    (ns, used)
}

fn reset_empty(ops: u64) -> (u64, u64) {
    let mut allocator = Allocator::new();
    timed(|| {
        let mut used = 0;
        for _ in 0..ops {
            // One block, then a reset: the first chunk is kept.
            black_box(allocator.alloc(1u64));
            used += allocator.used_bytes() as u64;
            black_box(&mut allocator).reset();
        }
        used
    })
}

fn reset_chunks(ops: u64) -> (u64, u64) {
    // A fresh arena of three chunks, of which a reset frees two.
    timed(|| {
        let mut kept = 0;
        for _ in 0..ops {
            let mut allocator = Allocator::new();
            for size in [1usize, 16320, 32640] {
                let layout = Layout::from_size_align(size, 1).unwrap();
                black_box(allocator.alloc_layout(layout));
            }
            allocator.reset();
            kept += allocator.capacity() as u64;
        }
        kept
    })
}

fn grow_at_cursor(ops: u64) -> (u64, u64) {
    // A block of 1 to 64 bytes grown by one byte at a time.
    use allocator_api2::alloc::Allocator as _;
    let mut allocator = Allocator::with_capacity(1 << 20);
    timed(|| {
        let mut used = 0u64;
        let mut left = ops;
        while left > 0 {
            let mut size = 1;
            let mut at = allocator.alloc_layout(Layout::from_size_align(1, 1).unwrap());
            while size < 64 && left > 0 {
                let old = Layout::from_size_align(size, 1).unwrap();
                let new = Layout::from_size_align(size + 1, 1).unwrap();
                at = unsafe { (&allocator).grow(at, old, new) }.unwrap().cast();
                black_box(at);
                size += 1;
                left -= 1;
            }
            used += allocator.used_bytes() as u64;
            allocator.reset();
        }
        used
    })
}

fn pool_get(ops: u64) -> (u64, u64) {
    let pool = AllocatorPool::new(1);
    timed(|| {
        let mut used = 0;
        for _ in 0..ops {
            let guard = pool.get();
            black_box(guard.alloc(1u64));
            used += guard.used_bytes() as u64;
        }
        used
    })
}

const THREADS: u64 = 4;

fn pool_get_threads(ops: u64) -> (u64, u64) {
    let pool = AllocatorPool::new(THREADS as usize);
    let each = ops / THREADS;
    timed(|| {
        std::thread::scope(|scope| {
            let all: Vec<_> = (0..THREADS)
                .map(|_| {
                    scope.spawn(|| {
                        let mut used = 0u64;
                        for _ in 0..each {
                            let guard = pool.get();
                            black_box(guard.alloc(1u64));
                            used += guard.used_bytes() as u64;
                        }
                        used
                    })
                })
                .collect();
            all.into_iter().map(|t| t.join().unwrap()).sum()
        })
    })
}

const WORDS: u64 = 65_536;

fn words() -> Vec<std::sync::atomic::AtomicU64> {
    (0..WORDS)
        .map(|_| std::sync::atomic::AtomicU64::new(0))
        .collect()
}

fn claim_in_turn(words: &[std::sync::atomic::AtomicU64], ops: u64) -> u64 {
    let mut free = 0u64;
    for i in 0..ops {
        if words[(i % WORDS) as usize].swap(1, std::sync::atomic::Ordering::SeqCst) == 0 {
            free += 1;
        }
    }
    free
}

fn claim(ops: u64) -> (u64, u64) {
    let words = words();
    timed(|| claim_in_turn(&words, ops))
}

fn claim_threads(ops: u64) -> (u64, u64) {
    let words = words();
    let each = ops / THREADS;
    timed(|| {
        std::thread::scope(|scope| {
            let all: Vec<_> = (0..THREADS)
                .map(|_| scope.spawn(|| claim_in_turn(&words, each)))
                .collect();
            all.into_iter().map(|t| t.join().unwrap()).sum()
        })
    })
}

/// Locks an empty mutex and lets it go, twice: the least that a borrow of a locked pool takes.
fn lock_twice(ops: u64) -> (u64, u64) {
    let lock = std::sync::Mutex::new(0u64);
    timed(|| {
        for _ in 0..ops {
            *lock.lock().unwrap() += 1;
            *lock.lock().unwrap() += 1;
        }
        *lock.lock().unwrap()
    })
}

/// A fresh arena every 65,536 blocks, so that all of them stay in a few warm chunks.
const BATCH: u64 = 65_536;

/// `work` on batches of `ops`, over an arena that is reset before each.
fn batches(ops: u64, mut work: impl FnMut(&Allocator, u64) -> u64) -> (u64, u64) {
    let mut allocator = Allocator::with_capacity(1 << 22);
    timed(|| {
        let mut sum = 0u64;
        let mut left = ops;
        while left > 0 {
            let now = left.min(BATCH);
            sum = sum.wrapping_add(work(&allocator, now));
            left -= now;
            allocator.reset();
        }
        sum
    })
}

fn box_new(ops: u64) -> (u64, u64) {
    batches(ops, |allocator, now| {
        let mut sum = 0u64;
        for i in 0..now {
            let boxed = black_box(ArenaBox::new_in(i, &allocator));
            sum = sum.wrapping_add(*boxed);
        }
        sum
    })
}

fn slice_copy(ops: u64) -> (u64, u64) {
    let src: Vec<u32> = (0..1024).collect();
    batches(ops, |allocator, now| {
        let mut sum = 0u64;
        for i in 0..now / 1024 {
            let slice = allocator.alloc_slice_copy(black_box(&src));
            sum += u64::from(slice[(i % 1024) as usize]);
        }
        sum
    })
}

fn str_copy(ops: u64) -> (u64, u64) {
    batches(ops, |allocator, now| {
        let mut sum = 0u64;
        for _ in 0..now {
            sum += black_box(allocator.alloc_str(black_box("identifier"))).len() as u64;
        }
        sum
    })
}

fn vec_small(ops: u64) -> (u64, u64) {
    // Vectors of four elements, as a parser's lists are.
    batches(ops, |allocator, now| {
        let mut sum = 0u64;
        for i in 0..now / 4 {
            let mut vec = ArenaVec::new_in(&allocator);
            for k in 0..4 {
                vec.push((i + k) as u32);
            }
            sum += u64::from(black_box(&vec)[3]);
        }
        sum
    })
}

fn vec_extend(ops: u64) -> (u64, u64) {
    let src: Vec<u32> = (0..256).collect();
    let allocator = Allocator::new();
    let (ns, vec) = timed(|| {
        let mut vec = ArenaVec::new_in(&&allocator);
        for _ in 0..ops / 256 {
            vec.extend_from_slice(black_box(&src));
        }
        black_box(&mut vec);
        vec
    });
    (ns, vec.len() as u64 + vec.capacity() as u64)
}

fn vec_insert_front(ops: u64) -> (u64, u64) {
    // In front of at most 64 elements.
    batches(ops, |allocator, now| {
        let mut sum = 0u64;
        for i in 0..now / 64 {
            let mut vec = ArenaVec::with_capacity_in(64, &allocator);
            for k in 0..64 {
                vec.insert(0, (i + k) as u32);
            }
            sum += u64::from(black_box(&vec)[0]);
        }
        sum
    })
}

fn vec_retain(ops: u64) -> (u64, u64) {
    let allocator = Allocator::new();
    let mut vec = ArenaVec::from_iter_in((0..ops).map(|i| i as u32), &&allocator);
    let (ns, ()) = timed(|| vec.retain(|&x| black_box(x) % 3 != 0));
    (ns, vec.len() as u64)
}

fn vec_iter(ops: u64) -> (u64, u64) {
    let allocator = Allocator::new();
    let vec = ArenaVec::from_iter_in((0..ops).map(|i| i as u32), &&allocator);
    timed(|| vec.into_iter().map(u64::from).sum::<u64>())
}

fn vec_clone(ops: u64) -> (u64, u64) {
    let (from, to) = (Allocator::new(), Allocator::new());
    let vec = ArenaVec::from_iter_in((0..ops).map(|i| i as u32), &&from);
    let (ns, copy) = timed(|| vec.clone_in(&&to));
    (ns, copy.len() as u64 + copy.capacity() as u64)
}

fn string_push_start(ops: u64) -> (u64, u64) {
    // In front of at most 64 bytes.
    batches(ops, |allocator, now| {
        let mut sum = 0u64;
        for _ in 0..now / 64 {
            let mut text = StringBuilder::with_capacity_in(64, &allocator);
            for k in 0..64u8 {
                text.push_ascii_byte_start(k);
            }
            sum += black_box(&text).len() as u64;
        }
        sum
    })
}

fn bitset_union(ops: u64) -> (u64, u64) {
    // Bits joined, 4,096 a set.
    let allocator = Allocator::new();
    let mut set = BitSet::new_in(4096, &allocator);
    let mut other = BitSet::new_in(4096, &allocator);
    for bit in (0..4096).step_by(3) {
        other.set_bit(bit);
    }
    let (ns, ()) = timed(|| {
        for _ in 0..ops / 4096 {
            black_box(&mut set).union(black_box(&other));
        }
    });
    (ns, set.ones().count() as u64)
}

fn map_small(ops: u64) -> (u64, u64) {
    // Maps of eight pairs, as a scope's are.
    batches(ops, |allocator, now| {
        let mut sum = 0u64;
        for i in 0..now / 8 {
            let mut map: HashMap<'_, u32, u32> = HashMap::new_in(&allocator);
            for k in 0..8 {
                map.insert(key(i + k), k as u32);
            }
            sum += map.len() as u64;
        }
        sum
    })
}

fn map_iter(ops: u64) -> (u64, u64) {
    let allocator = Allocator::new();
    let mut map: HashMap<'_, u32, u32> = HashMap::new_in(&allocator);
    for i in 0..ops {
        map.insert(key(i), i as u32);
    }
    timed(|| {
        map.iter()
            .map(|(&k, &v)| u64::from(k) + u64::from(v))
            .sum::<u64>()
    })
}

fn map_clone(ops: u64) -> (u64, u64) {
    let (from, to) = (Allocator::new(), Allocator::new());
    let mut map: HashMap<'_, u32, u32> = HashMap::new_in(&from);
    for i in 0..ops {
        map.insert(key(i), i as u32);
    }
    let (ns, copy) = timed(|| map.clone_in(&to));
    (ns, copy.len() as u64)
}

const BENCHES: &[Bench] = &[
    Bench {
        name: "vec_push",
        what: "push of u32",
        ops: 10_000_000,
        run: vec_push,
    },
    Bench {
        name: "vec_push_reserved",
        what: "push of u32",
        ops: 10_000_000,
        run: vec_push_reserved,
    },
    Bench {
        name: "vec_sum",
        what: "read by index",
        ops: 10_000_000,
        run: vec_sum,
    },
    Bench {
        name: "std_vec_push",
        what: "push of u32, std",
        ops: 10_000_000,
        run: std_vec_push,
    },
    Bench {
        name: "string_push_str",
        what: "push_str of 7 bytes",
        ops: 10_000_000,
        run: string_push_str,
    },
    Bench {
        name: "string_push_byte",
        what: "push_ascii_byte",
        ops: 10_000_000,
        run: string_push_byte,
    },
    Bench {
        name: "bitset_set",
        what: "set_bit, scattered",
        ops: 10_000_000,
        run: bitset_set,
    },
    Bench {
        name: "bitset_set_ascending",
        what: "set_bit, ascending",
        ops: 10_000_000,
        run: bitset_set_ascending,
    },
    Bench {
        name: "bitset_contains",
        what: "contains, scattered",
        ops: 10_000_000,
        run: bitset_contains,
    },
    Bench {
        name: "bitset_ones",
        what: "bit passed by ones, a third set",
        ops: 10_000_000,
        run: bitset_ones,
    },
    Bench {
        name: "map_insert",
        what: "insert of u32 to u32",
        ops: 1_000_000,
        run: map_insert,
    },
    Bench {
        name: "map_get",
        what: "get, half found",
        ops: 1_000_000,
        run: map_get,
    },
    Bench {
        name: "map_remove",
        what: "remove",
        ops: 1_000_000,
        run: map_remove,
    },
    Bench {
        name: "std_map_insert",
        what: "insert of u32 to u32, std",
        ops: 1_000_000,
        run: std_map_insert,
    },
    Bench {
        name: "alloc_small",
        what: "alloc_layout, mixed, fresh memory",
        ops: 10_000_000,
        run: alloc_small,
    },
    Bench {
        name: "alloc_fixed",
        what: "alloc of u64, fresh memory",
        ops: 10_000_000,
        run: alloc_fixed,
    },
    Bench {
        name: "alloc_warm",
        what: "alloc_layout, mixed, warm chunk",
        ops: 10_000_000,
        run: alloc_warm,
    },
    Bench {
        name: "grow_at_cursor",
        what: "grow by one byte at the cursor",
        ops: 10_000_000,
        run: grow_at_cursor,
    },
    Bench {
        name: "reset_empty",
        what: "alloc of u64 and reset",
        ops: 10_000_000,
        run: reset_empty,
    },
    Bench {
        name: "reset_chunks",
        what: "arena of three chunks, reset, drop",
        ops: 100_000,
        run: reset_chunks,
    },
    Bench {
        name: "pool_get",
        what: "get, alloc of u64, give back",
        ops: 10_000_000,
        run: pool_get,
    },
    Bench {
        name: "pool_get_threads",
        what: "the same by four threads",
        ops: 10_000_000,
        run: pool_get_threads,
    },
    Bench {
        name: "claim",
        what: "swap",
        ops: 10_000_000,
        run: claim,
    },
    Bench {
        name: "claim_threads",
        what: "swap, four threads",
        ops: 10_000_000,
        run: claim_threads,
    },
    Bench {
        name: "lock_twice",
        what: "lock and unlock, twice",
        ops: 10_000_000,
        run: lock_twice,
    },
    Bench {
        name: "box_new",
        what: "Box::new_in of u64 and a read, warm",
        ops: 10_000_000,
        run: box_new,
    },
    Bench {
        name: "slice_copy",
        what: "element of alloc_slice_copy of 1,024 u32, warm",
        ops: 50_000_000,
        run: slice_copy,
    },
    Bench {
        name: "str_copy",
        what: "alloc_str of 10 bytes, warm",
        ops: 10_000_000,
        run: str_copy,
    },
    Bench {
        name: "vec_small",
        what: "push in new vectors of 4 u32, warm",
        ops: 10_000_000,
        run: vec_small,
    },
    Bench {
        name: "vec_extend",
        what: "element of extend_from_slice of 256 u32",
        ops: 50_000_000,
        run: vec_extend,
    },
    Bench {
        name: "vec_insert_front",
        what: "insert at 0 of up to 64 u32",
        ops: 10_000_000,
        run: vec_insert_front,
    },
    Bench {
        name: "vec_retain",
        what: "element tested by retain, two thirds kept",
        ops: 10_000_000,
        run: vec_retain,
    },
    Bench {
        name: "vec_iter",
        what: "element of into_iter",
        ops: 10_000_000,
        run: vec_iter,
    },
    Bench {
        name: "vec_clone",
        what: "element of clone_in of a vector",
        ops: 10_000_000,
        run: vec_clone,
    },
    Bench {
        name: "string_push_start",
        what: "push_ascii_byte_start on up to 64 bytes",
        ops: 10_000_000,
        run: string_push_start,
    },
    Bench {
        name: "bitset_union",
        what: "bit of union of sets of 4,096",
        ops: 400_000_000,
        run: bitset_union,
    },
    Bench {
        name: "map_small",
        what: "insert in new maps of 8 pairs, warm",
        ops: 10_000_000,
        run: map_small,
    },
    Bench {
        name: "map_iter",
        what: "pair of a walk",
        ops: 1_000_000,
        run: map_iter,
    },
    Bench {
        name: "map_clone",
        what: "pair of clone_in of a map",
        ops: 1_000_000,
        run: map_clone,
    },
    Bench {
        name: "intern_new",
        what: "intern of a new text",
        ops: 1_000_000,
        run: symbols::intern_new,
    },
    Bench {
        name: "intern_known",
        what: "intern of a text that has a number",
        ops: 1_000_000,
        run: symbols::intern_known,
    },
    Bench {
        name: "scope_define",
        what: "define in one scope",
        ops: 1_000_000,
        run: symbols::scope_define,
    },
    Bench {
        name: "scope_lookup",
        what: "lookup, half found",
        ops: 1_000_000,
        run: symbols::scope_lookup,
    },
    Bench {
        name: "scope_enter",
        what: "scope begun, four names in it, and ended",
        ops: 10_000_000,
        run: symbols::scope_enter,
    },
    Bench {
        name: "tree_parse",
        what: "byte of a text parsed into a warm arena",
        ops: 20_000_000,
        run: trees::tree_parse,
    },
];

pub fn main(words: &[String]) -> i32 {
    let name = words.first().map_or("", String::as_str);
    let ops: Option<u64> = words.get(1).and_then(|w| w.parse().ok());
    let runs: usize = words
        .get(2)
        .and_then(|w| w.parse().ok())
        .unwrap_or(5)
        .max(1);
    let mut found = false;
    for bench in BENCHES.iter().filter(|b| name == "all" || b.name == name) {
        found = true;
        let ops = ops.unwrap_or(bench.ops).max(1);
        let mut totals = Vec::new();
        let mut number = 0;
        for _ in 0..runs {
            let (ns, n) = (bench.run)(ops);
            totals.push(ns);
            number = n;
        }
        totals.sort_unstable();
        let (best, median) = (totals[0], totals[runs / 2]);
        println!(
            "{:<21} {:>8.3} ns/op  total {:>12.6} ms  median {:>9.3} ms  ops {ops}  number {number}  ({})",
            bench.name,
            best as f64 / ops as f64,
            best as f64 / 1e6,
            median as f64 / 1e6,
            bench.what,
        );
    }
    if !found {
        let names: Vec<_> = BENCHES.iter().map(|b| b.name).collect();
        eprintln!(
            "usage: native bench NAME|all [OPS] [RUNS]; names: {}",
            names.join(" ")
        );
        return 1;
    }
    0
}
