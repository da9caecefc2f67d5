//! Random calls on the growing arena over the proved library and on the real `oxc_allocator`, with the same chunk requests
//! refused. Compared after each call: the chunk and the offset of the block, the requests, all counts, and the bytes.
//!
//! `differ RUNS SEED`. With the feature `fuzz` it is a libFuzzer target, whose bytes make the calls.
#![cfg_attr(feature = "fuzz", no_main)]
use allocator_api2::alloc::Allocator;
use std::alloc::{GlobalAlloc, Layout, System};
use std::cell::UnsafeCell;
use std::ptr::NonNull;
use std::sync::atomic::{AtomicBool, Ordering::Relaxed};

// SAFETY: of all unsafe code in this file: there is one thread, and no reference into LOG outlives its statement. A block is passed
// on with the layout that it was granted for, and of its bytes only those that were written are read.
struct Space;
#[derive(Default, Clone)]
struct Log {
    refuse: Vec<usize>,
    requests: Vec<(usize, usize)>,
    granted: Vec<(usize, usize)>,
    freed: usize,
}
static ON: AtomicBool = AtomicBool::new(false);
struct Logs(UnsafeCell<Option<Log>>);
unsafe impl Sync for Logs {}
static LOG: Logs = Logs(UnsafeCell::new(None));

unsafe impl GlobalAlloc for Space {
    unsafe fn alloc(&self, layout: Layout) -> *mut u8 {
        if !ON.swap(false, Relaxed) {
            return unsafe { System.alloc(layout) };
        }
        let log = unsafe { (*LOG.0.get()).as_mut().unwrap() };
        log.requests.push((layout.size(), layout.align()));
        let at = if log.refuse.contains(&log.requests.len()) || layout.size() > 64 << 20 {
            std::ptr::null_mut()
        } else {
            // all bases are alike up to an alignment of 64 KiB
            unsafe { System.alloc(Layout::from_size_align(layout.size(), layout.align().max(1 << 16)).unwrap()) }
        };
        if !at.is_null() {
            log.granted.push((at as usize, layout.size() - 48));
        }
        ON.store(true, Relaxed);
        at
    }
    unsafe fn dealloc(&self, at: *mut u8, layout: Layout) {
        if ON.load(Relaxed) {
            unsafe { (*LOG.0.get()).as_mut().unwrap().freed += 1 };
        }
        // glibc frees whatever the alignment
        unsafe { System.dealloc(at, layout) }
    }
}
#[global_allocator]
static SPACE: Space = Space;

trait Machine: Sized {
    fn make(capacity: usize) -> Option<Self>;
    fn reset(&mut self);
    fn counts(&mut self) -> (usize, usize, usize, Vec<usize>);
    fn allocate(&self, l: Layout) -> Option<NonNull<u8>>;
    unsafe fn deallocate(&self, p: NonNull<u8>, l: Layout);
    unsafe fn grow(&self, p: NonNull<u8>, a: Layout, b: Layout) -> Option<NonNull<u8>>;
    unsafe fn shrink(&self, p: NonNull<u8>, a: Layout, b: Layout) -> Option<NonNull<u8>>;
}
macro_rules! machine {
    ($t:ty, $make:expr) => {
        impl<const M: usize> Machine for $t {
            fn make(capacity: usize) -> Option<Self> { $make(capacity) }
            fn reset(&mut self) { self.reset() }
            fn counts(&mut self) -> (usize, usize, usize, Vec<usize>) {
                ON.store(false, Relaxed);
                let sizes = self.iter_allocated_chunks().map(|c| c.len()).collect();
                ON.store(true, Relaxed);
                (self.used_bytes(), self.allocated_bytes(), self.chunk_capacity(), sizes)
            }
            fn allocate(&self, l: Layout) -> Option<NonNull<u8>> { Allocator::allocate(&self, l).ok().map(|b| b.cast()) }
            unsafe fn deallocate(&self, p: NonNull<u8>, l: Layout) { unsafe { Allocator::deallocate(&self, p, l) } }
            unsafe fn grow(&self, p: NonNull<u8>, a: Layout, b: Layout) -> Option<NonNull<u8>> {
                unsafe { Allocator::grow(&self, p, a, b) }.ok().map(|b| b.cast())
            }
            unsafe fn shrink(&self, p: NonNull<u8>, a: Layout, b: Layout) -> Option<NonNull<u8>> {
                unsafe { Allocator::shrink(&self, p, a, b) }.ok().map(|b| b.cast())
            }
        }
    };
}
machine!(arena_bindings::Arena<M>, |n| Self::try_with_min_align_and_capacity(n).ok());
machine!(oxc_allocator::arena::Arena<M>, |n| Self::try_with_min_align_and_capacity(n).ok());

#[derive(Clone, Copy, Debug)]
enum Call {
    Alloc(usize, Layout, u8),
    Dealloc(usize),
    Grow(usize, Layout, u8),
    Shrink(usize, Layout),
    // to exactly half of the size
    Half(usize),
    // by a third, as a vector does
    More(usize, u8),
    Reset,
}

// A generator, or bytes and how many of them are read.
enum Random {
    #[cfg_attr(feature = "fuzz", allow(dead_code))]
    Seed(u64),
    #[cfg_attr(not(feature = "fuzz"), allow(dead_code))]
    Bytes(Vec<u8>, usize),
}
impl Random {
    fn bits(&mut self, bytes: usize) -> u64 {
        match self {
            Random::Seed(state) => {
                *state ^= *state << 13;
                *state ^= *state >> 7;
                *state ^= *state << 17;
                *state >> 11
            }
            Random::Bytes(data, at) => (0..bytes).fold(0, |n, _| {
                *at += 1;
                n << 8 | u64::from(*data.get(*at - 1).unwrap_or(&0))
            }),
        }
    }
    fn byte(&mut self) -> u8 { self.bits(1) as u8 }
    fn below(&mut self, n: u64) -> u64 { self.bits(if n <= 256 { 1 } else { 3 }) % n }
    fn is_empty(&self) -> bool { matches!(self, Random::Bytes(data, at) if data.len() <= *at) }
    fn size(&mut self) -> usize {
        (match self.below(16) {
            0 => 0,
            1..9 => self.below(64),
            9..12 => self.below(2000),
            12 => 16320 - 40 + self.below(80),
            13 => self.below(70_000),
            14 => [32704, 65472, 130_000, 300_000][self.below(4) as usize] - 40 + self.below(80),
            _ => [1 << 22, (1 << 40) + 7, (1 << 63) - 4096, (1 << 63) - 65][self.below(4) as usize],
        }) as usize
    }
    fn align(&mut self) -> usize {
        1 << match self.below(12) { 0..10 => self.below(5), 10 => self.below(8), _ => self.below(17) }
    }
    fn layout(&mut self) -> Layout {
        loop {
            if let Ok(l) = Layout::from_size_align(self.size(), self.align()) {
                return l;
            }
        }
    }
}

type Seen = (Option<(usize, usize)>, Vec<(usize, usize)>, usize, (usize, usize, usize, Vec<usize>));

fn locate(log: &Log, p: NonNull<u8>) -> (usize, usize) {
    let p = p.as_ptr() as usize;
    for (i, &(base, size)) in log.granted.iter().enumerate().rev() {
        if base <= p && p <= base + size { return (i + 1, p - base); }
    }
    (0, p)
}

fn run<T: Machine>(capacity: usize, calls: &[Call], refuse: &[usize]) -> Vec<Seen> {
    unsafe { *LOG.0.get() = Some(Log { refuse: refuse.to_vec(), ..Log::default() }) };
    let log = || unsafe { (*LOG.0.get()).clone().unwrap() };
    let mut seen = Vec::new();
    let mut held: [Option<(NonNull<u8>, Layout, Vec<u8>)>; 12] = Default::default();
    ON.store(true, Relaxed);
    let made = T::make(capacity);
    ON.store(false, Relaxed);
    seen.push((made.is_some().then_some((0, 0)), log().requests, 0, (0, 0, 0, vec![])));
    let Some(mut t) = made else { return seen };
    let fill = |p: NonNull<u8>, from: usize, n: usize, b: u8, held: &mut Vec<u8>| unsafe {
        p.as_ptr().add(from).write_bytes(b, n - from);
        held.truncate(from);
        held.resize(n, b);
    };
    for call in calls {
        let of = |n: usize, f: &dyn Fn(usize) -> usize| {
            held[n].as_ref().and_then(|(_, l, _)| Layout::from_size_align(f(l.size()), l.align()).ok())
        };
        let call = &match *call {
            Call::Half(n) => of(n, &|s| s / 2).map_or(Call::Dealloc(n), |l| Call::Shrink(n, l)),
            Call::More(n, b) => of(n, &|s| s + s / 3 + 1).map_or(Call::Dealloc(n), |l| Call::Grow(n, l, b)),
            one => one,
        };
        ON.store(true, Relaxed);
        let answer = match *call {
            Call::Half(_) | Call::More(..) => unreachable!(),
            Call::Alloc(_, l, _) => t.allocate(l),
            Call::Dealloc(n) => {
                if let Some((p, l, _)) = &held[n] { unsafe { t.deallocate(*p, *l) } }
                None
            }
            Call::Grow(n, l, _) => match &held[n] {
                Some((p, old, _)) if old.size() <= l.size() => unsafe { t.grow(*p, *old, l) },
                _ => None,
            },
            Call::Shrink(n, l) => match &held[n] {
                Some((p, old, _)) if l.size() <= old.size() => unsafe { t.shrink(*p, *old, l) },
                _ => None,
            },
            Call::Reset => { t.reset(); None }
        };
        let counts = t.counts();
        ON.store(false, Relaxed);
        match *call {
            Call::Half(_) | Call::More(..) => unreachable!(),
            Call::Alloc(n, l, b) => {
                if let Some(p) = answer {
                    let mut v = Vec::new();
                    fill(p, 0, l.size(), b, &mut v);
                    held[n] = Some((p, l, v));
                }
            }
            Call::Dealloc(n) => held[n] = None,
            Call::Grow(n, l, b) => {
                if let (Some(p), Some((at, old, v))) = (answer, &mut held[n]) {
                    let from = v.len();
                    assert_eq!(unsafe { std::slice::from_raw_parts(p.as_ptr(), from) }, &v[..], "bytes lost in {call:?}");
                    fill(p, from, l.size(), b, v);
                    (*at, *old) = (p, l);
                }
            }
            Call::Shrink(n, l) => {
                if let (Some(p), Some((at, old, v))) = (answer, &mut held[n]) {
                    v.truncate(l.size());
                    (*at, *old) = (p, l);
                }
            }
            Call::Reset => held = Default::default(),
        }
        for (p, l, v) in held.iter().flatten() {
            assert!(p.as_ptr() as usize % l.align() == 0);
            let now = unsafe { std::slice::from_raw_parts(p.as_ptr(), v.len()) };
            // the ends and some bytes between, of large blocks
            if v.len() < 5000 { assert_eq!(now, &v[..], "bytes after {call:?}"); }
            else { for i in (0..v.len()).step_by(997).chain([v.len() - 1]) { assert_eq!(now[i], v[i], "bytes after {call:?}"); } }
        }
        let log = log();
        seen.push((answer.map(|p| locate(&log, p)), log.requests.clone(), log.freed, counts));
    }
    ON.store(true, Relaxed);
    drop(t);
    ON.store(false, Relaxed);
    let log = log();
    assert_eq!(log.granted.len(), log.freed, "chunks were not freed");
    seen
}

fn compare<const M: usize>(capacity: usize, calls: &[Call], refuse: &[usize]) -> [usize; 3] {
    let ours = run::<arena_bindings::Arena<M>>(capacity, calls, refuse);
    let real = run::<oxc_allocator::arena::Arena<M>>(capacity, calls, refuse);
    for (i, (a, b)) in ours.iter().zip(&real).enumerate() {
        if a != b {
            println!("DIFFER: MIN_ALIGN {M}, capacity {capacity}, refuse {refuse:?}, call {i}: {:?}\nours {a:?}\nreal {b:?}", i.checked_sub(1).map(|i| calls[i]));
            for c in &calls[..i] { println!("  {c:?}"); }
            if cfg!(feature = "fuzz") {
                std::process::abort();
            }
            std::process::exit(1);
        }
    }
    assert_eq!(ours.len(), real.len());
    let last = ours.last().unwrap();
    [ours.len(), last.1.len(), ours.iter().filter(|s| s.0.is_some()).count()]
}

// One run of calls, over both: the steps, the chunk requests, and the blocks answered.
fn one_run(random: &mut Random) -> [usize; 3] {
    let align = random.below(8);
    let capacity = if random.below(3) > 0 { 0 } else { random.size() };
    let refuse: Vec<usize> =
        if random.below(3) > 0 { vec![] } else { (0..6).map(|_| 1 + random.below(12) as usize).collect() };
    let mut calls = Vec::new();
    for _ in 0..20 + random.below(60) {
        if random.is_empty() {
            break;
        }
        let n = random.below(12) as usize;
        calls.push(match random.below(24) {
            0..9 => Call::Alloc(n, random.layout(), random.byte()),
            9..12 => Call::Dealloc(n),
            12..16 => Call::Grow(n, random.layout(), random.byte()),
            16..19 => Call::Shrink(n, random.layout()),
            19 if random.below(8) == 0 => Call::Reset,
            19 => Call::Dealloc(n),
            20..22 => Call::Half(n),
            _ => Call::More(n, random.byte()),
        });
    }
    match align {
        0 => compare::<2>(capacity, &calls, &refuse),
        1 => compare::<4>(capacity, &calls, &refuse),
        2 => compare::<8>(capacity, &calls, &refuse),
        3 => compare::<16>(capacity, &calls, &refuse),
        _ => compare::<1>(capacity, &calls, &refuse),
    }
}

#[cfg(feature = "fuzz")]
#[unsafe(no_mangle)]
pub extern "C" fn LLVMFuzzerTestOneInput(data: *const u8, len: usize) -> i32 {
    // SAFETY: libFuzzer passes this many bytes.
    let data = if len == 0 { vec![] } else { unsafe { std::slice::from_raw_parts(data, len) }.to_vec() };
    one_run(&mut Random::Bytes(data, 0));
    0
}

#[cfg(not(feature = "fuzz"))]
fn main() {
    let mut words = std::env::args().skip(1).map(|w| w.parse::<u64>().unwrap());
    let (runs, seed) = (words.next().unwrap_or(1000), words.next().unwrap_or(1));
    let mut random = Random::Seed(seed.wrapping_mul(0x9E37_79B9_7F4A_7C15) | 1);
    let mut sum = [0; 3];
    for _ in 0..runs {
        let one = one_run(&mut random);
        for i in 0..3 {
            sum[i] += one[i];
        }
    }
    println!("{runs} runs, {} steps, {} chunk requests, {} blocks answered: no difference", sum[0], sum[1], sum[2]);
}
