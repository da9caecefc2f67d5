//! Nanoseconds an operation, by turns: the growing arena over the proved library, bumpalo 3.12 and oxc_allocator 0.157.
//! `speed ROUNDS LOOP` runs one loop alone, which is named as in what `speed` prints.
use std::hint::black_box;
use std::time::Instant;

fn time(n: usize, work: impl FnOnce()) -> f64 {
    let start = Instant::now();
    work();
    start.elapsed().as_nanos() as f64 / n as f64
}

const N: usize = 20_000;

macro_rules! values {
    ($new:expr) => {{
        let mut a = $new;
        Box::new(move || {
            let t = time(N, || for i in 0..N { black_box(a.alloc(black_box(i as u64))); });
            a.reset();
            t
        }) as Box<dyn FnMut() -> f64>
    }};
}
macro_rules! slices {
    ($new:expr) => {{
        let mut a = $new;
        let from: Vec<u32> = (0..10).collect();
        Box::new(move || {
            let t = time(N, || for i in 0..N { black_box(a.alloc_slice_copy(black_box(&from[..1 + i % 10]))); });
            a.reset();
            t
        }) as Box<dyn FnMut() -> f64>
    }};
}
macro_rules! bump_vec {
    ($c:ident) => {{
        let mut a = $c::Bump::new();
        Box::new(move || {
            let t = time(N, || for _ in 0..N / 1000 {
                let mut v = $c::collections::Vec::new_in(&a);
                for i in 0..1000u64 { v.push(black_box(i)); }
                black_box(&v);
            });
            a.reset();
            t
        }) as Box<dyn FnMut() -> f64>
    }};
}
macro_rules! oxc_vec {
    ($c:ident, $len:expr) => {{
        let mut a = $c::Allocator::new();
        Box::new(move || {
            let t = time(N, || for _ in 0..N / $len {
                let mut v = $c::Vec::new_in(&&a);
                for i in 0..$len as u64 { v.push(black_box(i)); }
                black_box(&v);
            });
            a.reset();
            t
        }) as Box<dyn FnMut() -> f64>
    }};
}

fn main() {
    let mut words = std::env::args().skip(1);
    let rounds: usize = words.next().map_or(300, |w| w.parse().unwrap());
    let mut loops: Vec<(&str, &str, Box<dyn FnMut() -> f64>, f64)> = Vec::new();
    let mut add = |what, who, f| loops.push((what, who, f, f64::MAX));
    add("alloc u64", "ours", values!(arena_bindings::Arena::new()));
    add("alloc u64", "bumpalo", values!(bumpalo::Bump::new()));
    add("alloc u64", "oxc", values!(oxc_allocator::arena::Arena::new()));
    add("slice of 1 to 10 u32", "ours", slices!(arena_bindings::Arena::new()));
    add("slice of 1 to 10 u32", "bumpalo", slices!(bumpalo::Bump::new()));
    add("slice of 1 to 10 u32", "oxc", slices!(oxc_allocator::arena::Arena::new()));
    add("bumpalo's Vec, 1000 pushes", "ours", bump_vec!(bumpalo_over));
    add("bumpalo's Vec, 1000 pushes", "bumpalo", bump_vec!(bumpalo));
    add("oxc's Vec, 1000 pushes", "ours", oxc_vec!(oxc_over, 1000));
    add("oxc's Vec, 1000 pushes", "oxc", oxc_vec!(oxc_allocator, 1000));
    add("oxc's Vec, 8 pushes", "ours", oxc_vec!(oxc_over, 8));
    add("oxc's Vec, 8 pushes", "oxc", oxc_vec!(oxc_allocator, 8));
    if let Some(only) = words.next() {
        loops.retain(|l| format!("{:28} {:8}", l.0, l.1) == only);
    }
    for _ in 0..rounds {
        for (_, _, f, least) in &mut loops {
            *least = least.min(f());
        }
    }
    for (what, who, _, least) in &loops {
        let ours = loops.iter().find(|l| l.0 == *what && l.1 == "ours").map_or(*least, |l| l.3);
        println!("{what:28} {who:8} {least:7.3} ns   ours/this {:.2}", ours / least);
    }
}
