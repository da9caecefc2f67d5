//! The generator of `arena_run gen`, and its eight lines, over any arena.

use std::{alloc::Layout, ptr::NonNull};

pub trait Machine {
    fn alloc(&self, layout: Layout) -> Option<NonNull<u8>>;
    /// # Safety
    /// The block is of this machine and has the layout `old`.
    unsafe fn grow(&self, at: NonNull<u8>, old: Layout, new: Layout) -> Option<NonNull<u8>>;
    /// # Safety
    /// As `grow`.
    unsafe fn shrink(&self, at: NonNull<u8>, old: Layout, new: Layout) -> Option<NonNull<u8>>;
    /// # Safety
    /// As `grow`.
    unsafe fn dealloc(&self, at: NonNull<u8>, layout: Layout);
    fn reset(&mut self);
    fn used(&mut self) -> u64;
    fn allocated(&self) -> u64;
}

struct Draws(u64);

impl Draws {
    #[inline(always)]
    fn next(&mut self) -> u64 {
        self.0 = self
            .0
            .wrapping_mul(6_364_136_223_846_793_005)
            .wrapping_add(1_442_695_040_888_963_407);
        self.0 >> 33
    }
}

#[derive(Clone, Copy)]
struct Held {
    at: NonNull<u8>,
    layout: Layout,
    held: bool,
}

#[inline(always)]
fn layout(q: u64) -> Layout {
    // Sizes below 512 and alignments up to 16 are always a layout.
    let size = (q % 512) as usize;
    let align = 1usize << ((q / 512) % 5);
    unsafe { Layout::from_size_align_unchecked(size, align) }
}

pub fn run<M: Machine>(machine: &mut M, start: u64, count: u64) -> [u64; 8] {
    let nothing = Held {
        at: NonNull::dangling(),
        layout: Layout::new::<()>(),
        held: false,
    };
    let mut table = [nothing; 256];
    let mut draws = Draws(start);
    let (mut placed, mut failed, mut other, mut bytes, mut sum) = (0u64, 0u64, 0u64, 0u64, 0u64);
    for i in 0..count {
        if i % 65536 == 65535 {
            machine.reset();
            for block in &mut table {
                block.held = false;
            }
            continue;
        }
        let r = draws.next();
        let block = &mut table[(r / 8 % 256) as usize];
        match r % 8 {
            0..=2 => {
                let q = draws.next();
                if block.held {
                    other += 1;
                    continue;
                }
                let layout = layout(q);
                match machine.alloc(layout) {
                    Some(at) => {
                        unsafe { at.write_bytes((q / 4096) as u8, layout.size()) };
                        *block = Held {
                            at,
                            layout,
                            held: true,
                        };
                        placed += 1;
                    }
                    None => failed += 1,
                }
            }
            3 => {
                let q = draws.next();
                let new = layout(q);
                if !block.held || new.size() < block.layout.size() {
                    other += 1;
                    continue;
                }
                match unsafe { machine.grow(block.at, block.layout, new) } {
                    Some(at) => {
                        let kept = block.layout.size();
                        unsafe {
                            at.add(kept)
                                .write_bytes((q / 4096) as u8, new.size() - kept)
                        };
                        *block = Held {
                            at,
                            layout: new,
                            held: true,
                        };
                        placed += 1;
                    }
                    None => failed += 1,
                }
            }
            4 => {
                let q = draws.next();
                let new = layout(q);
                if !block.held || new.size() > block.layout.size() {
                    other += 1;
                    continue;
                }
                match unsafe { machine.shrink(block.at, block.layout, new) } {
                    Some(at) => {
                        *block = Held {
                            at,
                            layout: new,
                            held: true,
                        };
                        placed += 1;
                    }
                    None => failed += 1,
                }
            }
            5 => {
                if !block.held {
                    other += 1;
                    continue;
                }
                unsafe { machine.dealloc(block.at, block.layout) };
                block.held = false;
            }
            6 => {
                let q = draws.next();
                let at = (q % 512) as usize;
                if !block.held || at + 1 > block.layout.size() {
                    other += 1;
                    continue;
                }
                unsafe { block.at.add(at).write((q / 512) as u8) };
            }
            _ => {
                if !block.held {
                    other += 1;
                    continue;
                }
                let len = block.layout.size();
                let read = unsafe { std::slice::from_raw_parts(block.at.as_ptr(), len) };
                bytes += len as u64;
                sum += read.iter().map(|&b| u64::from(b)).sum::<u64>();
            }
        }
    }
    [
        count,
        placed,
        failed,
        other,
        bytes,
        sum,
        machine.used(),
        machine.allocated(),
    ]
}

pub fn main<M: Machine>(words: &[String], name: &str, mut machine: M) -> i32 {
    let numbers: Option<Vec<u64>> = words.iter().map(|w| w.parse().ok()).collect();
    let Some(&[start, count]) = numbers.as_deref() else {
        eprintln!("usage: native {name} START COUNT");
        return 1;
    };
    let began = std::time::Instant::now();
    let summary = run(&mut machine, start, count);
    let took = began.elapsed();
    let names = [
        "calls",
        "placed",
        "failed",
        "other",
        "bytes",
        "sum",
        "used",
        "allocated",
    ];
    for (name, n) in names.iter().zip(summary) {
        println!("{name} {n}");
    }
    eprintln!("took {} us", took.as_micros());
    0
}
