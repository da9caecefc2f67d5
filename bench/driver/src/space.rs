//! The program's global allocator.
//!
//! The crate asks the global allocator for its chunks. While `serving` is on, such a
//! request is answered from a range of addresses of our own, at the address that the
//! rule of `arena_run` gives the chunk, moved up by `OFFSET`. `OFFSET` is a multiple of
//! every alignment that a real chunk can have, so a real place less `OFFSET` is a
//! place by that rule, for large alignments too. Sizes and alignments are those
//! that the crate asks for; only the base is computed here.
//!
//! All else goes to the system. The program has one thread.

use std::{
    alloc::{GlobalAlloc, Layout, System},
    cell::UnsafeCell,
    sync::atomic::{AtomicBool, Ordering::Relaxed},
};

/// Real address of a chunk less its address by rule.
pub const OFFSET: u64 = 1 << 44;
/// Real memory is there for addresses by rule below this one.
pub const SPAN: u64 = 1 << 44;
/// The size of the chunk footer, by which a request passes the data size.
pub const FOOTER: u64 = oxc_allocator::Allocator::RAW_MIN_SIZE as u64;

const PAGE: u64 = 4096;

#[derive(Clone, Copy)]
pub struct Chunk {
    /// Base in real memory.
    pub real: u64,
    /// Base by rule.
    pub base: u64,
    /// Data size.
    pub size: u64,
}

pub struct State {
    /// All chunks granted so far, oldest first.
    pub chunks: Vec<Chunk>,
    /// (data size, alignment) of each request so far.
    pub asked: Vec<(u64, u64)>,
    /// Requests refused since this was last set to 0.
    pub refused: u32,
    /// A chunk was wanted that real memory can't hold.
    pub beyond: bool,
    /// Bytes that may be granted, as of `MemoryChunks`.
    pub budget: u64,
    /// Numbers of the requests to refuse, from 1.
    pub refuse: Vec<u64>,
    /// First real address that isn't mapped yet.
    mapped: u64,
}

pub struct Space {
    serving: AtomicBool,
    state: UnsafeCell<State>,
}

// The program has one thread.
unsafe impl Sync for Space {}

#[global_allocator]
pub static SPACE: Space = Space {
    serving: AtomicBool::new(false),
    state: UnsafeCell::new(State {
        chunks: Vec::new(),
        asked: Vec::new(),
        refused: 0,
        beyond: false,
        budget: 1_073_741_824,
        refuse: Vec::new(),
        mapped: OFFSET,
    }),
};

impl Space {
    /// The state; no other reference to it may live.
    #[allow(clippy::mut_from_ref)]
    pub fn state(&self) -> &mut State {
        unsafe { &mut *self.state.get() }
    }

    /// Runs a call of the arena with chunks from our range, and returns how many
    /// requests were refused in it.
    #[inline]
    pub fn serve<T>(&self, call: impl FnOnce() -> T) -> (T, u32) {
        self.state().refused = 0;
        self.serving.store(true, Relaxed);
        let answer = call();
        self.serving.store(false, Relaxed);
        (answer, self.state().refused)
    }

    /// A region for `from_raw_parts`, at the base 4096.
    pub fn region(&self, bytes: u64) -> *mut u8 {
        self.state().grant(4096, bytes - FOOTER)
    }
}

unsafe extern "C" {
    fn mmap(addr: *mut u8, len: usize, prot: i32, flags: i32, fd: i32, off: i64) -> *mut u8;
}

impl State {
    fn request(&mut self, layout: Layout) -> *mut u8 {
        let size = layout.size() as u64 - FOOTER;
        let align = layout.align() as u64;
        // 48 addresses above the last chunk, at a multiple of the alignment.
        let least = match self.chunks.last() {
            None => 4096,
            Some(c) => c.base + c.size + FOOTER,
        };
        let base = u128::from(least).next_multiple_of(u128::from(align));
        let end = base + u128::from(size) + u128::from(FOOTER);
        if end > u128::from(u64::MAX) {
            return std::ptr::null_mut();
        }
        self.asked.push((size, align));
        let number = self.asked.len() as u64;
        let granted: u64 = self.chunks.iter().map(|c| c.size).sum();
        if self.refuse.contains(&number) || size > self.budget - granted {
            self.refused += 1;
            return std::ptr::null_mut();
        }
        if end > u128::from(SPAN) || align > OFFSET {
            self.beyond = true;
            self.refused += 1;
            return std::ptr::null_mut();
        }
        self.grant(base as u64, size)
    }

    fn grant(&mut self, base: u64, size: u64) -> *mut u8 {
        let real = OFFSET + base;
        let from = self.mapped.max(real / PAGE * PAGE);
        let to = (real + size + FOOTER).next_multiple_of(PAGE);
        if to > from {
            // PROT_READ | PROT_WRITE;
            // MAP_PRIVATE | MAP_ANONYMOUS | MAP_NORESERVE | MAP_FIXED_NOREPLACE.
            let flags = 0x02 | 0x20 | 0x4000 | 0x10_0000;
            let at = unsafe {
                mmap(
                    std::ptr::without_provenance_mut(from as usize),
                    (to - from) as usize,
                    3,
                    flags,
                    -1,
                    0,
                )
            };
            if at as u64 != from {
                self.beyond = true;
                self.refused += 1;
                return std::ptr::null_mut();
            }
            self.mapped = to;
        }
        self.chunks.push(Chunk { real, base, size });
        std::ptr::with_exposed_provenance_mut(real as usize)
    }
}

unsafe impl GlobalAlloc for Space {
    #[inline]
    unsafe fn alloc(&self, layout: Layout) -> *mut u8 {
        if self.serving.load(Relaxed) {
            // The lists of the state grow by the system.
            self.serving.store(false, Relaxed);
            let answer = self.state().request(layout);
            self.serving.store(true, Relaxed);
            return answer;
        }
        unsafe { System.alloc(layout) }
    }

    #[inline]
    unsafe fn dealloc(&self, ptr: *mut u8, layout: Layout) {
        let at = ptr as u64;
        if at.wrapping_sub(OFFSET) < SPAN {
            // A chunk of ours: its addresses are never used again.
            return;
        }
        unsafe { System.dealloc(ptr, layout) }
    }

    #[inline]
    unsafe fn alloc_zeroed(&self, layout: Layout) -> *mut u8 {
        unsafe { System.alloc_zeroed(layout) }
    }

    #[inline]
    unsafe fn realloc(&self, ptr: *mut u8, layout: Layout, new_size: usize) -> *mut u8 {
        unsafe { System.realloc(ptr, layout, new_size) }
    }
}
