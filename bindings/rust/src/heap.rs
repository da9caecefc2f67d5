//! The three functions by which the library `arena_oracle` asks for memory, over C's heap. In C they are in
//! bindings/c/heap.c.

use std::ffi::c_void;
use std::ptr;

unsafe extern "C" {
    fn malloc(size: usize) -> *mut c_void;
    fn realloc(block: *mut c_void, size: usize) -> *mut c_void;
    fn free(block: *mut c_void);
}

// What an empty result points to. The library never reads it.
static EMPTY: u64 = 0;

/// Whether there is a block, and its address.
#[repr(C)]
pub struct Block {
    ok: u64,
    at: *mut c_void,
}

fn block(at: *mut c_void) -> Block {
    if at.is_null() {
        let at = ptr::from_ref(&EMPTY).cast_mut().cast();
        return Block { ok: 0, at };
    }
    Block { ok: 1, at }
}

// A block of no bytes takes as many as its alignment, so that it isn't null.
fn at_least(size: usize, align: usize) -> usize {
    if size == 0 { align } else { size }
}

#[unsafe(no_mangle)]
extern "C" fn rattle_alloc(size: usize, align: usize) -> Block {
    // SAFETY: any size may be asked for. The library asks for alignments of at most 16, which malloc has.
    block(unsafe { malloc(at_least(size, align)) })
}

#[unsafe(no_mangle)]
unsafe extern "C" fn rattle_realloc(
    old: *mut c_void,
    _kept: usize,
    size: usize,
    align: usize,
) -> Block {
    // SAFETY: the library passes a block that it has from these functions, and doesn't use it afterwards.
    block(unsafe { realloc(old, at_least(size, align)) })
}

#[unsafe(no_mangle)]
unsafe extern "C" fn rattle_dealloc(old: *mut c_void) {
    // SAFETY: as for `rattle_realloc`.
    unsafe { free(old) }
}
