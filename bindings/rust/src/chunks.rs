//! The chunks of an arena: asked of the global allocator, kept in a list, and freed.

use crate::arena::Arena;
use crate::ffi::{self, Chunk, Counts, Cursor, DONE};
use std::alloc::{Layout, alloc, dealloc};
use std::cell::Cell;
use std::ptr::{self, NonNull};

// In the 48 bytes behind the data of each chunk.
#[repr(C, align(16))]
pub(crate) struct Footer {
    // Where the chunk begins, and where its cursor was when it was left for a newer one.
    at: Cell<(u64, u64)>,
    // The bytes and the alignment that it was allocated with.
    layout: Layout,
    pub(crate) older: Cell<Option<NonNull<Footer>>>,
}

const _: () = assert!(size_of::<Footer>() <= 48);

// The pointer to an address that the library returned, in a chunk whose provenance was exposed.
#[inline(always)]
pub(crate) fn pointer(addr: u64) -> NonNull<u8> {
    // SAFETY: the library returns no address below the start of a chunk, which is above 0.
    unsafe { NonNull::new_unchecked(ptr::with_exposed_provenance_mut(addr as usize)) }
}

#[inline(always)]
pub(crate) fn addr_of(block: NonNull<u8>) -> u64 {
    block.as_ptr().addr() as u64
}

impl<const M: usize> Arena<M> {
    // Asks for a chunk, which becomes the newest. Returns whether it was granted.
    pub(crate) fn add(&self, chunk: Chunk) -> bool {
        // SAFETY: the library wrote the request with code 0: it is proved to be a layout, of at least 48 bytes.
        let (layout, base) = unsafe {
            let layout =
                Layout::from_size_align_unchecked(chunk.bytes as usize, chunk.align as usize);
            (layout, alloc(layout))
        };
        if base.is_null() {
            return false;
        }
        if let Some(newest) = self.newest.get() {
            let at = self.at.get();
            // SAFETY: the newest chunk lives as long as the arena.
            unsafe { newest.as_ref() }.at.set((at.start, at.cursor));
        }
        let start = base.expose_provenance() as u64;
        let code = self.cursor(|at| ffi::arena_cursor_enter(at, start, chunk.size, M as u64));
        debug_assert_eq!(code, DONE);
        // SAFETY: the footer is in the 48 bytes behind the data, and aligned, since base and size are multiples of 16.
        unsafe {
            let footer = base.add(chunk.size as usize).cast::<Footer>();
            footer.write(Footer {
                at: Cell::new((start, start + chunk.size)),
                layout,
                older: Cell::new(self.newest.get()),
            });
            self.newest.set(Some(NonNull::new_unchecked(footer)));
        }
        true
    }

    // Frees the chunks from this one on, up to one that stays.
    pub(crate) fn free(&self, mut chunk: Option<NonNull<Footer>>, kept: Option<NonNull<Footer>>) {
        while chunk != kept
            && let Some(footer) = chunk
        {
            // SAFETY: the footer is that of a chunk of this arena. It is read before the chunk is freed.
            unsafe {
                let (base, layout) = (footer.as_ref().at.get().0, footer.as_ref().layout);
                chunk = footer.as_ref().older.get();
                dealloc(pointer(base).as_ptr(), layout);
            }
        }
    }

    // The cursor in a chunk, as it was when the chunk was left.
    pub(crate) fn left(footer: NonNull<Footer>) -> Cursor {
        // SAFETY: the footer is that of a chunk of this arena.
        let (start, cursor) = unsafe { footer.as_ref() }.at.get();
        // The data ends where the footer begins.
        let end = footer.addr().get() as u64;
        Cursor {
            start,
            cursor,
            end,
            min_align: M as u64,
        }
    }

    // The cursors of all chunks, newest first.
    pub(crate) fn cursors(&self) -> impl Iterator<Item = Cursor> {
        let mut chunk = self.newest.get();
        let mut newest = Some(self.at.get());
        std::iter::from_fn(move || {
            let footer = chunk?;
            // SAFETY: the footer is that of a chunk of this arena.
            chunk = unsafe { footer.as_ref() }.older.get();
            Some(newest.take().unwrap_or_else(|| Self::left(footer)))
        })
    }

    // How many bytes of a chunk there are.
    pub(crate) fn counts(at: &Cursor) -> Counts {
        let mut counts = Counts::default();
        let code = ffi::arena_cursor_count(at, &mut counts);
        debug_assert_eq!(code, DONE);
        counts
    }
}

impl<const M: usize> Drop for Arena<M> {
    fn drop(&mut self) {
        self.free(self.newest.get(), None);
    }
}
