//! A bump arena that grows. Where its blocks lie, and how large its chunks are, comes from the proved library.

use crate::chunks::{Footer, pointer};
use crate::ffi::{self, Chunk, Cursor, DONE};
use std::cell::Cell;
use std::fmt;
use std::mem::MaybeUninit;
use std::ptr::NonNull;

/// There is no memory, or no layout is that large.
#[derive(Clone, Copy, Debug, PartialEq, Eq)]
pub struct AllocError;

impl fmt::Display for AllocError {
    fn fmt(&self, f: &mut fmt::Formatter<'_>) -> fmt::Result {
        f.write_str("memory allocation failed")
    }
}

impl std::error::Error for AllocError {}

const _: () = assert!(size_of::<usize>() == 8, "the library counts in 64 bits");

/// A bump arena that grows by chunks of the global allocator. Values in it live until it is reset. None is dropped.
///
/// Each block is at a multiple of `MIN_ALIGN`, which is 1, 2, 4, 8 or 16.
///
/// ```
/// use arena_bindings::Arena;
///
/// let mut arena = Arena::new();
/// for line in ["one", "two"] {
///     let words: Vec<&mut str> = line.split(' ').map(|word| arena.alloc_str(word)).collect();
///     assert_eq!(words.len(), 1);
/// }
/// arena.reset();
/// assert_eq!(arena.used_bytes(), 0);
/// ```
///
/// A reference into the arena can't outlive a reset:
///
/// ```compile_fail,E0502
/// let mut arena = arena_bindings::Arena::new();
/// let one = arena.alloc(1u8);
/// arena.reset();
/// assert_eq!(one, &1);
/// ```
///
/// Nor can one that was made in a scope leave it:
///
/// ```compile_fail
/// let mut arena = arena_bindings::Arena::new();
/// let one = arena.scope(|inner| inner.alloc(1u8));
/// ```
pub struct Arena<const MIN_ALIGN: usize = 1> {
    pub(crate) at: Cell<Cursor>,
    pub(crate) newest: Cell<Option<NonNull<Footer>>>,
}

// SAFETY: all references into the chunks borrow the arena, which can be sent only when there are none.
unsafe impl<const M: usize> Send for Arena<M> {}

/// A state of an arena to go back to: [`Arena::checkpoint`].
#[derive(Clone, Copy, Debug)]
pub struct Checkpoint {
    newest: Option<NonNull<Footer>>,
    cursor: u64,
}

impl Arena<1> {
    /// Returns an empty arena. It takes no memory before the first block.
    ///
    /// ```
    /// let arena = arena_bindings::Arena::new();
    /// assert_eq!(arena.allocated_bytes(), 0);
    /// ```
    #[inline]
    pub const fn new() -> Self {
        Self::with_min_align()
    }

    /// Returns an arena with a chunk of at least this many bytes. Panics without memory.
    ///
    /// ```
    /// let arena = arena_bindings::Arena::with_capacity(1000);
    /// assert!(arena.capacity() >= 1000);
    /// ```
    pub fn with_capacity(capacity: usize) -> Self {
        Self::with_min_align_and_capacity(capacity)
    }

    /// Returns an arena with a chunk of at least this many bytes, or an error without memory.
    ///
    /// ```
    /// use arena_bindings::Arena;
    ///
    /// assert!(Arena::try_with_capacity(1000).is_ok());
    /// assert!(Arena::try_with_capacity(usize::MAX).is_err());
    /// ```
    pub fn try_with_capacity(capacity: usize) -> Result<Self, AllocError> {
        Self::try_with_min_align_and_capacity(capacity)
    }
}

impl<const M: usize> Default for Arena<M> {
    fn default() -> Self {
        Self::with_min_align()
    }
}

impl<const M: usize> fmt::Debug for Arena<M> {
    fn fmt(&self, f: &mut fmt::Formatter<'_>) -> fmt::Result {
        f.debug_struct("Arena")
            .field("used_bytes", &self.used_bytes())
            .field("allocated_bytes", &self.allocated_bytes())
            .finish()
    }
}

#[cold]
#[inline(never)]
pub(crate) fn out_of_memory() -> ! {
    panic!("out of memory")
}

impl<const M: usize> Arena<M> {
    /// The least alignment of blocks.
    pub const MIN_ALIGN: usize = {
        assert!(
            M.is_power_of_two() && M <= 16,
            "MIN_ALIGN is 1, 2, 4, 8 or 16"
        );
        M
    };

    // The cursor of an arena without a chunk: nothing but an empty block has a place.
    const NO_CHUNK: Cursor = Cursor {
        start: 16,
        cursor: 16,
        end: 16,
        min_align: M as u64,
    };

    /// Returns an empty arena with this least alignment.
    ///
    /// ```
    /// use arena_bindings::Arena;
    ///
    /// let arena = Arena::<8>::with_min_align();
    /// let (one, two) = (arena.alloc(1u8), arena.alloc(2u8));
    /// assert_eq!((&raw const *one).addr() - (&raw const *two).addr(), 8);
    /// ```
    #[inline]
    pub const fn with_min_align() -> Self {
        const { Self::MIN_ALIGN };
        Arena {
            at: Cell::new(Self::NO_CHUNK),
            newest: Cell::new(None),
        }
    }

    /// Returns an arena with this least alignment and a chunk of at least this many bytes. Panics without memory.
    ///
    /// ```
    /// let arena = arena_bindings::Arena::<16>::with_min_align_and_capacity(1000);
    /// assert!(arena.capacity() >= 1000);
    /// ```
    pub fn with_min_align_and_capacity(capacity: usize) -> Self {
        Self::try_with_min_align_and_capacity(capacity).unwrap_or_else(|_| out_of_memory())
    }

    /// Returns an arena with this least alignment and a chunk of at least this many bytes, or an error without memory.
    ///
    /// ```
    /// use arena_bindings::Arena;
    ///
    /// assert!(Arena::<4>::try_with_min_align_and_capacity(1000).is_ok());
    /// assert!(Arena::<4>::try_with_min_align_and_capacity(usize::MAX).is_err());
    /// ```
    pub fn try_with_min_align_and_capacity(capacity: usize) -> Result<Self, AllocError> {
        let arena = Self::with_min_align();
        if capacity > 0 {
            let (capacity, mut chunk) = (capacity as u64, Chunk::default());
            let code = ffi::arena_cursor_chunk(capacity, capacity, M as u64, &mut chunk);
            if code != DONE || !arena.add(chunk) {
                return Err(AllocError);
            }
        }
        Ok(arena)
    }

    // Calls the library with the arena's cursor.
    #[inline(always)]
    pub(crate) fn cursor<R>(&self, call: impl FnOnce(&mut Cursor) -> R) -> R {
        // SAFETY: nothing else refers to the cursor, and none of the closures in this crate uses the arena.
        call(unsafe { &mut *self.at.as_ptr() })
    }

    /// Returns how many bytes are in use, with the padding between blocks.
    ///
    /// ```
    /// let arena = arena_bindings::Arena::new();
    /// arena.alloc([0u8; 100]);
    /// assert_eq!(arena.used_bytes(), 100);
    /// ```
    pub fn used_bytes(&self) -> usize {
        self.cursors()
            .map(|at| Self::counts(&at).used as usize)
            .sum()
    }

    /// Returns how many bytes the chunks have for blocks.
    ///
    /// ```
    /// let arena = arena_bindings::Arena::new();
    /// arena.alloc(1u8);
    /// assert_eq!(arena.allocated_bytes(), 16384 - 64);
    /// ```
    pub fn allocated_bytes(&self) -> usize {
        self.cursors()
            .map(|at| Self::counts(&at).size as usize)
            .sum()
    }

    /// Returns how many bytes the chunks take of the global allocator: 48 more in each than it has for blocks.
    ///
    /// ```
    /// let arena = arena_bindings::Arena::new();
    /// arena.alloc(1u8);
    /// assert_eq!(arena.allocated_bytes_including_metadata(), arena.allocated_bytes() + 48);
    /// ```
    pub fn allocated_bytes_including_metadata(&self) -> usize {
        self.cursors()
            .map(|at| Self::counts(&at).size as usize + 48)
            .sum()
    }

    /// Returns how many bytes the newest chunk has for blocks.
    ///
    /// ```
    /// let arena = arena_bindings::Arena::with_capacity(100);
    /// assert_eq!(arena.capacity(), 256 - 64);
    /// ```
    pub fn capacity(&self) -> usize {
        Self::counts(&self.at.get()).size as usize
    }

    /// Returns how many bytes are left in the newest chunk.
    ///
    /// ```
    /// let arena = arena_bindings::Arena::with_capacity(100);
    /// arena.alloc([0u8; 92]);
    /// assert_eq!(arena.chunk_capacity(), 100);
    /// ```
    pub fn chunk_capacity(&self) -> usize {
        Self::counts(&self.at.get()).free as usize
    }

    /// Returns the used part of each chunk, newest first, and within it the newest block first.
    ///
    /// ```
    /// let mut arena = arena_bindings::Arena::new();
    /// arena.alloc_str("a block");
    /// assert_eq!(arena.iter_allocated_chunks().map(|chunk| chunk.len()).sum::<usize>(), 7);
    /// ```
    pub fn iter_allocated_chunks(&mut self) -> impl Iterator<Item = &[MaybeUninit<u8>]> {
        self.chunks_raw().map(|(start, len)| {
            // SAFETY: these bytes are in a chunk, and no reference into the arena is alive.
            unsafe { std::slice::from_raw_parts(start.as_ptr().cast(), len) }
        })
    }

    /// Returns the address and the length of the used part of each chunk, newest first.
    ///
    /// ```
    /// let arena = arena_bindings::Arena::new();
    /// let text = arena.alloc_str("a block");
    /// let (start, len) = arena.chunks_raw().next().unwrap();
    /// assert_eq!((start.as_ptr().cast_const(), len), (text.as_ptr(), 7));
    /// ```
    pub fn chunks_raw(&self) -> impl Iterator<Item = (NonNull<u8>, usize)> {
        self.cursors()
            .map(|at| (pointer(at.cursor), Self::counts(&at).used as usize))
    }

    /// Frees everything, and keeps the newest chunk.
    ///
    /// ```
    /// let mut arena = arena_bindings::Arena::new();
    /// arena.alloc([0u8; 40_000]);
    /// let all = arena.allocated_bytes();
    /// arena.reset();
    /// assert_eq!((arena.used_bytes(), arena.allocated_bytes()), (0, all));
    /// ```
    pub fn reset(&mut self) {
        if let Some(newest) = self.newest.get() {
            // SAFETY: the newest chunk lives as long as the arena.
            let older = unsafe { newest.as_ref() }.older.replace(None);
            self.free(older, None);
        }
        let code = self.cursor(|at| ffi::arena_cursor_reset(at));
        debug_assert_eq!(code, DONE);
    }

    /// Returns the state now, to go back to.
    ///
    /// ```
    /// let mut arena = arena_bindings::Arena::new();
    /// arena.alloc(1u64);
    /// let mark = arena.checkpoint();
    /// arena.alloc([0u64; 5000]);
    /// // SAFETY: the checkpoint is of this arena, which wasn't reset.
    /// unsafe { arena.back(mark) };
    /// assert_eq!(arena.used_bytes(), 8);
    /// ```
    pub fn checkpoint(&self) -> Checkpoint {
        Checkpoint {
            newest: self.newest.get(),
            cursor: self.at.get().cursor,
        }
    }

    /// Frees all that was allocated since a checkpoint, also the chunks.
    ///
    /// # Safety
    ///
    /// The checkpoint is of this arena, which wasn't reset since, or taken back to an earlier one.
    ///
    /// ```
    /// let mut arena = arena_bindings::Arena::new();
    /// let mark = arena.checkpoint();
    /// arena.alloc(1u8);
    /// // SAFETY: the checkpoint is of this arena, which wasn't reset.
    /// unsafe { arena.back(mark) };
    /// assert_eq!(arena.allocated_bytes(), 0);
    /// ```
    pub unsafe fn back(&mut self, mark: Checkpoint) {
        if self.newest.get() != mark.newest {
            self.free(self.newest.get(), mark.newest);
            self.newest.set(mark.newest);
            self.at.set(mark.newest.map_or(Self::NO_CHUNK, Self::left));
        }
        // If blocks from before the checkpoint were given back, the cursor is above it, and stays there.
        let _ = self.cursor(|at| ffi::arena_cursor_back(at, mark.cursor));
    }

    /// Runs `work` with this arena, and then frees all that it allocated, also if it panics.
    ///
    /// ```
    /// let mut arena = arena_bindings::Arena::new();
    /// let sum: u32 = arena.scope(|inner| inner.alloc_slice_copy(&[1, 2, 3]).iter().sum());
    /// assert_eq!((sum, arena.used_bytes()), (6, 0));
    /// ```
    pub fn scope<R>(&mut self, work: impl FnOnce(&Self) -> R) -> R {
        struct Back<'a, const M: usize>(&'a mut Arena<M>, Checkpoint);
        impl<const M: usize> Drop for Back<'_, M> {
            fn drop(&mut self) {
                // SAFETY: the checkpoint is of this arena, which was shared since.
                unsafe { self.0.back(self.1) }
            }
        }
        let mark = self.checkpoint();
        let back = Back(self, mark);
        work(back.0)
    }
}
