//! Blocks of an arena without a type: the library says where each is, and this file moves bytes.

use crate::arena::{AllocError, Arena};
use crate::chunks::{addr_of, pointer};
use crate::ffi::{self, Chunk, DONE, ELSEWHERE, NO_PLACE, Resize, STAYS};
use std::alloc::{Layout, handle_alloc_error};
use std::ptr::NonNull;

impl<const M: usize> Arena<M> {
    // A place in the newest chunk, by the library.
    #[inline(always)]
    fn find(&self, size: u64, align: u64) -> u64 {
        let at = self.at.get();
        ffi::arena_cursor_find(at.start, at.cursor, size, align, M as u64)
    }

    // The same without a call. Debug builds compare the two.
    #[cfg(feature = "fast")]
    #[inline(always)]
    fn place(&self, size: u64, align: u64) -> u64 {
        let at = self.at.get();
        let unit = if align < M as u64 { M as u64 } else { align };
        let addr = at.cursor.wrapping_sub(size) & !(unit - 1);
        let found = size <= at.cursor && at.start <= addr;
        debug_assert_eq!(self.find(size, align), if found { addr } else { 0 });
        if found { addr } else { 0 }
    }

    #[cfg(not(feature = "fast"))]
    #[inline(always)]
    fn place(&self, size: u64, align: u64) -> u64 {
        self.find(size, align)
    }

    // Moves the cursor to a place, or returns `None` if there is none.
    #[inline(always)]
    fn take(&self, addr: u64) -> Option<NonNull<u8>> {
        if addr == 0 {
            return None;
        }
        self.cursor(|at| at.cursor = addr);
        Some(pointer(addr))
    }

    /// Allocates a block. Without memory, the handler for that is called.
    ///
    /// ```
    /// use std::alloc::Layout;
    ///
    /// let arena = arena_bindings::Arena::new();
    /// let block = arena.alloc_layout(Layout::from_size_align(100, 64).unwrap());
    /// assert_eq!(block.addr().get() % 64, 0);
    /// ```
    #[inline(always)]
    pub fn alloc_layout(&self, layout: Layout) -> NonNull<u8> {
        #[cold]
        #[inline(never)]
        fn no_memory(layout: Layout) -> ! {
            handle_alloc_error(layout)
        }
        match self.try_alloc_layout(layout) {
            Ok(block) => block,
            Err(_) => no_memory(layout),
        }
    }

    /// Allocates a block, or returns an error without memory.
    ///
    /// ```
    /// use std::alloc::Layout;
    ///
    /// let arena = arena_bindings::Arena::new();
    /// assert!(arena.try_alloc_layout(Layout::new::<[u8; 100]>()).is_ok());
    /// ```
    #[inline(always)]
    pub fn try_alloc_layout(&self, layout: Layout) -> Result<NonNull<u8>, AllocError> {
        match self.take(self.place(layout.size() as u64, layout.align() as u64)) {
            Some(block) => Ok(block),
            None => self.alloc_in_new(layout),
        }
    }

    // Asks for one chunk after another, in the sizes that the library gives, and places the block in the first granted.
    #[cold]
    #[inline(never)]
    fn alloc_in_new(&self, layout: Layout) -> Result<NonNull<u8>, AllocError> {
        let (size, align) = (layout.size() as u64, layout.align() as u64);
        let newest = Self::counts(&self.at.get()).size;
        for refused in 0.. {
            let mut chunk = Chunk::default();
            if ffi::arena_cursor_next_chunk(newest, size, align, refused, &mut chunk) != DONE {
                break;
            }
            if self.add(chunk) {
                // It is proved that the block has a place there.
                return self.take(self.find(size, align)).ok_or(AllocError);
            }
        }
        Err(AllocError)
    }

    /// Gives a block back. Its bytes are used again only if it is the newest.
    ///
    /// # Safety
    ///
    /// The block is one of this arena, with this layout, and isn't used any more.
    ///
    /// ```
    /// use std::alloc::Layout;
    ///
    /// let arena = arena_bindings::Arena::new();
    /// let layout = Layout::new::<[u8; 100]>();
    /// let block = arena.alloc_layout(layout);
    /// // SAFETY: the block isn't used afterwards.
    /// unsafe { arena.dealloc(block, layout) };
    /// assert_eq!(arena.used_bytes(), 0);
    /// ```
    #[inline]
    pub unsafe fn dealloc(&self, block: NonNull<u8>, layout: Layout) {
        // For a block of an older chunk nothing is to be done.
        let _ =
            self.cursor(|at| ffi::arena_cursor_give_back(at, addr_of(block), layout.size() as u64));
    }

    // Resizes a block by the library, and moves as many of its bytes as both sizes have.
    //
    // SAFETY: for callers, as for `grow` or `shrink`.
    #[inline(always)]
    unsafe fn resize(
        &self,
        by: Resize,
        block: NonNull<u8>,
        from: Layout,
        to: Layout,
    ) -> Result<NonNull<u8>, AllocError> {
        let mut addr = addr_of(block);
        let (size, align) = (from.size() as u64, from.align() as u64);
        let (new_size, new_align) = (to.size() as u64, to.align() as u64);
        let kept = from.size().min(to.size());
        let code = self.cursor(|at| by(at, &mut addr, size, align, new_size, new_align));
        if code != DONE {
            // SAFETY: both layouts have room for these bytes.
            return unsafe { self.moved(code, block, to, kept) };
        }
        let new = pointer(addr);
        // SAFETY: both blocks have room for the bytes, and may overlap.
        unsafe { new.copy_from(block, kept) };
        Ok(new)
    }

    // Finishes what the library didn't do in the newest chunk, with this many bytes of the old block.
    //
    // SAFETY: for callers, the old block and the new layout have room for these bytes.
    #[cold]
    #[inline(never)]
    unsafe fn moved(
        &self,
        code: u32,
        block: NonNull<u8>,
        to: Layout,
        kept: usize,
    ) -> Result<NonNull<u8>, AllocError> {
        let new = match code {
            STAYS => return Ok(block),
            ELSEWHERE => self.try_alloc_layout(to)?,
            NO_PLACE => self.alloc_in_new(to)?,
            _ => return Err(AllocError),
        };
        // SAFETY: the new block is apart from the old one, and both have room.
        unsafe { new.copy_from_nonoverlapping(block, kept) };
        Ok(new)
    }

    /// Grows a block, with its bytes. If that fails, the block is as it was.
    ///
    /// # Safety
    ///
    /// The block is one of this arena, with this layout, and isn't used any more but by what is returned. The new size is
    /// at least the old one.
    ///
    /// ```
    /// use std::alloc::Layout;
    ///
    /// let arena = arena_bindings::Arena::new();
    /// let (few, many) = (Layout::new::<[u8; 4]>(), Layout::new::<[u8; 40]>());
    /// let block = arena.alloc_layout(few);
    /// // SAFETY: the block has 4 bytes, and only what `grow` returns is used afterwards.
    /// let bytes = unsafe {
    ///     block.write_bytes(7, 4);
    ///     arena.grow(block, few, many).unwrap().cast::<[u8; 4]>().read()
    /// };
    /// assert_eq!((bytes, arena.used_bytes()), ([7; 4], 40));
    /// ```
    #[inline]
    pub unsafe fn grow(
        &self,
        block: NonNull<u8>,
        from: Layout,
        to: Layout,
    ) -> Result<NonNull<u8>, AllocError> {
        // The rule grows a block at the cursor by a place for the bytes that it lacks.
        #[cfg(feature = "fast")]
        if to.align() <= from.align()
            && addr_of(block) == self.at.get().cursor
            && to.size() < 1 << 62
        {
            let more = to.size().next_multiple_of(M) - from.size();
            if let Some(new) = self.take(self.place(more as u64, from.align() as u64)) {
                // SAFETY: both blocks have room for the bytes, and may overlap.
                unsafe { new.copy_from(block, from.size()) };
                return Ok(new);
            }
        }
        // SAFETY: as the caller says.
        unsafe { self.resize(ffi::arena_cursor_grow, block, from, to) }
    }

    /// Shrinks a block, with the bytes that it still has room for. If that fails, the block is as it was.
    ///
    /// # Safety
    ///
    /// As for [`Arena::grow`]; the new size is at most the old one.
    ///
    /// ```
    /// use std::alloc::Layout;
    ///
    /// let arena = arena_bindings::Arena::new();
    /// let (few, many) = (Layout::new::<[u8; 4]>(), Layout::new::<[u8; 40]>());
    /// let block = arena.alloc_layout(many);
    /// // SAFETY: the block has 40 bytes, and isn't used afterwards.
    /// assert!(unsafe { arena.shrink(block, many, few) }.is_ok());
    /// assert_eq!(arena.used_bytes(), 4);
    /// ```
    #[inline]
    pub unsafe fn shrink(
        &self,
        block: NonNull<u8>,
        from: Layout,
        to: Layout,
    ) -> Result<NonNull<u8>, AllocError> {
        // SAFETY: as the caller says.
        unsafe { self.resize(ffi::arena_cursor_shrink, block, from, to) }
    }
}
