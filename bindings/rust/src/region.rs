//! A bump arena over a slice of memory, whose addresses come from the proved rules.

use std::cell::Cell;
use std::marker::PhantomData;
use std::mem::{MaybeUninit, align_of, size_of};
use std::ptr::NonNull;

use crate::ffi::{self, Cursor, DONE};

/// A bump arena over memory of the caller. Values in it live until the arena is reset. None is dropped.
///
/// ```
/// use arena_bindings::Region;
/// use std::mem::MaybeUninit;
///
/// let mut memory = [MaybeUninit::uninit(); 64];
/// let arena = Region::new(&mut memory);
/// assert_eq!(arena.alloc(1u64), Some(&mut 1));
/// assert_eq!(arena.alloc([0u8; 57]), None);
/// ```
///
/// A reference into the arena can't outlive a reset:
///
/// ```compile_fail,E0502
/// use arena_bindings::Region;
/// use std::mem::MaybeUninit;
///
/// let mut memory = [MaybeUninit::uninit(); 64];
/// let mut arena = Region::new(&mut memory);
/// let one = arena.alloc(1u8);
/// arena.reset();
/// assert_eq!(one, Some(&mut 1));
/// ```
///
/// Nor can one that was made in a scope leave it:
///
/// ```compile_fail
/// use arena_bindings::Region;
/// use std::mem::MaybeUninit;
///
/// let mut memory = [MaybeUninit::uninit(); 64];
/// let mut arena = Region::new(&mut memory);
/// let one = arena.scope(|inner| inner.alloc(1u8));
/// ```
pub struct Region<'m> {
    cursor: Cell<Cursor>,
    base: NonNull<u8>,
    memory: PhantomData<&'m mut [MaybeUninit<u8>]>,
}

impl<'m> Region<'m> {
    /// Returns an empty arena over this memory.
    ///
    /// ```
    /// use arena_bindings::Region;
    /// use std::mem::MaybeUninit;
    ///
    /// let mut memory = [MaybeUninit::uninit(); 64];
    /// let arena = Region::new(&mut memory);
    /// assert_eq!(arena.used(), 0);
    /// ```
    pub fn new(memory: &'m mut [MaybeUninit<u8>]) -> Region<'m> {
        let base = NonNull::from(&mut *memory).cast::<u8>();
        let start = base.addr().get() as u64;
        let end = start + memory.len() as u64;
        let cursor = Cursor {
            start,
            cursor: end,
            end,
            min_align: 1,
        };
        Region {
            cursor: Cell::new(cursor),
            base,
            memory: PhantomData,
        }
    }

    /// Returns how many bytes are in use.
    ///
    /// ```
    /// use arena_bindings::Region;
    /// use std::mem::MaybeUninit;
    ///
    /// let mut memory = [MaybeUninit::uninit(); 64];
    /// let arena = Region::new(&mut memory);
    /// arena.alloc([0u8; 10]);
    /// assert_eq!(arena.used(), 10);
    /// ```
    pub fn used(&self) -> usize {
        let at = self.cursor.get();
        (at.end - at.cursor) as usize
    }

    /// Allocates a value. Returns `None` if there is no room for it.
    ///
    /// ```
    /// use arena_bindings::Region;
    /// use std::mem::MaybeUninit;
    ///
    /// let mut memory = [MaybeUninit::uninit(); 64];
    /// let arena = Region::new(&mut memory);
    /// assert_eq!(arena.alloc('a'), Some(&mut 'a'));
    /// ```
    #[allow(clippy::mut_from_ref)]
    pub fn alloc<T>(&self, value: T) -> Option<&mut T> {
        let block = self.allocate(size_of::<T>(), align_of::<T>())?.cast::<T>();
        // SAFETY: the block is aligned for a T, inside the arena's memory, and disjoint from all blocks since the last
        // reset, which takes the arena by a unique reference.
        unsafe {
            block.write(value);
            Some(&mut *block.as_ptr())
        }
    }

    /// Allocates a copy of the items. Returns `None` if there is no room for them.
    ///
    /// ```
    /// use arena_bindings::Region;
    /// use std::mem::MaybeUninit;
    ///
    /// let mut memory = [MaybeUninit::uninit(); 64];
    /// let arena = Region::new(&mut memory);
    /// assert_eq!(arena.alloc_slice(&[1, 2]), Some(&mut [1, 2][..]));
    /// ```
    #[allow(clippy::mut_from_ref)]
    pub fn alloc_slice<T: Copy>(&self, items: &[T]) -> Option<&mut [T]> {
        let block = self
            .allocate(size_of_val(items), align_of::<T>())?
            .cast::<T>();
        // SAFETY: as in `alloc`, for this many values in a row.
        unsafe {
            block.copy_from_nonoverlapping(NonNull::from(items).cast(), items.len());
            Some(std::slice::from_raw_parts_mut(block.as_ptr(), items.len()))
        }
    }

    /// Allocates a copy of a string. Returns `None` if there is no room for it.
    ///
    /// ```
    /// use arena_bindings::Region;
    /// use std::mem::MaybeUninit;
    ///
    /// let mut memory = [MaybeUninit::uninit(); 64];
    /// let arena = Region::new(&mut memory);
    /// assert_eq!(arena.alloc_str("hello"), Some("hello"));
    /// ```
    pub fn alloc_str(&self, text: &str) -> Option<&str> {
        let bytes = self.alloc_slice(text.as_bytes())?;
        // SAFETY: these are the bytes of a string.
        Some(unsafe { std::str::from_utf8_unchecked(bytes) })
    }

    /// Returns an empty vector, which grows in this arena.
    ///
    /// ```
    /// use arena_bindings::Region;
    /// use std::mem::MaybeUninit;
    ///
    /// let mut memory = [MaybeUninit::uninit(); 64];
    /// let arena = Region::new(&mut memory);
    /// let mut numbers = arena.vec();
    /// assert_eq!(numbers.push(7u32), Ok(()));
    /// assert_eq!(numbers.as_slice(), &[7]);
    /// ```
    pub fn vec<T: Copy>(&self) -> RegionVec<'_, T> {
        RegionVec {
            arena: self,
            start: NonNull::dangling(),
            len: 0,
            capacity: 0,
        }
    }

    /// Runs `work` with this arena, and then frees all that it allocated.
    ///
    /// ```
    /// use arena_bindings::Region;
    /// use std::mem::MaybeUninit;
    ///
    /// let mut memory = [MaybeUninit::uninit(); 64];
    /// let mut arena = Region::new(&mut memory);
    /// let sum = arena.scope(|inner| inner.alloc_slice(&[1, 2, 3]).map(|list| list.iter().sum()));
    /// assert_eq!((sum, arena.used()), (Some(6), 0));
    /// ```
    pub fn scope<R>(&mut self, work: impl FnOnce(&Region<'_>) -> R) -> R {
        let mark = self.cursor.get().cursor;
        let result = work(self);
        self.rewind(mark);
        result
    }

    /// Frees everything.
    ///
    /// ```
    /// use arena_bindings::Region;
    /// use std::mem::MaybeUninit;
    ///
    /// let mut memory = [MaybeUninit::uninit(); 64];
    /// let mut arena = Region::new(&mut memory);
    /// arena.alloc([0u8; 64]);
    /// arena.reset();
    /// assert_eq!(arena.used(), 0);
    /// ```
    pub fn reset(&mut self) {
        self.rewind(self.cursor.get().end);
    }

    fn rewind(&mut self, mark: u64) {
        let code = self.update(|at| ffi::arena_cursor_back(at, mark));
        debug_assert_eq!(code, DONE);
    }

    // Calls the library with the cursor, and returns its code.
    fn update(&self, call: impl FnOnce(&mut Cursor) -> u32) -> u32 {
        let mut at = self.cursor.get();
        let code = call(&mut at);
        self.cursor.set(at);
        code
    }

    fn allocate(&self, size: usize, align: usize) -> Option<NonNull<u8>> {
        let mut addr = 0;
        let code =
            self.update(|at| ffi::arena_cursor_place(at, size as u64, align as u64, &mut addr));
        (code == DONE).then(|| self.pointer(addr))
    }

    // The pointer to an address that the library returned with code 0.
    fn pointer(&self, addr: u64) -> NonNull<u8> {
        // SAFETY: such an address is between the start and the end of the memory.
        unsafe { self.base.add((addr - self.cursor.get().start) as usize) }
    }
}

/// A growable vector in an arena. It is resized in place while it is the newest block.
pub struct RegionVec<'a, T: Copy> {
    arena: &'a Region<'a>,
    start: NonNull<T>,
    len: usize,
    capacity: usize,
}

impl<'a, T: Copy> RegionVec<'a, T> {
    /// Appends a value. If there is no room for it, returns it as an error, and the vector is as it was.
    ///
    /// ```
    /// use arena_bindings::Region;
    /// use std::mem::MaybeUninit;
    ///
    /// let mut memory = [MaybeUninit::uninit(); 64];
    /// let arena = Region::new(&mut memory);
    /// let mut bytes = arena.vec::<[u8; 40]>();
    /// assert_eq!(bytes.push([1; 40]), Ok(()));
    /// assert_eq!(bytes.push([2; 40]), Err([2; 40]));
    /// ```
    pub fn push(&mut self, value: T) -> Result<(), T> {
        if self.len == self.capacity
            && !self.resize((self.capacity * 2).max(4))
            && !self.resize(self.capacity + 1)
        {
            return Err(value);
        }
        // SAFETY: there is room for one more value.
        unsafe { self.start.add(self.len).write(value) };
        self.len += 1;
        Ok(())
    }

    /// Returns the values.
    ///
    /// ```
    /// use arena_bindings::Region;
    /// use std::mem::MaybeUninit;
    ///
    /// let mut memory = [MaybeUninit::uninit(); 64];
    /// let arena = Region::new(&mut memory);
    /// assert_eq!(arena.vec::<u8>().as_slice(), &[]);
    /// ```
    pub fn as_slice(&self) -> &[T] {
        // SAFETY: this many values were written.
        unsafe { std::slice::from_raw_parts(self.start.as_ptr(), self.len) }
    }

    /// Frees spare capacity, if the vector is the newest block and at most half full, and returns the values.
    ///
    /// ```
    /// use arena_bindings::Region;
    /// use std::mem::MaybeUninit;
    ///
    /// let mut memory = [MaybeUninit::uninit(); 64];
    /// let arena = Region::new(&mut memory);
    /// let mut bytes = arena.vec::<u8>();
    /// bytes.push(1).unwrap();
    /// assert_eq!((bytes.into_slice(), arena.used()), (&mut [1][..], 1));
    /// ```
    pub fn into_slice(mut self) -> &'a mut [T] {
        if self.len < self.capacity {
            self.resize(self.len);
        }
        // SAFETY: this many values were written, and nothing else refers to them.
        unsafe { std::slice::from_raw_parts_mut(self.start.as_ptr(), self.len) }
    }

    /// Frees the vector's block. Its bytes are used again only if it is the newest block.
    ///
    /// ```
    /// use arena_bindings::Region;
    /// use std::mem::MaybeUninit;
    ///
    /// let mut memory = [MaybeUninit::uninit(); 64];
    /// let arena = Region::new(&mut memory);
    /// let mut bytes = arena.vec::<u8>();
    /// bytes.push(1).unwrap();
    /// bytes.free();
    /// assert_eq!(arena.used(), 0);
    /// ```
    pub fn free(self) {
        let size = self.size();
        if size > 0 {
            let addr = self.start.addr().get() as u64;
            let code = self
                .arena
                .update(|at| ffi::arena_cursor_give_back(at, addr, size));
            debug_assert_eq!(code, DONE);
        }
    }

    // Bytes of the vector's block.
    fn size(&self) -> u64 {
        (self.capacity * size_of::<T>()) as u64
    }

    // Moves the values to a block for this many, at least as many as there are. Returns whether there is room for it.
    fn resize(&mut self, capacity: usize) -> bool {
        let Some(new) = size_of::<T>().checked_mul(capacity) else {
            return false;
        };
        let (old, new, align) = (self.size(), new as u64, align_of::<T>() as u64);
        let mut addr = self.start.addr().get() as u64;
        let code = self.arena.update(|at| match old {
            0 => ffi::arena_cursor_place(at, new, align, &mut addr),
            _ if new >= old => ffi::arena_cursor_grow(at, &mut addr, old, align, new, align),
            _ => ffi::arena_cursor_shrink(at, &mut addr, old, align, new, align),
        });
        if code != DONE {
            return false;
        }
        let to = self.arena.pointer(addr).cast::<T>();
        // SAFETY: both blocks have room for the values, and may overlap.
        unsafe { to.copy_from(self.start, self.len) };
        (self.start, self.capacity) = (to, capacity);
        true
    }
}
