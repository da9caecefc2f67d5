//! Values in an arena. Each takes a block, writes it, and borrows the arena.

use crate::arena::{AllocError, Arena, out_of_memory};
use std::alloc::Layout;
use std::ptr::{self, NonNull};

// Writes the values that a closure returns for 0 up to the length.
//
// SAFETY: for callers, the block has room for them, and nothing refers to it.
#[inline(always)]
unsafe fn fill<'a, T>(
    block: NonNull<u8>,
    len: usize,
    mut make: impl FnMut(usize) -> T,
) -> &'a mut [T] {
    let block = block.cast::<T>();
    for i in 0..len {
        // SAFETY: the block has room for it.
        unsafe { block.add(i).write(make(i)) };
    }
    // SAFETY: all were written.
    unsafe { &mut *ptr::slice_from_raw_parts_mut(block.as_ptr(), len) }
}

// Writes a copy of the items.
//
// SAFETY: for callers, the block has room for them, and nothing refers to it.
#[inline(always)]
unsafe fn copy<'a, T: Copy>(block: NonNull<u8>, items: &[T]) -> &'a mut [T] {
    let block = block.cast::<T>();
    // SAFETY: the block has room for them, and is apart from them.
    unsafe {
        block.copy_from_nonoverlapping(NonNull::from(items).cast(), items.len());
        std::slice::from_raw_parts_mut(block.as_ptr(), items.len())
    }
}

// A block for an unsized or a sized value is aligned for it, apart from all others, and lives as long as the borrow of the
// arena by which it was made: a reset takes the arena by a unique one.
#[allow(clippy::mut_from_ref)]
impl<const M: usize> Arena<M> {
    /// Allocates a value. Without memory, the handler for that is called.
    ///
    /// ```
    /// let arena = arena_bindings::Arena::new();
    /// let n: &mut u32 = arena.alloc(41);
    /// *n += 1;
    /// assert_eq!(n, &42);
    /// ```
    #[inline(always)]
    pub fn alloc<T>(&self, value: T) -> &mut T {
        self.alloc_with(|| value)
    }

    /// Allocates a value, or returns an error without memory.
    ///
    /// ```
    /// let arena = arena_bindings::Arena::new();
    /// assert_eq!(arena.try_alloc(7), Ok(&mut 7));
    /// ```
    #[inline(always)]
    pub fn try_alloc<T>(&self, value: T) -> Result<&mut T, AllocError> {
        self.try_alloc_with(|| value)
    }

    /// Allocates the value that a closure returns, which is called once there is room for it.
    ///
    /// ```
    /// let arena = arena_bindings::Arena::new();
    /// assert_eq!(arena.alloc_with(|| [7u8; 1000])[999], 7);
    /// ```
    #[inline(always)]
    pub fn alloc_with<T>(&self, make: impl FnOnce() -> T) -> &mut T {
        let block = self.alloc_layout(Layout::new::<T>()).cast::<T>();
        // SAFETY: the block is aligned for a T, apart from all others, and lives as long as this borrow of the arena.
        unsafe {
            block.write(make());
            &mut *block.as_ptr()
        }
    }

    /// Allocates the value that a closure returns, or returns an error, and then doesn't call it.
    ///
    /// ```
    /// let arena = arena_bindings::Arena::new();
    /// assert!(arena.try_alloc_with(|| [7u8; 1000]).is_ok());
    /// ```
    #[inline(always)]
    pub fn try_alloc_with<T>(&self, make: impl FnOnce() -> T) -> Result<&mut T, AllocError> {
        let block = self.try_alloc_layout(Layout::new::<T>())?.cast::<T>();
        // SAFETY: as in `alloc_with`.
        unsafe {
            block.write(make());
            Ok(&mut *block.as_ptr())
        }
    }

    /// Allocates a copy of the items.
    ///
    /// ```
    /// let arena = arena_bindings::Arena::new();
    /// assert_eq!(arena.alloc_slice_copy(&[1, 2, 3]), &[1, 2, 3]);
    /// ```
    #[inline(always)]
    pub fn alloc_slice_copy<T: Copy>(&self, items: &[T]) -> &mut [T] {
        let block = self.alloc_layout(Layout::for_value(items));
        // SAFETY: the block is for these items.
        unsafe { copy(block, items) }
    }

    /// Allocates a copy of the items, or returns an error without memory.
    ///
    /// ```
    /// let arena = arena_bindings::Arena::new();
    /// assert!(arena.try_alloc_slice_copy(&[1, 2, 3]).is_ok());
    /// ```
    #[inline(always)]
    pub fn try_alloc_slice_copy<T: Copy>(&self, items: &[T]) -> Result<&mut [T], AllocError> {
        let block = self.try_alloc_layout(Layout::for_value(items))?;
        // SAFETY: the block is for these items.
        Ok(unsafe { copy(block, items) })
    }

    /// Allocates clones of the items.
    ///
    /// ```
    /// let arena = arena_bindings::Arena::new();
    /// assert_eq!(arena.alloc_slice_clone(&["a".to_string()])[0], "a");
    /// ```
    pub fn alloc_slice_clone<T: Clone>(&self, items: &[T]) -> &mut [T] {
        self.alloc_slice_fill_with(items.len(), |i| items[i].clone())
    }

    /// Allocates a copy of a string.
    ///
    /// ```
    /// let arena = arena_bindings::Arena::new();
    /// let text: &mut str = arena.alloc_str("hello");
    /// text.make_ascii_uppercase();
    /// assert_eq!(text, "HELLO");
    /// ```
    #[inline(always)]
    pub fn alloc_str(&self, text: &str) -> &mut str {
        let bytes = self.alloc_slice_copy(text.as_bytes());
        // SAFETY: these are the bytes of a string.
        unsafe { std::str::from_utf8_unchecked_mut(bytes) }
    }

    /// Allocates a copy of a string, or returns an error without memory.
    ///
    /// ```
    /// let arena = arena_bindings::Arena::new();
    /// assert_eq!(arena.try_alloc_str("hello").unwrap(), "hello");
    /// ```
    pub fn try_alloc_str(&self, text: &str) -> Result<&mut str, AllocError> {
        let bytes = self.try_alloc_slice_copy(text.as_bytes())?;
        // SAFETY: these are the bytes of a string.
        Ok(unsafe { std::str::from_utf8_unchecked_mut(bytes) })
    }

    /// Allocates the values that a closure returns for 0 up to a length.
    ///
    /// ```
    /// let arena = arena_bindings::Arena::new();
    /// assert_eq!(arena.alloc_slice_fill_with(3, |i| i * i), &[0, 1, 4]);
    /// ```
    #[inline(always)]
    pub fn alloc_slice_fill_with<T>(&self, len: usize, make: impl FnMut(usize) -> T) -> &mut [T] {
        let Ok(layout) = Layout::array::<T>(len) else {
            out_of_memory()
        };
        let block = self.alloc_layout(layout);
        // SAFETY: the block is for these values.
        unsafe { fill(block, len, make) }
    }

    /// As [`Arena::alloc_slice_fill_with`], or an error without memory.
    ///
    /// ```
    /// let arena = arena_bindings::Arena::new();
    /// assert!(arena.try_alloc_slice_fill_with(usize::MAX / 2, |i| i).is_err());
    /// ```
    pub fn try_alloc_slice_fill_with<T>(
        &self,
        len: usize,
        make: impl FnMut(usize) -> T,
    ) -> Result<&mut [T], AllocError> {
        let layout = Layout::array::<T>(len).map_err(|_| AllocError)?;
        let block = self.try_alloc_layout(layout)?;
        // SAFETY: the block is for these values.
        Ok(unsafe { fill(block, len, make) })
    }

    /// Allocates copies of one value.
    ///
    /// ```
    /// let arena = arena_bindings::Arena::new();
    /// assert_eq!(arena.alloc_slice_fill_copy(3, 7), &[7, 7, 7]);
    /// ```
    pub fn alloc_slice_fill_copy<T: Copy>(&self, len: usize, value: T) -> &mut [T] {
        self.alloc_slice_fill_with(len, |_| value)
    }

    /// Allocates clones of one value.
    ///
    /// ```
    /// let arena = arena_bindings::Arena::new();
    /// assert_eq!(arena.alloc_slice_fill_clone(2, &"a".to_string()), &["a", "a"]);
    /// ```
    pub fn alloc_slice_fill_clone<T: Clone>(&self, len: usize, value: &T) -> &mut [T] {
        self.alloc_slice_fill_with(len, |_| value.clone())
    }

    /// Allocates default values.
    ///
    /// ```
    /// let arena = arena_bindings::Arena::new();
    /// assert_eq!(arena.alloc_slice_fill_default::<u8>(3), &[0, 0, 0]);
    /// ```
    pub fn alloc_slice_fill_default<T: Default>(&self, len: usize) -> &mut [T] {
        self.alloc_slice_fill_with(len, |_| T::default())
    }

    /// Allocates the values of an iterator that knows their number. Panics if it has fewer.
    ///
    /// ```
    /// let arena = arena_bindings::Arena::new();
    /// assert_eq!(arena.alloc_slice_fill_iter("abc".bytes().rev()), b"cba");
    /// ```
    #[inline(always)]
    pub fn alloc_slice_fill_iter<T, I>(&self, items: I) -> &mut [T]
    where
        I: IntoIterator<Item = T>,
        I::IntoIter: ExactSizeIterator,
    {
        let mut items = items.into_iter();
        self.alloc_slice_fill_with(items.len(), |_| {
            items.next().expect("Iterator supplied too few elements")
        })
    }

    /// As [`Arena::alloc_slice_fill_iter`], or an error without memory.
    ///
    /// ```
    /// let arena = arena_bindings::Arena::new();
    /// assert_eq!(arena.try_alloc_slice_fill_iter(1..4).unwrap(), &[1, 2, 3]);
    /// ```
    pub fn try_alloc_slice_fill_iter<T, I>(&self, items: I) -> Result<&mut [T], AllocError>
    where
        I: IntoIterator<Item = T>,
        I::IntoIter: ExactSizeIterator,
    {
        let mut items = items.into_iter();
        self.try_alloc_slice_fill_with(items.len(), |_| {
            items.next().expect("Iterator supplied too few elements")
        })
    }
}
