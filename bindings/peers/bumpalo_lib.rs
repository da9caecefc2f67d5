//! bumpalo with its arena replaced by the growing arena over the proved library. `run.sh` puts its published `alloc.rs`,
//! `boxed.rs` and `collections/` beside this file, and its tests below it.
#![allow(warnings)]
#[doc(hidden)]
pub extern crate alloc as core_alloc;
#[doc(hidden)]
extern crate std;

#[cfg(feature = "boxed")]
pub mod boxed;
#[cfg(feature = "collections")]
pub mod collections;

mod alloc;

pub use alloc::AllocErr;
use core::fmt::Display;
use core::mem::MaybeUninit;
use core::ptr::NonNull;
use core_alloc::alloc::Layout;

#[derive(Clone, PartialEq, Eq, Debug)]
pub enum AllocOrInitError<E> {
    Alloc(AllocErr),
    Init(E),
}
impl<E> From<AllocErr> for AllocOrInitError<E> {
    fn from(e: AllocErr) -> Self {
        Self::Alloc(e)
    }
}

#[derive(Debug, Default)]
pub struct Bump(arena_bindings::Arena);

impl core::ops::Deref for Bump {
    type Target = arena_bindings::Arena;
    fn deref(&self) -> &Self::Target {
        &self.0
    }
}

impl Bump {
    pub fn new() -> Bump {
        Bump::default()
    }
    pub fn try_new() -> Result<Bump, AllocErr> {
        Ok(Bump::default())
    }
    pub fn with_capacity(capacity: usize) -> Bump {
        Bump(arena_bindings::Arena::with_capacity(capacity))
    }
    pub fn try_with_capacity(capacity: usize) -> Result<Bump, AllocErr> {
        arena_bindings::Arena::try_with_capacity(capacity).map(Bump).map_err(|_| AllocErr)
    }
    pub fn reset(&mut self) {
        self.0.reset()
    }
    pub fn try_alloc<T>(&self, val: T) -> Result<&mut T, AllocErr> {
        self.0.try_alloc(val).map_err(|_| AllocErr)
    }
    pub fn alloc_with<F: FnOnce() -> T, T>(&self, f: F) -> &mut T {
        self.0.alloc_with(f)
    }
    pub fn try_alloc_with<F: FnOnce() -> T, T>(&self, f: F) -> Result<&mut T, AllocErr> {
        self.0.try_alloc_with(f).map_err(|_| AllocErr)
    }
    pub fn alloc_try_with<F: FnOnce() -> Result<T, E>, T, E>(&self, f: F) -> Result<&mut T, E> {
        match self.try_alloc_try_with(f) {
            Ok(x) => Ok(x),
            Err(AllocOrInitError::Init(e)) => Err(e),
            Err(AllocOrInitError::Alloc(_)) => panic!("out of memory"),
        }
    }
    pub fn try_alloc_try_with<F: FnOnce() -> Result<T, E>, T, E>(&self, f: F) -> Result<&mut T, AllocOrInitError<E>> {
        let slot: *mut Result<T, E> = self.try_alloc_with(f)?;
        // SAFETY: the slot was written, and nothing else refers to it. An error is moved out before its block is given back.
        unsafe {
            match &mut *slot {
                Ok(x) => Ok(x),
                Err(e) => {
                    let e = core::ptr::read(e);
                    self.0.dealloc(NonNull::new_unchecked(slot.cast()), Layout::new::<Result<T, E>>());
                    Err(AllocOrInitError::Init(e))
                }
            }
        }
    }
    pub fn alloc_slice_fill_with<T, F: FnMut(usize) -> T>(&self, len: usize, f: F) -> &mut [T] {
        self.0.alloc_slice_fill_with(len, f)
    }
    pub fn try_alloc_layout(&self, layout: Layout) -> Result<NonNull<u8>, AllocErr> {
        self.0.try_alloc_layout(layout).map_err(|_| AllocErr)
    }
    pub fn iter_allocated_chunks(&mut self) -> impl Iterator<Item = &[MaybeUninit<u8>]> {
        self.0.iter_allocated_chunks()
    }
    pub unsafe fn iter_allocated_chunks_raw(&self) -> impl Iterator<Item = (*mut u8, usize)> + '_ {
        self.0.chunks_raw().map(|(p, n)| (p.as_ptr(), n))
    }
}

// SAFETY: each call is passed on as it is, to an arena of which the same is true.
unsafe impl<'a> alloc::Alloc for &'a Bump {
    unsafe fn alloc(&mut self, layout: Layout) -> Result<NonNull<u8>, AllocErr> {
        self.try_alloc_layout(layout)
    }
    unsafe fn dealloc(&mut self, ptr: NonNull<u8>, layout: Layout) {
        self.0.dealloc(ptr, layout)
    }
    unsafe fn realloc(&mut self, ptr: NonNull<u8>, layout: Layout, new_size: usize) -> Result<NonNull<u8>, AllocErr> {
        let old_size = layout.size();
        if old_size == 0 {
            return self.try_alloc_layout(layout);
        }
        let new = Layout::from_size_align(new_size, layout.align()).map_err(|_| AllocErr)?;
        if new_size <= old_size {
            self.0.shrink(ptr, layout, new).map_err(|_| AllocErr)
        } else {
            self.0.grow(ptr, layout, new).map_err(|_| AllocErr)
        }
    }
}
