//! The two arenas under the generator.

use std::{alloc::Layout, ptr::NonNull};

use crate::generate::Machine;

/// The real arena, by its own implementation of `Allocator`.
#[derive(Default)]
pub struct Oxc(pub oxc_allocator::arena::Arena);

impl Machine for Oxc {
    #[inline(always)]
    fn alloc(&self, layout: Layout) -> Option<NonNull<u8>> {
        self.0.try_alloc_layout(layout).ok()
    }

    #[inline(always)]
    unsafe fn grow(&self, at: NonNull<u8>, old: Layout, new: Layout) -> Option<NonNull<u8>> {
        let got = unsafe { allocator_api2::alloc::Allocator::grow(&&self.0, at, old, new) };
        got.ok().map(|b| b.cast())
    }

    #[inline(always)]
    unsafe fn shrink(&self, at: NonNull<u8>, old: Layout, new: Layout) -> Option<NonNull<u8>> {
        let got = unsafe { allocator_api2::alloc::Allocator::shrink(&&self.0, at, old, new) };
        got.ok().map(|b| b.cast())
    }

    #[inline(always)]
    unsafe fn dealloc(&self, at: NonNull<u8>, layout: Layout) {
        unsafe { allocator_api2::alloc::Allocator::deallocate(&&self.0, at, layout) };
    }

    fn reset(&mut self) {
        self.0.reset();
    }

    fn used(&mut self) -> u64 {
        self.0.used_bytes() as u64
    }

    fn allocated(&self) -> u64 {
        self.0.allocated_bytes() as u64
    }
}

/// bumpalo as Debian has it.
#[cfg(feature = "bump")]
#[derive(Default)]
pub struct Bump(pub bumpalo::Bump);

#[cfg(feature = "bump")]
impl Machine for Bump {
    #[inline(always)]
    fn alloc(&self, layout: Layout) -> Option<NonNull<u8>> {
        self.0.try_alloc_layout(layout).ok()
    }

    #[inline(always)]
    unsafe fn grow(&self, at: NonNull<u8>, old: Layout, new: Layout) -> Option<NonNull<u8>> {
        let got = unsafe { std::alloc::Allocator::grow(&&self.0, at, old, new) };
        got.ok().map(|b| b.cast())
    }

    #[inline(always)]
    unsafe fn shrink(&self, at: NonNull<u8>, old: Layout, new: Layout) -> Option<NonNull<u8>> {
        // This version refuses every greater alignment; do as `arena_run` does.
        if new.align() > old.align() {
            if at.addr().get() % new.align() == 0 {
                return Some(at);
            }
            let to = self.0.try_alloc_layout(new).ok()?;
            unsafe { to.copy_from_nonoverlapping(at, new.size()) };
            return Some(to);
        }
        let got = unsafe { std::alloc::Allocator::shrink(&&self.0, at, old, new) };
        got.ok().map(|b| b.cast())
    }

    #[inline(always)]
    unsafe fn dealloc(&self, at: NonNull<u8>, layout: Layout) {
        unsafe { std::alloc::Allocator::deallocate(&&self.0, at, layout) };
    }

    fn reset(&mut self) {
        self.0.reset();
    }

    fn used(&mut self) -> u64 {
        self.0.iter_allocated_chunks().map(|c| c.len() as u64).sum()
    }

    fn allocated(&self) -> u64 {
        self.0.allocated_bytes() as u64
    }
}
