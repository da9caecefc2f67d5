//! The traits by which collections allocate in an arena: std's, on a nightly compiler, and that of the crate
//! `allocator-api2`, for the package beside this one.

#[cfg(any(feature = "allocator-api2", feature = "nightly"))]
macro_rules! allocator {
    ($api:path) => {
        use crate::arena::Arena;
        use std::alloc::Layout;
        use std::ptr::NonNull;
        use $api as api;

        fn slice<E>(
            block: Result<NonNull<u8>, E>,
            layout: Layout,
        ) -> Result<NonNull<[u8]>, api::AllocError> {
            match block {
                Ok(block) => Ok(NonNull::slice_from_raw_parts(block, layout.size())),
                Err(_) => Err(api::AllocError),
            }
        }

        // SAFETY: blocks are disjoint and stay where they are while the arena is borrowed; a moved arena keeps its chunks.
        unsafe impl<const M: usize> api::Allocator for &Arena<M> {
            #[inline(always)]
            fn allocate(&self, layout: Layout) -> Result<NonNull<[u8]>, api::AllocError> {
                slice(self.try_alloc_layout(layout), layout)
            }

            #[inline]
            unsafe fn deallocate(&self, block: NonNull<u8>, layout: Layout) {
                // SAFETY: as the caller says.
                unsafe { self.dealloc(block, layout) }
            }

            #[inline]
            unsafe fn grow(
                &self,
                block: NonNull<u8>,
                from: Layout,
                to: Layout,
            ) -> Result<NonNull<[u8]>, api::AllocError> {
                // SAFETY: as the caller says.
                slice(unsafe { Arena::grow(self, block, from, to) }, to)
            }

            #[inline]
            unsafe fn grow_zeroed(
                &self,
                block: NonNull<u8>,
                from: Layout,
                to: Layout,
            ) -> Result<NonNull<[u8]>, api::AllocError> {
                // SAFETY: as the caller says; the bytes past the old ones are in the new block.
                unsafe {
                    let new = api::Allocator::grow(self, block, from, to)?;
                    let added = to.size() - from.size();
                    new.cast::<u8>().add(from.size()).write_bytes(0, added);
                    Ok(new)
                }
            }

            #[inline]
            unsafe fn shrink(
                &self,
                block: NonNull<u8>,
                from: Layout,
                to: Layout,
            ) -> Result<NonNull<[u8]>, api::AllocError> {
                // SAFETY: as the caller says.
                slice(unsafe { Arena::shrink(self, block, from, to) }, to)
            }
        }
    };
}

#[cfg(feature = "allocator-api2")]
mod api2 {
    allocator!(allocator_api2::alloc);
}

#[cfg(feature = "nightly")]
mod std_api {
    allocator!(std::alloc);
}
