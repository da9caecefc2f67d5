//! Safe Rust over the static libraries `arena_cursor` and `arena_oracle`, which are proved in Rattle, without preconditions
//! beyond the types of their parameters. The code here is ordinary Rust, and not proved.
//!
//! [`Arena`] is a bump arena that grows, [`Region`] one over a slice of memory, and [`Oracle`] runs lists of calls and says
//! what the arena's model does.
//!
//! ```
//! use arena_bindings::Arena;
//!
//! let arena = Arena::new();
//! let word: &mut str = arena.alloc_str("block");
//! let squares: &mut [u32] = arena.alloc_slice_fill_iter((1..4).map(|n| n * n));
//! assert_eq!((&*word, &*squares), ("block", &[1, 4, 9][..]));
//! ```
#![cfg_attr(feature = "nightly", feature(allocator_api))]
#![warn(missing_docs, unsafe_op_in_unsafe_fn)]
#![warn(clippy::undocumented_unsafe_blocks)]

mod allocator;
mod arena;
mod blocks;
mod chunks;
mod ffi;
#[cfg(feature = "oracle")]
mod heap;
#[cfg(feature = "oracle")]
mod oracle;
mod region;
mod values;

pub use arena::{AllocError, Arena, Checkpoint};
#[cfg(feature = "oracle")]
pub use oracle::{Limits, Oracle, RunError};
pub use region::{Region, RegionVec};

/// For tests of the placement rules at addresses that no chunk has.
#[doc(hidden)]
pub mod testing {
    /// Returns where a block is placed in a chunk that begins at `start`, below a cursor.
    pub fn place_at(start: usize, cursor: usize, size: usize, align: usize) -> Option<usize> {
        let [start, cursor, size, align] = [start, cursor, size, align].map(|n| n as u64);
        let addr = crate::ffi::arena_cursor_find(start, cursor, size, align, 1);
        (addr > 0).then_some(addr as usize)
    }
}
