//! The functions of the proved static library `arena_cursor`, as in bindings/c/arena_cursor.h.

#[repr(C)]
#[derive(Clone, Copy, Debug, PartialEq, Eq)]
pub(crate) struct Cursor {
    pub start: u64,
    pub cursor: u64,
    pub end: u64,
    pub min_align: u64,
}

#[repr(C)]
#[derive(Clone, Copy, Debug, Default, PartialEq, Eq)]
pub(crate) struct Chunk {
    pub size: u64,
    pub bytes: u64,
    pub align: u64,
}

#[repr(C)]
#[derive(Clone, Copy, Debug, Default, PartialEq, Eq)]
pub(crate) struct Counts {
    pub used: u64,
    pub size: u64,
    pub free: u64,
}

/// The call is done.
pub(crate) const DONE: u32 = 0;
/// The newest chunk has no place for the block.
pub(crate) const NO_PLACE: u32 = 1;
/// The block has no byte in the newest chunk, and is allocated again.
pub(crate) const ELSEWHERE: u32 = 6;
/// The block has no byte in the newest chunk, and stays.
pub(crate) const STAYS: u32 = 7;

/// `arena_cursor_grow` or `arena_cursor_shrink`.
pub(crate) type Resize = extern "C" fn(&mut Cursor, &mut u64, u64, u64, u64, u64) -> u32;

// SAFETY: the library takes any numbers, and only reads and writes what the references are to, which are as pointers in C. It
// keeps nothing.
unsafe extern "C" {
    pub(crate) safe fn arena_cursor_find(
        start: u64,
        cursor: u64,
        size: u64,
        align: u64,
        min_align: u64,
    ) -> u64;
    pub(crate) safe fn arena_cursor_place(
        at: &mut Cursor,
        size: u64,
        align: u64,
        addr: &mut u64,
    ) -> u32;
    pub(crate) safe fn arena_cursor_give_back(at: &mut Cursor, addr: u64, size: u64) -> u32;
    pub(crate) safe fn arena_cursor_grow(
        at: &mut Cursor,
        addr: &mut u64,
        size: u64,
        align: u64,
        new_size: u64,
        new_align: u64,
    ) -> u32;
    pub(crate) safe fn arena_cursor_shrink(
        at: &mut Cursor,
        addr: &mut u64,
        size: u64,
        align: u64,
        new_size: u64,
        new_align: u64,
    ) -> u32;
    pub(crate) safe fn arena_cursor_back(at: &mut Cursor, mark: u64) -> u32;
    pub(crate) safe fn arena_cursor_chunk(
        tried: u64,
        size: u64,
        align: u64,
        chunk: &mut Chunk,
    ) -> u32;
    pub(crate) safe fn arena_cursor_next_chunk(
        newest: u64,
        size: u64,
        align: u64,
        refused: u32,
        chunk: &mut Chunk,
    ) -> u32;
    pub(crate) safe fn arena_cursor_enter(
        at: &mut Cursor,
        base: u64,
        size: u64,
        min_align: u64,
    ) -> u32;
    pub(crate) safe fn arena_cursor_reset(at: &mut Cursor) -> u32;
    pub(crate) safe fn arena_cursor_count(at: &Cursor, counts: &mut Counts) -> u32;
}
