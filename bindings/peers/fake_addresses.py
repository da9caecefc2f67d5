"""fake_addresses.py FILE: in a test of oxc_allocator that makes arenas at addresses that no chunk has, the arena becomes two
numbers, and its allocation a call of the library."""
import re
import sys

path = sys.argv[1]
with open(path, encoding="utf-8") as file:
    text = file.read()


def replace(pattern, new):
    global text
    text, count = re.subn(pattern, new, text, flags=re.S)
    assert count == 1, pattern


replace(r"\n\s*mem::ManuallyDrop,", "")
replace(r"use super::\{Arena, CHUNK_ALIGN, ChunkFooter\};", "use super::CHUNK_ALIGN;\nuse arena_bindings::testing::place_at;")
replace(r"inner: ManuallyDrop<Arena<MIN_ALIGN>>,", "start: usize,\n\tcursor: Cell<usize>,")
replace(r"// Construct arena.*?Self \{ inner: ManuallyDrop::new\(arena\) \}", "Self { start, cursor: Cell::new(cursor) }")
replace(
    r"self\.inner\.try_alloc_layout_fast\(layout\)",
    "let p = place_at(self.start, self.cursor.get(), layout.size(), layout.align().max(MIN_ALIGN))?;\n"
    "\t\tself.cursor.set(p);\n\t\tNonNull::new(ptr::without_provenance_mut(p))",
)
with open(path, "w", encoding="utf-8") as file:
    file.write(text)
