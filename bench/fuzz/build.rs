//! Makes the modules `space` and `calls` of the driver's (bench/driver), so that one process runs one input after
//! another. With PLANT=NAME the arena that is compared is wrong on purpose.
use std::{env, fs, path::Path};

// All addresses are mapped once, and the next run uses them again.
const MAPPED_ONCE: (&str, &str) = (
    "        if to > from {\n            // PROT_READ",
    "        if self.mapped == OFFSET {
            let all = std::ptr::without_provenance_mut(OFFSET as usize);
            let at = unsafe { mmap(all, SPAN as usize, 3, 0x02 | 0x20 | 0x4000 | 0x10_0000, -1, 0) };
            assert!(at as u64 == OFFSET);
            self.mapped = OFFSET + SPAN;
        }
        if to > from && to > OFFSET + SPAN {\n            // PROT_READ",
);

const SPAN: (&str, &str) = (
    "pub const SPAN: u64 = 1 << 44;",
    "pub const SPAN: u64 = 1 << 32;",
);

const RENEW: &str = "
impl State {
    /// As at the start, with these limits.
    pub fn renew(&mut self, budget: u64, refuse: &[u64]) {
        self.chunks.clear();
        self.asked.clear();
        self.refused = 0;
        self.beyond = false;
        self.budget = budget;
        self.refuse.clear();
        self.refuse.extend_from_slice(refuse);
    }
}
";

const ANSWER: &str = "
/// The replies of the real arena, or the line that is refused. None if a chunk would be beyond the addresses that are
/// mapped.
pub fn answer(input: &[u8], budget: u64, refuse: &[u64]) -> Option<Result<Vec<u8>, u64>> {
    SPACE.state().renew(budget, refuse);
    let mut calls = Vec::new();
    for (i, line) in input.strip_suffix(b\"\\n\").unwrap_or(input).split(|&b| b == b'\\n').enumerate() {
        if line.is_empty() {
            continue;
        }
        match parse(line) {
            Some(call) => calls.push(call),
            None => return Some(Err(i as u64 + 1)),
        }
    }
    let mut out = Vec::new();
    let options = Options { min_align: 1, capacity: None, raw: None, asked: false, stats: false };
    with_arena::<1>(&options, &calls, &mut out);
    (!SPACE.state().beyond).then_some(Ok(out))
}
";

// Wrong arenas: one that places only even sizes, one that doesn't fill the last byte of what a block grows by, and one
// that takes nothing back.
const PLANTS: [(&str, &str, &str); 3] = [
    (
        "even_sizes",
        "arena.try_alloc_layout(layout)",
        "arena.try_alloc_layout(Layout::from_size_align(layout.size().next_multiple_of(2), layout.align()).unwrap_or(layout))",
    ),
    (
        "last_byte_lost",
        "at.add(kept).write_bytes(fill, new.size() - kept)",
        "at.add(kept).write_bytes(fill, (new.size() - kept).saturating_sub(1))",
    ),
    (
        "nothing_taken_back",
        "unsafe { Allocator::deallocate(&&*arena, block.at, block.layout) };",
        "let _ = block;",
    ),
];

fn replaced(text: &str, old: &str, new: &str) -> String {
    assert_eq!(text.matches(old).count(), 1, "{old} doesn't occur exactly once");
    text.replace(old, new)
}

// A module of the driver without its first comment, which can't be included.
fn module(name: &str) -> String {
    let path = format!("../driver/src/{name}.rs");
    println!("cargo:rerun-if-changed={path}");
    let text = fs::read_to_string(&path).expect("the driver's sources");
    text.lines()
        .filter(|line| !line.starts_with("//!"))
        .map(|line| format!("{line}\n"))
        .collect()
}

fn main() {
    println!("cargo:rerun-if-env-changed=PLANT");
    let out = env::var("OUT_DIR").expect("a folder");
    let space = replaced(&module("space"), SPAN.0, SPAN.1);
    let space = replaced(&space, MAPPED_ONCE.0, MAPPED_ONCE.1) + RENEW;
    let mut calls = module("calls") + ANSWER;
    if let Ok(plant) = env::var("PLANT") {
        let (_, old, new) = PLANTS
            .into_iter()
            .find(|(name, ..)| *name == plant)
            .expect("a plant of this name");
        calls = replaced(&calls, old, new);
    }
    fs::write(Path::new(&out).join("space.rs"), space).expect("the folder can be written");
    fs::write(Path::new(&out).join("calls.rs"), calls).expect("the folder can be written");
}
