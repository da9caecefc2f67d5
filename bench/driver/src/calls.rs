//! `native calls`: lines of calls on the real arena, with the replies of `arena_run calls`, at its addresses.

use std::{
    alloc::Layout,
    collections::HashMap,
    io::{Read, Write},
    mem::ManuallyDrop,
    ptr::NonNull,
    str::FromStr,
};

use allocator_api2::alloc::Allocator;
use oxc_allocator::arena::Arena;

use crate::space::{FOOTER, SPACE};

const INPUT_LIMIT: usize = 16_777_216;

enum Call<'i> {
    Alloc {
        name: u32,
        size: u64,
        align: u64,
        fill: u8,
    },
    Grow {
        name: u32,
        size: u64,
        align: u64,
        fill: u8,
    },
    Shrink {
        name: u32,
        size: u64,
        align: u64,
    },
    Dealloc {
        name: u32,
    },
    Write {
        name: u32,
        at: u64,
        hex: &'i [u8],
    },
    Read {
        name: u32,
    },
    Reset,
    Used,
    Allocated,
}

/// A number of the grammar: `0`, or digits that don't begin with `0`.
fn number<T: FromStr>(word: &[u8]) -> Option<T> {
    let plain = !word.is_empty()
        && word.iter().all(u8::is_ascii_digit)
        && (word[0] != b'0' || word.len() == 1);
    if !plain {
        return None;
    }
    std::str::from_utf8(word).ok()?.parse().ok()
}

/// HEX of the grammar, without its digits turned to bytes; `-` is no byte.
fn hex(word: &[u8]) -> Option<&[u8]> {
    if word == b"-" {
        return Some(&[]);
    }
    let digits = word.iter().all(|b| matches!(b, b'0'..=b'9' | b'a'..=b'f'));
    (!word.is_empty() && word.len() % 2 == 0 && digits).then_some(word)
}

fn digit(b: u8) -> u8 {
    if b <= b'9' { b - b'0' } else { b - b'a' + 10 }
}

fn parse(line: &[u8]) -> Option<Call<'_>> {
    // More than five words are of no line.
    let mut words: [&[u8]; 5] = [&[]; 5];
    let mut n = 0;
    for word in line.split(|&b| b == b' ') {
        *words.get_mut(n)? = word;
        n += 1;
    }
    Some(match (words[0], n) {
        (b"alloc", 5) => Call::Alloc {
            name: number(words[1])?,
            size: number(words[2])?,
            align: number(words[3])?,
            fill: number(words[4])?,
        },
        (b"grow", 5) => Call::Grow {
            name: number(words[1])?,
            size: number(words[2])?,
            align: number(words[3])?,
            fill: number(words[4])?,
        },
        (b"shrink", 4) => Call::Shrink {
            name: number(words[1])?,
            size: number(words[2])?,
            align: number(words[3])?,
        },
        (b"dealloc", 2) => Call::Dealloc {
            name: number(words[1])?,
        },
        (b"write", 4) => Call::Write {
            name: number(words[1])?,
            at: number(words[2])?,
            hex: hex(words[3])?,
        },
        (b"read", 2) => Call::Read {
            name: number(words[1])?,
        },
        (b"reset", 1) => Call::Reset,
        (b"used", 1) => Call::Used,
        (b"allocated", 1) => Call::Allocated,
        _ => return None,
    })
}

pub struct Options {
    min_align: usize,
    capacity: Option<u64>,
    raw: Option<u64>,
    asked: bool,
    stats: bool,
}

pub fn main(words: &[String]) -> i32 {
    let Some(options) = options(words) else {
        eprintln!(
            "usage: native calls [--min-align 1|2|4|8|16] [--capacity N | --raw BYTES] \
             [--budget N] [--refuse N,N,..] [--asked] [--stats]"
        );
        return 1;
    };
    let mut input = Vec::new();
    let taken = std::io::stdin()
        .lock()
        .take(INPUT_LIMIT as u64 + 1)
        .read_to_end(&mut input);
    if taken.is_err() {
        eprintln!("read fault");
        return 4;
    }
    if input.len() > INPUT_LIMIT {
        eprintln!("input too long");
        return 6;
    }
    let mut calls = Vec::new();
    // The last line may lack its line feed; what follows the last one is no line.
    if input.last() == Some(&b'\n') {
        input.pop();
    }
    for (i, line) in input.split(|&b| b == b'\n').enumerate() {
        if line.is_empty() {
            continue;
        }
        match parse(line) {
            Some(call) => calls.push(call),
            None => {
                eprintln!("line {} is not understood", i + 1);
                return 2;
            }
        }
    }
    let mut out = Vec::new();
    match options.min_align {
        1 => with_arena::<1>(&options, &calls, &mut out),
        2 => with_arena::<2>(&options, &calls, &mut out),
        4 => with_arena::<4>(&options, &calls, &mut out),
        8 => with_arena::<8>(&options, &calls, &mut out),
        _ => with_arena::<16>(&options, &calls, &mut out),
    }
    if std::io::stdout().write_all(&out).is_err() {
        eprintln!("write fault");
        return 5;
    }
    let state = SPACE.state();
    if options.asked {
        for (size, align) in &state.asked {
            eprintln!("asked {size} {align}");
        }
    }
    if state.beyond {
        eprintln!("note: a chunk was wanted that real memory can't hold; it was refused");
    }
    0
}

fn options(words: &[String]) -> Option<Options> {
    let mut options = Options {
        min_align: 1,
        capacity: None,
        raw: None,
        asked: false,
        stats: false,
    };
    let state = SPACE.state();
    let mut words = words.iter();
    while let Some(word) = words.next() {
        match word.as_str() {
            "--min-align" => options.min_align = words.next()?.parse().ok()?,
            "--capacity" => options.capacity = Some(words.next()?.parse().ok()?),
            "--raw" => options.raw = Some(words.next()?.parse().ok()?),
            "--budget" => state.budget = words.next()?.parse().ok()?,
            "--refuse" => {
                for n in words.next()?.split(',') {
                    state.refuse.push(n.parse().ok()?);
                }
            }
            "--asked" => options.asked = true,
            "--stats" => options.stats = true,
            _ => return None,
        }
    }
    let raw = options.raw.unwrap_or(48);
    let fit = matches!(options.min_align, 1 | 2 | 4 | 8 | 16) && raw >= 48 && raw % 16 == 0;
    let fit = fit && !(options.raw.is_some() && options.capacity.is_some());
    let fit = fit && (cfg!(feature = "track") || !options.stats);
    fit.then_some(options)
}

fn with_arena<const M: usize>(options: &Options, calls: &[Call<'_>], out: &mut Vec<u8>) {
    if let Some(bytes) = options.raw {
        let start = SPACE.region(bytes);
        let region = Layout::from_size_align(bytes as usize, 16).unwrap();
        let start = NonNull::new(start).expect("no region");
        let arena = unsafe { Arena::<M>::from_raw_parts(start, bytes as usize, start, region) };
        // The region isn't the arena's to free.
        run(options, &mut ManuallyDrop::new(arena), calls, out);
        return;
    }
    let mut arena = match options.capacity {
        None => Arena::<M>::with_min_align(),
        Some(capacity) => {
            let made =
                SPACE.serve(|| Arena::<M>::try_with_min_align_and_capacity(capacity as usize));
            match made {
                (Ok(arena), _) => arena,
                (Err(_), refused) => {
                    writeln!(out, "allocerr refused {refused}").unwrap();
                    return;
                }
            }
        }
    };
    run(options, &mut arena, calls, out);
}

#[derive(Clone, Copy)]
struct Held {
    at: NonNull<u8>,
    layout: Layout,
}

/// The address by rule of a real one: by the newest chunk that holds it. Without
/// chunks the arena's cursor is 16 in both.
fn place(at: NonNull<u8>) -> u64 {
    let at = at.addr().get() as u64;
    for chunk in SPACE.state().chunks.iter().rev() {
        if at >= chunk.real && at <= chunk.real + chunk.size {
            return chunk.base + (at - chunk.real);
        }
    }
    assert!(at == 16, "address {at:#x} is of no chunk");
    at
}

/// The real arena's newest chunk must be the newest that we gave.
fn check<const M: usize>(arena: &Arena<M>) {
    let Some(chunk) = SPACE.state().chunks.last() else {
        return;
    };
    let end = arena.data_end_ptr().addr().get() as u64;
    let (cursor, _) = unsafe { arena.iter_allocated_chunks_raw() }
        .next()
        .expect("no chunk");
    let start = (cursor.addr().get() - arena.chunk_capacity()) as u64;
    let footer_end = arena.end_ptr().addr().get() as u64;
    assert!(start == chunk.real && end == chunk.real + chunk.size && footer_end == end + FOOTER);
}

fn decimal(out: &mut Vec<u8>, n: u64) {
    write!(out, "{n}").unwrap();
}

fn run<const M: usize>(
    options: &Options,
    arena: &mut Arena<M>,
    calls: &[Call<'_>],
    out: &mut Vec<u8>,
) {
    let mut held: HashMap<u32, Held> = HashMap::new();
    for call in calls {
        match *call {
            Call::Alloc {
                name,
                size,
                align,
                fill,
            } => {
                if held.contains_key(&name) {
                    out.extend(b"name taken\n");
                } else if let Some(layout) = layout(size, align) {
                    let (got, refused) = SPACE.serve(|| arena.try_alloc_layout(layout));
                    match got {
                        Ok(at) => {
                            unsafe { at.write_bytes(fill, layout.size()) };
                            held.insert(name, Held { at, layout });
                            placed(out, at, refused);
                        }
                        Err(_) => refusal(out, refused),
                    }
                    check(arena);
                } else {
                    out.extend(b"bad layout\n");
                }
            }
            Call::Grow {
                name,
                size,
                align,
                fill,
            } => match held.get_mut(&name) {
                None => out.extend(b"no such name\n"),
                Some(block) => match layout(size, align) {
                    None => out.extend(b"bad layout\n"),
                    Some(new) if new.size() < block.layout.size() => {
                        out.extend(b"out of range\n");
                    }
                    Some(new) => {
                        let old = *block;
                        let (got, refused) = SPACE.serve(|| unsafe {
                            Allocator::grow(&&*arena, old.at, old.layout, new)
                        });
                        match got {
                            Ok(at) => {
                                let at = at.cast::<u8>();
                                let kept = old.layout.size();
                                unsafe { at.add(kept).write_bytes(fill, new.size() - kept) };
                                *block = Held { at, layout: new };
                                placed(out, at, refused);
                            }
                            Err(_) => refusal(out, refused),
                        }
                        check(arena);
                    }
                },
            },
            Call::Shrink { name, size, align } => match held.get_mut(&name) {
                None => out.extend(b"no such name\n"),
                Some(block) => match layout(size, align) {
                    None => out.extend(b"bad layout\n"),
                    Some(new) if new.size() > block.layout.size() => {
                        out.extend(b"out of range\n");
                    }
                    Some(new) => {
                        let old = *block;
                        let (got, refused) = SPACE.serve(|| unsafe {
                            Allocator::shrink(&&*arena, old.at, old.layout, new)
                        });
                        match got {
                            Ok(at) => {
                                let at = at.cast::<u8>();
                                *block = Held { at, layout: new };
                                placed(out, at, refused);
                            }
                            Err(_) => refusal(out, refused),
                        }
                        check(arena);
                    }
                },
            },
            Call::Dealloc { name } => match held.remove(&name) {
                None => out.extend(b"no such name\n"),
                Some(block) => {
                    unsafe { Allocator::deallocate(&&*arena, block.at, block.layout) };
                    out.extend(b"done\n");
                }
            },
            Call::Write { name, at, hex } => match held.get(&name) {
                None => out.extend(b"no such name\n"),
                Some(block) => {
                    let len = hex.len() as u64 / 2;
                    if u128::from(at) + u128::from(len) > block.layout.size() as u128 {
                        out.extend(b"out of range\n");
                    } else {
                        for (i, pair) in hex.chunks_exact(2).enumerate() {
                            let byte = digit(pair[0]) << 4 | digit(pair[1]);
                            unsafe { block.at.add(at as usize + i).write(byte) };
                        }
                        out.extend(b"done\n");
                    }
                }
            },
            Call::Read { name } => match held.get(&name) {
                None => out.extend(b"no such name\n"),
                Some(block) => {
                    let len = block.layout.size();
                    out.extend(b"bytes ");
                    if len == 0 {
                        out.push(b'-');
                    } else {
                        let bytes = unsafe { std::slice::from_raw_parts(block.at.as_ptr(), len) };
                        out.reserve(2 * len + 1);
                        for b in bytes {
                            out.push(b"0123456789abcdef"[usize::from(b >> 4)]);
                            out.push(b"0123456789abcdef"[usize::from(b & 15)]);
                        }
                    }
                    out.push(b'\n');
                }
            },
            Call::Reset => {
                arena.reset();
                held.clear();
                out.extend(b"done\n");
                check(arena);
            }
            Call::Used => numbered(out, arena.used_bytes() as u64),
            Call::Allocated => numbered(out, arena.allocated_bytes() as u64),
        }
        if options.stats {
            let (allocations, reallocations) = stats(arena);
            writeln!(out, "stats {allocations} {reallocations}").unwrap();
        }
    }
}

fn layout(size: u64, align: u64) -> Option<Layout> {
    Layout::from_size_align(usize::try_from(size).ok()?, usize::try_from(align).ok()?).ok()
}

fn placed(out: &mut Vec<u8>, at: NonNull<u8>, refused: u32) {
    out.extend(b"placed ");
    decimal(out, place(at));
    out.extend(b" refused ");
    decimal(out, refused.into());
    out.push(b'\n');
}

fn refusal(out: &mut Vec<u8>, refused: u32) {
    out.extend(b"allocerr refused ");
    decimal(out, refused.into());
    out.push(b'\n');
}

fn numbered(out: &mut Vec<u8>, n: u64) {
    out.extend(b"number ");
    decimal(out, n);
    out.push(b'\n');
}

#[cfg(feature = "track")]
fn stats<const M: usize>(arena: &Arena<M>) -> (usize, usize) {
    // The crate reports them for an `Allocator` alone, which is a transparent `Arena<1>`.
    // The statistics don't depend on the minimum alignment.
    let allocator = std::ptr::from_ref(arena).cast::<oxc_allocator::Allocator>();
    unsafe { &*allocator }.get_allocation_stats()
}

#[cfg(not(feature = "track"))]
fn stats<const M: usize>(_: &Arena<M>) -> (usize, usize) {
    (0, 0)
}
