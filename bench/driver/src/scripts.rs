//! `native scripts WORKERS`: the lines of scripts over a pool of real arenas, one after
//! another on each of WORKERS threads. The natural engine that a user of the crate writes.

use std::{
    collections::HashMap as Names,
    fmt::Write as _,
    io::{Read, Write},
    sync::{
        Mutex,
        atomic::{AtomicUsize, Ordering},
    },
};

use oxc_allocator::{
    Allocator, AllocatorPool, BitSet, Box, CloneIn, HashMap, StringBuilder, Vec as ArenaVec,
};

const MOST_ELEMENTS: usize = 536_870_912;
const MOST_BYTES: usize = 4_294_967_295;

enum Object<'a> {
    List(ArenaVec<'a, u32>),
    Text(StringBuilder<'a>),
    Bits(BitSet<'a>),
    Map(HashMap<'a, u32, u32>),
    Value(Box<'a, u64>),
}

/// A command's words: its name, up to three numbers, bytes.
struct Command {
    op: Op,
    name: u32,
    x: u64,
    y: u64,
    bytes: Vec<u8>,
}

macro_rules! ops {
    ($($variant:ident $word:literal $shape:literal),* $(,)?) => {
        #[derive(Clone, Copy, PartialEq)]
        enum Op { $($variant),* }
        /// The command of a word, and the types of what follows its name.
        fn op_of(word: &[u8]) -> Option<(Op, &'static str)> {
            $(if word == $word { return Some((Op::$variant, $shape)); })*
            None
        }
    };
}
ops! {
    List b"list" "", Text b"text" "", Bits b"bits" "n", Map b"map" "", Value b"value" "l",
    Push b"push" "n", Insert b"insert" "nn", Pop b"pop" "", Remove b"remove" "n", At b"at" "n",
    Put b"put" "nn", Truncate b"truncate" "n", Byte b"byte" "b", Front b"front" "b",
    Append b"append" "h", Set b"set" "n", Unset b"unset" "n", Has b"has" "n", Union b"union" "n",
    Ones b"ones" "", Bind b"bind" "nn", Find b"find" "n", Unbind b"unbind" "n", Load b"load" "",
    Store b"store" "l", Len b"len" "", Show b"show" "", Copy b"copy" "n", Drop b"drop" "",
}

fn number(word: &[u8], most: u64) -> Option<u64> {
    let plain = !word.is_empty()
        && word.iter().all(u8::is_ascii_digit)
        && (word[0] != b'0' || word.len() == 1);
    let n = plain.then(|| std::str::from_utf8(word).ok()?.parse::<u64>().ok())??;
    (n <= most).then_some(n)
}

fn hex(word: &[u8]) -> Option<Vec<u8>> {
    if word == b"-" {
        return Some(Vec::new());
    }
    let digit = |b: u8| match b {
        b'0'..=b'9' => Some(b - b'0'),
        b'a'..=b'f' => Some(b - b'a' + 10),
        _ => None,
    };
    if word.is_empty() || word.len() % 2 == 1 {
        return None;
    }
    word.chunks(2)
        .map(|p| Some(digit(p[0])? * 16 + digit(p[1])?))
        .collect()
}

fn command(line: &[u8]) -> Option<Command> {
    let mut words = line.split(|&b| b == b' ');
    let (op, shape) = op_of(words.next()?)?;
    let name = number(words.next()?, u32::MAX.into())? as u32;
    let mut c = Command {
        op,
        name,
        x: 0,
        y: 0,
        bytes: Vec::new(),
    };
    for (i, kind) in shape.bytes().enumerate() {
        let word = words.next()?;
        let n = match kind {
            b'n' => number(word, u32::MAX.into())?,
            b'l' => number(word, u64::MAX)?,
            b'b' => number(word, 255)?,
            _ => {
                c.bytes = hex(word)?;
                0
            }
        };
        if i == 0 { c.x = n } else { c.y = n }
    }
    words.next().is_none().then_some(c)
}

fn parse(input: &[u8]) -> Result<Vec<Vec<Command>>, usize> {
    let mut scripts: Vec<Vec<Command>> = Vec::new();
    for (i, line) in input.split(|&b| b == b'\n').enumerate() {
        if line.is_empty() {
            continue;
        }
        if line == b"script" {
            scripts.push(Vec::new());
        } else {
            let c = command(line).ok_or(i + 1)?;
            scripts.last_mut().ok_or(i + 1)?.push(c);
        }
    }
    Ok(scripts)
}

fn bytes_line(out: &mut Vec<u8>, bytes: &[u8]) {
    const DIGITS: &[u8; 16] = b"0123456789abcdef";
    out.extend_from_slice(b"bytes ");
    if bytes.is_empty() {
        out.push(b'-');
    }
    for &b in bytes {
        out.push(DIGITS[usize::from(b >> 4)]);
        out.push(DIGITS[usize::from(b & 15)]);
    }
    out.push(b'\n');
}

fn number_line(out: &mut Vec<u8>, n: u64) {
    writeln!(out, "number {n}").unwrap();
}

fn numbers_line(out: &mut Vec<u8>, numbers: impl Iterator<Item = u64>) {
    out.extend_from_slice(b"numbers");
    let before = out.len();
    for n in numbers {
        write!(out, " {n}").unwrap();
    }
    if out.len() == before {
        out.extend_from_slice(b" -");
    }
    out.push(b'\n');
}

fn words_of(set: &BitSet) -> usize {
    set.capacity().div_ceil(64)
}

fn run(script: &[Command], a: &Allocator, out: &mut Vec<u8>) {
    let mut names: Names<u32, Object> = Names::new();
    for c in script {
        if let Err(refusal) = step(c, a, &mut names, out) {
            writeln!(out, "{refusal}").unwrap();
        }
    }
    out.extend_from_slice(b"ended done\n");
}

const NO_NAME: &str = "no such name";
const TAKEN: &str = "name taken";
const KIND: &str = "wrong kind";
const RANGE: &str = "out of range";
const ASCII: &str = "not ascii";
const FULL: &str = "capacity overflow";

fn step<'a>(
    c: &Command,
    a: &'a Allocator,
    names: &mut Names<u32, Object<'a>>,
    out: &mut Vec<u8>,
) -> Result<(), &'static str> {
    let x32 = c.x as u32;
    let made = match c.op {
        Op::List => Some(Object::List(ArenaVec::new_in(&a))),
        Op::Text => Some(Object::Text(StringBuilder::new_in(a))),
        Op::Map => Some(Object::Map(HashMap::new_in(a))),
        Op::Bits | Op::Value => None,
        _ => return act(c, a, names, out),
    };
    if names.contains_key(&c.name) {
        return Err(TAKEN);
    }
    let object = made.unwrap_or_else(|| match c.op {
        Op::Bits => Object::Bits(BitSet::new_in(x32 as usize, a)),
        _ => Object::Value(Box::new_in(c.x, &a)),
    });
    names.insert(c.name, object);
    out.extend_from_slice(b"done\n");
    Ok(())
}

fn act<'a>(
    c: &Command,
    a: &'a Allocator,
    names: &mut Names<u32, Object<'a>>,
    out: &mut Vec<u8>,
) -> Result<(), &'static str> {
    match c.op {
        Op::Union => return union(c, names, out),
        Op::Copy => return copy(c, a, names, out),
        Op::Drop => {
            names.remove(&c.name).ok_or(NO_NAME)?;
            out.extend_from_slice(b"done\n");
            return Ok(());
        }
        _ => {}
    }
    let object = names.get_mut(&c.name).ok_or(NO_NAME)?;
    let done = |out: &mut Vec<u8>| out.extend_from_slice(b"done\n");
    match (c.op, object) {
        (Op::Len, Object::List(v)) => number_line(out, v.len() as u64),
        (Op::Len, Object::Text(s)) => number_line(out, s.len() as u64),
        (Op::Len, Object::Bits(b)) => number_line(out, b.capacity() as u64),
        (Op::Len, Object::Map(m)) => number_line(out, m.len() as u64),
        (Op::Show, Object::List(v)) => numbers_line(out, v.iter().map(|&n| n.into())),
        (Op::Show, Object::Text(s)) => bytes_line(out, s.as_str().as_bytes()),
        (Op::Show, Object::Bits(b)) => {
            let mut text = String::new();
            write!(text, "{b}").unwrap();
            writeln!(out, "printed {}", if text.is_empty() { "-" } else { &text }).unwrap();
        }
        (Op::Show, Object::Map(m)) => {
            let mut pairs: Vec<(u32, u32)> = m.iter().map(|(&k, &v)| (k, v)).collect();
            pairs.sort_unstable();
            numbers_line(out, pairs.iter().flat_map(|&(k, v)| [k.into(), v.into()]));
        }
        (Op::Show | Op::Load, Object::Value(v)) => number_line(out, **v),
        (Op::Push, Object::List(v)) => {
            if v.len() == MOST_ELEMENTS {
                return Err(FULL);
            }
            v.push(c.x as u32);
            done(out);
        }
        (Op::Insert, Object::List(v)) => {
            if c.x as usize > v.len() {
                return Err(RANGE);
            }
            if v.len() == MOST_ELEMENTS {
                return Err(FULL);
            }
            v.insert(c.x as usize, c.y as u32);
            done(out);
        }
        (Op::Pop, Object::List(v)) => match v.pop() {
            Some(n) => number_line(out, n.into()),
            None => out.extend_from_slice(b"nothing\n"),
        },
        (Op::Remove, Object::List(v)) => {
            if c.x as usize >= v.len() {
                return Err(RANGE);
            }
            number_line(out, v.remove(c.x as usize).into());
        }
        (Op::At, Object::List(v)) => number_line(out, (*v.get(c.x as usize).ok_or(RANGE)?).into()),
        (Op::Put, Object::List(v)) => {
            *v.get_mut(c.x as usize).ok_or(RANGE)? = c.y as u32;
            done(out);
        }
        (Op::Truncate, Object::List(v)) => {
            v.truncate(c.x as usize);
            done(out);
        }
        (Op::Byte | Op::Front, Object::Text(s)) => {
            if c.x > 127 {
                return Err(ASCII);
            }
            if s.len() == MOST_BYTES {
                return Err(FULL);
            }
            if c.op == Op::Byte {
                s.push_ascii_byte(c.x as u8)
            } else {
                s.push_ascii_byte_start(c.x as u8)
            }
            done(out);
        }
        (Op::Append, Object::Text(s)) => {
            if !c.bytes.is_ascii() {
                return Err(ASCII);
            }
            if s.len() + c.bytes.len() > MOST_BYTES {
                return Err(FULL);
            }
            s.push_str(std::str::from_utf8(&c.bytes).unwrap());
            done(out);
        }
        (Op::Set | Op::Unset, Object::Bits(b)) => {
            let bit = c.x as usize;
            if bit >= words_of(b) * 64 {
                return Err(RANGE);
            }
            if c.op == Op::Set {
                b.set_bit(bit)
            } else {
                b.unset_bit(bit)
            }
            done(out);
        }
        (Op::Has, Object::Bits(b)) => writeln!(out, "{}", b.contains(c.x as usize)).unwrap(),
        (Op::Ones, Object::Bits(b)) => numbers_line(out, b.ones().map(|n| n as u64)),
        (Op::Bind, Object::Map(m)) => match m.insert(c.x as u32, c.y as u32) {
            Some(n) => number_line(out, n.into()),
            None => out.extend_from_slice(b"nothing\n"),
        },
        (Op::Find, Object::Map(m)) => match m.get(&(c.x as u32)) {
            Some(&n) => number_line(out, n.into()),
            None => out.extend_from_slice(b"nothing\n"),
        },
        (Op::Unbind, Object::Map(m)) => match m.remove(&(c.x as u32)) {
            Some(n) => number_line(out, n.into()),
            None => out.extend_from_slice(b"nothing\n"),
        },
        (Op::Store, Object::Value(v)) => {
            **v = c.x;
            done(out);
        }
        _ => return Err(KIND),
    }
    Ok(())
}

fn union<'a>(
    c: &Command,
    names: &mut Names<u32, Object<'a>>,
    out: &mut Vec<u8>,
) -> Result<(), &'static str> {
    let other = c.x as u32;
    if !names.contains_key(&c.name) || !names.contains_key(&other) {
        return Err(NO_NAME);
    }
    let Some(Object::Bits(_)) = names.get(&c.name) else {
        return Err(KIND);
    };
    let Some(Object::Bits(_)) = names.get(&other) else {
        return Err(KIND);
    };
    if other != c.name {
        let [Some(Object::Bits(to)), Some(Object::Bits(from))] =
            names.get_disjoint_mut([&c.name, &other])
        else {
            unreachable!()
        };
        to.union(from);
    }
    out.extend_from_slice(b"done\n");
    Ok(())
}

fn copy<'a>(
    c: &Command,
    a: &'a Allocator,
    names: &mut Names<u32, Object<'a>>,
    out: &mut Vec<u8>,
) -> Result<(), &'static str> {
    let object = names.get(&c.name).ok_or(NO_NAME)?;
    let other = c.x as u32;
    if names.contains_key(&other) {
        return Err(TAKEN);
    }
    let copy = match object {
        Object::List(v) => Object::List(v.clone_in(&a)),
        Object::Text(s) => Object::Text(StringBuilder::from_str_in(s.as_str(), a)),
        Object::Bits(b) => Object::Bits(b.clone_in(&a)),
        Object::Map(m) => Object::Map(m.clone_in(&a)),
        Object::Value(v) => Object::Value(Box::new_in(**v, &a)),
    };
    names.insert(other, copy);
    out.extend_from_slice(b"done\n");
    Ok(())
}

/// Runs scripts by turns on threads; each takes the next number, and an arena of the pool.
fn serve(scripts: &[Vec<Command>], workers: usize) -> Vec<Vec<u8>> {
    let pool = AllocatorPool::new(workers);
    let next = AtomicUsize::new(0);
    let outcomes: Vec<Mutex<Vec<u8>>> = scripts.iter().map(|_| Mutex::default()).collect();
    std::thread::scope(|scope| {
        for _ in 0..workers {
            scope.spawn(|| {
                loop {
                    let i = next.fetch_add(1, Ordering::Relaxed);
                    let Some(script) = scripts.get(i) else { break };
                    let guard = pool.get();
                    let mut out = format!("script {i}\n").into_bytes();
                    run(script, &guard, &mut out);
                    *outcomes[i].lock().unwrap() = out;
                }
            });
        }
    });
    outcomes
        .into_iter()
        .map(|m| m.into_inner().unwrap())
        .collect()
}

pub fn main(words: &[String]) -> i32 {
    let [workers] = words else { return 1 };
    let Some(workers) = number(workers.as_bytes(), 64).filter(|&n| n > 0) else {
        return 1;
    };
    let mut input = Vec::new();
    std::io::stdin().lock().read_to_end(&mut input).unwrap();
    if input.len() > 16_777_216 {
        return 6;
    }
    let scripts = match parse(&input) {
        Ok(scripts) => scripts,
        Err(line) => {
            eprintln!("line {line} is not understood");
            return 2;
        }
    };
    let mut text = Vec::new();
    for outcome in serve(&scripts, workers as usize) {
        text.extend_from_slice(&outcome);
    }
    std::io::stdout().lock().write_all(&text).unwrap();
    0
}
