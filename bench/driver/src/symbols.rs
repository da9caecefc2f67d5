//! Timed loops over interners and scopes, as a user of the crate would write them over its maps and vectors.

use std::hint::black_box;

use oxc_allocator::{Allocator, HashMap, Vec as ArenaVec};

use crate::bench::{key, timed};

/// Texts with a number each: its place among them.
struct Symbols<'a> {
    numbers: HashMap<'a, &'a str, u32>,
    texts: ArenaVec<'a, &'a str>,
}

impl<'a> Symbols<'a> {
    fn new_in(allocator: &'a Allocator) -> Symbols<'a> {
        Symbols {
            numbers: HashMap::new_in(&allocator),
            texts: ArenaVec::new_in(&allocator),
        }
    }

    fn intern(&mut self, allocator: &'a Allocator, text: &str) -> u32 {
        if let Some(&id) = self.numbers.get(text) {
            return id;
        }
        let text = allocator.alloc_str(text);
        let id = self.texts.len() as u32;
        self.texts.push(text);
        self.numbers.insert(text, id);
        id
    }
}

/// Maps from ids to values, one in another: one map of the newest pairs, and one list of what each hid.
struct Scopes<'a> {
    newest: HashMap<'a, u32, u32>,
    pairs: ArenaVec<'a, (u32, u32, Option<u32>)>,
    starts: ArenaVec<'a, u32>,
}

impl<'a> Scopes<'a> {
    fn new_in(allocator: &'a Allocator) -> Scopes<'a> {
        Scopes {
            newest: HashMap::new_in(&allocator),
            pairs: ArenaVec::new_in(&allocator),
            starts: ArenaVec::new_in(&allocator),
        }
    }

    fn enter(&mut self) {
        self.starts.push(self.pairs.len() as u32);
    }

    fn define(&mut self, id: u32, value: u32) -> bool {
        let hidden = self.newest.get(&id).copied();
        let start = self.starts.last().copied().unwrap_or(0);
        if hidden.is_some_and(|at| at >= start) {
            return false;
        }
        let at = self.pairs.len() as u32;
        self.pairs.push((id, value, hidden));
        self.newest.insert(id, at);
        true
    }

    fn lookup(&self, id: u32) -> Option<u32> {
        self.newest.get(&id).map(|&at| self.pairs[at as usize].1)
    }

    fn leave(&mut self) -> bool {
        let Some(start) = self.starts.pop() else {
            return false;
        };
        while self.pairs.len() > start as usize {
            let Some((id, _, hidden)) = self.pairs.pop() else {
                break;
            };
            match hidden {
                Some(at) => self.newest.insert(id, at),
                None => self.newest.remove(&id),
            };
        }
        true
    }
}

fn texts(ops: u64) -> Vec<String> {
    (0..ops).map(|i| format!("name {}", key(i))).collect()
}

fn interned<'a>(allocator: &'a Allocator, symbols: &mut Symbols<'a>, texts: &[String]) -> u64 {
    texts
        .iter()
        .map(|text| u64::from(symbols.intern(allocator, text)))
        .sum()
}

pub fn intern_new(ops: u64) -> (u64, u64) {
    let (texts, allocator) = (texts(ops), Allocator::new());
    let mut symbols = Symbols::new_in(&allocator);
    timed(|| interned(&allocator, &mut symbols, &texts))
}

pub fn intern_known(ops: u64) -> (u64, u64) {
    let (texts, allocator) = (texts(ops), Allocator::new());
    let mut symbols = Symbols::new_in(&allocator);
    interned(&allocator, &mut symbols, &texts);
    timed(|| interned(&allocator, &mut symbols, &texts))
}

fn defined(allocator: &Allocator, ops: u64) -> Scopes<'_> {
    let mut scopes = Scopes::new_in(allocator);
    for i in 0..ops {
        scopes.define(key(i), i as u32);
    }
    black_box(&mut scopes);
    scopes
}

pub fn scope_define(ops: u64) -> (u64, u64) {
    let allocator = Allocator::new();
    let (ns, scopes) = timed(|| defined(&allocator, ops));
    (ns, scopes.pairs.len() as u64)
}

pub fn scope_lookup(ops: u64) -> (u64, u64) {
    let allocator = Allocator::new();
    let scopes = defined(&allocator, ops);
    timed(|| {
        // Every second id is there.
        (0..ops)
            .filter_map(|i| scopes.lookup(key(i * 2)))
            .map(u64::from)
            .sum()
    })
}

pub fn scope_enter(ops: u64) -> (u64, u64) {
    const FEW: u64 = 4;
    let allocator = Allocator::new();
    let mut scopes = defined(&allocator, FEW);
    timed(|| {
        let mut sum = 0;
        for i in 0..ops {
            scopes.enter();
            for k in 0..FEW {
                scopes.define(key(k), i as u32);
            }
            sum += scopes.pairs.len() as u64;
            scopes.leave();
        }
        sum
    })
}
