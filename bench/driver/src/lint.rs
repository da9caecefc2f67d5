//! `native lint WORKERS`: sources split at lines `%%`, each parsed into a real arena of a
//! pool and walked, with its findings. The natural linter that a user of the crate writes.

use std::{
    hint::black_box,
    io::{Read, Write},
    sync::{
        Mutex,
        atomic::{AtomicUsize, Ordering},
    },
};

use oxc_allocator::{Allocator, AllocatorPool, Box, HashMap, HashSet, Vec as ArenaVec};

enum Expr<'a> {
    Num(#[allow(dead_code)] u64),
    Name(&'a str),
    Neg(Box<'a, Expr<'a>>),
    Sum(ArenaVec<'a, Expr<'a>>),
    Prod(ArenaVec<'a, Expr<'a>>),
}

enum Stmt<'a> {
    Let(&'a str, Expr<'a>),
    Show(Expr<'a>),
    Block(ArenaVec<'a, Stmt<'a>>),
}

#[derive(Clone, Copy, PartialEq)]
enum Token<'s> {
    Name(&'s str),
    Number(&'s str),
    Let,
    Sign(u8),
    Bad,
    End,
}

enum Refusal {
    Syntax(usize),
    TooDeep(usize),
    NumberTooBig(usize),
}

struct Parser<'a, 's> {
    a: &'a Allocator,
    src: &'s [u8],
    at: usize,
    next: usize,
    token: Token<'s>,
    nest: u32,
}

type Parsed<T> = Result<T, Refusal>;

impl<'a, 's> Parser<'a, 's> {
    fn new(a: &'a Allocator, src: &'s [u8]) -> Self {
        let mut p = Parser {
            a,
            src,
            at: 0,
            next: 0,
            token: Token::End,
            nest: 0,
        };
        p.advance();
        p
    }

    fn advance(&mut self) {
        let src = self.src;
        let mut i = self.next;
        while i < src.len() && matches!(src[i], b' ' | b'\n') {
            i += 1;
        }
        self.at = i;
        let run = |ok: fn(&u8) -> bool| src[i..].iter().take_while(|b| ok(b)).count();
        let (token, len) = match src.get(i) {
            None => (Token::End, 0),
            Some(b'a'..=b'z' | b'_') => {
                let n = run(|b| matches!(b, b'a'..=b'z' | b'0'..=b'9' | b'_'));
                let name = std::str::from_utf8(&src[i..i + n]).unwrap();
                (
                    if name == "let" {
                        Token::Let
                    } else {
                        Token::Name(name)
                    },
                    n,
                )
            }
            Some(b'0'..=b'9') => {
                let n = run(u8::is_ascii_digit);
                let digits = std::str::from_utf8(&src[i..i + n]).unwrap();
                (
                    if n > 1 && src[i] == b'0' {
                        Token::Bad
                    } else {
                        Token::Number(digits)
                    },
                    n,
                )
            }
            Some(&b) if b"+-*(){}=;".contains(&b) => (Token::Sign(b), 1),
            Some(_) => (Token::Bad, 1),
        };
        self.token = token;
        self.next = i + len;
    }

    fn syntax<T>(&self) -> Parsed<T> {
        Err(Refusal::Syntax(self.at))
    }

    fn expect(&mut self, sign: u8) -> Parsed<()> {
        if self.token != Token::Sign(sign) {
            return self.syntax();
        }
        self.advance();
        Ok(())
    }

    fn open(&mut self) -> Parsed<()> {
        if self.nest == 64 {
            return Err(Refusal::TooDeep(self.at));
        }
        self.nest += 1;
        self.advance();
        Ok(())
    }

    fn text(&self, name: &str) -> &'a str {
        self.a.alloc_str(name)
    }

    fn stmts(&mut self, inner: bool) -> Parsed<ArenaVec<'a, Stmt<'a>>> {
        let mut list = ArenaVec::new_in(&self.a);
        loop {
            match self.token {
                Token::End if !inner => return Ok(list),
                Token::Sign(b'}') if inner => return Ok(list),
                Token::Let => {
                    self.advance();
                    let Token::Name(name) = self.token else {
                        return self.syntax();
                    };
                    let name = self.text(name);
                    self.advance();
                    self.expect(b'=')?;
                    let e = self.expr()?;
                    self.expect(b';')?;
                    list.push(Stmt::Let(name, e));
                }
                Token::Sign(b'{') => {
                    self.open()?;
                    let kids = self.stmts(true)?;
                    self.nest -= 1;
                    self.advance();
                    list.push(Stmt::Block(kids));
                }
                _ => {
                    let e = self.expr()?;
                    self.expect(b';')?;
                    list.push(Stmt::Show(e));
                }
            }
        }
    }

    fn expr(&mut self) -> Parsed<Expr<'a>> {
        let first = self.term()?;
        if !matches!(self.token, Token::Sign(b'+' | b'-')) {
            return Ok(first);
        }
        let mut kids = ArenaVec::new_in(&self.a);
        kids.push(first);
        while let Token::Sign(sign @ (b'+' | b'-')) = self.token {
            self.advance();
            let t = self.term()?;
            kids.push(if sign == b'-' {
                Expr::Neg(Box::new_in(t, &self.a))
            } else {
                t
            });
        }
        Ok(Expr::Sum(kids))
    }

    fn term(&mut self) -> Parsed<Expr<'a>> {
        let first = self.factor()?;
        if self.token != Token::Sign(b'*') {
            return Ok(first);
        }
        let mut kids = ArenaVec::new_in(&self.a);
        kids.push(first);
        while self.token == Token::Sign(b'*') {
            self.advance();
            kids.push(self.factor()?);
        }
        Ok(Expr::Prod(kids))
    }

    fn factor(&mut self) -> Parsed<Expr<'a>> {
        match self.token {
            Token::Number(digits) => {
                let n = digits.parse().map_err(|_| Refusal::NumberTooBig(self.at))?;
                self.advance();
                Ok(Expr::Num(n))
            }
            Token::Name(name) => {
                let name = self.text(name);
                self.advance();
                Ok(Expr::Name(name))
            }
            Token::Sign(b'(') => {
                self.open()?;
                let e = self.expr()?;
                if self.token != Token::Sign(b')') {
                    return self.syntax();
                }
                self.nest -= 1;
                self.advance();
                Ok(e)
            }
            Token::Sign(b'-') => {
                self.open()?;
                let e = self.factor()?;
                self.nest -= 1;
                Ok(Expr::Neg(Box::new_in(e, &self.a)))
            }
            _ => self.syntax(),
        }
    }
}

/// How many statements the text has, parsed into the arena, if it is a program.
pub fn statements(a: &Allocator, src: &[u8]) -> Option<usize> {
    let stmts = black_box(Parser::new(a, src).stmts(false).ok()?);
    Some(stmts.len())
}

/// Names by number, and for each the depths at which it is declared, innermost last.
struct Walk<'a> {
    numbers: HashMap<'a, &'a str, u32>,
    scopes: ArenaVec<'a, HashSet<'a, u32>>,
    a: &'a Allocator,
    out: Vec<u8>,
}

impl<'a> Walk<'a> {
    fn number(&mut self, name: &'a str) -> u32 {
        let n = self.numbers.len() as u32;
        *self.numbers.entry(name).or_insert(n)
    }

    fn names(&mut self, e: &Expr<'a>) {
        match e {
            Expr::Num(_) => {}
            Expr::Name(name) => {
                let n = self.number(name);
                if !self.scopes.iter().any(|s| s.contains(&n)) {
                    writeln!(self.out, "undefined {name}").unwrap();
                }
            }
            Expr::Neg(e) => self.names(e),
            Expr::Sum(kids) | Expr::Prod(kids) => kids.iter().for_each(|e| self.names(e)),
        }
    }

    fn stmts(&mut self, list: &[Stmt<'a>]) {
        for stmt in list {
            match stmt {
                Stmt::Show(e) => self.names(e),
                Stmt::Let(name, e) => {
                    self.names(e);
                    let n = self.number(name);
                    let last = self.scopes.len() - 1;
                    if self.scopes[last].contains(&n) {
                        writeln!(self.out, "redefined {name}").unwrap();
                    } else {
                        if self.scopes[..last].iter().any(|s| s.contains(&n)) {
                            writeln!(self.out, "shadowed {name}").unwrap();
                        }
                        self.scopes[last].insert(n);
                    }
                }
                Stmt::Block(kids) => {
                    self.scopes.push(HashSet::new_in(self.a));
                    self.stmts(kids);
                    self.scopes.pop();
                }
            }
        }
    }
}

fn report(a: &Allocator, i: usize, src: &[u8]) -> Vec<u8> {
    let mut out = format!("source {i}\n").into_bytes();
    let mut p = Parser::new(a, src);
    match p.stmts(false) {
        Err(Refusal::Syntax(at)) => writeln!(out, "syntax error at {at}").unwrap(),
        Err(Refusal::TooDeep(at)) => writeln!(out, "too deep at {at}").unwrap(),
        Err(Refusal::NumberTooBig(at)) => writeln!(out, "number too big at {at}").unwrap(),
        Ok(stmts) => {
            let mut scopes = ArenaVec::new_in(&a);
            scopes.push(HashSet::new_in(a));
            let mut w = Walk {
                numbers: HashMap::new_in(a),
                scopes,
                a,
                out,
            };
            w.stmts(&stmts);
            out = w.out;
        }
    }
    out
}

/// The sources: the lines between lines that are exactly `%%`.
fn sources(input: &[u8]) -> Vec<&[u8]> {
    let mut list = Vec::new();
    let mut begin = 0;
    let mut at = 0;
    for line in input.split_inclusive(|&b| b == b'\n') {
        let end = at + line.len();
        if line == b"%%\n" || line == b"%%" {
            list.push(&input[begin..at]);
            begin = end;
        }
        at = end;
    }
    list.push(&input[begin..]);
    list
}

pub fn main(words: &[String]) -> i32 {
    let [workers] = words else { return 1 };
    let Some(workers) = workers.parse().ok().filter(|n| (1..=64usize).contains(n)) else {
        return 1;
    };
    let mut input = Vec::new();
    std::io::stdin().lock().read_to_end(&mut input).unwrap();
    if input.len() > 16_777_216 {
        return 6;
    }
    let sources = sources(&input);
    let pool = AllocatorPool::new(workers);
    let next = AtomicUsize::new(0);
    let reports: Vec<Mutex<Vec<u8>>> = sources.iter().map(|_| Mutex::default()).collect();
    std::thread::scope(|scope| {
        for _ in 0..workers {
            scope.spawn(|| {
                loop {
                    let i = next.fetch_add(1, Ordering::Relaxed);
                    let Some(src) = sources.get(i) else { break };
                    let guard = pool.get();
                    *reports[i].lock().unwrap() = report(&guard, i, src);
                }
            });
        }
    });
    let text: Vec<u8> = reports
        .into_iter()
        .flat_map(|m| m.into_inner().unwrap())
        .collect();
    std::io::stdout().lock().write_all(&text).unwrap();
    0
}
