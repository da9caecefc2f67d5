//! Bytes as lines of calls, with the limits of a source.

use std::io::Write;

/// Lines of calls, and what a source may grant.
pub struct Case {
    pub lines: Vec<u8>,
    /// How many bytes all chunks have at most.
    pub budget: u64,
    /// The numbers of the requests that are refused, from 1.
    pub refuse: Vec<u64>,
}

// The bytes that are left.
struct Bytes<'a>(&'a [u8]);

impl Bytes<'_> {
    fn byte(&mut self) -> Option<u8> {
        let (&first, rest) = self.0.split_first()?;
        self.0 = rest;
        Some(first)
    }

    fn small(&mut self) -> u64 {
        self.byte().unwrap_or(0).into()
    }

    fn pair(&mut self) -> u64 {
        self.small() << 8 | self.small()
    }

    // A size: often small, and else near one at which something changes.
    fn size(&mut self) -> u64 {
        let class = self.small();
        match class % 16 {
            0..=5 => class / 16 + 16 * (class % 6),
            6 | 7 => self.small(),
            8 => self.pair(),
            9 => 16_320 + class / 16 - 8,
            10 => (16_320u64 << (class / 16 % 4)) + self.small() - 128,
            11 => (1u64 << (class / 16 % 16 + 4)) + self.small() - 8,
            12 => (1u64 << (self.small() % 64))
                .wrapping_add(self.small())
                .wrapping_sub(64),
            13 => (1u64 << 63).wrapping_sub(self.small()),
            14 => self.pair() * 16,
            _ => 0,
        }
    }

    // An alignment: often a small power of two, and else a large one or a number that is none.
    fn align(&mut self) -> u64 {
        let class = self.small();
        match class % 16 {
            0..=10 => 1 << (class % 11 % 5),
            11 | 12 => 1 << (class / 16),
            13 => 1 << (class / 16 + 8),
            14 => class,
            _ => 1u64 << (self.small() % 64),
        }
    }
}

const BUDGETS: [u64; 8] = [4 << 20, 0, 16_320, 20_000, 33_000, 70_000, 300_000, 1 << 20];

/// Makes lines of these bytes.
pub fn case(data: &[u8]) -> Case {
    let mut from = Bytes(data);
    let budget = BUDGETS[from.small() as usize % 8];
    let listed = from.small();
    let refuse = (0..8)
        .filter(|i| listed >> i & 1 == 1)
        .map(|i| i + 1)
        .collect();
    let mut lines = Vec::new();
    while let Some(op) = from.byte() {
        from.put_line(op, &mut lines).expect("a vector takes all");
    }
    Case {
        lines,
        budget,
        refuse,
    }
}

impl Bytes<'_> {
    // Writes a line of one of eight names.
    fn put_line(&mut self, op: u8, lines: &mut Vec<u8>) -> std::io::Result<()> {
        let name = op >> 4 & 7;
        match op & 15 {
            0..=4 => {
                let (size, align, fill) = (self.size(), self.align(), self.small());
                writeln!(lines, "alloc {name} {size} {align} {fill}")
            }
            5 | 6 | 15 => {
                let (size, align, fill) = (self.size(), self.align(), self.small());
                writeln!(lines, "grow {name} {size} {align} {fill}")
            }
            7 | 8 => {
                let (size, align) = (self.size(), self.align());
                writeln!(lines, "shrink {name} {size} {align}")
            }
            9 => writeln!(lines, "dealloc {name}"),
            10 => {
                let (at, count) = (self.size(), self.small() % 9);
                self.put_write(name, at, count, lines)
            }
            12 => self.put_other(op >> 4, lines),
            13 => writeln!(lines, "reset"),
            _ => writeln!(lines, "read {name}"),
        }
    }

    fn put_write(
        &mut self,
        name: u8,
        at: u64,
        count: u64,
        lines: &mut Vec<u8>,
    ) -> std::io::Result<()> {
        write!(lines, "write {name} {at} ")?;
        if count == 0 {
            write!(lines, "-")?;
        }
        for _ in 0..count {
            write!(lines, "{:02x}", self.small())?;
        }
        writeln!(lines)
    }

    fn put_other(&mut self, kind: u8, lines: &mut Vec<u8>) -> std::io::Result<()> {
        match kind {
            4..=7 => writeln!(lines, "allocated"),
            8 => writeln!(lines, "reset"),
            9 => writeln!(lines),
            // A line that may be no call: the next bytes as they are.
            10 => {
                let count = (self.small() % 24) as usize;
                let (raw, rest) = self.0.split_at(count.min(self.0.len()));
                lines.extend_from_slice(raw);
                self.0 = rest;
                writeln!(lines)
            }
            _ => writeln!(lines, "used"),
        }
    }
}
