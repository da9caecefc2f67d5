//! Runs of calls over the proved arena.

use std::fmt;

#[repr(C)]
#[derive(Clone, Copy, Default)]
struct Report {
    length: u64,
    line: u64,
    refused: u64,
}

// As in bindings/c/arena_oracle.h.
unsafe extern "C" {
    fn arena_oracle_calls(
        lines: *const u8,
        lines_len: usize,
        budget: u64,
        refuse: *const u64,
        refuse_len: usize,
        out: *mut u8,
        out_len: usize,
        report: *mut Report,
    ) -> u32;
    fn arena_oracle_gen(
        start: u64,
        count: u64,
        budget: u64,
        refuse: *const u64,
        refuse_len: usize,
        out: *mut u8,
        out_len: usize,
        report: *mut Report,
    ) -> u32;
    fn arena_oracle_draw(
        lines: *const u8,
        lines_len: usize,
        budget: u64,
        refuse: *const u64,
        refuse_len: usize,
        out: *mut u8,
        out_len: usize,
        report: *mut Report,
    ) -> u32;
}

type OverLines = unsafe extern "C" fn(
    *const u8,
    usize,
    u64,
    *const u64,
    usize,
    *mut u8,
    usize,
    *mut Report,
) -> u32;

/// Why a run returns no text.
#[derive(Clone, Copy, Debug, PartialEq, Eq)]
pub enum RunError {
    /// This line, counted from 1, is the first that isn't a call. Nothing was run.
    BadLine(u64),
    /// Out of memory, also for a chunk within the limits.
    OutOfMemory,
    /// There are more than 16,777,216 bytes of lines.
    InputTooLong,
}

impl fmt::Display for RunError {
    fn fmt(&self, f: &mut fmt::Formatter<'_>) -> fmt::Result {
        match self {
            RunError::BadLine(n) => write!(f, "line {n} is not understood"),
            RunError::OutOfMemory => f.write_str("out of memory"),
            RunError::InputTooLong => f.write_str("the input has more than 16777216 bytes"),
        }
    }
}

impl std::error::Error for RunError {}

/// Which requests for chunks are granted.
#[derive(Clone, Debug)]
pub struct Limits {
    /// The most bytes that all chunks have together.
    pub budget: u64,
    /// The numbers of the requests that are refused, from 1.
    pub refuse: Vec<u64>,
}

impl Default for Limits {
    /// The limits of the program: 1 GiB, and no request is refused.
    fn default() -> Limits {
        Limits {
            budget: 1 << 30,
            refuse: Vec::new(),
        }
    }
}

/// Runs calls, each time over a new arena. It keeps its buffer for the next run.
///
/// ```
/// use arena_bindings::{Limits, Oracle};
///
/// let mut oracle = Oracle::default();
/// let text = oracle.calls(b"alloc 0 5 1 104\nread 0\n", &Limits::default());
/// assert_eq!(text, Ok(&b"placed 20411 refused 0\nbytes 6868686868\n"[..]));
/// ```
#[derive(Default)]
pub struct Oracle {
    out: Vec<u8>,
    /// How many requests for chunks were refused in the last run: those that the limits refuse, if it returned a text.
    pub refused: u64,
}

impl Oracle {
    fn run(
        &mut self,
        call: impl Fn(*mut u8, usize, &mut Report) -> u32,
    ) -> Result<&[u8], RunError> {
        if self.out.is_empty() {
            self.out.resize(1 << 16, 0);
        }
        loop {
            let mut report = Report::default();
            let code = call(self.out.as_mut_ptr(), self.out.len(), &mut report);
            self.refused = report.refused;
            return match code {
                0 => Ok(&self.out[..report.length as usize]),
                2 => Err(RunError::BadLine(report.line)),
                6 => Err(RunError::InputTooLong),
                7 => {
                    self.out.resize(report.length as usize, 0);
                    continue;
                }
                _ => Err(RunError::OutOfMemory),
            };
        }
    }

    fn over_lines(
        &mut self,
        by: OverLines,
        lines: &[u8],
        limits: &Limits,
    ) -> Result<&[u8], RunError> {
        let (budget, list) = (limits.budget, &limits.refuse);
        // SAFETY: each pointer and length are those of one slice, and `out` and `report` are borrowed for this call alone.
        self.run(|out, len, report| unsafe {
            by(
                lines.as_ptr(),
                lines.len(),
                budget,
                list.as_ptr(),
                list.len(),
                out,
                len,
                report,
            )
        })
    }

    /// Returns the replies to lines of calls.
    ///
    /// ```
    /// use arena_bindings::{Limits, Oracle};
    ///
    /// let mut oracle = Oracle::default();
    /// let limits = Limits { refuse: vec![1], ..Limits::default() };
    /// let text = oracle.calls(b"alloc 0 5 1 104\n", &limits);
    /// assert_eq!(text, Ok(&b"allocerr refused 1\n"[..]));
    /// assert_eq!(oracle.refused, 1);
    /// ```
    pub fn calls(&mut self, lines: &[u8], limits: &Limits) -> Result<&[u8], RunError> {
        self.over_lines(arena_oracle_calls, lines, limits)
    }

    /// Returns a picture of the arena after lines of calls, as SVG.
    ///
    /// ```
    /// use arena_bindings::{Limits, Oracle};
    ///
    /// let mut oracle = Oracle::default();
    /// let picture = oracle.draw(b"alloc 0 5 1 104\n", &Limits::default());
    /// assert!(picture.unwrap().starts_with(b"<svg"));
    /// ```
    pub fn draw(&mut self, lines: &[u8], limits: &Limits) -> Result<&[u8], RunError> {
        self.over_lines(arena_oracle_draw, lines, limits)
    }

    /// Returns the summary of `count` pseudo-random calls, generated from `start`.
    ///
    /// ```
    /// use arena_bindings::{Limits, Oracle};
    ///
    /// let mut oracle = Oracle::default();
    /// let summary = oracle.generate(1, 1000, &Limits::default());
    /// assert!(summary.is_ok_and(|text| !text.is_empty()));
    /// ```
    pub fn generate(&mut self, start: u64, count: u64, limits: &Limits) -> Result<&[u8], RunError> {
        let (budget, list) = (limits.budget, &limits.refuse);
        // SAFETY: as above.
        self.run(|out, len, report| unsafe {
            arena_oracle_gen(
                start,
                count,
                budget,
                list.as_ptr(),
                list.len(),
                out,
                len,
                report,
            )
        })
    }
}
