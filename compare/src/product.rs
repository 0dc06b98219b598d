//! The proved library's side: every call goes through the C face, with buffers full of the pattern.

use reference::table::{Delay, Rule, Table};
use vedhrunak_period::face;

use crate::calls::{Call, FileCall};
use crate::outcome::{filled, pattern, seen, Outcome};

/// A table as the columns that are lent. The length of `source` is m.
pub struct Columns {
    n: usize,
    source: Vec<u16>,
    target: Vec<u16>,
    offset: Vec<u16>,
    delay: Vec<u32>,
    known: Vec<u8>,
}

/// More rules than any table: an m above this is handed in as this many.
const MOST_HANDED: u32 = 70_000;

impl Columns {
    /// The columns of a table, which may be faulty. Where nothing may be looked at there is rubbish: the delay
    /// beside an unknown, and the places after the last rule in all columns but `source`.
    pub fn of(table: &Table) -> Columns {
        let m = table.m.min(MOST_HANDED) as usize;
        let mut columns = Columns {
            n: table.n as usize,
            source: Vec::new(),
            target: Vec::new(),
            offset: Vec::new(),
            delay: Vec::new(),
            known: Vec::new(),
        };
        for r in 0..m {
            columns.push(r, table.rule(r));
        }
        columns.rubbish_after(m);
        columns
    }

    fn push(&mut self, r: usize, rule: Rule) {
        self.source.push(rule.source as u16);
        self.target.push(rule.target as u16);
        self.offset.push(rule.offset as u16);
        match rule.delay {
            Delay::Unknown => {
                self.delay.push(pattern(r) as u32);
                self.known.push(0);
            }
            Delay::Known(delay) => {
                self.delay.push(delay);
                // Every value but 0 says known.
                self.known.push(if r % 5 == 0 { 255 } else { 1 });
            }
        }
    }

    fn rubbish_after(&mut self, m: usize) {
        self.target.resize(m + m % 3, u16::MAX);
        self.offset.resize(m + m % 2, u16::MAX);
        self.delay.resize(m + m % 5, u32::MAX);
        self.known.resize(m + m % 4, u8::MAX);
    }

    /// One column shorter than `source`: 0 target, 1 offset, 2 delay, 3 known.
    pub fn shorten(&mut self, column: usize) {
        let short = self.source.len() - 1;
        match column {
            0 => self.target.truncate(short),
            1 => self.offset.truncate(short),
            2 => self.delay.truncate(short),
            _ => self.known.truncate(short),
        }
    }
}

/// Calls with the columns first and the rest after them.
macro_rules! with_columns {
    ($call:ident, $columns:expr $(, $rest:expr)*) => {
        // SAFETY: each pointer stands beside the length of the vector it came from.
        unsafe {
            face::$call(
                $columns.n,
                $columns.source.as_ptr(),
                $columns.source.len(),
                $columns.target.as_ptr(),
                $columns.target.len(),
                $columns.offset.as_ptr(),
                $columns.offset.len(),
                $columns.delay.as_ptr(),
                $columns.delay.len(),
                $columns.known.as_ptr(),
                $columns.known.len()
                $(, $rest)*
            )
        }
    };
}

pub fn call(columns: &Columns, call: Call) -> Outcome {
    match call {
        Call::Analyse(room) => analyse(columns, room),
        Call::Rate(v) => rate(columns, v),
        Call::Simulate(occurrences, room) => simulate(columns, occurrences, room),
        Call::Write(room) => write(columns, room),
    }
}

pub fn file_call(bytes: &[u8], call: FileCall) -> Outcome {
    match call {
        FileCall::Read(room) => read(bytes, room),
        FileCall::Analyse(room) => file_analyse(bytes, room),
        FileCall::Rate(v) => file_rate(bytes, v),
        FileCall::Simulate(occurrences, room) => file_simulate(bytes, occurrences, room),
        FileCall::Report(room) => report(bytes, room),
        FileCall::Number(low, high) => number(bytes, low, high),
    }
}

fn analysis_numbers(r: face::PeriodAnalysis) -> Vec<u64> {
    vec![
        r.refusal as u64,
        r.exact as u64,
        r.place as u64,
        r.low_p,
        r.low_q,
        r.low_len as u64,
        r.high_p,
        r.high_q,
        r.high_len as u64,
    ]
}

fn rate_numbers(r: face::PeriodRate) -> Vec<u64> {
    vec![
        r.refusal as u64,
        r.exact as u64,
        r.place as u64,
        r.low_p,
        r.low_q,
        r.high_p,
        r.high_q,
    ]
}

pub fn analyse(c: &Columns, room: [usize; 3]) -> Outcome {
    let mut schedule = filled::<u64>(room[0]);
    let mut low = filled::<u32>(room[1]);
    let mut high = filled::<u32>(room[2]);
    let r = with_columns!(
        period_analyse,
        c,
        schedule.as_mut_ptr(),
        schedule.len(),
        low.as_mut_ptr(),
        low.len(),
        high.as_mut_ptr(),
        high.len()
    );
    Outcome {
        numbers: analysis_numbers(r),
        buffers: vec![seen(&schedule), seen(&low), seen(&high)],
    }
}

pub fn file_analyse(bytes: &[u8], room: [usize; 3]) -> Outcome {
    let mut schedule = filled::<u64>(room[0]);
    let mut low = filled::<u32>(room[1]);
    let mut high = filled::<u32>(room[2]);
    // SAFETY: each pointer stands beside the length of the slice it came from.
    let r = unsafe {
        face::period_file_analyse(
            bytes.as_ptr(),
            bytes.len(),
            schedule.as_mut_ptr(),
            schedule.len(),
            low.as_mut_ptr(),
            low.len(),
            high.as_mut_ptr(),
            high.len(),
        )
    };
    Outcome {
        numbers: analysis_numbers(r),
        buffers: vec![seen(&schedule), seen(&low), seen(&high)],
    }
}

pub fn rate(c: &Columns, v: usize) -> Outcome {
    Outcome {
        numbers: rate_numbers(with_columns!(period_rate, c, v)),
        buffers: vec![],
    }
}

pub fn file_rate(bytes: &[u8], v: usize) -> Outcome {
    // SAFETY: the pointer stands beside the length of the slice it came from.
    let r = unsafe { face::period_file_rate(bytes.as_ptr(), bytes.len(), v) };
    Outcome {
        numbers: rate_numbers(r),
        buffers: vec![],
    }
}

pub fn simulate(c: &Columns, occurrences: usize, room: usize) -> Outcome {
    let mut times = filled::<u64>(room);
    let r = with_columns!(
        period_simulate,
        c,
        occurrences,
        times.as_mut_ptr(),
        times.len()
    );
    Outcome {
        numbers: vec![r.refusal as u64, r.place as u64],
        buffers: vec![times],
    }
}

pub fn file_simulate(bytes: &[u8], occurrences: usize, room: usize) -> Outcome {
    let mut times = filled::<u64>(room);
    // SAFETY: each pointer stands beside the length of the slice it came from.
    let r = unsafe {
        face::period_file_simulate(
            bytes.as_ptr(),
            bytes.len(),
            occurrences,
            times.as_mut_ptr(),
            times.len(),
        )
    };
    Outcome {
        numbers: vec![r.refusal as u64, r.place as u64],
        buffers: vec![times],
    }
}

pub fn write(c: &Columns, room: usize) -> Outcome {
    let mut out = filled::<u8>(room);
    let r = with_columns!(period_write, c, out.as_mut_ptr(), out.len());
    Outcome {
        numbers: vec![r.refusal as u64, r.place as u64, r.count as u64],
        buffers: vec![seen(&out)],
    }
}

fn report(bytes: &[u8], room: usize) -> Outcome {
    let mut out = filled::<u8>(room);
    // SAFETY: each pointer stands beside the length of the slice it came from.
    let r =
        unsafe { face::period_report(bytes.as_ptr(), bytes.len(), out.as_mut_ptr(), out.len()) };
    Outcome {
        numbers: vec![r.refusal as u64, r.place as u64, r.count as u64],
        buffers: vec![seen(&out)],
    }
}

pub fn read(bytes: &[u8], room: [usize; 5]) -> Outcome {
    let mut source = filled::<u16>(room[0]);
    let mut target = filled::<u16>(room[1]);
    let mut offset = filled::<u16>(room[2]);
    let mut delay = filled::<u32>(room[3]);
    let mut known = filled::<u8>(room[4]);
    // SAFETY: each pointer stands beside the length of the slice it came from.
    let r = unsafe {
        face::period_read(
            bytes.as_ptr(),
            bytes.len(),
            source.as_mut_ptr(),
            source.len(),
            target.as_mut_ptr(),
            target.len(),
            offset.as_mut_ptr(),
            offset.len(),
            delay.as_mut_ptr(),
            delay.len(),
            known.as_mut_ptr(),
            known.len(),
        )
    };
    Outcome {
        numbers: vec![r.refusal as u64, r.place as u64, r.n as u64, r.m as u64],
        buffers: vec![
            seen(&source),
            seen(&target),
            seen(&offset),
            seen(&delay),
            seen(&known),
        ],
    }
}

pub fn number(bytes: &[u8], low: u32, high: u32) -> Outcome {
    // SAFETY: the pointer stands beside the length of the slice it came from.
    let r = unsafe { face::period_number(bytes.as_ptr(), bytes.len(), low, high) };
    Outcome {
        numbers: vec![
            r.refusal as u64,
            r.value as u64,
            r.place as u64,
            r.rest as u64,
        ],
        buffers: vec![],
    }
}

pub fn bids(files: [&[u8]; 2]) -> Outcome {
    let [first, second] = files;
    // SAFETY: each pointer stands beside the length of the slice it came from.
    let r =
        unsafe { face::period_bids(first.as_ptr(), first.len(), second.as_ptr(), second.len()) };
    Outcome {
        numbers: vec![
            r.refusal as u64,
            r.which as u64,
            r.place as u64,
            r.length as u64,
        ],
        buffers: vec![],
    }
}
