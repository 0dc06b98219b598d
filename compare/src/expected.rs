//! The second program's side: what each call must leave behind.

use std::cell::RefCell;

use reference::analyse::{analyse, analyse_by, range_by, Analysis, Range, Room, EXACT, LISTING};
use reference::bids;
use reference::file;
use reference::gen::Size;
use reference::rate::{listed_rate, rate};
use reference::refusal::{demand, refusal, Refusal, ROOM};
use reference::report::report;
use reference::simulate::simulate;
use reference::table::{Delay, Table};

use crate::calls::{Call, FileCall};
use crate::outcome::{wanted, Outcome};

/// Whether a table has so few transitions and rules that every loop is listed.
fn listed(table: &Table) -> bool {
    table.n <= Size::SMALL.n && table.m <= Size::SMALL.m
}

/// A table with its analysis, worked out once.
pub struct Second<'a> {
    table: &'a Table,
    analysis: RefCell<Option<Result<Analysis, Refusal>>>,
}

impl<'a> Second<'a> {
    pub fn new(table: &'a Table) -> Second<'a> {
        let analysis = RefCell::new(None);
        Second { table, analysis }
    }

    pub fn call(&self, call: Call) -> Outcome {
        match call {
            Call::Analyse(room) => analysis_outcome(self.analyse(room), room),
            Call::Rate(v) => rate_outcome(match listed(self.table) {
                true => listed_rate(self.table, v as u64),
                false => rate(self.table, v as u64),
            }),
            Call::Simulate(occurrences, room) => {
                times_outcome(simulate(self.table, occurrences as u64, room), room)
            }
            Call::Write(room) => bytes_outcome(file::write_into(self.table, room), room),
        }
    }

    /// With room enough the answer does not depend on the room.
    fn analyse(&self, room: [usize; 3]) -> Result<Analysis, Refusal> {
        let lent = Room {
            schedule: room[0],
            low_loop: room[1],
            high_loop: room[2],
        };
        if room.iter().any(|&length| length < self.table.n as usize) {
            return analyse(self.table, lent);
        }
        let way = || match listed(self.table) {
            true => analyse_by(&LISTING, self.table, lent),
            false => analyse(self.table, lent),
        };
        self.analysis.borrow_mut().get_or_insert_with(way).clone()
    }
}

/// What a call must leave behind where a column is shorter than `source`: nothing else is looked at.
pub fn short_columns(table: &Table, call: Call) -> Outcome {
    let short = refusal(ROOM, table.m as usize);
    match call {
        Call::Analyse(room) => analysis_outcome(Err(short), room),
        Call::Rate(_) => rate_outcome(Err(short)),
        Call::Simulate(_, room) => times_outcome(Err(short), room),
        Call::Write(room) => bytes_outcome(Err(short), room),
    }
}

/// A file with the table read from it, whose analysis is worked out once.
pub fn file_call(bytes: &[u8], second: &Result<Second, Refusal>, call: FileCall) -> Outcome {
    let on_table = |call: Call, refused: fn(Refusal, Call) -> Outcome| match second {
        Ok(second) => second.call(call),
        Err(fault) => refused(*fault, call),
    };
    match call {
        FileCall::Read(room) => read_outcome(bytes, room),
        FileCall::Analyse(room) => on_table(Call::Analyse(room), refused_call),
        FileCall::Rate(v) => on_table(Call::Rate(v), refused_call),
        FileCall::Simulate(occurrences, room) => {
            on_table(Call::Simulate(occurrences, room), refused_call)
        }
        FileCall::Report(room) => {
            let text = report(bytes).into_bytes();
            let enough = demand(text.len() <= room, ROOM, text.len());
            bytes_outcome(enough.map(|()| text), room)
        }
        FileCall::Number(low, high) => number_outcome(bytes, low, high),
    }
}

fn refused_call(fault: Refusal, call: Call) -> Outcome {
    match call {
        Call::Analyse(room) => analysis_outcome(Err(fault), room),
        Call::Rate(_) => rate_outcome(Err(fault)),
        Call::Simulate(_, room) => times_outcome(Err(fault), room),
        Call::Write(room) => bytes_outcome(Err(fault), room),
    }
}

fn analysis_outcome(answer: Result<Analysis, Refusal>, room: [usize; 3]) -> Outcome {
    let (numbers, lists) = match answer {
        Err(fault) => (
            vec![fault.number as u64, 0, fault.place, 0, 0, 0, 0, 0, 0],
            [vec![], vec![], vec![]],
        ),
        Ok(found) => (found_numbers(&found), found_lists(&found)),
    };
    Outcome {
        numbers,
        buffers: vec![
            wanted::<u64>(room[0], &lists[0]),
            wanted::<u32>(room[1], &lists[1]),
            wanted::<u32>(room[2], &lists[2]),
        ],
    }
}

fn found_numbers(found: &Analysis) -> Vec<u64> {
    let Range { low, high } = found.range;
    vec![
        0,
        found.range.exact() as u64,
        0,
        low.p,
        low.q,
        found.low_loop.len() as u64,
        high.p,
        high.q,
        found.high_loop.len() as u64,
    ]
}

fn found_lists(found: &Analysis) -> [Vec<u64>; 3] {
    let numbers = |walk: &[usize]| walk.iter().map(|&r| r as u64).collect();
    [
        found.schedule.clone(),
        numbers(&found.low_loop),
        numbers(&found.high_loop),
    ]
}

fn rate_outcome(answer: Result<Range, Refusal>) -> Outcome {
    let numbers = match answer {
        Err(fault) => vec![fault.number as u64, 0, fault.place, 0, 0, 0, 0],
        Ok(range) => {
            let Range { low, high } = range;
            vec![0, range.exact() as u64, 0, low.p, low.q, high.p, high.q]
        }
    };
    Outcome {
        numbers,
        buffers: vec![],
    }
}

fn times_outcome(answer: Result<Vec<u64>, Refusal>, room: usize) -> Outcome {
    let (number, place, times) = split(answer);
    Outcome {
        numbers: vec![number, place],
        buffers: vec![wanted::<u64>(room, &times)],
    }
}

fn bytes_outcome(answer: Result<Vec<u8>, Refusal>, room: usize) -> Outcome {
    let (number, place, bytes) = split(answer);
    let bytes: Vec<u64> = bytes.into_iter().map(u64::from).collect();
    Outcome {
        numbers: vec![number, place, bytes.len() as u64],
        buffers: vec![wanted::<u8>(room, &bytes)],
    }
}

fn split<T>(answer: Result<Vec<T>, Refusal>) -> (u64, u64, Vec<T>) {
    match answer {
        Err(fault) => (fault.number as u64, fault.place, vec![]),
        Ok(values) => (0, 0, values),
    }
}

fn read_outcome(bytes: &[u8], room: [usize; 5]) -> Outcome {
    let answer = file::read(bytes).and_then(|table| {
        let m = table.m as usize;
        let enough = room.iter().all(|&length| length >= m);
        demand(enough, ROOM, m).map(|()| table)
    });
    let (numbers, table) = match answer {
        Err(fault) => (vec![fault.number as u64, fault.place, 0, 0], Table::empty()),
        Ok(table) => (vec![0, 0, table.n as u64, table.m as u64], table),
    };
    let columns = columns_read(&table);
    Outcome {
        numbers,
        buffers: vec![
            wanted::<u16>(room[0], &columns[0]),
            wanted::<u16>(room[1], &columns[1]),
            wanted::<u16>(room[2], &columns[2]),
            wanted::<u32>(room[3], &columns[3]),
            wanted::<u8>(room[4], &columns[4]),
        ],
    }
}

/// An unknown delay is read as known 0 and delay 0.
fn columns_read(table: &Table) -> [Vec<u64>; 5] {
    let mut columns: [Vec<u64>; 5] = Default::default();
    for rule in table.used() {
        let (delay, known) = match rule.delay {
            Delay::Unknown => (0, 0),
            Delay::Known(delay) => (delay as u64, 1),
        };
        columns[0].push(rule.source as u64);
        columns[1].push(rule.target as u64);
        columns[2].push(rule.offset as u64);
        columns[3].push(delay);
        columns[4].push(known);
    }
    columns
}

fn number_outcome(bytes: &[u8], low: u32, high: u32) -> Outcome {
    let numbers = match file::read_number(bytes, low, high) {
        Err(fault) => vec![fault.number as u64, 0, fault.place, 0],
        Ok((value, rest)) => vec![0, value as u64, 0, rest.len() as u64],
    };
    Outcome {
        numbers,
        buffers: vec![],
    }
}

/// What is known of a bid, by listing every loop where the table is small.
pub fn ends(bytes: &[u8]) -> Result<Range, Refusal> {
    let table = file::read(bytes)?;
    let way = if listed(&table) { &LISTING } else { &EXACT };
    range_by(way, &table)
}

/// Which of two files is the better, of which this is known, and how long it is.
pub fn bids(files: [&[u8]; 2], known: [Result<Range, Refusal>; 2]) -> Outcome {
    let numbers = match bids::choice(known[0], known[1]) {
        Err(fault) => vec![fault.number as u64, 0, fault.place, 0],
        Ok(which) => vec![0, which as u64, 0, files[which].len() as u64],
    };
    Outcome {
        numbers,
        buffers: vec![],
    }
}
