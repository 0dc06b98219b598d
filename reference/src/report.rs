//! The texts that the programs `report` and `rate` print.

use std::fmt::Display;

use crate::analyse::{analyse, Analysis, Range, Room};
use crate::file;
use crate::rate::rate;
use crate::refusal::Refusal;
use crate::table::Table;

/// One byte more than the longest valid file is enough to refuse a longer one.
pub const BYTES_READ: usize = Table::LONGEST_FILE + 1;

/// The whole output for a file's bytes.
pub fn report(bytes: &[u8]) -> String {
    let first = &bytes[..bytes.len().min(BYTES_READ)];
    match file::read(first).and_then(|table| analyse(&table, Room::each(table.n as usize))) {
        Ok(analysis) => answer(&analysis),
        Err(fault) => refused(fault),
    }
}

/// What `rate` prints for one transition of a file.
pub fn rate_line(bytes: &[u8], transition: u64) -> String {
    let first = &bytes[..bytes.len().min(BYTES_READ)];
    let range = file::read(first).and_then(|table| rate(&table, transition));
    rate_words(&range) + "\n"
}

/// What it prints for all of them: a line for those that share a rate, in the
/// order of the lowest transition of each.
pub fn rate_lines(bytes: &[u8]) -> String {
    let first = &bytes[..bytes.len().min(BYTES_READ)];
    let table = match file::read(first) {
        Ok(table) => table,
        Err(fault) => return refused(fault),
    };
    let mut lines: Vec<(String, Vec<u64>)> = Vec::new();
    for v in 0..table.n as u64 {
        let words = rate_words(&rate(&table, v));
        match lines.iter_mut().find(|(known, _)| *known == words) {
            Some((_, shared)) => shared.push(v),
            None => lines.push((words, vec![v])),
        }
    }
    let text = lines
        .iter()
        .map(|(words, shared)| line(&format!("{words} of"), shared));
    text.collect()
}

fn rate_words(range: &Result<Range, Refusal>) -> String {
    match range {
        Err(fault) => refused(*fault).trim_end().to_string(),
        Ok(range) => period_line(range).trim_end().replace("period", "rate"),
    }
}

pub fn refused(fault: Refusal) -> String {
    format!("refused {} at {}\n", fault.number, fault.place)
}

fn answer(analysis: &Analysis) -> String {
    let mut text = period_line(&analysis.range);
    text += &line("low", &analysis.low_loop);
    text += &line("high", &analysis.high_loop);
    let mut schedule = vec![analysis.range.high.q];
    schedule.extend(&analysis.schedule);
    text += &line("schedule", &schedule);
    text
}

pub fn period_line(range: &Range) -> String {
    if range.exact() {
        format!("period {} exact\n", range.high)
    } else {
        format!("period from {} to {}\n", range.low, range.high)
    }
}

fn line<T: Display>(word: &str, values: &[T]) -> String {
    let mut text = word.to_string();
    for value in values {
        text += &format!(" {value}");
    }
    text + "\n"
}
