//! The text file of published cases: `key value` lines, an empty line between
//! cases, # for comments.

use crate::notation;
use crate::table::Table;

/// One case: a table from a published source and what is to come out.
#[derive(Clone, Debug)]
pub struct Vector {
    pub name: String,
    /// Where the source has it.
    pub origin: String,
    /// The source's names of the transitions, in order, with spaces between.
    pub names: String,
    pub table: Table,
    pub file: Vec<u8>,
    pub expected: Expected,
    pub report: String,
    /// The first rows of the simulation; empty if there is none.
    pub rows: Vec<Vec<u64>>,
    /// Times printed in the source: transition, occurrence, time.
    pub times: Vec<(usize, usize, u64)>,
}

/// What the source says, apart from what was worked out from it.
#[derive(Clone, Debug, PartialEq, Eq)]
pub enum Expected {
    Refused(u8, u64),
    Period(u64, u64),
    Range((u64, u64), (u64, u64)),
}

pub fn parse(text: &str) -> Vec<Vector> {
    let comment = |line: &&str| !line.starts_with('#');
    let plain: Vec<&str> = text.lines().filter(comment).collect();
    let cases = plain.split(|line| line.is_empty());
    cases
        .filter(|lines| !lines.is_empty())
        .map(parse_case)
        .collect()
}

fn parse_case(lines: &[&str]) -> Vector {
    let values = |key: &str| -> Vec<&str> {
        let with_key = lines.iter().filter_map(|line| line.split_once(' '));
        let mine = with_key.filter(|(word, _)| *word == key);
        mine.map(|(_, value)| value).collect()
    };
    let one = |key: &str| *values(key).first().unwrap_or_else(|| panic!("no {key}"));
    Vector {
        name: one("name").to_string(),
        origin: one("origin").to_string(),
        names: one("names").to_string(),
        table: notation::parse(one("table")).unwrap(),
        file: bytes(one("file")),
        expected: expected(one("expected")),
        report: values("report")
            .iter()
            .map(|line| format!("{line}\n"))
            .collect(),
        rows: values("row").iter().map(|row| numbers(row)).collect(),
        times: values("time").iter().map(|time| time_of(time)).collect(),
    }
}

fn numbers(text: &str) -> Vec<u64> {
    text.split_whitespace()
        .map(|word| word.parse().unwrap())
        .collect()
}

/// Bytes written in hexadecimal with spaces between.
pub fn bytes(text: &str) -> Vec<u8> {
    let words = text.split_whitespace();
    words
        .map(|word| u8::from_str_radix(word, 16).unwrap())
        .collect()
}

fn expected(text: &str) -> Expected {
    let (word, rest) = text.split_once(' ').unwrap();
    let v = numbers(rest);
    match word {
        "refused" => Expected::Refused(v[0] as u8, v[1]),
        "period" => Expected::Period(v[0], v[1]),
        "range" => Expected::Range((v[0], v[1]), (v[2], v[3])),
        _ => panic!("expected what: {text}"),
    }
}

fn time_of(text: &str) -> (usize, usize, u64) {
    let v = numbers(text);
    (v[0] as usize, v[1] as usize, v[2])
}
