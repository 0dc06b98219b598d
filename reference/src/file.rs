//! The bytes of a rule file.

use crate::check::check;
use crate::refusal::{demand, refusal, Refusal, CUT, LONG, RANGE, ROOM, TAIL};
use crate::table::{Delay, Rule, Table};

/// A number has at most this many groups of seven bits.
const MOST_GROUPS: usize = 3;

/// Reads one number from the start of `bytes`: its value and the unread part.
/// Places count from the start of `bytes`: CUT is at their end, where the
/// missing one would be, LONG at the byte that breaks the rule.
pub fn read_number(bytes: &[u8], lowest: u32, highest: u32) -> Result<(u32, &[u8]), Refusal> {
    let mut value = 0u32;
    for group in 0..MOST_GROUPS {
        let byte = match bytes.get(group) {
            Some(&byte) => byte,
            None => return Err(refusal(CUT, bytes.len())),
        };
        value += ((byte & 0x7f) as u32) << (7 * group);
        if byte & 0x80 == 0 {
            // A last group of zero is wrong unless it is the only one.
            demand(group == 0 || byte != 0, LONG, group)?;
            demand((lowest..=highest).contains(&value), RANGE, 0)?;
            return Ok((value, &bytes[group + 1..]));
        }
    }
    // The third byte promised another group.
    Err(refusal(LONG, MOST_GROUPS - 1))
}

/// The bytes still to be read, and how many were read before them.
struct Reader<'a> {
    left: &'a [u8],
    at: usize,
}

impl Reader<'_> {
    /// The next number; a refusal's place is counted from the file's start.
    fn number(&mut self, lowest: u32, highest: u32) -> Result<u32, Refusal> {
        let before = self.left.len();
        match read_number(self.left, lowest, highest) {
            Ok((value, rest)) => {
                self.at += before - rest.len();
                self.left = rest;
                Ok(value)
            }
            Err(fault) => Err(refusal(fault.number, self.at + fault.place as usize)),
        }
    }

    fn rule(&mut self, n: u32) -> Result<Rule, Refusal> {
        let source = self.number(0, n - 1)?;
        let target = self.number(0, n - 1)?;
        let offset = self.number(0, Table::HIGHEST_OFFSET)?;
        let code = self.number(0, Table::HIGHEST_DELAY + 1)?;
        let delay = match code {
            0 => Delay::Unknown,
            _ => Delay::Known(code - 1),
        };
        Ok(Rule {
            source,
            target,
            offset,
            delay,
        })
    }
}

/// Reads a whole rule file.
pub fn read(bytes: &[u8]) -> Result<Table, Refusal> {
    let mut reader = Reader { left: bytes, at: 0 };
    let n = reader.number(Table::LOWEST_N, Table::HIGHEST_N)?;
    let m = reader.number(0, Table::HIGHEST_M)?;
    let mut rules = Vec::new();
    for _ in 0..m {
        rules.push(reader.rule(n)?);
    }
    demand(reader.left.is_empty(), TAIL, reader.at)?;
    Ok(Table { n, m, rules })
}

/// The bytes of a table within its limits.
pub fn write(table: &Table) -> Vec<u8> {
    let mut bytes = Vec::new();
    write_number(&mut bytes, table.n);
    write_number(&mut bytes, table.m);
    for rule in table.used() {
        write_number(&mut bytes, rule.source);
        write_number(&mut bytes, rule.target);
        write_number(&mut bytes, rule.offset);
        write_number(&mut bytes, delay_code(rule.delay));
    }
    bytes
}

/// The writing call: refused by 3 and then by 8, whose place is the length
/// needed. `room` is the length of the buffer lent.
pub fn write_into(table: &Table, room: usize) -> Result<Vec<u8>, Refusal> {
    check(table)?;
    let bytes = write(table);
    demand(bytes.len() <= room, ROOM, bytes.len())?;
    Ok(bytes)
}

fn delay_code(delay: Delay) -> u32 {
    match delay {
        Delay::Unknown => 0,
        Delay::Known(delay) => delay + 1,
    }
}

/// Lowest group first, with the fewest groups.
pub fn write_number(bytes: &mut Vec<u8>, value: u32) {
    let mut left = value;
    while left >= 0x80 {
        bytes.push((left & 0x7f) as u8 | 0x80);
        left >>= 7;
    }
    bytes.push(left as u8);
}
