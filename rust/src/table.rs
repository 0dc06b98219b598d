//! Tables of transitions and rules.

/// A delay is either known, with its value, or unknown; the two share no value.
#[derive(Clone, Copy, Debug, PartialEq, Eq, Hash)]
pub enum Delay {
    Unknown,
    Known(u32),
}

/// Occurrence i - offset of the source comes at least the delay before occurrence i of the target.
#[derive(Clone, Copy, Debug, PartialEq, Eq, Hash)]
pub struct Rule {
    pub source: u16,
    pub target: u16,
    pub offset: u16,
    pub delay: Delay,
}

/// n transitions, numbered from 0, and rules, numbered from 0 in the order they were added.
///
/// Nothing is held against the limits here: the calls do that, and name the earliest field outside them.
///
/// ```
/// use vedhrunak_period::{Delay, Table};
/// let table = Table::new(2).rule(0, 1, 0, Delay::Known(3)).rule(1, 0, 1, Delay::Unknown);
/// assert_eq!((table.n(), table.m()), (2, 2));
/// assert_eq!(table.rules().nth(1).unwrap().delay, Delay::Unknown);
/// ```
#[derive(Clone, Debug, Default, PartialEq, Eq, Hash)]
pub struct Table {
    n: usize,
    // One column for each field, as the library is lent them.
    pub(crate) source: Vec<u16>,
    pub(crate) target: Vec<u16>,
    pub(crate) offset: Vec<u16>,
    pub(crate) delay: Vec<u32>,
    pub(crate) known: Vec<u8>,
}

impl Table {
    pub const LOWEST_N: usize = 1;
    pub const HIGHEST_N: usize = 256;
    pub const HIGHEST_M: usize = 2_048;
    pub const HIGHEST_OFFSET: u16 = 15;
    pub const HIGHEST_DELAY: u32 = 1_000_000;
    pub const LOWEST_OCCURRENCES: usize = 1;
    pub const HIGHEST_OCCURRENCES: usize = 1_024;
    /// The bytes of the longest valid file.
    pub const LONGEST_FILE: usize = 16_388;

    /// A table of n transitions, as yet without rules.
    pub fn new(n: usize) -> Table {
        Table {
            n,
            ..Table::default()
        }
    }

    /// The table with one more rule.
    pub fn rule(mut self, source: u16, target: u16, offset: u16, delay: Delay) -> Table {
        self.push(Rule {
            source,
            target,
            offset,
            delay,
        });
        self
    }

    /// Adds a rule; its number is the m before.
    pub fn push(&mut self, rule: Rule) {
        let (known, delay) = match rule.delay {
            Delay::Unknown => (0, 0),
            Delay::Known(delay) => (1, delay),
        };
        self.source.push(rule.source);
        self.target.push(rule.target);
        self.offset.push(rule.offset);
        self.delay.push(delay);
        self.known.push(known);
    }

    pub fn n(&self) -> usize {
        self.n
    }

    pub fn m(&self) -> usize {
        self.source.len()
    }

    /// The rules in the order of their numbers.
    pub fn rules(&self) -> impl Iterator<Item = Rule> + '_ {
        (0..self.m()).map(|r| Rule {
            source: self.source[r],
            target: self.target[r],
            offset: self.offset[r],
            delay: match self.known[r] {
                0 => Delay::Unknown,
                _ => Delay::Known(self.delay[r]),
            },
        })
    }

    /// Room for a table to be read into: every column at its longest.
    pub(crate) fn room() -> Table {
        Table {
            n: 0,
            source: vec![0; Table::HIGHEST_M],
            target: vec![0; Table::HIGHEST_M],
            offset: vec![0; Table::HIGHEST_M],
            delay: vec![0; Table::HIGHEST_M],
            known: vec![0; Table::HIGHEST_M],
        }
    }

    /// The room cut to what was read into it.
    pub(crate) fn cut_to(mut self, n: usize, m: usize) -> Table {
        self.n = n;
        self.source.truncate(m);
        self.target.truncate(m);
        self.offset.truncate(m);
        self.delay.truncate(m);
        self.known.truncate(m);
        self
    }
}
