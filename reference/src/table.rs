//! Tables of transitions and rules, as handed in, and tables without blanks.

/// A delay is either known, with its value, or unknown; the two share no value.
#[derive(Clone, Copy, Debug, PartialEq, Eq, Hash)]
pub enum Delay {
    Unknown,
    Known(u32),
}

/// Occurrence i - offset of the source comes at least the delay before
/// occurrence i of the target.
#[derive(Clone, Copy, Debug, PartialEq, Eq, Hash)]
pub struct Rule {
    pub source: u32,
    pub target: u32,
    pub offset: u32,
    pub delay: Delay,
}

impl Rule {
    /// What an unused place of a table holds.
    pub const UNUSED: Rule = Rule {
        source: 0,
        target: 0,
        offset: 0,
        delay: Delay::Unknown,
    };

    pub fn known(source: u32, target: u32, offset: u32, delay: u32) -> Rule {
        Rule {
            source,
            target,
            offset,
            delay: Delay::Known(delay),
        }
    }

    pub fn unknown(source: u32, target: u32, offset: u32) -> Rule {
        Rule {
            source,
            target,
            offset,
            delay: Delay::Unknown,
        }
    }
}

/// A table as handed in: n, m and any field may be outside the limits, and
/// `rules` may hold more or fewer places than m says.
#[derive(Clone, Debug, PartialEq, Eq, Hash)]
pub struct Table {
    pub n: u32,
    pub m: u32,
    pub rules: Vec<Rule>,
}

impl Table {
    pub const LOWEST_N: u32 = 1;
    pub const HIGHEST_N: u32 = 256;
    pub const HIGHEST_M: u32 = 2_048;
    pub const HIGHEST_OFFSET: u32 = 15;
    pub const HIGHEST_DELAY: u32 = 1_000_000;
    pub const LOWEST_OCCURRENCES: u64 = 1;
    pub const HIGHEST_OCCURRENCES: u64 = 1_024;
    pub const LONGEST_FILE: usize = 16_388;

    /// What a refused read hands back.
    pub fn empty() -> Table {
        Table {
            n: 0,
            m: 0,
            rules: Vec::new(),
        }
    }

    /// The table with exactly these rules.
    pub fn new(n: u32, rules: Vec<Rule>) -> Table {
        let m = rules.len() as u32;
        Table { n, m, rules }
    }

    /// The rule in place r; a place that is not held here is an unused one.
    pub fn rule(&self, r: usize) -> Rule {
        self.rules.get(r).copied().unwrap_or(Rule::UNUSED)
    }

    /// The m rules that count. Only for a table whose m is within its limits.
    pub fn used(&self) -> Vec<Rule> {
        (0..self.m as usize).map(|r| self.rule(r)).collect()
    }

    /// The numbers of the rules with an unknown delay, lowest first.
    pub fn blanks(&self) -> Vec<usize> {
        let used = self.used();
        (0..used.len())
            .filter(|&r| used[r].delay == Delay::Unknown)
            .collect()
    }

    /// Every unknown delay replaced by the same value.
    pub fn filled_with(&self, value: u32) -> Filled {
        let blanks = self.blanks().len();
        self.filled(&vec![value; blanks])
    }

    /// Every unknown delay replaced by its own value, in order of the blanks.
    pub fn filled(&self, values: &[u32]) -> Filled {
        let mut next = values.iter();
        let rules = self.used().into_iter().map(|rule| FilledRule {
            source: rule.source as usize,
            target: rule.target as usize,
            offset: rule.offset as u64,
            delay: match rule.delay {
                Delay::Known(delay) => delay as u64,
                Delay::Unknown => *next.next().expect("one value for each blank") as u64,
            },
        });
        Filled {
            n: self.n as usize,
            rules: rules.collect(),
        }
    }
}

/// A rule whose delay is given.
#[derive(Clone, Copy, Debug, PartialEq, Eq)]
pub struct FilledRule {
    pub source: usize,
    pub target: usize,
    pub offset: u64,
    pub delay: u64,
}

/// A table without blanks and within its limits.
#[derive(Clone, Debug, PartialEq, Eq)]
pub struct Filled {
    pub n: usize,
    pub rules: Vec<FilledRule>,
}
