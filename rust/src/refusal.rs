//! Why a call was refused.

use std::fmt;

/// A refusal with its place. The numbers are those that the program `report` prints.
#[derive(Clone, Copy, Debug, PartialEq, Eq, Hash)]
pub enum Refusal {
    /// 1: the file ends inside or before a number; `at` is its length.
    Cut { at: usize },
    /// 2: a number has too many groups, or ends in a group of zero; `at` is the byte that breaks the rule: its third
    /// byte where the top bit of that is set, otherwise its last, zero group.
    Long { at: usize },
    /// 3: a value outside its limits. In a file the place is the number's first byte; in a table it is the
    /// field, see [`Field::at`].
    Range { place: usize },
    /// 4: bytes after the last rule, the first of them `at`.
    Tail { at: usize },
    /// 5: some loop has offset sum 0; the lowest transition on any such loop.
    Loop { transition: usize },
    /// 6: there is no loop.
    Flat,
    /// 7: simulation of a table with an unknown delay; the lowest such rule.
    Unknown { rule: usize },
    /// 8: a lent buffer is too short; the length needed.
    Room { needed: usize },
    /// 9: occurrences outside the limits.
    Span,
    /// 10: the rate of a transition that is not below `n`.
    Name { n: usize },
    /// 11: a sum too wide for 64 bits. Within the limits it does not come.
    Wide,
}

impl Refusal {
    /// From number and place as the C calls hand them back; none for 0.
    pub(crate) fn of(number: u32, place: usize) -> Option<Refusal> {
        Some(match number {
            0 => return None,
            1 => Refusal::Cut { at: place },
            2 => Refusal::Long { at: place },
            3 => Refusal::Range { place },
            4 => Refusal::Tail { at: place },
            5 => Refusal::Loop { transition: place },
            6 => Refusal::Flat,
            7 => Refusal::Unknown { rule: place },
            8 => Refusal::Room { needed: place },
            9 => Refusal::Span,
            10 => Refusal::Name { n: place },
            11 => Refusal::Wide,
            _ => unreachable!("the library's promise has no refusal {number}"),
        })
    }

    /// The number of the refusal, 1 to 11.
    pub fn number(&self) -> u32 {
        match self {
            Refusal::Cut { .. } => 1,
            Refusal::Long { .. } => 2,
            Refusal::Range { .. } => 3,
            Refusal::Tail { .. } => 4,
            Refusal::Loop { .. } => 5,
            Refusal::Flat => 6,
            Refusal::Unknown { .. } => 7,
            Refusal::Room { .. } => 8,
            Refusal::Span => 9,
            Refusal::Name { .. } => 10,
            Refusal::Wide => 11,
        }
    }

    /// The place of the refusal; 0 where it has none.
    pub fn place(&self) -> usize {
        match *self {
            Refusal::Cut { at } | Refusal::Long { at } | Refusal::Tail { at } => at,
            Refusal::Range { place } => place,
            Refusal::Loop { transition } => transition,
            Refusal::Unknown { rule } => rule,
            Refusal::Room { needed } => needed,
            Refusal::Name { n } => n,
            Refusal::Flat | Refusal::Span | Refusal::Wide => 0,
        }
    }
}

/// As the program `report` prints it, without the newline.
impl fmt::Display for Refusal {
    fn fmt(&self, out: &mut fmt::Formatter<'_>) -> fmt::Result {
        write!(out, "refused {} at {}", self.number(), self.place())
    }
}

impl std::error::Error for Refusal {}

/// A field of a table, which the place of [`Refusal::Range`] counts in file order.
///
/// ```
/// use vedhrunak_period::{analyse, Delay, Field, Refusal, Table};
/// let table = Table::new(2).rule(0, 1, 0, Delay::Known(3)).rule(1, 0, 16, Delay::Known(4));
/// let Err(Refusal::Range { place }) = analyse(&table) else { panic!() };
/// assert_eq!(Field::at(place), Field::Offset { rule: 1 });
/// ```
#[derive(Clone, Copy, Debug, PartialEq, Eq, Hash)]
pub enum Field {
    N,
    M,
    Source { rule: usize },
    Target { rule: usize },
    Offset { rule: usize },
    Delay { rule: usize },
}

impl Field {
    /// n is 0, m is 1, rule r's fields are 2 + 4r to 5 + 4r.
    pub fn at(place: usize) -> Field {
        if place < 2 {
            return if place == 0 { Field::N } else { Field::M };
        }
        let rule = (place - 2) / 4;
        match (place - 2) % 4 {
            0 => Field::Source { rule },
            1 => Field::Target { rule },
            2 => Field::Offset { rule },
            _ => Field::Delay { rule },
        }
    }
}
