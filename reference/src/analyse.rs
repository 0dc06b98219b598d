//! The analysis call.

use crate::check::check;
use crate::exact;
use crate::loops;
use crate::ratio::Ratio;
use crate::refusal::{demand, refusal, Refusal, FLAT, LOOP, ROOM, WIDE};
use crate::schedule;
use crate::table::{Filled, Table};

/// The least and the greatest period over all fillings.
#[derive(Clone, Copy, Debug, PartialEq, Eq)]
pub struct Range {
    pub low: Ratio,
    pub high: Ratio,
}

impl Range {
    pub fn exact(&self) -> bool {
        self.low == self.high
    }
}

/// What the analysis hands back and writes. The three lists go into the lowest
/// places of the three buffers; the places after them stay as they were.
#[derive(Clone, Debug, PartialEq, Eq)]
pub struct Analysis {
    pub range: Range,
    pub schedule: Vec<u64>,
    pub low_loop: Vec<usize>,
    pub high_loop: Vec<usize>,
}

/// Lengths of the buffers lent for the schedule and the two loops.
#[derive(Clone, Copy, Debug, PartialEq, Eq)]
pub struct Room {
    pub schedule: usize,
    pub low_loop: usize,
    pub high_loop: usize,
}

impl Room {
    pub fn each(length: usize) -> Room {
        Room {
            schedule: length,
            low_loop: length,
            high_loop: length,
        }
    }

    fn shortest(&self) -> usize {
        self.schedule.min(self.low_loop).min(self.high_loop)
    }
}

/// One way to answer the questions about a table without blanks, so that the
/// call itself is written once for both ways.
pub struct Way {
    pub zero_loop: fn(&Filled) -> Option<usize>,
    pub period: fn(&Filled) -> Option<Ratio>,
    pub reported_loop: fn(&Filled, Ratio) -> Vec<usize>,
    pub least_schedule: fn(&Filled, Ratio) -> Vec<u64>,
    pub wide: fn(&Filled, Ratio) -> bool,
}

/// For tables of any size.
pub const EXACT: Way = Way {
    zero_loop: exact::zero_loop,
    period: exact::period,
    reported_loop: exact::reported_loop,
    least_schedule: schedule::least,
    wide: exact::wide,
};

/// By listing every loop and every path, for small tables.
pub const LISTING: Way = Way {
    zero_loop: loops::zero_loop,
    period: loops::period,
    reported_loop: loops::reported_loop,
    least_schedule: loops::least_schedule,
    wide: loops::wide,
};

/// Refused by 3, 8, 5, 6, 11, in this order.
pub fn analyse(table: &Table, room: Room) -> Result<Analysis, Refusal> {
    analyse_by(&EXACT, table, room)
}

pub fn analyse_by(way: &Way, table: &Table, room: Room) -> Result<Analysis, Refusal> {
    check(table)?;
    let n = table.n as usize;
    // The place is n for each of the three, however short the loop turns out.
    demand(room.shortest() >= n, ROOM, n)?;
    let range = range_by(way, table)?;
    let low = table.filled_with(0);
    let high = table.filled_with(Table::HIGHEST_DELAY);
    let low_loop = (way.reported_loop)(&low, range.low);
    // Without blanks the two tables are one.
    let high_loop = match low == high {
        true => low_loop.clone(),
        false => (way.reported_loop)(&high, range.high),
    };
    Ok(Analysis {
        range,
        schedule: (way.least_schedule)(&high, range.high),
        low_loop,
        high_loop,
    })
}

/// Refusals 5, 6 and 11 and the range of a table within its limits.
pub fn range_by(way: &Way, table: &Table) -> Result<Range, Refusal> {
    let low = table.filled_with(0);
    let high = table.filled_with(Table::HIGHEST_DELAY);
    // Refusals 5 and 6 do not depend on delays: either filling serves.
    if let Some(lowest) = (way.zero_loop)(&low) {
        return Err(refusal(LOOP, lowest));
    }
    let flat = refusal(FLAT, 0);
    let range = Range {
        low: (way.period)(&low).ok_or(flat)?,
        high: (way.period)(&high).ok_or(flat)?,
    };
    let wide = (way.wide)(&low, range.low) || (way.wide)(&high, range.high);
    demand(!wide, WIDE, 0)?;
    Ok(range)
}
