//! The safe calls. Each lends slices to a C call for its length of time and turns number and place into a [`Refusal`].

use crate::face;
use crate::{Refusal, Table};

/// P/Q in lowest terms; zero is 0/1.
#[derive(Clone, Copy, Debug, PartialEq, Eq, Hash)]
pub struct Ratio {
    pub p: u64,
    pub q: u64,
}

/// The least and the greatest period over all fillings of the unknown delays.
#[derive(Clone, Copy, Debug, PartialEq, Eq, Hash)]
pub struct Range {
    pub low: Ratio,
    pub high: Ratio,
}

impl Range {
    /// Whether the two ends are equal, so that no unknown delay matters.
    pub fn exact(&self) -> bool {
        self.low == self.high
    }
}

/// What the analysis finds.
#[derive(Clone, Debug, PartialEq, Eq, Hash)]
pub struct Analysis {
    pub range: Range,
    /// Rule numbers of the reported loop with unknown delays taken as 0.
    pub low_loop: Vec<u32>,
    /// Rule numbers of the reported loop with unknown delays taken as 1,000,000.
    pub high_loop: Vec<u32>,
    /// The least schedule at the high end: with Q the high end's, value X(v) stands for the time X(v)/Q.
    pub schedule: Vec<u64>,
}

/// What [`analyse_into`] hands back beside the buffers it wrote to.
#[derive(Clone, Copy, Debug, PartialEq, Eq, Hash)]
pub struct Found {
    pub range: Range,
    pub low_len: usize,
    pub high_len: usize,
}

fn answer<T>(number: u32, place: usize, value: T) -> Result<T, Refusal> {
    match Refusal::of(number, place) {
        None => Ok(value),
        Some(refusal) => Err(refusal),
    }
}

fn ratio(p: u64, q: u64) -> Ratio {
    Ratio { p, q }
}

/// The table that a rule file holds.
///
/// ```
/// use vedhrunak_period::{read, Delay, Refusal, Table};
/// let table = Table::new(2).rule(0, 1, 0, Delay::Known(3)).rule(1, 0, 1, Delay::Known(4));
/// assert_eq!(read(&[2, 2, 0, 1, 0, 4, 1, 0, 1, 5]), Ok(table));
/// assert_eq!(read(&[2, 2, 0, 1, 0, 4, 1, 0, 1]), Err(Refusal::Cut { at: 9 }));
/// assert_eq!(read(&[0x80, 0]), Err(Refusal::Long { at: 1 }));
/// ```
pub fn read(bytes: &[u8]) -> Result<Table, Refusal> {
    let mut t = Table::room();
    let (source, target, offset) = (&mut t.source, &mut t.target, &mut t.offset);
    let (delay, known) = (&mut t.delay, &mut t.known);
    // SAFETY: each pointer stands beside the length of the slice it came from.
    let r = unsafe {
        face::period_read(
            bytes.as_ptr(),
            bytes.len(),
            source.as_mut_ptr(),
            source.len(),
            target.as_mut_ptr(),
            target.len(),
            offset.as_mut_ptr(),
            offset.len(),
            delay.as_mut_ptr(),
            delay.len(),
            known.as_mut_ptr(),
            known.len(),
        )
    };
    answer(r.refusal, r.place, ())?;
    Ok(t.cut_to(r.n, r.m))
}

/// The rule file of a table. An accepted file, read and then written, gives its own bytes.
///
/// ```
/// use vedhrunak_period::{write, Delay, Table};
/// let table = Table::new(1).rule(0, 0, 1, Delay::Unknown);
/// assert_eq!(write(&table), Ok(vec![1, 1, 0, 0, 1, 0]));
/// ```
pub fn write(t: &Table) -> Result<Vec<u8>, Refusal> {
    let mut out = vec![0; Table::LONGEST_FILE];
    let count = write_into(t, &mut out)?;
    out.truncate(count);
    Ok(out)
}

/// The rule file of a table into the lowest places of `out`; hands back the count of bytes. What lies past them,
/// and on refusal all of it, stays as it was.
///
/// ```
/// use vedhrunak_period::{write_into, Refusal, Table};
/// let mut out = [7; 3];
/// assert_eq!(write_into(&Table::new(1), &mut out), Ok(2));
/// assert_eq!(out, [1, 0, 7]);
/// assert_eq!(write_into(&Table::new(1), &mut out[..1]), Err(Refusal::Room { needed: 2 }));
/// ```
pub fn write_into(t: &Table, out: &mut [u8]) -> Result<usize, Refusal> {
    // SAFETY: each pointer stands beside the length of the slice it came from.
    let r = unsafe {
        face::period_write(
            t.n(),
            t.source.as_ptr(),
            t.source.len(),
            t.target.as_ptr(),
            t.target.len(),
            t.offset.as_ptr(),
            t.offset.len(),
            t.delay.as_ptr(),
            t.delay.len(),
            t.known.as_ptr(),
            t.known.len(),
            out.as_mut_ptr(),
            out.len(),
        )
    };
    answer(r.refusal, r.place, r.count)
}

/// The period range of a table, the loops that attain its ends, and the schedule.
///
/// ```
/// use vedhrunak_period::{analyse, Delay, Ratio, Refusal, Table};
/// let table = Table::new(2).rule(0, 1, 0, Delay::Known(3)).rule(1, 0, 2, Delay::Known(4));
/// let found = analyse(&table).unwrap();
/// assert!(found.range.exact());
/// assert_eq!(found.range.high, Ratio { p: 7, q: 2 });
/// assert_eq!(found.high_loop, [0, 1]);
/// assert_eq!(found.schedule, [0, 6]);
///
/// // An unknown delay never counts as zero: the answer is a range.
/// let blank = Table::new(2).rule(0, 1, 0, Delay::Known(3)).rule(1, 0, 1, Delay::Unknown);
/// let range = analyse(&blank).unwrap().range;
/// assert_eq!((range.low.p, range.high.p), (3, 1_000_003));
///
/// let stuck = Table::new(1).rule(0, 0, 0, Delay::Known(0));
/// assert_eq!(analyse(&stuck), Err(Refusal::Loop { transition: 0 }));
/// assert_eq!(analyse(&Table::new(1)), Err(Refusal::Flat));
/// ```
pub fn analyse(t: &Table) -> Result<Analysis, Refusal> {
    let mut schedule = vec![0; Table::HIGHEST_N];
    let mut low_loop = vec![0; Table::HIGHEST_N];
    let mut high_loop = vec![0; Table::HIGHEST_N];
    let found = analyse_into(t, &mut schedule, &mut low_loop, &mut high_loop)?;
    schedule.truncate(t.n());
    low_loop.truncate(found.low_len);
    high_loop.truncate(found.high_len);
    Ok(Analysis {
        range: found.range,
        low_loop,
        high_loop,
        schedule,
    })
}

/// The analysis into lent buffers, each of n places or more. Places past the last value written, and on refusal
/// all of them, stay as they were.
///
/// ```
/// use vedhrunak_period::{analyse_into, Delay, Table};
/// let table = Table::new(1).rule(0, 0, 1, Delay::Known(5));
/// let (mut schedule, mut low, mut high) = ([9; 2], [9; 2], [9; 2]);
/// let found = analyse_into(&table, &mut schedule, &mut low, &mut high).unwrap();
/// assert_eq!((found.low_len, found.high_len), (1, 1));
/// assert_eq!((schedule, low, high), ([0, 9], [0, 9], [0, 9]));
/// ```
pub fn analyse_into(
    t: &Table,
    schedule: &mut [u64],
    low: &mut [u32],
    high: &mut [u32],
) -> Result<Found, Refusal> {
    // SAFETY: each pointer stands beside the length of the slice it came from.
    let r = unsafe {
        face::period_analyse(
            t.n(),
            t.source.as_ptr(),
            t.source.len(),
            t.target.as_ptr(),
            t.target.len(),
            t.offset.as_ptr(),
            t.offset.len(),
            t.delay.as_ptr(),
            t.delay.len(),
            t.known.as_ptr(),
            t.known.len(),
            schedule.as_mut_ptr(),
            schedule.len(),
            low.as_mut_ptr(),
            low.len(),
            high.as_mut_ptr(),
            high.len(),
        )
    };
    let range = Range {
        low: ratio(r.low_p, r.low_q),
        high: ratio(r.high_p, r.high_q),
    };
    let found = Found {
        range,
        low_len: r.low_len,
        high_len: r.high_len,
    };
    answer(r.refusal, r.place, found)
}

/// The rate of transition v: the largest quotient over the loops from which v can be reached along rules, a loop that it
/// lies on included. [`Refusal::Loop`] is a matter of the whole table, and [`Refusal::Flat`] says that no loop reaches v.
///
/// ```
/// use vedhrunak_period::{rate, Delay, Ratio, Refusal, Table};
/// // A front end of lap 3 feeds a loop of lap 10; no loop reaches transition 2.
/// let table = Table::new(3)
///     .rule(0, 0, 1, Delay::Known(3))
///     .rule(0, 1, 0, Delay::Known(1))
///     .rule(1, 1, 1, Delay::Known(10))
///     .rule(2, 0, 0, Delay::Known(1));
/// assert_eq!(rate(&table, 0).unwrap().high, Ratio { p: 3, q: 1 });
/// assert_eq!(rate(&table, 1).unwrap().high, Ratio { p: 10, q: 1 });
/// assert_eq!(rate(&table, 2), Err(Refusal::Flat));
/// assert_eq!(rate(&table, 3), Err(Refusal::Name { n: 3 }));
/// ```
pub fn rate(t: &Table, v: usize) -> Result<Range, Refusal> {
    // SAFETY: each pointer stands beside the length of the slice it came from.
    let r = unsafe {
        face::period_rate(
            t.n(),
            t.source.as_ptr(),
            t.source.len(),
            t.target.as_ptr(),
            t.target.len(),
            t.offset.as_ptr(),
            t.offset.len(),
            t.delay.as_ptr(),
            t.delay.len(),
            t.known.as_ptr(),
            t.known.len(),
            v,
        )
    };
    let range = Range {
        low: ratio(r.low_p, r.low_q),
        high: ratio(r.high_p, r.high_q),
    };
    answer(r.refusal, r.place, range)
}

/// The times of the first occurrences, row by row: all transitions of occurrence 0, then of occurrence 1, and so on.
///
/// ```
/// use vedhrunak_period::{simulate, Delay, Refusal, Table};
/// let table = Table::new(2).rule(0, 1, 0, Delay::Known(3)).rule(1, 0, 1, Delay::Known(4));
/// assert_eq!(simulate(&table, 3), Ok(vec![0, 3, 7, 10, 14, 17]));
/// assert_eq!(simulate(&table, 0), Err(Refusal::Span));
/// ```
pub fn simulate(t: &Table, occurrences: usize) -> Result<Vec<u64>, Refusal> {
    // Outside the limits the call is refused before it asks for room.
    let within = t.n() <= Table::HIGHEST_N && occurrences <= Table::HIGHEST_OCCURRENCES;
    let mut times = vec![0; if within { t.n() * occurrences } else { 0 }];
    simulate_into(t, occurrences, &mut times)?;
    Ok(times)
}

/// The times into the lowest places of a lent buffer; the places past them, and on refusal all, stay as they were.
///
/// ```
/// use vedhrunak_period::{simulate_into, Delay, Table};
/// let table = Table::new(2).rule(0, 1, 1, Delay::Known(5));
/// let mut times = [8; 5];
/// assert_eq!(simulate_into(&table, 2, &mut times), Ok(()));
/// assert_eq!(times, [0, 0, 0, 5, 8]);
/// ```
pub fn simulate_into(t: &Table, occurrences: usize, times: &mut [u64]) -> Result<(), Refusal> {
    // SAFETY: each pointer stands beside the length of the slice it came from.
    let r = unsafe {
        face::period_simulate(
            t.n(),
            t.source.as_ptr(),
            t.source.len(),
            t.target.as_ptr(),
            t.target.len(),
            t.offset.as_ptr(),
            t.offset.len(),
            t.delay.as_ptr(),
            t.delay.len(),
            t.known.as_ptr(),
            t.known.len(),
            occurrences,
            times.as_mut_ptr(),
            times.len(),
        )
    };
    answer(r.refusal, r.place, ())
}

/// What the program `report` prints for the bytes of a rule file.
///
/// ```
/// use vedhrunak_period::report;
/// let text = report(&[2, 2, 0, 1, 0, 4, 1, 0, 1, 5]);
/// assert_eq!(text, "period 7/1 exact\nlow 0 1\nhigh 0 1\nschedule 1 0 3\n");
/// assert_eq!(report(&[]), "refused 1 at 0\n");
/// ```
pub fn report(bytes: &[u8]) -> String {
    let mut out = vec![0; 1_024];
    loop {
        // SAFETY: each pointer stands beside the length of the slice it came from.
        let r = unsafe {
            face::period_report(bytes.as_ptr(), bytes.len(), out.as_mut_ptr(), out.len())
        };
        match Refusal::of(r.refusal, r.place) {
            // A refusal of the file is part of the text, so only room can be wanting; the second try has it.
            Some(_) => out.resize(r.place, 0),
            None => {
                out.truncate(r.count);
                return String::from_utf8(out).expect("the text is plain ASCII");
            }
        }
    }
}

/// Reads one number off the front of `bytes`, from `low` to `high`: its value and the rest of the bytes.
///
/// ```
/// use vedhrunak_period::{number, Refusal};
/// assert_eq!(number(&[0x80, 2, 9], 1, 256), Ok((256, &[9][..])));
/// assert_eq!(number(&[0x81, 2], 1, 256), Err(Refusal::Range { place: 0 }));
/// ```
pub fn number(bytes: &[u8], low: u32, high: u32) -> Result<(u32, &[u8]), Refusal> {
    // SAFETY: the pointer stands beside the length of the slice it came from.
    let r = unsafe { face::period_number(bytes.as_ptr(), bytes.len(), low, high) };
    answer(
        r.refusal,
        r.place,
        (r.value, &bytes[bytes.len() - r.rest..]),
    )
}

/// The better of two rule files: the one with the lower high end, and at equal high ends the first. It comes back as it was lent, with its
/// number, 0 or 1. A file that cannot be analysed is passed over; where neither can, the first file's refusal.
///
/// ```
/// use vedhrunak_period::{better, Refusal};
/// let exact = [2, 2, 0, 1, 0, 4, 1, 0, 1, 5]; // 7/1
/// let blank = [2, 2, 0, 1, 0, 4, 1, 0, 1, 0]; // from 3/1 to 1000003/1
/// let stuck = [1, 1, 0, 0, 0, 1]; // a loop without a turn
/// assert_eq!(better(&blank, &exact), Ok((1, &exact[..])));
/// assert_eq!(better(&blank, &stuck), Ok((0, &blank[..])));
/// assert_eq!(better(&stuck, &[]), Err(Refusal::Loop { transition: 0 }));
///
/// // No copy: of two equal files the first itself comes back.
/// let again = exact;
/// let (which, file) = better(&exact, &again)?;
/// assert_eq!(which, 0);
/// assert!(std::ptr::eq(file, &exact[..]));
/// # Ok::<(), Refusal>(())
/// ```
pub fn better<'a>(first: &'a [u8], second: &'a [u8]) -> Result<(usize, &'a [u8]), Refusal> {
    // SAFETY: each pointer stands beside the length of the slice it came from.
    let r =
        unsafe { face::period_bids(first.as_ptr(), first.len(), second.as_ptr(), second.len()) };
    let file = if r.which == 0 { first } else { second };
    answer(r.refusal, r.place, (r.which as usize, &file[..r.length]))
}
