//! The rate call, by two ways: every loop listed, and strongly connected parts.

use crate::analyse::{Range, Way, EXACT, LISTING};
use crate::check::check;
use crate::exact;
use crate::loops;
use crate::ratio::Ratio;
use crate::refusal::{demand, refusal, Refusal, FLAT, LOOP, NAME, WIDE};
use crate::table::{Filled, Table};

/// The rate of a transition: the largest quotient over the loops from which it
/// can be reached along rules, a loop it lies on included, at both ends.
/// Refused by 3, 10, 5, 6, 11, in this order; 6 when no loop reaches it.
pub fn rate(table: &Table, transition: u64) -> Result<Range, Refusal> {
    rate_by(&EXACT, by_parts, table, transition)
}

/// The same by listing every loop, for small tables.
pub fn listed_rate(table: &Table, transition: u64) -> Result<Range, Refusal> {
    rate_by(&LISTING, by_loops, table, transition)
}

fn rate_by(
    way: &Way,
    largest: fn(&Filled, usize) -> Option<Ratio>,
    table: &Table,
    transition: u64,
) -> Result<Range, Refusal> {
    check(table)?;
    demand(transition < table.n as u64, NAME, table.n as usize)?;
    let low = table.filled_with(0);
    let high = table.filled_with(Table::HIGHEST_DELAY);
    // A loop without a turn is a matter of the whole table.
    if let Some(lowest) = (way.zero_loop)(&low) {
        return Err(refusal(LOOP, lowest));
    }
    let flat = refusal(FLAT, 0);
    let range = Range {
        low: largest(&low, transition as usize).ok_or(flat)?,
        high: largest(&high, transition as usize).ok_or(flat)?,
    };
    let wide = (way.wide)(&low, range.low) || (way.wide)(&high, range.high);
    demand(!wide, WIDE, 0)?;
    Ok(range)
}

/// Every loop, and of these the ones with a transition from which rules lead to v.
fn by_loops(table: &Filled, v: usize) -> Option<Ratio> {
    let led = |walk: &[usize]| walk.iter().any(|&r| leads(table, table.rules[r].source, v));
    loops::every_loop(table)
        .iter()
        .filter(|walk| led(walk))
        .map(|walk| loops::quotient(table, walk))
        .max()
}

/// A loop stays within one strongly connected part: the largest of the periods
/// of the parts from which rules lead to v.
fn by_parts(table: &Filled, v: usize) -> Option<Ratio> {
    let part = exact::components(table, |_| true);
    let parts = part.iter().max().map_or(0, |last| last + 1);
    let within = |p: usize| {
        let inside = |u: usize| part[u] == p;
        let rules = table.rules.iter().copied();
        Filled {
            n: table.n,
            rules: rules
                .filter(|rule| inside(rule.source) && inside(rule.target))
                .collect(),
        }
    };
    (0..parts)
        .filter(|&p| {
            let u = part.iter().position(|&q| q == p).expect("no part is empty");
            leads(table, u, v)
        })
        .filter_map(|p| exact::period(&within(p)))
        .max()
}

/// Whether rules lead from u to v: none are needed where they are the same.
fn leads(table: &Filled, u: usize, v: usize) -> bool {
    let mut met = vec![false; table.n];
    let mut left = vec![u];
    while let Some(x) = left.pop() {
        if !met[x] {
            met[x] = true;
            let on = table.rules.iter().filter(|rule| rule.source == x);
            left.extend(on.map(|rule| rule.target));
        }
    }
    met[v]
}
