//! The simulation call.

use std::collections::HashMap;

use crate::check::check;
use crate::exact;
use crate::refusal::{demand, refusal, Refusal, LOOP, ROOM, SPAN, UNKNOWN};
use crate::table::{Filled, Table};

/// The times, row by row: all transitions of occurrence 0, then of occurrence
/// 1, and so on. `room` is the length of the buffer lent. Refused by 3, 9, 7, 8,
/// 5, in this order.
pub fn simulate(table: &Table, occurrences: u64, room: usize) -> Result<Vec<u64>, Refusal> {
    check(table)?;
    let span = Table::LOWEST_OCCURRENCES..=Table::HIGHEST_OCCURRENCES;
    demand(span.contains(&occurrences), SPAN, 0)?;
    if let Some(&rule) = table.blanks().first() {
        return Err(refusal(UNKNOWN, rule));
    }
    let needed = table.n as usize * occurrences as usize;
    demand(needed <= room, ROOM, needed)?;
    let filled = table.filled(&[]);
    if let Some(lowest) = exact::zero_loop(&filled) {
        return Err(refusal(LOOP, lowest));
    }
    Ok(times(&filled, occurrences as usize))
}

/// Within a row a time waits only for offset-0 rules, so the row is filled in an
/// order in which each such rule's source comes before its target.
fn times(table: &Filled, occurrences: usize) -> Vec<u64> {
    let order = offset_zero_order(table);
    let mut into = vec![Vec::new(); table.n];
    for rule in &table.rules {
        into[rule.target].push(rule);
    }
    let mut times = vec![0; table.n * occurrences];
    for i in 0..occurrences {
        for &v in &order {
            let acting = into[v].iter().filter(|rule| rule.offset as usize <= i);
            let waits = acting
                .map(|rule| times[(i - rule.offset as usize) * table.n + rule.source] + rule.delay);
            times[i * table.n + v] = waits.max().unwrap_or(0);
        }
    }
    times
}

/// Takes out, again and again, a transition that no offset-0 rule from a
/// transition still waiting enters. Without a zero-offset loop none is left.
fn offset_zero_order(table: &Filled) -> Vec<usize> {
    let mut waiting_for = vec![0; table.n];
    let zero: Vec<_> = table.rules.iter().filter(|rule| rule.offset == 0).collect();
    for rule in &zero {
        waiting_for[rule.target] += 1;
    }
    let mut order: Vec<usize> = (0..table.n).filter(|&v| waiting_for[v] == 0).collect();
    let mut done = 0;
    while done < order.len() {
        let taken = order[done];
        for rule in zero.iter().filter(|rule| rule.source == taken) {
            waiting_for[rule.target] -= 1;
            if waiting_for[rule.target] == 0 {
                order.push(rule.target);
            }
        }
        done += 1;
    }
    assert_eq!(order.len(), table.n, "a zero-offset loop was let through");
    order
}

/// The time of occurrence i of v by the definition alone, remembering what was
/// worked out. It goes as deep as the chain of occurrences: for small cases.
pub fn time_by_definition(
    table: &Filled,
    i: u64,
    v: usize,
    known: &mut HashMap<(u64, usize), u64>,
) -> u64 {
    if let Some(&time) = known.get(&(i, v)) {
        return time;
    }
    let mut time = None;
    for rule in &table.rules {
        if rule.target == v && i >= rule.offset {
            let earlier = time_by_definition(table, i - rule.offset, rule.source, known);
            time = time.max(Some(earlier + rule.delay));
        }
    }
    let time = time.unwrap_or(0);
    known.insert((i, v), time);
    time
}
