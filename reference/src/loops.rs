//! Every loop of a small table, listed literally, and what follows from the
//! list. Nothing here is quick; nothing here is clever.

use crate::ratio::Ratio;
use crate::rng::Rng;
use crate::schedule;
use crate::table::{Filled, Table};

/// A loop or a path, as its rule numbers in the order they are followed.
pub type Walk = Vec<usize>;

/// Every loop, each once and read from its lowest transition.
pub fn every_loop(table: &Filled) -> Vec<Walk> {
    let mut found = Vec::new();
    for start in 0..table.n {
        let mut visited = vec![false; table.n];
        visited[start] = true;
        follow(
            table,
            start,
            start,
            &mut visited,
            &mut Vec::new(),
            &mut found,
        );
    }
    found
}

/// Lengthens the walk from `start` to `at` by each rule that leaves `at`.
/// Transitions below `start` are left out: they begin loops of their own.
fn follow(
    table: &Filled,
    start: usize,
    at: usize,
    visited: &mut Vec<bool>,
    walk: &mut Walk,
    found: &mut Vec<Walk>,
) {
    for (r, rule) in table.rules.iter().enumerate() {
        if rule.source != at {
            continue;
        }
        walk.push(r);
        if rule.target == start {
            found.push(walk.clone());
        } else if rule.target > start && !visited[rule.target] {
            visited[rule.target] = true;
            follow(table, start, rule.target, visited, walk, found);
            visited[rule.target] = false;
        }
        walk.pop();
    }
}

/// Whether these rule numbers are a loop, by the definition.
pub fn is_loop(table: &Filled, walk: &[usize]) -> bool {
    if walk.is_empty() || walk.iter().any(|&r| r >= table.rules.len()) {
        return false;
    }
    let joined = (0..walk.len()).all(|at| {
        let next = walk[(at + 1) % walk.len()];
        table.rules[walk[at]].target == table.rules[next].source
    });
    let mut sources: Vec<usize> = walk.iter().map(|&r| table.rules[r].source).collect();
    sources.sort();
    sources.dedup();
    joined && sources.len() == walk.len()
}

pub fn delay_sum(table: &Filled, walk: &[usize]) -> u64 {
    walk.iter().map(|&r| table.rules[r].delay).sum()
}

pub fn offset_sum(table: &Filled, walk: &[usize]) -> u64 {
    walk.iter().map(|&r| table.rules[r].offset).sum()
}

pub fn quotient(table: &Filled, walk: &[usize]) -> Ratio {
    Ratio::of(delay_sum(table, walk), offset_sum(table, walk))
}

/// The lowest transition on any loop with offset sum 0: the place of LOOP.
pub fn zero_loop(table: &Filled) -> Option<usize> {
    every_loop(table)
        .iter()
        .filter(|walk| offset_sum(table, walk) == 0)
        .flat_map(|walk| walk.iter().map(|&r| table.rules[r].source))
        .min()
}

/// The largest quotient over all loops; none when there is no loop (FLAT).
pub fn period(table: &Filled) -> Option<Ratio> {
    every_loop(table)
        .iter()
        .map(|walk| quotient(table, walk))
        .max()
}

/// The reported loop, tie by tie: the lowest transition that any attaining loop
/// visits, then fewest rules, then first in order of rule numbers.
pub fn reported_loop(table: &Filled, period: Ratio) -> Walk {
    let mut attaining = every_loop(table);
    attaining.retain(|walk| quotient(table, walk) == period);
    let visited = attaining
        .iter()
        .flat_map(|walk| walk.iter().map(|&r| table.rules[r].source));
    let lowest = visited.min().expect("some loop attains the period");
    let mut through: Vec<Walk> = attaining
        .iter()
        .filter_map(|walk| read_from(table, walk, lowest))
        .collect();
    let fewest = through.iter().map(|walk| walk.len()).min().unwrap();
    through.retain(|walk| walk.len() == fewest);
    through.into_iter().min().unwrap()
}

/// The loop read from this transition, or none if it does not visit it.
fn read_from(table: &Filled, walk: &[usize], transition: usize) -> Option<Walk> {
    let first = walk
        .iter()
        .position(|&r| table.rules[r].source == transition)?;
    let mut turned = walk.to_vec();
    turned.rotate_left(first);
    Some(turned)
}

/// Every path visiting no transition twice, the paths without a rule left out,
/// each with the transition where it ends.
pub fn every_path(table: &Filled) -> Vec<(Walk, usize)> {
    let mut found = Vec::new();
    for start in 0..table.n {
        let mut visited = vec![false; table.n];
        visited[start] = true;
        lengthen(table, start, &mut visited, &mut Vec::new(), &mut found);
    }
    found
}

fn lengthen(
    table: &Filled,
    at: usize,
    visited: &mut Vec<bool>,
    walk: &mut Walk,
    found: &mut Vec<(Walk, usize)>,
) {
    for (r, rule) in table.rules.iter().enumerate() {
        if rule.source != at || visited[rule.target] {
            continue;
        }
        walk.push(r);
        visited[rule.target] = true;
        found.push((walk.clone(), rule.target));
        lengthen(table, rule.target, visited, walk, found);
        visited[rule.target] = false;
        walk.pop();
    }
}

/// The sum of Q·a - e·P over a walk.
pub fn weight(table: &Filled, period: Ratio, walk: &[usize]) -> i128 {
    walk.iter()
        .map(|&r| schedule::weight(&table.rules[r], period))
        .sum()
}

/// The least schedule from the list of paths: no value may be below the sum
/// along any path that ends there, and none below 0.
pub fn least_schedule(table: &Filled, period: Ratio) -> Vec<u64> {
    let mut least = vec![0i128; table.n];
    for (walk, end) in every_path(table) {
        least[end] = least[end].max(weight(table, period, &walk));
    }
    least.iter().map(|&x| x as u64).collect()
}

/// WIDE by its words: some sum over a loop or a path is not below 2^63.
pub fn wide(table: &Filled, period: Ratio) -> bool {
    let mut walks = every_loop(table);
    walks.extend(every_path(table).into_iter().map(|(walk, _)| walk));
    walks.iter().any(|walk| {
        delay_sum(table, walk) >= 1 << 63
            || offset_sum(table, walk) >= 1 << 63
            || weight(table, period, walk).abs() >= 1 << 63
    })
}

/// The least and the greatest period over all fillings. Raising a delay lowers
/// no quotient, so the ends are attained where all blanks are 0 or 1,000,000.
pub fn ends(table: &Table) -> Option<(Ratio, Ratio)> {
    let low = period(&table.filled_with(0))?;
    let high = period(&table.filled_with(Table::HIGHEST_DELAY))?;
    Some((low, high))
}

/// For a table with at most two blanks: over a grid of fillings, no period lies
/// outside the ends, the ends are attained, and the schedule of the high end
/// keeps every rule. Says what went wrong.
pub fn check_fillings(table: &Table, rng: &mut Rng) -> Result<(), String> {
    let (low, high) = ends(table).ok_or("no loop")?;
    let schedule = least_schedule(&table.filled_with(Table::HIGHEST_DELAY), high);
    let mut seen = Vec::new();
    for values in grid(table.blanks().len(), rng) {
        let filled = table.filled(&values);
        let here = period(&filled).ok_or("a filling removed the loops")?;
        if here < low || here > high {
            return Err(format!("{values:?} gives {here}, outside {low} to {high}"));
        }
        if !schedule::keeps(&filled, high, &schedule) {
            return Err(format!("{values:?} breaks the schedule"));
        }
        seen.push(here);
    }
    let attained = seen.iter().min() == Some(&low) && seen.iter().max() == Some(&high);
    attained
        .then_some(())
        .ok_or(format!("an end of {low} to {high} is not attained"))
}

/// Fillings of at most two blanks: each takes both ends, their neighbours and
/// some values between.
fn grid(blanks: usize, rng: &mut Rng) -> Vec<Vec<u32>> {
    let highest = Table::HIGHEST_DELAY;
    let mut values = vec![0, 1, 2, highest / 2, highest - 1, highest];
    values.push(rng.below(20) as u32);
    values.push(rng.below(highest as u64 + 1) as u32);
    match blanks {
        0 => vec![vec![]],
        1 => values.iter().map(|&a| vec![a]).collect(),
        2 => values
            .iter()
            .flat_map(|&a| values.iter().map(move |&b| vec![a, b]))
            .collect(),
        _ => panic!("the grid is for at most two blanks"),
    }
}
