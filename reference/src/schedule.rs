//! The least schedule at a period, from the longest walks between all pairs.

use crate::ratio::Ratio;
use crate::table::{Filled, FilledRule};

/// Q·a - e·P: how far the target's value must lie above the source's.
pub fn weight(rule: &FilledRule, period: Ratio) -> i128 {
    period.q as i128 * rule.delay as i128 - period.p as i128 * rule.offset as i128
}

/// Whether X(v) - X(u) + e·P ≥ Q·a for every rule.
pub fn keeps(table: &Filled, period: Ratio, x: &[u64]) -> bool {
    table.rules.iter().all(|rule| {
        let rise = x[rule.target] as i128 - x[rule.source] as i128;
        rise + rule.offset as i128 * period.p as i128 >= period.q as i128 * rule.delay as i128
    })
}

/// The least whole numbers, none negative, that keep every rule. At the period
/// or above it no loop has a positive weight, so the longest walks exist.
pub fn least(table: &Filled, period: Ratio) -> Vec<u64> {
    let longest = longest_walks(table, period);
    (0..table.n)
        .map(|v| longest.iter().map(|from| from[v]).max().unwrap_or(0))
        .map(|x| x.max(0) as u64)
        .collect()
}

/// Stands where there is no walk. A walk's weight is above -2^41, so adding
/// weights to this leaves it far below every weight.
pub const NO_WALK: i64 = -(1 << 60);

/// The largest weight of a walk from u to v, as `[u][v]`; the walk without a
/// rule counts for u itself. Each turn lets walks pass one more transition.
pub fn longest_walks(table: &Filled, period: Ratio) -> Vec<Vec<i64>> {
    let mut longest = single_rules(table, period);
    for middle in 0..table.n {
        let onward = longest[middle].clone();
        for from in longest.iter_mut() {
            let first = from[middle];
            if first > NO_WALK / 2 {
                raise_all(from, first, &onward);
            }
        }
    }
    longest
}

fn single_rules(table: &Filled, period: Ratio) -> Vec<Vec<i64>> {
    let mut longest = vec![vec![NO_WALK; table.n]; table.n];
    for (v, row) in longest.iter_mut().enumerate() {
        row[v] = 0;
    }
    for rule in &table.rules {
        let place = &mut longest[rule.source][rule.target];
        let weight = i64::try_from(weight(rule, period)).unwrap();
        *place = (*place).max(weight);
    }
    longest
}

/// Nothing here comes near the ends of 64 bits, so the sum cannot wrap; saying
/// so lets this innermost loop run at full speed.
fn raise_all(from: &mut [i64], first: i64, onward: &[i64]) {
    for (place, second) in from.iter_mut().zip(onward) {
        *place = (*place).max(first.wrapping_add(*second));
    }
}
