//! Refusal 3 of a table handed in.

use crate::refusal::{demand, Refusal, RANGE};
use crate::table::{Delay, Rule, Table};

/// Refused at the earliest faulty field, counted in file order: n is 0, m is 1,
/// rule r's fields are 2 + 4r to 5 + 4r. Unused places are not looked at.
pub fn check(table: &Table) -> Result<(), Refusal> {
    let n_good = (Table::LOWEST_N..=Table::HIGHEST_N).contains(&table.n);
    demand(n_good, RANGE, 0)?;
    // Tried before the rules: an m outside its limits says nothing about them.
    demand(table.m <= Table::HIGHEST_M, RANGE, 1)?;
    for r in 0..table.m as usize {
        check_rule(table.n, table.rule(r), 2 + 4 * r)?;
    }
    Ok(())
}

fn check_rule(n: u32, rule: Rule, first_field: usize) -> Result<(), Refusal> {
    demand(rule.source < n, RANGE, first_field)?;
    demand(rule.target < n, RANGE, first_field + 1)?;
    demand(rule.offset <= Table::HIGHEST_OFFSET, RANGE, first_field + 2)?;
    let delay_good = match rule.delay {
        Delay::Unknown => true,
        Delay::Known(delay) => delay <= Table::HIGHEST_DELAY,
    };
    demand(delay_good, RANGE, first_field + 3)
}
