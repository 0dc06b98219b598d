//! The Rust crate over the C face, held to the second program once more: its tables, answers and refusals.

use reference::analyse::{analyse, Analysis, Room};
use reference::refusal::Refusal;
use reference::simulate::simulate;
use reference::table::{Delay, Table};
use reference::{file, rate::rate, ratio, report::report};
use vedhrunak_period as product;

/// The table as the Rust crate has it. Only for tables whose m is the count of their rules.
pub fn table_of(table: &Table) -> product::Table {
    let mut out = product::Table::new(table.n as usize);
    for rule in &table.rules {
        out.push(product::Rule {
            source: rule.source as u16,
            target: rule.target as u16,
            offset: rule.offset as u16,
            delay: match rule.delay {
                Delay::Unknown => product::Delay::Unknown,
                Delay::Known(delay) => product::Delay::Known(delay),
            },
        });
    }
    out
}

fn fault(refusal: product::Refusal) -> Refusal {
    Refusal {
        number: refusal.number() as u8,
        place: refusal.place() as u64,
    }
}

fn ratio(r: product::Ratio) -> ratio::Ratio {
    ratio::Ratio { p: r.p, q: r.q }
}

fn range(r: product::Range) -> reference::analyse::Range {
    reference::analyse::Range {
        low: ratio(r.low),
        high: ratio(r.high),
    }
}

fn analysis(found: product::Analysis) -> Analysis {
    let numbers = |walk: Vec<u32>| walk.into_iter().map(|r| r as usize).collect();
    Analysis {
        range: range(found.range),
        schedule: found.schedule,
        low_loop: numbers(found.low_loop),
        high_loop: numbers(found.high_loop),
    }
}

/// Whether the Rust crate hands back the chosen file itself, or the first file's refusal.
pub fn better_is(files: [&[u8]; 2], wanted: Result<usize, Refusal>) -> bool {
    match (product::better(files[0], files[1]), wanted) {
        (Ok((which, file)), Ok(wanted)) => which == wanted && std::ptr::eq(file, files[wanted]),
        (Err(refusal), Err(wanted)) => fault(refusal) == wanted,
        _ => false,
    }
}

/// The name of the first safe call whose answer differs.
pub fn differs(table: &Table, occurrences: usize) -> Option<&'static str> {
    let ours = table_of(table);
    let n = table.n as usize;
    let most = occurrences.saturating_mul(n);
    let v = occurrences % (n + 1).min(1 << 20);
    let bytes = file::write(table);
    let calls = [
        (
            "analyse",
            product::analyse(&ours).map(analysis).map_err(fault) == analyse(table, Room::each(n)),
        ),
        (
            "rate",
            product::rate(&ours, v).map(range).map_err(fault) == rate(table, v as u64),
        ),
        (
            "simulate",
            product::simulate(&ours, occurrences).map_err(fault)
                == simulate(table, occurrences as u64, most),
        ),
        (
            "write",
            product::write(&ours).map_err(fault) == file::write_into(table, 1 << 20),
        ),
        (
            "read",
            product::read(&bytes).map_err(fault) == file::read(&bytes).map(|t| table_of(&t)),
        ),
        ("report", product::report(&bytes) == report(&bytes)),
    ];
    let wrong = calls.into_iter().find(|(_, same)| !same);
    wrong.map(|(name, _)| name)
}
