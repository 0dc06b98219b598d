//! Every published case of the first edition.

use reference::analyse::{analyse, Room};
use reference::file;
use reference::rate::rate;
use reference::ratio::Ratio;
use reference::report::report;
use reference::simulate::simulate;
use reference::vectors::{parse, Expected, Vector};

fn vectors() -> Vec<Vector> {
    parse(include_str!("vectors.txt"))
}

#[test]
fn files_and_reports() {
    let vectors = vectors();
    assert!(vectors.len() >= 36, "some cases were lost");
    for case in vectors {
        assert_eq!(
            file::read(&case.file),
            Ok(case.table.clone()),
            "{}",
            case.name
        );
        assert_eq!(file::write(&case.table), case.file, "{}", case.name);
        assert_eq!(report(&case.file), case.report, "{}", case.name);
    }
}

#[test]
fn what_the_sources_say() {
    for case in vectors() {
        let answer = analyse(&case.table, Room::each(case.table.n as usize));
        let found = match &answer {
            Err(fault) => Expected::Refused(fault.number, fault.place),
            Ok(found) if found.range.exact() => pair(found.range.high, Expected::Period),
            Ok(found) => {
                let (low, high) = (found.range.low, found.range.high);
                Expected::Range((low.p, low.q), (high.p, high.q))
            }
        };
        assert_eq!(found, case.expected, "{}", case.name);
        let rates: Vec<_> = (0..case.table.n)
            .map(|v| rate(&case.table, v as u64))
            .collect();
        let ends = rates.iter().flatten().map(|one| (one.low, one.high));
        let range = answer.ok().map(|found| (found.range.low, found.range.high));
        assert_eq!(ends.max(), range, "{}", case.name);
    }
}

fn pair(ratio: Ratio, make: fn(u64, u64) -> Expected) -> Expected {
    make(ratio.p, ratio.q)
}

#[test]
fn simulated_rows_and_printed_times() {
    let mut compared = 0;
    for case in vectors() {
        let n = case.table.n as usize;
        if !case.rows.is_empty() {
            let count = case.rows.len();
            let times = simulate(&case.table, count as u64, n * count).unwrap();
            assert_eq!(times, case.rows.concat(), "{}", case.name);
            compared += 1;
        }
        for &(transition, occurrence, time) in &case.times {
            let count = occurrence + 1;
            let times = simulate(&case.table, count as u64, n * count).unwrap();
            assert_eq!(times[occurrence * n + transition], time, "{}", case.name);
        }
    }
    assert!(compared >= 30, "some rows were lost");
}
