//! Simulation against its definition, and against the period.

use std::collections::HashMap;

use reference::analyse::{analyse, Room};
use reference::gen::{self, Size};
use reference::notation;
use reference::refusal::{LOOP, UNKNOWN};
use reference::rng::Rng;
use reference::simulate::{simulate, time_by_definition};
use reference::table::Table;

#[test]
fn times_are_those_of_the_definition() {
    let mut rng = Rng::new(11);
    let mut compared = 0;
    for _ in 0..8_000 {
        let table = gen::table(&mut rng, Size::SMALL);
        let occurrences = rng.between(1, 20) as u64;
        let room = table.n as usize * occurrences as usize;
        match simulate(&table, occurrences, room) {
            Ok(times) => {
                assert_eq!(
                    times,
                    by_definition(&table, occurrences),
                    "{}",
                    notation::write(&table)
                );
                compared += 1;
            }
            Err(fault) if fault.number == UNKNOWN => {
                assert_eq!(fault.place, table.blanks()[0] as u64);
            }
            Err(fault) => assert_eq!(fault.number, LOOP, "{}", notation::write(&table)),
        }
    }
    assert!(compared > 3_000, "{compared}");
}

fn by_definition(table: &Table, occurrences: u64) -> Vec<u64> {
    let filled = table.filled(&[]);
    let mut known = HashMap::new();
    let rows = (0..occurrences).flat_map(|i| (0..filled.n).map(move |v| (i, v)));
    rows.map(|(i, v)| time_by_definition(&filled, i, v, &mut known))
        .collect()
}

/// Q times the time of occurrence i of v never passes X(v) + i·P, for the
/// schedule is one way to keep all rules and the simulation is the earliest.
#[test]
fn times_stay_below_the_schedule() {
    let mut rng = Rng::new(12);
    for _ in 0..400 {
        let table = gen::strongly_connected(&mut rng, Size::MIDDLE);
        let n = table.n as usize;
        let answer = analyse(&table, Room::each(n)).unwrap();
        let times = simulate(&table, 50, 50 * n).unwrap();
        let (p, q) = (answer.range.high.p, answer.range.high.q);
        for (at, &time) in times.iter().enumerate() {
            let bound = answer.schedule[at % n] + (at / n) as u64 * p;
            assert!(q * time <= bound, "{}", notation::write(&table));
        }
    }
}

#[test]
fn the_fullest_simulation() {
    let mut rng = Rng::new(13);
    let table = gen::against_the_flow(&mut rng, Size::FULL);
    let room = table.n as usize * 1_024;
    assert_eq!(simulate(&table, 1_024, room).unwrap().len(), room);
}
