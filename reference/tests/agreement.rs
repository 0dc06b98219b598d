//! The listing of every loop against the other way, on made tables.

use std::collections::HashMap;

use reference::analyse::{analyse, analyse_by, Analysis, Room, LISTING};
use reference::exact;
use reference::gen::{self, Size, KINDS};
use reference::loops;
use reference::notation;
use reference::rate::{listed_rate, rate};
use reference::ratio::Ratio;
use reference::refusal::Refusal;
use reference::rng::Rng;
use reference::schedule;
use reference::table::{Filled, Table};

fn exact_answer(table: &Table) -> Result<Analysis, Refusal> {
    analyse(table, Room::each(table.n as usize))
}

fn listed_answer(table: &Table) -> Result<Analysis, Refusal> {
    analyse_by(&LISTING, table, Room::each(table.n as usize))
}

#[test]
fn both_ways_agree_on_small_tables() {
    let mut rng = Rng::new(1);
    let mut outcomes: HashMap<u8, usize> = HashMap::new();
    for (name, maker) in KINDS {
        for _ in 0..3_000 {
            let table = maker(&mut rng, Size::SMALL);
            let answer = exact_answer(&table);
            let shown = notation::write(&table);
            assert_eq!(answer, listed_answer(&table), "{name}: {shown}");
            let number = answer.as_ref().err().map_or(0, |fault| fault.number);
            *outcomes.entry(number).or_default() += 1;
            for v in 0..=table.n as u64 {
                assert_eq!(rate(&table, v), listed_rate(&table, v), "{name}: {shown}");
            }
            rates_agree(&table, &answer, &shown);
        }
    }
    // A kind of outcome that never came up was not compared at all.
    for number in [0, 5, 6] {
        assert!(outcomes[&number] > 1_000, "{outcomes:?}");
    }
}

/// What the rates of one table have to do with each other and with its period:
/// none falls along a rule, and the largest is the period.
fn rates_agree(table: &Table, answer: &Result<Analysis, Refusal>, shown: &str) {
    let rates: Vec<_> = (0..table.n as u64).map(|v| rate(table, v)).collect();
    for rule in table.used() {
        if let Ok(from) = rates[rule.source as usize] {
            let to =
                rates[rule.target as usize].expect("what reaches the source reaches the target");
            assert!(from.low <= to.low && from.high <= to.high, "{shown}");
        }
    }
    let low = rates.iter().flatten().map(|range| range.low).max();
    let high = rates.iter().flatten().map(|range| range.high).max();
    let range = answer.as_ref().ok().map(|found| found.range);
    assert_eq!(
        (low, high),
        (range.map(|r| r.low), range.map(|r| r.high)),
        "{shown}"
    );
}

#[test]
fn fillings_lie_between_the_ends() {
    let mut rng = Rng::new(2);
    let mut checked = 0;
    while checked < 2_000 {
        let table = gen::few_blanks(&mut rng, Size::SMALL);
        if (1..=2).contains(&table.blanks().len()) && exact_answer(&table).is_ok() {
            let verdict = loops::check_fillings(&table, &mut rng);
            assert_eq!(verdict, Ok(()), "{}", notation::write(&table));
            checked += 1;
        }
    }
}

/// What can be said of an answer without listing loops: the loops are loops and
/// attain the ends, and the schedule keeps every rule, which shows that no loop
/// is larger; lowering any one value breaks a rule or goes below 0.
fn certify(table: &Table, answer: &Analysis) {
    let low = table.filled_with(0);
    let high = table.filled_with(Table::HIGHEST_DELAY);
    attains(&low, &answer.low_loop, answer.range.low);
    attains(&high, &answer.high_loop, answer.range.high);
    let lower = schedule::least(&low, answer.range.low);
    assert!(schedule::keeps(&low, answer.range.low, &lower));
    assert!(schedule::keeps(&high, answer.range.high, &answer.schedule));
    assert_eq!(relaxed(&high, answer.range.high), answer.schedule);
}

fn attains(table: &Filled, walk: &[usize], period: Ratio) {
    assert!(loops::is_loop(table, walk));
    assert_eq!(loops::quotient(table, walk), period);
}

/// The least schedule once more: from zeros, raised only where a rule asks.
fn relaxed(table: &Filled, period: Ratio) -> Vec<u64> {
    let mut x = vec![0i128; table.n];
    loop {
        let before = x.clone();
        for rule in &table.rules {
            let asked = x[rule.source] + schedule::weight(rule, period);
            x[rule.target] = x[rule.target].max(asked);
        }
        if x == before {
            return x.iter().map(|&value| value as u64).collect();
        }
    }
}

#[test]
fn answers_on_larger_tables_are_certified() {
    let mut rng = Rng::new(3);
    let mut answered = 0;
    for _ in 0..1_500 {
        let table = gen::table(&mut rng, Size::MIDDLE);
        if let Ok(answer) = exact_answer(&table) {
            certify(&table, &answer);
            answered += 1;
        }
    }
    assert!(answered > 700, "{answered}");
}

#[test]
fn answers_on_full_tables_are_certified() {
    let mut rng = Rng::new(4);
    for (_, maker) in KINDS {
        for _ in 0..2 {
            let table = maker(&mut rng, Size::FULL);
            if let Ok(answer) = exact_answer(&table) {
                certify(&table, &answer);
            }
        }
    }
}

/// The largest P and Q that the limits allow, and the largest single weights,
/// leave the sums of WIDE far below 2^63.
#[test]
fn no_sum_is_wide() {
    let highest = Ratio {
        p: 256 * 1_000_000,
        q: 1,
    };
    let widest = Ratio {
        p: 256 * 1_000_000,
        q: 256 * 15,
    };
    let text = "n 256: 0>0/15/0, 0>0/0/1000000, 0>0/15/1000000";
    let table = notation::parse(text).unwrap().filled(&[]);
    assert!(exact::largest_sum(&table, highest) < 1 << 40);
    assert!(exact::largest_sum(&table, widest) < 1 << 40);
}
