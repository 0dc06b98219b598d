//! Files: round trips, cuts, flips, and rubbish.

use reference::check::check;
use reference::file::{read, read_number, write, write_into, write_number};
use reference::gen::{self, Size};
use reference::notation;
use reference::refusal::{Refusal, CUT, LONG, RANGE, TAIL};
use reference::report::report;
use reference::rng::Rng;
use reference::table::{Rule, Table};

#[test]
fn written_and_read_again() {
    let mut rng = Rng::new(21);
    for round in 0..4_000 {
        let size = if round % 40 == 0 {
            Size::FULL
        } else {
            Size::MIDDLE
        };
        let table = gen::table(&mut rng, size);
        assert_eq!(check(&table), Ok(()));
        assert_eq!(read(&write(&table)).as_ref(), Ok(&table));
        assert_eq!(
            notation::parse(&notation::write(&table)).as_ref(),
            Ok(&table)
        );
    }
}

/// An accepted file, written, gives its own bytes; a refused one is refused
/// where a table handed in with these numbers would not say otherwise.
#[test]
fn any_file() {
    let mut rng = Rng::new(22);
    let mut seen = [0; 5];
    for _ in 0..60_000 {
        let bytes = gen::file(&mut rng, Size::SMALL);
        match read(&bytes) {
            Ok(table) => {
                assert_eq!(check(&table), Ok(()));
                assert_eq!(write_into(&table, bytes.len()), Ok(bytes));
                seen[0] += 1;
            }
            Err(fault) => {
                assert!(fault.place <= bytes.len() as u64);
                assert_eq!(
                    report(&bytes),
                    format!("refused {} at {}\n", fault.number, fault.place)
                );
                seen[fault.number as usize] += 1;
            }
        }
    }
    assert!(seen.iter().all(|&count| count > 500), "{seen:?}");
}

/// A cut file is refused by 1 at its length.
#[test]
fn every_cut() {
    let mut rng = Rng::new(23);
    for _ in 0..300 {
        let table = gen::table(&mut rng, Size::SMALL);
        let sound = write(&table);
        for cut in gen::every_cut(&sound) {
            let place = cut.len() as u64;
            assert_eq!(read(&cut), Err(Refusal { number: CUT, place }));
        }
    }
}

/// Every string of one to three bytes, read as a number, against the wording.
#[test]
fn every_number() {
    let (lowest, highest) = (5, 1_000_001);
    for all in 0..1u32 << 24 {
        let bytes = [all as u8, (all >> 8) as u8, (all >> 16) as u8];
        let found = read_number(&bytes, lowest, highest).map(|(value, rest)| (value, rest.len()));
        assert_eq!(
            found,
            number_by_words(&bytes, lowest, highest),
            "{bytes:x?}"
        );
    }
    for all in 0..1u32 << 16 {
        let two = [all as u8, (all >> 8) as u8];
        let found = read_number(&two, 0, highest).map(|(value, rest)| (value, rest.len()));
        assert_eq!(found, number_by_words(&two, 0, highest), "{two:x?}");
    }
}

/// The same by counting the leading bytes with their top bit set.
fn number_by_words(bytes: &[u8], lowest: u32, highest: u32) -> Result<(u32, usize), Refusal> {
    let fault = |number, place| {
        let place = place as u64;
        Err(Refusal { number, place })
    };
    let more = bytes
        .iter()
        .take(3)
        .take_while(|&&byte| byte >= 0x80)
        .count();
    if more == bytes.len() && more < 3 {
        return fault(CUT, bytes.len());
    }
    if more == 3 {
        return fault(LONG, 2);
    }
    if more > 0 && bytes[more] == 0 {
        return fault(LONG, more);
    }
    let groups = bytes[..=more].iter().rev();
    let value = groups.fold(0, |sum, &byte| sum * 128 + (byte % 128) as u32);
    if value < lowest || value > highest {
        return fault(RANGE, 0);
    }
    Ok((value, bytes.len() - more - 1))
}

#[test]
fn every_value() {
    for value in 0..1 << 21 {
        let mut bytes = Vec::new();
        write_number(&mut bytes, value);
        assert!(bytes.len() <= 3);
        assert_eq!(read_number(&bytes, value, value), Ok((value, &[][..])));
    }
}

#[test]
fn tails_and_limits_told() {
    let table = notation::parse("n 1: 0>0/1/0").unwrap();
    let mut bytes = write(&table);
    bytes.push(0x80);
    assert_eq!(
        read(&bytes),
        Err(Refusal {
            number: TAIL,
            place: 6
        })
    );
    // Odd limits do nothing special: the value lies outside them.
    assert_eq!(
        read_number(&[5], 6, 4),
        Err(Refusal {
            number: RANGE,
            place: 0
        })
    );
}

/// Damaged tables are refused at the earliest faulty field, found here by
/// reading the fields as one list.
#[test]
fn damaged_tables() {
    let mut rng = Rng::new(24);
    for _ in 0..20_000 {
        let table = gen::damaged(&mut rng, Size::SMALL);
        let faulty = (0..2 + 4 * table.rules.len()).find(|&field| !good(&table, field));
        let expected = match faulty {
            Some(field) => Err(Refusal {
                number: RANGE,
                place: field as u64,
            }),
            None => Ok(()),
        };
        assert_eq!(check(&table), expected, "{table:?}");
    }
}

fn good(table: &Table, field: usize) -> bool {
    if field == 0 {
        return table.n >= 1 && table.n <= 256;
    }
    if field == 1 {
        return table.m <= 2_048;
    }
    let rule = table.rule((field - 2) / 4);
    match (field - 2) % 4 {
        0 => rule.source < table.n,
        1 => rule.target < table.n,
        2 => rule.offset <= 15,
        _ => notation::write_rule(&rule).ends_with('?') || known(&rule) <= 1_000_000,
    }
}

fn known(rule: &Rule) -> u32 {
    let text = notation::write_rule(rule);
    text.rsplit('/').next().unwrap().parse().unwrap()
}

#[test]
fn unused_places_are_not_looked_at() {
    let mut rng = Rng::new(25);
    for _ in 0..500 {
        let table = gen::table(&mut rng, Size::SMALL);
        let rubbish = gen::with_rubbish_after(&mut rng, table.clone());
        assert_eq!(check(&rubbish), Ok(()));
        assert_eq!(write(&rubbish), write(&table));
    }
}
