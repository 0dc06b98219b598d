//! The laps worked by hand, P1 to P10, and the limits on both sides.

use reference::analyse::{analyse, analyse_by, Analysis, Range, Room, LISTING};
use reference::file;
use reference::notation::parse;
use reference::rate::rate;
use reference::ratio::Ratio;
use reference::refusal::Refusal;
use reference::report::report;
use reference::simulate::simulate;
use reference::table::{Delay, Rule, Table};
use reference::vectors::bytes;

fn table(text: &str) -> Table {
    parse(text).unwrap()
}

fn refused<T>(number: u8, place: u64) -> Result<T, Refusal> {
    Err(Refusal { number, place })
}

/// The analysis by both ways, with just enough room.
fn analysis(table: &Table) -> Result<Analysis, Refusal> {
    let room = Room::each(table.n as usize);
    let answer = analyse(table, room);
    assert_eq!(answer, analyse_by(&LISTING, table, room));
    answer
}

fn expect(text: &str, low: (u64, u64), high: (u64, u64), loops: [&[usize]; 2], x: &[u64]) {
    let answer = analysis(&table(text)).unwrap();
    assert_eq!(answer.range.low, Ratio { p: low.0, q: low.1 });
    assert_eq!(
        answer.range.high,
        Ratio {
            p: high.0,
            q: high.1
        }
    );
    assert_eq!(answer.low_loop, loops[0]);
    assert_eq!(answer.high_loop, loops[1]);
    assert_eq!(answer.schedule, x);
}

#[test]
fn p1() {
    let text = "n 2: 0>1/0/3, 1>0/1/4";
    expect(text, (7, 1), (7, 1), [&[0, 1], &[0, 1]], &[0, 3]);
    let times = simulate(&table(text), 3, 6).unwrap();
    assert_eq!(times, [0, 3, 7, 10, 14, 17]);
}

#[test]
fn p2() {
    let text = "n 2: 0>1/0/3, 1>0/2/4";
    expect(text, (7, 2), (7, 2), [&[0, 1], &[0, 1]], &[0, 6]);
}

#[test]
fn p3() {
    let text = "n 2: 0>1/0/3, 1>0/1/?";
    expect(text, (3, 1), (1_000_003, 1), [&[0, 1], &[0, 1]], &[0, 3]);
}

#[test]
fn p4() {
    let text = "n 2: 0>1/0/0, 1>0/2/?, 0>0/1/1000000";
    let period = (1_000_000, 1);
    expect(text, period, period, [&[2], &[2]], &[0, 0]);
}

#[test]
fn p5() {
    let text = "n 1: 0>0/1/?";
    expect(text, (0, 1), (1_000_000, 1), [&[0], &[0]], &[0]);
}

#[test]
fn p6() {
    expect("n 1: 0>0/1/0", (0, 1), (0, 1), [&[0], &[0]], &[0]);
}

#[test]
fn p7() {
    assert_eq!(analysis(&table("n 1: 0>0/0/0")), refused(5, 0));
}

#[test]
fn p8() {
    let table = table("n 2: 0>1/1/5");
    assert_eq!(analysis(&table), refused(6, 0));
    assert_eq!(simulate(&table, 2, 4).unwrap(), [0, 0, 0, 5]);
}

#[test]
fn p9() {
    assert_eq!(analysis(&table("n 1:")), refused(6, 0));
}

#[test]
fn p10() {
    let cases = [
        ("80", 1, 1),
        ("80 00", 2, 1),
        ("80 80 80", 2, 2),
        ("00", 3, 0),
        ("01 00 00", 4, 2),
        ("80 80 00", 2, 2),
        ("01 80", 1, 2),
    ];
    for (text, number, place) in cases {
        assert_eq!(file::read(&bytes(text)), refused(number, place), "{text}");
    }
}

#[test]
fn the_program() {
    let text = report(&bytes("02 02 00 01 00 04 01 00 01 05"));
    assert_eq!(
        text,
        "period 7/1 exact\nlow 0 1\nhigh 0 1\nschedule 1 0 3\n"
    );
    let blank = report(&file::write(&table("n 2: 0>1/0/3, 1>0/1/?")));
    assert!(blank.starts_with("period from 3/1 to 1000003/1\n"));
    assert_eq!(report(&bytes("01 01 00 00 00 01")), "refused 5 at 0\n");
    assert_eq!(report(&[]), "refused 1 at 0\n");
}

/// Ends with different denominators: the schedule's line has the high end's.
#[test]
fn the_program_on_two_denominators() {
    let text = |table: Table| report(&file::write(&table));
    assert_eq!(
        text(table("n 1: 0>0/2/3, 0>0/1/?")),
        "period from 3/2 to 1000000/1\nlow 0\nhigh 1\nschedule 1 0\n"
    );
    assert_eq!(
        text(table("n 2: 0>1/0/3, 1>0/2/?, 0>0/1/5")),
        "period from 5/1 to 1000003/2\nlow 2\nhigh 0 1\nschedule 2 0 6\n"
    );
}

/// The table with the most transitions and rules, a file of the most bytes.
fn fullest() -> Table {
    let rule = Rule::known(255, 255, 15, 1_000_000);
    Table::new(256, vec![rule; 2_048])
}

#[test]
fn limits_of_tables_handed_in() {
    let room = Room::each(300);
    let field = |table: &Table| analyse(table, room).err().filter(|f| f.number == 3);
    let place = |table: &Table| field(table).map(|fault| fault.place);
    assert_eq!(place(&fullest()), None);
    assert_eq!(
        place(&Table {
            n: 257,
            ..fullest()
        }),
        Some(0)
    );
    assert_eq!(place(&Table { n: 0, ..fullest() }), Some(0));
    assert_eq!(
        place(&Table {
            m: 2_049,
            ..fullest()
        }),
        Some(1)
    );
    let last = |rule: Rule| {
        let mut table = fullest();
        table.rules[2_047] = rule;
        place(&table)
    };
    let first_field = 2 + 4 * 2_047;
    assert_eq!(last(Rule::known(256, 256, 16, 0)), Some(first_field));
    assert_eq!(last(Rule::known(0, 256, 16, 0)), Some(first_field + 1));
    assert_eq!(
        last(Rule::known(0, 0, 16, 1_000_001)),
        Some(first_field + 2)
    );
    assert_eq!(
        last(Rule::known(0, 0, 15, 1_000_001)),
        Some(first_field + 3)
    );
    assert_eq!(last(Rule::unknown(0, 0, 15)), None);
}

#[test]
fn limits_of_files() {
    let sound = file::write(&fullest());
    assert_eq!(sound.len(), Table::LONGEST_FILE);
    assert_eq!(file::read(&sound), Ok(fullest()));
    assert_eq!(file::read(&bytes("80 02 00")).unwrap().n, 256);
    assert_eq!(file::read(&bytes("81 02 00")), refused(3, 0));
    assert_eq!(file::read(&bytes("80 02 81 10")), refused(3, 2));
    assert_eq!(file::read(&bytes("80 02 80 10")), refused(1, 4));
    assert_eq!(file::read(&bytes("01 01 01")), refused(3, 2));
    assert_eq!(file::read(&bytes("01 01 00 01")), refused(3, 3));
    let offset = |code: &str| file::read(&bytes(&format!("01 01 00 00 {code} 00")));
    assert!(offset("0f").is_ok());
    assert_eq!(offset("10"), refused(3, 4));
    let delay = |code: &str| file::read(&bytes(&format!("01 01 00 00 01 {code}")));
    assert_eq!(
        delay("c1 84 3d").unwrap().rules[0].delay,
        Delay::Known(1_000_000)
    );
    assert_eq!(delay("c2 84 3d"), refused(3, 5));
    assert_eq!(delay("00").unwrap().rules[0].delay, Delay::Unknown);
    assert_eq!(
        delay("80 80 01").unwrap().rules[0].delay,
        Delay::Known(16_383)
    );
    assert_eq!(delay("80 80"), refused(1, 7));
    assert_eq!(delay("80 80 00"), refused(2, 7));
}

#[test]
fn longer_files_than_the_program_reads() {
    let mut long = file::write(&fullest());
    long.extend([0; 40]);
    assert_eq!(file::read(&long), refused(4, 16_388));
    assert_eq!(report(&long), "refused 4 at 16388\n");
}

#[test]
fn buffers_one_place_short() {
    let text = "n 2: 0>1/0/3, 1>0/1/4";
    let table = table(text);
    for short in 0..3 {
        let mut room = Room::each(2);
        match short {
            0 => room.schedule = 1,
            1 => room.low_loop = 1,
            _ => room.high_loop = 1,
        }
        assert_eq!(analyse(&table, room), refused(8, 2));
    }
    assert!(analyse(&table, Room::each(2)).is_ok());
    assert_eq!(simulate(&table, 3, 5), refused(8, 6));
    assert_eq!(file::write_into(&table, 9), refused(8, 10));
    assert_eq!(file::write_into(&table, 10).unwrap().len(), 10);
}

#[test]
fn occurrences_on_both_sides() {
    let table = table("n 2: 0>1/0/3, 1>0/1/4");
    assert_eq!(simulate(&table, 0, 9_999), refused(9, 0));
    assert_eq!(simulate(&table, 1, 2).unwrap(), [0, 3]);
    let times = simulate(&table, 1_024, 2_048).unwrap();
    assert_eq!(times[2_046..], [1_023 * 7, 1_023 * 7 + 3]);
    assert_eq!(simulate(&table, 1_025, 9_999), refused(9, 0));
}

/// Each call with several faults at once names the one that comes first.
#[test]
fn orders_of_refusal() {
    let mut bad = table("n 2: 0>0/0/?, 1>1/0/?");
    let wrong = Room::each(1);
    assert_eq!(analyse(&bad, wrong), refused(8, 2));
    assert_eq!(analyse(&bad, Room::each(2)), refused(5, 0));
    assert_eq!(
        rate(&bad, 2).err(),
        Some(Refusal {
            number: 10,
            place: 2
        })
    );
    assert_eq!(
        rate(&bad, 1).err(),
        Some(Refusal {
            number: 5,
            place: 0
        })
    );
    assert_eq!(simulate(&bad, 0, 0), refused(9, 0));
    assert_eq!(simulate(&bad, 1, 0), refused(7, 0));
    bad.rules[0] = Rule::known(0, 0, 1, 0);
    assert_eq!(simulate(&bad, 1, 0), refused(7, 1));
    bad.rules[1] = Rule::known(1, 1, 0, 0);
    assert_eq!(simulate(&bad, 1, 0), refused(8, 2));
    assert_eq!(simulate(&bad, 1, 2), refused(5, 1));
    bad.rules[1].offset = 16;
    assert_eq!(simulate(&bad, 0, 0), refused(3, 8));
    assert_eq!(analyse(&bad, wrong), refused(3, 8));
    assert_eq!(
        rate(&bad, 9).err(),
        Some(Refusal {
            number: 3,
            place: 8
        })
    );
    assert_eq!(file::write_into(&bad, 0), refused(3, 8));
}

fn exact_rate(p: u64) -> Result<Range, Refusal> {
    let one = Ratio { p, q: 1 };
    Ok(Range {
        low: one,
        high: one,
    })
}

/// A front end of lap 3 that feeds a loop of lap 10, a transition behind both,
/// one before them that no loop reaches, and a blank that only itself feels.
#[test]
fn each_its_own_rate() {
    let table =
        table("n 7: 0>1/0/1, 1>0/1/2, 1>2/0/5, 2>3/0/4, 3>2/1/6, 3>4/0/1, 5>0/0/9, 6>6/1/?");
    for (transition, wanted) in [(0, 3), (1, 3), (2, 10), (3, 10), (4, 10)] {
        assert_eq!(rate(&table, transition), exact_rate(wanted));
    }
    assert_eq!(
        rate(&table, 5).err(),
        Some(Refusal {
            number: 6,
            place: 0
        })
    );
    let blank = rate(&table, 6).unwrap();
    assert_eq!(
        (blank.low, blank.high),
        (Ratio { p: 0, q: 1 }, Ratio { p: 1_000_000, q: 1 })
    );
}
