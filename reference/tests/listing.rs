//! The listing of loops against the bare definition.

use reference::gen::{self, Size};
use reference::loops::{every_loop, is_loop, Walk};
use reference::notation;
use reference::rng::Rng;
use reference::table::{Filled, Rule, Table};

/// Every sequence of at most n rule numbers that is a loop and is read from its
/// lowest transition.
fn by_definition(table: &Filled) -> Vec<Walk> {
    let mut found = Vec::new();
    let mut sequences: Vec<Walk> = vec![vec![]];
    for _ in 0..table.n {
        let longer = |walk: &Walk| -> Vec<Walk> {
            let lengthened = (0..table.rules.len()).map(|r| [&walk[..], &[r]].concat());
            lengthened.collect()
        };
        sequences = sequences.iter().flat_map(longer).collect();
        let loops = sequences.iter().filter(|walk| is_loop(table, walk));
        found.extend(loops.filter(|walk| from_lowest(table, walk)).cloned());
    }
    found
}

fn from_lowest(table: &Filled, walk: &[usize]) -> bool {
    let sources = walk.iter().map(|&r| table.rules[r].source);
    sources.min() == Some(table.rules[walk[0]].source)
}

#[test]
fn each_loop_is_listed_once() {
    let mut rng = Rng::new(31);
    for _ in 0..1_500 {
        let table = gen::table(&mut rng, Size::up_to(4, 6));
        let filled = table.filled_with(0);
        let mut listed = every_loop(&filled);
        let mut expected = by_definition(&filled);
        listed.sort();
        expected.sort();
        assert_eq!(listed, expected, "{}", notation::write(&table));
    }
}

/// With one rule between any two of k transitions and one at each, the loops
/// number C(k, j)·(j - 1)! for each length j.
#[test]
fn loops_where_everything_is_joined() {
    for (k, count) in [(1, 1), (2, 3), (3, 8), (4, 24), (5, 89), (6, 415)] {
        let pairs = (0..k).flat_map(|u| (0..k).map(move |v| (u, v)));
        let rules = pairs.map(|(u, v)| Rule::known(u, v, 1, 0)).collect();
        let table = Table::new(k, rules).filled(&[]);
        assert_eq!(every_loop(&table).len(), count);
    }
}

#[test]
fn what_is_no_loop() {
    let text = "n 3: 0>1/1/0, 1>0/1/0, 1>2/1/0, 2>2/1/0, 0>1/1/0";
    let table = notation::parse(text).unwrap().filled(&[]);
    assert!(is_loop(&table, &[0, 1]) && is_loop(&table, &[1, 0]) && is_loop(&table, &[3]));
    assert!(!is_loop(&table, &[]));
    assert!(!is_loop(&table, &[0]));
    assert!(!is_loop(&table, &[0, 2]));
    assert!(!is_loop(&table, &[3, 3]));
    assert!(!is_loop(&table, &[0, 1, 4, 1]));
    assert!(!is_loop(&table, &[9]));
}
