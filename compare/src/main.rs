//! Compares the proved library with the independent second program: small tables, whose every loop is listed,
//! full-size tables, tables with faulty fields, files sound and damaged, pairs of files, and files cut before every byte.
//! Every number of every result and every place of every lent buffer is compared. The first differences are
//! printed with the file in hexadecimal, and the run ends with status 1.
//!
//!     compare [share K OF] [SMALL [FULL [SEED]]]    counts of tables, and the seed they are made from; of OF shares, from 0 on, the K-th
//!     compare file FILE                             one rule file

mod calls;
mod cases;
mod expected;
mod outcome;
mod product;
mod safe;

use std::time::Instant;

use cases::Compare;
use reference::file;
use reference::gen::{self, Size};
use reference::notation;
use reference::rng::Rng;
use reference::table::{Delay, Table};

fn main() {
    let words: Vec<String> = std::env::args().skip(1).collect();
    if words.first().map_or(false, |word| word == "file") {
        let bytes = std::fs::read(&words[1]).expect("a rule file");
        let mut compare = Compare::new(1, (0, 1));
        compare.any_file(&bytes);
        finish(&compare);
        return;
    }
    let count = |k: usize, usual: u64| match words.get(k) {
        Some(word) => word.parse().expect("a whole number"),
        None => usual,
    };
    let (share, at) = match words.first().map_or(false, |word| word == "share") {
        true => ((count(1, 0), count(2, 1)), 3),
        false => ((0, 1), 0),
    };
    run(
        count(at, 50_000),
        count(at + 1, 500),
        count(at + 2, 20_260_101),
        share,
    );
}

fn run(small: u64, full: u64, seed: u64, share: (u64, u64)) {
    println!("seed {seed}, share {} of {}", share.0 + 1, share.1);
    let mut compare = Compare::new(seed, share);
    let parts: [(&str, u64, fn(&mut Compare, u64)); 10] = [
        ("laps and files worked by hand", 1, worked),
        ("small tables", small, small_tables),
        ("tables with faulty fields", small / 5, faulty_tables),
        ("small files, sound and damaged", small, small_files),
        ("small files cut before every byte", small / 250, cut_files),
        ("middle tables", small / 25, middle_tables),
        ("full-size tables", full, full_tables),
        ("pairs of small files", small / 2, small_pairs),
        ("pairs of full-size files", full / 25, full_pairs),
        (
            "longest files cut before every byte",
            full / 250,
            cut_longest,
        ),
    ];
    for (name, count, part) in parts {
        let start = Instant::now();
        part(&mut compare, count);
        let seconds = start.elapsed().as_secs_f64();
        println!(
            "{count:6} {name}: {} calls so far, {seconds:.1} s",
            compare.calls
        );
    }
    finish(&compare);
}

fn finish(compare: &Compare) {
    compare.print_outcomes();
    println!("{} calls, {} differ", compare.calls, compare.differing);
    if compare.differing > 0 {
        std::process::exit(1);
    }
}

/// Each table from a seed of its own, so that one can be made again alone.
fn seeded(compare: &mut Compare, part: u64, k: u64) -> Rng {
    compare.at = (part, k);
    Rng::new(compare.seed.wrapping_add(part << 40).wrapping_add(k))
}

/// P1 to P10, whatever the seed.
fn worked(compare: &mut Compare, count: u64) {
    if compare.mine(count).next().is_none() {
        return;
    }
    let tables = [
        "n 2: 0>1/0/3, 1>0/1/4",
        "n 2: 0>1/0/3, 1>0/2/4",
        "n 2: 0>1/0/3, 1>0/1/?",
        "n 2: 0>1/0/0, 1>0/2/?, 0>0/1/1000000",
        "n 1: 0>0/1/?",
        "n 1: 0>0/1/0",
        "n 1: 0>0/0/0",
        "n 2: 0>1/1/5",
        "n 1:",
    ];
    for (k, text) in tables.iter().enumerate() {
        let mut rng = seeded(compare, 0, k as u64);
        let table = notation::parse(text).unwrap();
        compare.table(&mut rng, &table);
        compare.safe(&table, 3);
    }
    let files: [&[u8]; 7] = [
        &[0x80],
        &[0x80, 0],
        &[0x80; 3],
        &[0],
        &[1, 0, 0],
        &[0x80, 0x80, 0],
        &[1, 0x80],
    ];
    for bytes in files {
        let mut rng = seeded(compare, 0, 10);
        compare.file(&mut rng, bytes);
    }
}

fn small_tables(compare: &mut Compare, count: u64) {
    for k in compare.mine(count) {
        let mut rng = seeded(compare, 1, k);
        let table = gen::table(&mut rng, Size::SMALL);
        compare.table(&mut rng, &table);
        if k % 8 == 0 {
            compare.safe(&table, rng.between(0, 30) as usize);
        }
    }
}

fn faulty_tables(compare: &mut Compare, count: u64) {
    for k in compare.mine(count) {
        let mut rng = seeded(compare, 2, k);
        let size = if k % 50 == 0 { Size::FULL } else { Size::SMALL };
        let table = gen::damaged(&mut rng, size);
        compare.table(&mut rng, &table);
    }
}

fn small_files(compare: &mut Compare, count: u64) {
    for k in compare.mine(count) {
        let mut rng = seeded(compare, 3, k);
        let bytes = gen::file(&mut rng, Size::SMALL);
        compare.file(&mut rng, &bytes);
        compare.number(&mut rng, &bytes);
    }
}

fn cut_files(compare: &mut Compare, count: u64) {
    for k in compare.mine(count) {
        let mut rng = seeded(compare, 4, k);
        let sound = gen::sound_file(&mut rng, Size::SMALL);
        for cut in gen::every_cut(&sound) {
            compare.file(&mut rng, &cut);
        }
    }
}

/// Too large to list loops, small enough for every call.
fn middle_tables(compare: &mut Compare, count: u64) {
    for k in compare.mine(count) {
        let mut rng = seeded(compare, 7, k);
        let table = gen::table(&mut rng, Size::MIDDLE);
        compare.table(&mut rng, &table);
    }
}

/// One in two with every transition and rule that the limits allow.
fn full_tables(compare: &mut Compare, count: u64) {
    for k in compare.mine(count) {
        let mut rng = seeded(compare, 5, k);
        let size = if k % 2 == 0 { Size::WHOLE } else { Size::FULL };
        let (_, maker) = gen::KINDS[k as usize % gen::KINDS.len()];
        let table = maker(&mut rng, size);
        compare.full_table(&mut rng, &table);
    }
}

fn cut_longest(compare: &mut Compare, count: u64) {
    for k in compare.mine(count) {
        let mut rng = seeded(compare, 6, k);
        let sound = gen::longest_file(&mut rng);
        for end in 0..=sound.len() {
            compare.read_only(&sound[..end]);
        }
    }
}

/// Sound and damaged ones, beside others, beside themselves, and beside ones that differ in a delay.
fn small_pairs(compare: &mut Compare, count: u64) {
    for k in compare.mine(count) {
        let mut rng = seeded(compare, 8, k);
        let first = some_file(&mut rng);
        let second = match (rng.below(4), file::read(&first)) {
            (0, _) => first.clone(),
            (1, Ok(table)) => file::write(&with_another_delay(&mut rng, table)),
            _ => some_file(&mut rng),
        };
        compare.bids([&first, &second]);
    }
}

fn some_file(rng: &mut Rng) -> Vec<u8> {
    match rng.once_in(4) {
        true => gen::file(rng, Size::SMALL),
        false => gen::sound_file(rng, Size::SMALL),
    }
}

fn with_another_delay(rng: &mut Rng, mut table: Table) -> Table {
    if table.m > 0 {
        let r = rng.below(table.m as u64) as usize;
        table.rules[r].delay = rng.pick(&[Delay::Unknown, Delay::Known(0), Delay::Known(7)]);
    }
    table
}

/// A table and the same with one delay changed, so that ends are near each other or equal.
fn full_pairs(compare: &mut Compare, count: u64) {
    for k in compare.mine(count) {
        let mut rng = seeded(compare, 9, k);
        let (_, maker) = gen::KINDS[k as usize % gen::KINDS.len()];
        let table = maker(&mut rng, Size::FULL);
        let first = file::write(&table);
        let second = file::write(&with_another_delay(&mut rng, table));
        compare.bids([&first, &second]);
    }
}
