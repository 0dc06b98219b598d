//! The cases of the paper that are run and not proved: both sides of every limit, every refusal, every order of two
//! refusals, buffers one place short and exact, and the published cases. Each prints one line, `name: what came
//! back`, which must be the line in `cases.expected`. The second program is held to the same lines. Buffers are full
//! of a pattern beforehand: a place that was to stay as it was and did not is named on the line, and so are results
//! of a refused call that are not zero.

// The calls of `product` are named one by one: this program makes no report and needs none in the archive.
#[allow(dead_code)]
#[path = "../../calls.rs"]
mod calls;
#[allow(dead_code)]
#[path = "../../expected.rs"]
mod expected;
#[path = "../../outcome.rs"]
mod outcome;
#[allow(dead_code)]
#[path = "../../product.rs"]
mod product;

mod listed;
mod text;

use calls::{Call, FileCall};
use expected::Second;
use listed::{BIDS, DAMAGED, DAMAGED_CALLS, FILES, LIMITS, LIMIT_CALLS, LIMIT_FILE_CALLS, TABLES};
use product::Columns;
use reference::file;
use reference::table::Table;
use reference::vectors::{self, Vector};
use text::{bytes_of, first, table_of, text, words};

const EXPECTED: &str = include_str!("../../../cases.expected");
const PUBLISHED: &str = include_str!("../../../../reference/tests/vectors.txt");

fn main() {
    let mut cases = Cases::default();
    for (name, table, bytes) in LIMITS {
        for call in LIMIT_CALLS {
            cases.table(
                &format!("{name}, table, {}", first(call)),
                &table_of(table),
                call,
            );
        }
        for call in LIMIT_FILE_CALLS {
            cases.file(
                &format!("{name}, file, {}", first(call)),
                &bytes_of(bytes),
                call,
            );
        }
    }
    for (name, table, call) in TABLES {
        let table = table_of(table);
        cases.table(&format!("{name}, table"), &table, call);
        if let (Ok(bytes), true) = (file::write_into(&table, 1 << 20), first(call) != "write") {
            cases.file(&format!("{name}, file"), &bytes, call);
        }
    }
    for (name, bytes, call) in FILES {
        cases.file(name, &bytes_of(bytes), call);
    }
    for (number, bytes) in DAMAGED {
        for call in DAMAGED_CALLS {
            let name = format!("{number} before all that refuses {}", first(call));
            cases.file(&name, &bytes_of(bytes), call);
        }
    }
    // The published cases with delay ranges belong to the second edition, and `vectors.txt` leaves them out.
    for case in vectors::parse(PUBLISHED) {
        published(&mut cases, &case);
    }
    for (name, first, second) in BIDS {
        cases.bids(name, [&bytes_of(first), &bytes_of(second)]);
    }
    cases.finish();
}

/// A transition on the published loop, whose rate is the published period: the source of the loop's first rule.
fn on_the_loop(case: &Vector) -> Option<usize> {
    let high = case
        .report
        .lines()
        .find_map(|line| line.strip_prefix("high "))?;
    let first: usize = high.split(' ').next()?.parse().ok()?;
    Some(case.table.rule(first).source as usize)
}

fn published(cases: &mut Cases, case: &Vector) {
    let (name, n, m) = (&case.name, case.table.n as usize, case.table.m as usize);
    let analyse = format!("analyse {0} {0} {0}", n + 1);
    let rate = format!("rate {}", on_the_loop(case).unwrap_or(n - 1));
    let read = format!("read {0} {0} {0} {0} {0}", m + 1);
    cases.file(&format!("{name}, read"), &case.file, &read);
    cases.table(
        &format!("{name}, write"),
        &case.table,
        &format!("write {}", case.file.len()),
    );
    cases.table(&format!("{name}, table, analyse"), &case.table, &analyse);
    cases.file(&format!("{name}, file, analyse"), &case.file, &analyse);
    cases.table(&format!("{name}, rate"), &case.table, &rate);
    let rows = case.rows.len();
    if rows > 0 {
        let simulate = format!("simulate {rows} {}", rows * n);
        cases.table(&format!("{name}, rows"), &case.table, &simulate);
    }
    for &(transition, occurrence, _) in &case.times {
        let count = occurrence + 1;
        let place = occurrence * n + transition;
        let simulate = format!("simulate {count} {} {place}", count * n);
        cases.table(
            &format!("{name}, transition {transition}, occurrence {occurrence}"),
            &case.table,
            &simulate,
        );
    }
}

#[derive(Default)]
struct Cases {
    at: usize,
    good: usize,
    wrong: usize,
}

impl Cases {
    fn table(&mut self, name: &str, table: &Table, call: &str) {
        let columns = Columns::of(table);
        let (word, v) = words(call);
        let (asked, ours) = match word {
            "analyse" => (
                Call::Analyse([v[0], v[1], v[2]]),
                product::analyse(&columns, [v[0], v[1], v[2]]),
            ),
            "rate" => (Call::Rate(v[0]), product::rate(&columns, v[0])),
            "simulate" => (
                Call::Simulate(v[0], v[1]),
                product::simulate(&columns, v[0], v[1]),
            ),
            _ => (Call::Write(v[0]), product::write(&columns, v[0])),
        };
        let theirs = Second::new(table).call(asked);
        let n = table.n as usize;
        self.hold(name, text(&ours, n, call), text(&theirs, n, call));
    }

    fn file(&mut self, name: &str, bytes: &[u8], call: &str) {
        let (word, v) = words(call);
        let (asked, ours) = match word {
            "read" => {
                let room = [v[0], v[1], v[2], v[3], v[4]];
                (FileCall::Read(room), product::read(bytes, room))
            }
            "analyse" => {
                let room = [v[0], v[1], v[2]];
                (FileCall::Analyse(room), product::file_analyse(bytes, room))
            }
            "rate" => (FileCall::Rate(v[0]), product::file_rate(bytes, v[0])),
            "simulate" => (
                FileCall::Simulate(v[0], v[1]),
                product::file_simulate(bytes, v[0], v[1]),
            ),
            _ => {
                let (low, high) = (v[0] as u32, v[1] as u32);
                (
                    FileCall::Number(low, high),
                    product::number(bytes, low, high),
                )
            }
        };
        let table = file::read(bytes);
        let second = table.as_ref().map(Second::new).map_err(|fault| *fault);
        let theirs = expected::file_call(bytes, &second, asked);
        let n = table.as_ref().map_or(0, |table| table.n as usize);
        self.hold(name, text(&ours, n, call), text(&theirs, n, call));
    }

    fn bids(&mut self, name: &str, files: [&[u8]; 2]) {
        let ours = product::bids(files);
        let theirs = expected::bids(files, files.map(expected::ends));
        self.hold(
            &format!("bids, {name}"),
            text(&ours, 0, "bids"),
            text(&theirs, 0, "bids"),
        );
    }

    fn hold(&mut self, name: &str, ours: String, theirs: String) {
        let line = format!("{name}: {ours}");
        let wanted = EXPECTED.lines().nth(self.at).unwrap_or("no more lines");
        println!("{line}");
        if line != wanted {
            println!("  expected {wanted}");
        }
        if theirs != ours {
            println!("  second program {theirs}");
        }
        let good = line == wanted && theirs == ours;
        self.at += 1;
        self.good += good as usize;
        self.wrong += !good as usize;
    }

    fn finish(&mut self) {
        for line in EXPECTED.lines().skip(self.at) {
            println!("  expected {line}");
            self.wrong += 1;
        }
        println!("cases: {} as they should be, {} not", self.good, self.wrong);
        std::process::exit((self.wrong > 0) as i32);
    }
}
