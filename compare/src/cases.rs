//! Which calls are made on a table or a file, and what is done with the two answers.

use reference::analyse::Range;
use reference::bids;
use reference::file;
use reference::notation;
use reference::refusal::Refusal;
use reference::rng::Rng;
use reference::table::Table;

use crate::calls::{Call, FileCall};
use crate::expected::{self, Second};
use crate::outcome::Outcome;
use crate::product::{self, Columns};
use crate::safe;

/// The run ends at this many differences.
const ENOUGH: u64 = 3;

pub struct Compare {
    pub seed: u64,
    /// Which of how many runs this is, that share the tables among them.
    share: (u64, u64),
    /// The part and number of the table at hand, for the print of a difference.
    pub at: (u64, u64),
    pub calls: u64,
    pub differing: u64,
    /// How often each number of refusal came up; 0 is an answer.
    outcomes: [u64; 12],
    /// How often each kind of pair of bids came up.
    pairs: [u64; 6],
}

impl Compare {
    pub fn new(seed: u64, share: (u64, u64)) -> Compare {
        Compare {
            seed,
            share,
            at: (0, 0),
            calls: 0,
            differing: 0,
            outcomes: [0; 12],
            pairs: [0; 6],
        }
    }

    /// The numbers below `count` that fall to this run.
    pub fn mine(&self, count: u64) -> impl Iterator<Item = u64> {
        let (which, of) = self.share;
        count * which / of..count * (which + 1) / of
    }

    /// A kind of outcome that never came up was not compared at all.
    pub fn print_outcomes(&self) {
        let counts = self.outcomes.iter().enumerate();
        let shown: Vec<String> = counts.map(|(k, count)| format!("{k}: {count}")).collect();
        println!("outcomes by number of refusal: {}", shown.join(", "));
        let [first, second, equal, only_first, only_second, neither] = self.pairs;
        println!(
            "pairs of bids: first better {first}, second better {second}, equal high ends {equal}, \
             only the first {only_first}, only the second {only_second}, neither {neither}"
        );
    }

    // ---------------------------------------------------------------------------------------------- tables

    /// Every call, with buffers exact, too long and one place short.
    pub fn table(&mut self, rng: &mut Rng, table: &Table) {
        let columns = Columns::of(table);
        let second = Second::new(table);
        for call in table_calls(rng, table) {
            let ours = product::call(&columns, call);
            self.hold(&second.call(call), &ours, || on_table(table, call));
        }
        if table.m > 0 && table.m as usize == table.rules.len() && rng.once_in(10) {
            self.short_columns(rng, table);
        }
        if file::write_into(table, usize::MAX).is_ok() {
            self.file(rng, &file::write(table));
        }
    }

    fn short_columns(&mut self, rng: &mut Rng, table: &Table) {
        let mut columns = Columns::of(table);
        columns.shorten(rng.below(4) as usize);
        for call in table_calls(rng, table) {
            let wanted = expected::short_columns(table, call);
            let ours = product::call(&columns, call);
            self.hold(&wanted, &ours, || {
                format!("a column short: {}", on_table(table, call))
            });
        }
    }

    /// The Rust crate over the C face.
    pub fn safe(&mut self, table: &Table, occurrences: usize) {
        self.calls += 6;
        if let Some(name) = safe::differs(table, occurrences) {
            println!(
                "DIFFERENCE at part {}, number {}, seed {}",
                self.at.0, self.at.1, self.seed
            );
            println!(
                "safe call {name}, {occurrences} occurrences, on {}",
                hex_of(table)
            );
            self.differ();
        }
    }

    /// The dear calls once each: whole analysis, all occurrences, the file, and now and then rate and report.
    pub fn full_table(&mut self, rng: &mut Rng, table: &Table) {
        let n = table.n as usize;
        let bytes = file::write(table);
        let mut calls = vec![
            Call::Analyse([n, n, n]),
            Call::Analyse([n - 1, n, n]),
            Call::Simulate(1_024, 1_024 * n),
            Call::Simulate(rng.between(1, 40) as usize, 40 * n),
            Call::Write(bytes.len()),
            Call::Write(bytes.len() - 1),
        ];
        if rng.once_in(5) {
            calls.push(Call::Rate(rng.below(n as u64) as usize));
        }
        let columns = Columns::of(table);
        let second = Second::new(table);
        for call in calls {
            let ours = product::call(&columns, call);
            self.hold(&second.call(call), &ours, || on_table(table, call));
        }
        let m = table.m as usize;
        let mut file_calls = vec![
            FileCall::Read([m, m, m, m, m]),
            FileCall::Analyse([n, n + 1, n + 2]),
        ];
        if rng.once_in(5) {
            file_calls.push(FileCall::Report(8_192));
        }
        // The table is the file's own, so its analysis serves again.
        self.file_calls(&bytes, Ok(second), file_calls);
    }

    // ----------------------------------------------------------------------------------------------- files

    pub fn any_file(&mut self, bytes: &[u8]) {
        let mut rng = Rng::new(1);
        self.file(&mut rng, bytes);
        if let Ok(table) = file::read(bytes) {
            self.table(&mut rng, &table);
        }
    }

    pub fn file(&mut self, rng: &mut Rng, bytes: &[u8]) {
        let table = file::read(bytes);
        let second = table.as_ref().map(Second::new).map_err(|fault| *fault);
        let calls = file_calls(rng, table.as_ref().ok());
        self.file_calls(bytes, second, calls);
    }

    pub fn read_only(&mut self, bytes: &[u8]) {
        let call = FileCall::Read([2_048; 5]);
        let wanted = expected::file_call(bytes, &Err(NEVER_USED), call);
        let ours = product::file_call(bytes, call);
        self.hold(&wanted, &ours, || on_file(bytes, call));
    }

    fn file_calls(&mut self, bytes: &[u8], second: Result<Second, Refusal>, calls: Vec<FileCall>) {
        for call in calls {
            let wanted = expected::file_call(bytes, &second, call);
            let ours = product::file_call(bytes, call);
            self.hold(&wanted, &ours, || on_file(bytes, call));
        }
    }

    /// One number off the front, with likely and with odd limits.
    pub fn number(&mut self, rng: &mut Rng, bytes: &[u8]) {
        let from = rng.below(bytes.len() as u64 + 1) as usize;
        let low = rng.pick(&[0, 1, 2, 300, u32::MAX]);
        let high = rng.pick(&[0, 15, 255, 256, 2_048, 1_000_001, u32::MAX]);
        let call = FileCall::Number(low, high);
        let part = &bytes[from..];
        let wanted = expected::file_call(part, &Err(NEVER_USED), call);
        let ours = product::file_call(part, call);
        self.hold(&wanted, &ours, || on_file(part, call));
    }

    // ------------------------------------------------------------------------------------------- two files

    /// Both orders, and each file beside itself, through the C face and through the Rust crate.
    pub fn bids(&mut self, files: [&[u8]; 2]) {
        let known = files.map(expected::ends);
        for [a, b] in [[0, 1], [1, 0], [0, 0], [1, 1]] {
            let (pair, ends) = ([files[a], files[b]], [known[a], known[b]]);
            self.pairs[kind_of(&ends)] += 1;
            let what = || format!("bids {} and {}", hex(pair[0]), hex(pair[1]));
            self.hold(&expected::bids(pair, ends), &product::bids(pair), what);
            self.calls += 1;
            if !safe::better_is(pair, bids::choice(ends[0], ends[1])) {
                println!("DIFFERENCE in the Rust crate's better\n{}", what());
                self.differ();
            }
        }
    }

    // ------------------------------------------------------------------------------------------ both answers

    fn hold(&mut self, wanted: &Outcome, ours: &Outcome, what: impl Fn() -> String) {
        self.calls += 1;
        self.outcomes[wanted.numbers[0] as usize] += 1;
        if wanted == ours {
            return;
        }
        println!(
            "DIFFERENCE at part {}, number {}, seed {}",
            self.at.0, self.at.1, self.seed
        );
        println!("{}", what());
        println!("  second program {}", shown(wanted, ours));
        println!("  proved library {}", shown(ours, wanted));
        self.differ();
    }

    fn differ(&mut self) {
        self.differing += 1;
        if self.differing == ENOUGH {
            println!("{ENOUGH} differences: no more is compared");
            std::process::exit(1);
        }
    }
}

/// Stands where no table is needed.
const NEVER_USED: Refusal = Refusal {
    number: 0,
    place: 0,
};

/// In the order of the print.
fn kind_of(ends: &[Result<Range, Refusal>; 2]) -> usize {
    match ends {
        [Ok(first), Ok(second)] if first.high < second.high => 0,
        [Ok(first), Ok(second)] if second.high < first.high => 1,
        [Ok(_), Ok(_)] => 2,
        [Ok(_), Err(_)] => 3,
        [Err(_), Ok(_)] => 4,
        [Err(_), Err(_)] => 5,
    }
}

/// The numbers, and of the buffers those that differ.
fn shown(outcome: &Outcome, other: &Outcome) -> String {
    let mut text = format!("{:?}", outcome.numbers);
    for (k, buffer) in outcome.buffers.iter().enumerate() {
        if *buffer != other.buffers[k] {
            text += &format!(" buffer {k} {buffer:x?}");
        }
    }
    text
}

fn on_table(table: &Table, call: Call) -> String {
    format!("{call:?} on {}", hex_of(table))
}

/// The table as its file would be, which a faulty one has not, and small ones in words.
fn hex_of(table: &Table) -> String {
    let held = Table::new(table.n, table.rules.clone());
    let text = format!(
        "n {}, m {}, file {}",
        table.n,
        table.m,
        hex(&file::write(&held))
    );
    match table.rules.len() <= 20 {
        true => format!("{text}\n  {}", notation::write(&held)),
        false => text,
    }
}

fn on_file(bytes: &[u8], call: FileCall) -> String {
    format!("{call:?} on file {}", hex(bytes))
}

fn hex(bytes: &[u8]) -> String {
    let words: Vec<String> = bytes.iter().map(|byte| format!("{byte:02x}")).collect();
    words.join(" ")
}

// --------------------------------------------------------------------------------------------------- arguments

/// n as far as buffers go: a faulty table is refused before they matter.
fn room_n(table: &Table) -> usize {
    table.n.clamp(1, 300) as usize
}

fn table_calls(rng: &mut Rng, table: &Table) -> Vec<Call> {
    let n = room_n(table);
    let length = match file::write_into(table, usize::MAX) {
        Ok(bytes) => bytes.len(),
        Err(_) => 40,
    };
    let mut short = [n, n, n];
    short[rng.below(3) as usize] -= 1;
    let mut calls = vec![
        Call::Analyse([n, n, n]),
        Call::Analyse([n + 2, n + 1, n + 3]),
        Call::Analyse(short),
        Call::Rate(rng.below(n as u64 + 2) as usize),
        Call::Rate(rng.pick(&[0, n - 1, n, usize::MAX])),
        Call::Write(length),
        Call::Write(length - 1),
        Call::Write(length + 3),
    ];
    calls.extend(simulations(rng, n).map(|(occurrences, room)| Call::Simulate(occurrences, room)));
    calls
}

/// Occurrences and room: exact, one short, too long, and on both sides of the limits.
fn simulations(rng: &mut Rng, n: usize) -> impl Iterator<Item = (usize, usize)> {
    let some = rng.between(1, 20) as usize;
    let edge = rng.pick(&[0, 1, 1_025, usize::MAX]);
    let most = if rng.once_in(50) { 1_024 } else { 2 };
    [
        (some, some * n),
        (some, some * n - 1),
        (edge, n + 1),
        (most, most * n + 2),
    ]
    .into_iter()
}

fn file_calls(rng: &mut Rng, table: Option<&Table>) -> Vec<FileCall> {
    let n = table.map_or(4, room_n);
    let m = table.map_or(6, |table| table.m as usize);
    let mut short = [m + 1; 5];
    short[rng.below(5) as usize] = m.saturating_sub(1);
    let mut tight = [n; 3];
    tight[rng.below(3) as usize] -= rng.below(2) as usize;
    let mut calls = vec![
        FileCall::Read([m; 5]),
        FileCall::Read(short),
        FileCall::Analyse(tight),
        FileCall::Rate(rng.below(n as u64 + 1) as usize),
        FileCall::Report(200),
        FileCall::Report(rng.below(80) as usize),
    ];
    let simulated = simulations(rng, n).nth(rng.below(4) as usize);
    calls.extend(simulated.map(|(occurrences, room)| FileCall::Simulate(occurrences, room)));
    calls
}
