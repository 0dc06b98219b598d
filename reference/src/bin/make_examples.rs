//! Writes the folder of examples: for each a rule file (.rules), its text form
//! with a line that says what it shows (.txt), what `report` prints (.expected)
//! and what `rate` prints for all its transitions (.rates). In `bids/`, a folder
//! for each pair of files that `bids` lays side by side: both, what they show
//! (about.txt), and what it prints (expected).
//!
//! Run in the package's folder: cargo run --release --bin make_examples

use std::fs;
use std::io;
use std::path::Path;

use reference::bids;
use reference::file;
use reference::notation;
use reference::report::{rate_lines, report};
use reference::table::Table;
use reference::vectors;

/// Name, what it shows, the table.
const WORKED: [(&str, &str, &str); 9] = [
    (
        "p1",
        "P1: one loop; its delays add up to the period",
        "n 2: 0>1/0/3, 1>0/1/4",
    ),
    (
        "p2",
        "P2: offset 2, so the period is a fraction",
        "n 2: 0>1/0/3, 1>0/2/4",
    ),
    (
        "p3",
        "P3: a blank on the only loop gives a range",
        "n 2: 0>1/0/3, 1>0/1/?",
    ),
    (
        "p4",
        "P4: a blank that cannot matter; the answer is exact",
        "n 2: 0>1/0/0, 1>0/2/?, 0>0/1/1000000",
    ),
    (
        "p5",
        "P5: nothing but a blank; the widest range",
        "n 1: 0>0/1/?",
    ),
    ("p6", "P6: the period is zero, written 0/1", "n 1: 0>0/1/0"),
    (
        "p7",
        "P7: a loop with offset sum 0 is refused",
        "n 1: 0>0/0/0",
    ),
    (
        "p8",
        "P8: no loop, refused; simulated twice: 0 0 0 5",
        "n 2: 0>1/1/5",
    ),
    (
        "front-end",
        "A front end of lap 3 that feeds a loop of lap 10; no loop reaches 4",
        "n 5: 0>1/0/1, 1>0/1/2, 1>2/0/5, 2>3/0/4, 3>2/1/6, 4>0/0/9",
    ),
];

/// Name, the published case, what it shows.
const PUBLISHED: [(&str, &str, &str); 8] = [
    (
        "ring-oscillator",
        "B-2.3-ring-oscillator",
        "A ring of three inverters; the six delays add up to the period",
    ),
    (
        "c-element",
        "B-2.4-c-element-tie",
        "A C-element; four loops are equally slow, and the tie is settled",
    ),
    (
        "c-element-blank",
        "B-2.4-c-element-blank-range",
        "The C-element with one unknown delay; low and high loop differ",
    ),
    (
        "d-element",
        "B-4.1-D-element",
        "A D-element; eight transitions in one loop",
    ),
    (
        "fifo-stage",
        "B-6-fifo-pa",
        "A FIFO stage among its neighbours, row pa of the table",
    ),
    (
        "microprocessor",
        "B-6.2-microprocessor-memory",
        "The control processes of a microprocessor; 88 transitions",
    ),
    (
        "two-offsets",
        "K-4.4",
        "A loop with offset sum 2; the schedule is multiplied by 2",
    ),
    (
        "pipeline-ring",
        "P-1.1-ring-5",
        "A ring of five pipeline stages; the period has denominator 3",
    ),
];

/// Name, what it shows, the two tables; a tail is put after one that ends in `tail`.
const PAIRS: [(&str, &str, &str, &str); 6] = [
    (
        "first-better",
        "Two exact answers; 7/2 is below 4/1, by cross products",
        "n 2: 0>1/0/3, 1>0/2/4",
        "n 1: 0>0/1/4",
    ),
    (
        "second-better",
        "Whole division would call 7/2 and 3/1 equal; the second is lower",
        "n 2: 0>1/0/3, 1>0/2/4",
        "n 1: 0>0/1/3",
    ),
    (
        "equal-ends",
        "Equal high ends, from different rules: the first",
        "n 2: 0>1/0/3, 1>0/1/4",
        "n 2: 0>1/0/5, 1>0/2/9, 1>1/1/6",
    ),
    (
        "only-second",
        "The first has bytes after its last rule; the second, a blank and all, comes back",
        "n 1: 0>0/1/3 tail",
        "n 2: 0>1/0/3, 1>0/1/?",
    ),
    (
        "neither",
        "A loop without a turn, and no loop: neither can be analysed",
        "n 2: 0>0/1/1, 1>1/0/2",
        "n 2: 0>1/1/5",
    ),
    (
        "exact-against-range",
        "The range has the lower low end and the higher high end: the exact one is better",
        "n 2: 0>1/0/3, 1>0/1/?",
        "n 2: 0>1/0/3, 1>0/1/4",
    ),
];

fn main() -> io::Result<()> {
    let folder = Path::new("../examples");
    fs::create_dir_all(folder)?;
    for (name, shows, text) in WORKED {
        let table = notation::parse(text).expect("the notation is sound");
        write_example(folder, name, &format!("# {shows}.\n"), &table)?;
    }
    let cases = vectors::parse(include_str!("../../tests/vectors.txt"));
    for (name, case, shows) in PUBLISHED {
        let found = cases.iter().find(|known| known.name == case);
        let case = found.expect("the published case exists");
        let heading = format!(
            "# {shows}.\n# From {}.\n{}",
            case.origin,
            names(&case.names)
        );
        write_example(folder, name, &heading, &case.table)?;
    }
    for (name, shows, first, second) in PAIRS {
        write_pair(&folder.join("bids").join(name), shows, first, second)?;
    }
    Ok(())
}

fn write_pair(folder: &Path, shows: &str, first: &str, second: &str) -> io::Result<()> {
    fs::create_dir_all(folder)?;
    let (one, two) = (with_tail(first), with_tail(second));
    fs::write(folder.join("first.rules"), &one)?;
    fs::write(folder.join("second.rules"), &two)?;
    let about = format!("# {shows}.\nfirst {first}\nsecond {second}\n");
    fs::write(folder.join("about.txt"), about)?;
    fs::write(folder.join("expected"), bids::text(&one, &two))
}

/// The file of a table in notation; a byte too many where the word `tail` follows.
fn with_tail(text: &str) -> Vec<u8> {
    let sound = text.strip_suffix(" tail");
    let table = notation::parse(sound.unwrap_or(text)).expect("the notation is sound");
    let mut bytes = file::write(&table);
    bytes.extend(sound.map(|_| 0));
    bytes
}

fn write_example(folder: &Path, name: &str, heading: &str, table: &Table) -> io::Result<()> {
    let bytes = file::write(table);
    let text = format!("{heading}{}", wrapped(&notation::write(table)));
    fs::write(folder.join(name).with_extension("rules"), &bytes)?;
    fs::write(folder.join(name).with_extension("txt"), text)?;
    fs::write(folder.join(name).with_extension("expected"), report(&bytes))?;
    fs::write(
        folder.join(name).with_extension("rates"),
        rate_lines(&bytes),
    )
}

/// The names of the transitions as a comment, so that a reader can tell 3 from 5.
fn names(names: &str) -> String {
    let numbered = names.split(' ').enumerate();
    let list: Vec<String> = numbered.map(|(v, name)| format!("{v} {name}")).collect();
    let text = wrapped(&format!("transitions: {}", list.join(", ")));
    text.lines().map(|line| format!("# {line}\n")).collect()
}

/// Broken after commas, so that lines stay short.
fn wrapped(text: &str) -> String {
    let mut lines = String::new();
    let mut width = 0;
    for part in text.split_inclusive(", ") {
        if width > 0 && width + part.len() > 76 {
            lines.truncate(lines.trim_end().len());
            lines.push('\n');
            width = 0;
        }
        lines.push_str(part);
        width += part.len();
    }
    lines + "\n"
}
