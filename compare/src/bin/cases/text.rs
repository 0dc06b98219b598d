//! Cases and answers as text.

use reference::table::Table;
use reference::{notation, vectors};

use crate::outcome::{pattern, Outcome};

pub fn first(call: &str) -> &str {
    call.split(' ').next().unwrap()
}

pub fn words(call: &str) -> (&str, Vec<usize>) {
    let numbers = call.split(' ').skip(1).map(|word| word.parse().unwrap());
    (first(call), numbers.collect())
}

/// `5*x` as x five times; `x` once.
fn times(part: &str) -> (usize, &str) {
    match part.split_once('*') {
        Some((count, x)) => (count.trim().parse().unwrap(), x),
        None => (1, part),
    }
}

pub fn table_of(text: &str) -> Table {
    if let Some(n) = text.strip_prefix("ring ") {
        let n: u32 = n.parse().unwrap();
        let rule = |k: u32| format!("{k}>{}/{}/1", (k + 1) % n, (k + 1) / n);
        let rules: Vec<String> = (0..n).map(rule).collect();
        return notation::parse(&format!("n {n}: {}", rules.join(", "))).unwrap();
    }
    let (head, body) = text.split_once(':').unwrap();
    let mut rules = Vec::new();
    for part in body.split(',') {
        let (count, rule) = times(part);
        rules.extend(vec![rule; count]);
    }
    notation::parse(&format!("{head}: {}", rules.join(","))).unwrap()
}

/// Bytes that are repeated have points between them.
pub fn bytes_of(text: &str) -> Vec<u8> {
    let mut bytes = Vec::new();
    for part in text.split_whitespace() {
        let (count, group) = times(part);
        bytes.extend(vectors::bytes(&group.replace('.', " ")).repeat(count));
    }
    bytes
}

/// What came back, on one line.
pub fn text(outcome: &Outcome, n: usize, call: &str) -> String {
    let (word, v) = words(call);
    let (numbers, buffers) = (&outcome.numbers, &outcome.buffers);
    // Where refusal and place stand, the bits of a place of each buffer, and how many places an answer takes.
    let (place, bits, mut written) = match word {
        "analyse" => (
            2,
            vec![64, 32, 32],
            vec![n, numbers[5] as usize, numbers[8] as usize],
        ),
        "rate" => (2, vec![], vec![]),
        "simulate" => (1, vec![64], vec![n.saturating_mul(v[0])]),
        "write" => (1, vec![8], vec![numbers[2] as usize]),
        "read" => (1, vec![16, 16, 16, 32, 8], vec![numbers[3] as usize; 5]),
        _ => (2, vec![], vec![]),
    };
    let refused = numbers[0] != 0;
    if refused {
        written.fill(0);
    }
    let lists: Vec<&[u64]> = buffers
        .iter()
        .zip(&written)
        .map(|(b, &w)| &b[..w.min(b.len())])
        .collect();
    let mut line = match word {
        _ if refused => refusal(numbers, place),
        "analyse" => format!(
            "period {}, low {}, high {}, schedule {} {}",
            ends(numbers[1], [numbers[3], numbers[4], numbers[6], numbers[7]]),
            list(lists[1]),
            list(lists[2]),
            numbers[7],
            list(lists[0])
        ),
        "rate" => format!(
            "rate {}",
            ends(numbers[1], [numbers[3], numbers[4], numbers[5], numbers[6]])
        ),
        "simulate" if v.len() > 2 => format!("time {}", lists[0][v[2]]),
        "simulate" => format!("times {}", list(lists[0])),
        "write" => format!("bytes {}", hexadecimal(lists[0])),
        "read" => rules(numbers[2], &lists),
        "bids" => format!("which {}, length {}", numbers[1], numbers[3]),
        _ => format!("value {}, rest {}", numbers[1], numbers[3]),
    };
    if !refused && numbers[place] != 0 {
        line += &format!(", place {}", numbers[place]);
    }
    for ((buffer, from), bits) in buffers.iter().zip(written).zip(bits) {
        let mask = u64::MAX >> (64 - bits);
        if let Some(k) = (from..buffer.len()).find(|&k| buffer[k] != pattern(k) & mask) {
            line += &format!(", place {k} of a buffer not kept");
        }
    }
    line
}

/// Number and place; everything else must be zero.
fn refusal(numbers: &[u64], place: usize) -> String {
    let mut rest = numbers.to_vec();
    rest[0] = 0;
    rest[place] = 0;
    let zero = if rest.iter().all(|&x| x == 0) {
        ""
    } else {
        ", results not zero"
    };
    format!("refused {} at {}{zero}", numbers[0], numbers[place])
}

fn ends(exact: u64, [low_p, low_q, high_p, high_q]: [u64; 4]) -> String {
    match (exact, (low_p, low_q) == (high_p, high_q)) {
        (1, true) => format!("{low_p}/{low_q} exact"),
        (0, false) => format!("from {low_p}/{low_q} to {high_p}/{high_q}"),
        _ => format!("from {low_p}/{low_q} to {high_p}/{high_q} with exact {exact}"),
    }
}

/// Long lists of equal steps are shortened: `0 7..7161`, or `256*0`.
fn list(values: &[u64]) -> String {
    let step = |k: usize| values[k + 1].wrapping_sub(values[k]);
    let even = values.len() > 20 && (1..values.len() - 1).all(|k| step(k) == step(0));
    match even {
        true if step(0) == 0 => format!("{}*{}", values.len(), values[0]),
        true => format!("{} {}..{}", values[0], values[1], values[values.len() - 1]),
        false => values
            .iter()
            .map(u64::to_string)
            .collect::<Vec<_>>()
            .join(" "),
    }
}

/// A file that goes on as its first rule of eight bytes is shortened as in the cases.
fn hexadecimal(bytes: &[u64]) -> String {
    let plain = |bytes: &[u64], between: &str| {
        bytes
            .iter()
            .map(|byte| format!("{byte:02x}"))
            .collect::<Vec<_>>()
            .join(between)
    };
    let long = bytes.len() > 1_000 && bytes[4..].chunks(8).all(|rule| rule == &bytes[4..12]);
    match long {
        true => format!(
            "{} {}*{}",
            plain(&bytes[..4], " "),
            (bytes.len() - 4) / 8,
            plain(&bytes[4..12], ".")
        ),
        false => plain(bytes, " "),
    }
}

/// The columns read, in notation.
fn rules(n: u64, columns: &[&[u64]]) -> String {
    let rule = |r: usize| {
        let delay = match (columns[4][r], columns[3][r]) {
            (0, 0) => "?".to_string(),
            (1, delay) => delay.to_string(),
            (known, delay) => format!("{delay} with known {known}"),
        };
        format!(
            "{}>{}/{}/{delay}",
            columns[0][r], columns[1][r], columns[2][r]
        )
    };
    let mut rules: Vec<String> = (0..columns[0].len()).map(rule).collect();
    let all_equal = rules.len() > 20 && rules.iter().all(|rule| *rule == rules[0]);
    if all_equal {
        rules = vec![format!("{}*{}", rules.len(), rules[0])];
    }
    format!("n {n}: {}", rules.join(", "))
        .trim_end()
        .to_string()
}
