//! Tables and files made from a generator of numbers.
//!
//! Most tables are made so that offset 0 only goes onward in some order of the
//! transitions; they have no zero-offset loop, and the period is asked for.

use crate::file;
use crate::rng::Rng;
use crate::table::{Delay, Rule, Table};

/// Largest n and m that a made table may have, and whether it must have them
/// as far as its kind lets it.
#[derive(Clone, Copy, Debug)]
pub struct Size {
    pub n: u32,
    pub m: u32,
    pub whole: bool,
}

impl Size {
    /// Small enough for every loop to be listed.
    pub const SMALL: Size = Size::up_to(6, 11);
    pub const MIDDLE: Size = Size::up_to(40, 160);
    pub const FULL: Size = Size::up_to(Table::HIGHEST_N, Table::HIGHEST_M);
    /// Every transition and every rule that the limits allow.
    pub const WHOLE: Size = Size {
        whole: true,
        ..Size::FULL
    };

    pub const fn up_to(n: u32, m: u32) -> Size {
        Size { n, m, whole: false }
    }

    /// A count from `lowest` to `highest`; the highest for a whole table.
    fn count(&self, rng: &mut Rng, lowest: u32, highest: u32) -> u32 {
        match self.whole {
            true => highest,
            false => rng.between(lowest, highest),
        }
    }
}

type Maker = fn(&mut Rng, Size) -> Table;

/// Every kind of table within the limits, by name.
pub const KINDS: [(&str, Maker); 15] = [
    ("sparse", sparse),
    ("anything", anything),
    ("strongly connected", strongly_connected),
    ("ring", ring),
    ("parallel rules", parallel),
    ("zero delays", zero_delays),
    ("equal delays", equal_delays),
    ("ties", ties),
    ("against the flow", against_the_flow),
    ("large values", large_values),
    ("many components", many_components),
    ("blanks", blanks),
    ("few blanks", few_blanks),
    ("zero-offset loop", zero_offset_loop),
    ("acyclic", acyclic),
];

/// A table of some kind, within the limits.
pub fn table(rng: &mut Rng, size: Size) -> Table {
    let (_, maker) = rng.pick(&KINDS);
    maker(rng, size)
}

fn some_n(rng: &mut Rng, size: Size) -> u32 {
    size.count(rng, 1, size.n)
}

/// Small delays meet often in ties; large ones try the widths.
fn some_delay(rng: &mut Rng) -> u32 {
    match rng.below(4) {
        0 => rng.between(0, 3),
        1 => rng.between(0, 20),
        2 => rng.between(0, 1_000),
        _ => rng.between(0, Table::HIGHEST_DELAY),
    }
}

/// Offset 0 only onward in the order, so that no zero-offset loop can close.
fn onward_offset(rng: &mut Rng, order: &[u32], source: u32, target: u32) -> u32 {
    let onward = order[source as usize] < order[target as usize];
    let lowest = if onward { 0 } else { 1 };
    match rng.below(8) {
        0 => rng.between(lowest, Table::HIGHEST_OFFSET),
        1..=3 => rng.between(lowest, 3),
        _ => lowest,
    }
}

fn onward_rule(rng: &mut Rng, order: &[u32], source: u32, target: u32) -> Rule {
    let offset = onward_offset(rng, order, source, target);
    Rule::known(source, target, offset, some_delay(rng))
}

/// Random rules, about as many as transitions.
pub fn sparse(rng: &mut Rng, size: Size) -> Table {
    let n = some_n(rng, size);
    let m = size.count(rng, 0, (n + n / 2 + 1).min(size.m));
    let order = rng.order(n);
    let rules = (0..m).map(|_| {
        let (source, target) = (rng.between(0, n - 1), rng.between(0, n - 1));
        onward_rule(rng, &order, source, target)
    });
    Table::new(n, rules.collect())
}

/// Every field anywhere within its limits; zero-offset loops come by chance.
pub fn anything(rng: &mut Rng, size: Size) -> Table {
    let n = some_n(rng, size);
    let m = size.count(rng, 0, size.m);
    let highest = rng.pick(&[0, 1, 2, Table::HIGHEST_OFFSET]);
    let rules = (0..m).map(|_| {
        let (source, target) = (rng.between(0, n - 1), rng.between(0, n - 1));
        let offset = rng.between(0, highest);
        match rng.once_in(5) {
            true => Rule::unknown(source, target, offset),
            false => Rule::known(source, target, offset, some_delay(rng)),
        }
    });
    Table::new(n, rules.collect())
}

/// A ring through all transitions with chords, in mixed file order.
pub fn strongly_connected(rng: &mut Rng, size: Size) -> Table {
    let n = size.count(rng, 1, size.n.min(size.m));
    let along = rng.order(n);
    let position = positions(&along);
    let mut rules = ring_rules(rng, &along);
    for _ in 0..size.count(rng, 0, size.m - n) {
        let (source, target) = (rng.between(0, n - 1), rng.between(0, n - 1));
        rules.push(onward_rule(rng, &position, source, target));
    }
    mix(rng, &mut rules);
    Table::new(n, rules)
}

/// Where each transition stands in this order.
fn positions(along: &[u32]) -> Vec<u32> {
    let mut position = vec![0; along.len()];
    for (k, &v) in along.iter().enumerate() {
        position[v as usize] = k as u32;
    }
    position
}

/// Rules from each to the next and from the last to the first; the last has an
/// offset above 0, because it does not go onward.
fn ring_rules(rng: &mut Rng, along: &[u32]) -> Vec<Rule> {
    let position = positions(along);
    (0..along.len())
        .map(|k| onward_rule(rng, &position, along[k], along[(k + 1) % along.len()]))
        .collect()
}

fn mix(rng: &mut Rng, rules: &mut [Rule]) {
    for last in (1..rules.len()).rev() {
        rules.swap(last, rng.below(last as u64 + 1) as usize);
    }
}

/// One loop through all transitions in some order, listed along the flow.
pub fn ring(rng: &mut Rng, size: Size) -> Table {
    let n = size.count(rng, 1, size.n.min(size.m));
    let along = rng.order(n);
    Table::new(n, ring_rules(rng, &along))
}

/// Many rules between few transitions, equal ones among them.
pub fn parallel(rng: &mut Rng, size: Size) -> Table {
    let n = rng.between(1, size.n.min(4));
    let m = size.count(rng, 0, size.m);
    let order = rng.order(n);
    let mut rules: Vec<Rule> = Vec::new();
    for _ in 0..m {
        let (source, target) = (rng.between(0, n - 1), rng.between(0, n - 1));
        let rule = match rules.is_empty() || !rng.once_in(3) {
            true => onward_rule(rng, &order, source, target),
            false => rng.pick(&rules),
        };
        rules.push(rule);
    }
    Table::new(n, rules)
}

/// Every loop attains the period 0/1.
pub fn zero_delays(rng: &mut Rng, size: Size) -> Table {
    with_delays(strongly_connected(rng, size), |_| 0)
}

/// One delay for all rules: the period is a matter of counts.
pub fn equal_delays(rng: &mut Rng, size: Size) -> Table {
    let delay = some_delay(rng);
    with_delays(strongly_connected(rng, size), |_| delay)
}

/// Delays and offsets of 0 to 2 and many loops, so that ties are common.
pub fn ties(rng: &mut Rng, size: Size) -> Table {
    let mut table = strongly_connected(rng, size);
    let same = rng.once_in(2);
    for rule in &mut table.rules {
        let proportional = rule.offset * 2;
        let loose = rng.between(0, 2);
        rule.delay = Delay::Known(if same { proportional } else { loose });
    }
    table
}

fn with_delays(mut table: Table, delay: impl Fn(&Rule) -> u32) -> Table {
    for rule in &mut table.rules {
        rule.delay = Delay::Known(delay(rule));
    }
    table
}

/// A chain of offset-0 rules listed from its end, against the flow: one pass in
/// file order carries a value only one rule further.
pub fn against_the_flow(rng: &mut Rng, size: Size) -> Table {
    let n = size.count(rng, 1, size.n.min(size.m));
    let along = rng.order(n);
    let mut rules: Vec<Rule> = (1..n as usize)
        .rev()
        .map(|k| Rule::known(along[k - 1], along[k], 0, some_delay(rng)))
        .collect();
    let last = along[n as usize - 1];
    rules.push(Rule::known(
        last,
        along[0],
        rng.between(1, 2),
        some_delay(rng),
    ));
    Table::new(n, rules)
}

/// Offsets 14 and 15 and delays close to 1,000,000.
pub fn large_values(rng: &mut Rng, size: Size) -> Table {
    let mut table = strongly_connected(rng, size);
    let some_zero = rng.once_in(2);
    for rule in &mut table.rules {
        let keep = some_zero && rule.offset == 0;
        rule.offset = if keep { 0 } else { rng.between(14, 15) };
        let delay = rng.between(Table::HIGHEST_DELAY - 9, Table::HIGHEST_DELAY);
        rule.delay = Delay::Known(delay);
    }
    table
}

/// Several blocks with their transitions mixed, some joined by rules one way.
pub fn many_components(rng: &mut Rng, size: Size) -> Table {
    let mut n = 0;
    let mut rules = Vec::new();
    let most = rng.between(1, 8);
    for _ in 0..most {
        let left = Size::up_to(
            (size.n - n).min(1 + size.n / 3),
            (size.m - rules.len() as u32) / 2,
        );
        if left.n == 0 || left.m == 0 {
            break;
        }
        let block = block(rng, left);
        let moved = block.rules.iter().map(|rule| moved(rule, n));
        rules.extend(moved.collect::<Vec<_>>());
        if n > 0 && rng.once_in(2) {
            let (source, target) = (rng.between(0, n - 1), n + rng.between(0, block.n - 1));
            let offset = rng.between(0, 2);
            rules.push(Rule::known(source, target, offset, some_delay(rng)));
        }
        n += block.n;
    }
    renumbered(rng, Table::new(n, rules))
}

fn block(rng: &mut Rng, size: Size) -> Table {
    match rng.below(4) {
        0 => acyclic(rng, size),
        1 => ring(rng, size),
        2 => ties(rng, size),
        _ => strongly_connected(rng, size),
    }
}

fn moved(rule: &Rule, by: u32) -> Rule {
    Rule {
        source: rule.source + by,
        target: rule.target + by,
        ..*rule
    }
}

/// The same table with its transitions renamed and its rules mixed.
pub fn renumbered(rng: &mut Rng, table: Table) -> Table {
    let name = rng.order(table.n);
    let mut rules: Vec<Rule> = table
        .rules
        .iter()
        .map(|rule| Rule {
            source: name[rule.source as usize],
            target: name[rule.target as usize],
            ..*rule
        })
        .collect();
    mix(rng, &mut rules);
    Table::new(table.n, rules)
}

/// Any number of blanks in a table of another kind.
pub fn blanks(rng: &mut Rng, size: Size) -> Table {
    let mut table = block_or_sparse(rng, size);
    let times = rng.pick(&[1, 2, 4, 10]);
    for rule in &mut table.rules {
        if rng.once_in(times) {
            rule.delay = Delay::Unknown;
        }
    }
    table
}

/// One or two blanks.
pub fn few_blanks(rng: &mut Rng, size: Size) -> Table {
    let mut table = block_or_sparse(rng, size);
    for _ in 0..rng.between(1, 2) {
        if !table.rules.is_empty() {
            let r = rng.below(table.rules.len() as u64) as usize;
            table.rules[r].delay = Delay::Unknown;
        }
    }
    table
}

fn block_or_sparse(rng: &mut Rng, size: Size) -> Table {
    match rng.below(4) {
        0 => sparse(rng, size),
        1 => parallel(rng, size),
        2 => many_components(rng, size),
        _ => block(rng, size),
    }
}

/// A table of another kind with a loop of offset-0 rules put in.
pub fn zero_offset_loop(rng: &mut Rng, size: Size) -> Table {
    let smaller = Size::up_to(size.n, (size.m / 2).max(1));
    let mut table = block_or_sparse(rng, smaller);
    let left = size.m - table.rules.len() as u32;
    let most = table.n.min(left);
    if most > 0 {
        let length = rng.between(1, most) as usize;
        let along = rng.order(table.n);
        for k in 0..length {
            let next = along[(k + 1) % length];
            table
                .rules
                .push(Rule::known(along[k], next, 0, some_delay(rng)));
        }
    }
    mix(rng, &mut table.rules);
    Table::new(table.n, table.rules)
}

/// Rules only onward in some order: there is no loop.
pub fn acyclic(rng: &mut Rng, size: Size) -> Table {
    let n = some_n(rng, size);
    let order = rng.order(n);
    let mut rules = Vec::new();
    for _ in 0..size.count(rng, 0, size.m) {
        let (one, other) = (rng.between(0, n - 1), rng.between(0, n - 1));
        let onward = order[one as usize] < order[other as usize];
        let (source, target) = if onward { (one, other) } else { (other, one) };
        if source != target {
            let offset = rng.pick(&[0, 0, 1, 2, 15]);
            rules.push(Rule::known(source, target, offset, some_delay(rng)));
        }
    }
    Table::new(n, rules)
}

/// A table handed in with one to three faulty fields. Source, target and offset
/// stay within 16 bits, which is as wide as the proved library is handed them.
pub fn damaged(rng: &mut Rng, size: Size) -> Table {
    let mut table = table(rng, size);
    for _ in 0..rng.between(1, 3) {
        damage(rng, &mut table);
    }
    table
}

fn damage(rng: &mut Rng, table: &mut Table) {
    let field = rng.below(2 + 4 * table.rules.len() as u64);
    let far = rng.pick(&[0, 1, 1_000, 60_000]);
    let far_delay = rng.pick(&[0, 1, 1_000, u32::MAX - 1_000_001]);
    let r = field.saturating_sub(2) as usize / 4;
    match (field, field.saturating_sub(2) % 4) {
        (0, _) => table.n = rng.pick(&[0, 257, 258, 65_536, u32::MAX]),
        (1, _) => table.m = rng.pick(&[2_049, 2_050, 65_536, u32::MAX]),
        (_, 0) => table.rules[r].source = table.n.saturating_add(far).min(65_535),
        (_, 1) => table.rules[r].target = table.n.saturating_add(far).min(65_535),
        (_, 2) => table.rules[r].offset = Table::HIGHEST_OFFSET + 1 + far,
        _ => table.rules[r].delay = Delay::Known(Table::HIGHEST_DELAY + 1 + far_delay),
    }
}

/// Rubbish in the places after the last rule; calls never look at them.
pub fn with_rubbish_after(rng: &mut Rng, mut table: Table) -> Table {
    for _ in 0..rng.between(1, 4) {
        let rule = Rule::known(u32::MAX, rng.between(0, 300), 16, u32::MAX);
        table.rules.push(rule);
    }
    table
}

// --------------------------------------------------------------------- files

/// A file of some kind: sound, cut, flipped, with a tail, or plain rubbish.
pub fn file(rng: &mut Rng, size: Size) -> Vec<u8> {
    let sound = sound_file(rng, size);
    match rng.below(6) {
        0 => sound,
        1 => cut(rng, &sound),
        2 | 3 => flipped(rng, &sound),
        4 => with_tail(rng, &sound),
        _ => rubbish(rng),
    }
}

pub fn sound_file(rng: &mut Rng, size: Size) -> Vec<u8> {
    file::write(&table(rng, size))
}

/// Every number at its longest.
pub fn longest_file(rng: &mut Rng) -> Vec<u8> {
    let rule = |rng: &mut Rng| {
        let (source, target) = (rng.between(128, 255), rng.between(128, 255));
        let offset = rng.between(0, Table::HIGHEST_OFFSET);
        Rule::known(
            source,
            target,
            offset,
            rng.between(16_383, Table::HIGHEST_DELAY),
        )
    };
    let rules = (0..Table::HIGHEST_M).map(|_| rule(rng)).collect();
    file::write(&Table::new(Table::HIGHEST_N, rules))
}

/// Bytes that lean towards small numbers, so that some get far.
pub fn rubbish(rng: &mut Rng) -> Vec<u8> {
    let length = rng.below(24);
    let small = rng.once_in(2);
    let bytes = (0..length).map(|_| match small && !rng.once_in(6) {
        true => rng.below(4) as u8,
        false => rng.draw() as u8,
    });
    bytes.collect()
}

pub fn cut(rng: &mut Rng, bytes: &[u8]) -> Vec<u8> {
    bytes[..rng.below(bytes.len() as u64) as usize].to_vec()
}

/// The file cut before each of its bytes, the empty file first.
pub fn every_cut(bytes: &[u8]) -> Vec<Vec<u8>> {
    (0..bytes.len()).map(|end| bytes[..end].to_vec()).collect()
}

/// One to three bits turned over.
pub fn flipped(rng: &mut Rng, bytes: &[u8]) -> Vec<u8> {
    let mut bytes = bytes.to_vec();
    for _ in 0..rng.between(1, 3) {
        let at = rng.below(bytes.len() as u64) as usize;
        bytes[at] ^= 1 << rng.below(8);
    }
    bytes
}

pub fn with_tail(rng: &mut Rng, bytes: &[u8]) -> Vec<u8> {
    let mut bytes = bytes.to_vec();
    bytes.extend(rubbish(rng));
    bytes
}
