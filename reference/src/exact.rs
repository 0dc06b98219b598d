//! The same answers as `loops` for tables of any size within the limits.
//!
//! Zero-offset loops come from strongly connected parts. The period comes from
//! policies: each transition names one rule that leaves it; the best loop among
//! the named rules gives a candidate, and the values measured along the named
//! rules either show that no loop is larger or name better rules. The reported
//! loop grows in layers along the rules that lie on attaining loops.

use std::collections::VecDeque;

use crate::ratio::Ratio;
use crate::schedule;
use crate::table::{Filled, FilledRule};

// ---------------------------------------------------------------- components

/// The strongly connected part of each transition, as a number, along the rules
/// that `keep` lets through.
pub fn components(table: &Filled, keep: impl Fn(&FilledRule) -> bool) -> Vec<usize> {
    let mut search = Search {
        next: vec![Vec::new(); table.n],
        entered: vec![None; table.n],
        low: vec![0; table.n],
        open: Vec::new(),
        component: vec![None; table.n],
        turns: 0,
        parts: 0,
    };
    for rule in table.rules.iter().filter(|rule| keep(rule)) {
        search.next[rule.source].push(rule.target);
    }
    for v in 0..table.n {
        if search.entered[v].is_none() {
            search.enter(v);
        }
    }
    search.component.into_iter().map(|c| c.unwrap()).collect()
}

/// Tarjan's search in depth; it goes at most n calls deep.
struct Search {
    next: Vec<Vec<usize>>,
    entered: Vec<Option<usize>>,
    low: Vec<usize>,
    open: Vec<usize>,
    component: Vec<Option<usize>>,
    turns: usize,
    parts: usize,
}

impl Search {
    fn enter(&mut self, v: usize) {
        self.entered[v] = Some(self.turns);
        self.low[v] = self.turns;
        self.turns += 1;
        self.open.push(v);
        for at in 0..self.next[v].len() {
            let w = self.next[v][at];
            match self.entered[w] {
                None => {
                    self.enter(w);
                    self.low[v] = self.low[v].min(self.low[w]);
                }
                Some(turn) if self.component[w].is_none() => {
                    self.low[v] = self.low[v].min(turn);
                }
                Some(_) => {}
            }
        }
        if Some(self.low[v]) == self.entered[v] {
            self.close(v);
        }
    }

    /// Everything opened since v, v included, is one part.
    fn close(&mut self, v: usize) {
        while let Some(w) = self.open.pop() {
            self.component[w] = Some(self.parts);
            if w == v {
                break;
            }
        }
        self.parts += 1;
    }
}

/// The place of LOOP. Offsets are never negative, so a loop has offset sum 0
/// exactly when all its rules have offset 0; and a transition lies on one
/// exactly when an offset-0 rule leaves it and stays in its part.
pub fn zero_loop(table: &Filled) -> Option<usize> {
    let part = components(table, |rule| rule.offset == 0);
    table
        .rules
        .iter()
        .filter(|rule| rule.offset == 0 && part[rule.source] == part[rule.target])
        .map(|rule| rule.source)
        .min()
}

// -------------------------------------------------------------------- period

/// The largest quotient over all loops; none when there is no loop. No loop of
/// the table may have offset sum 0.
pub fn period(table: &Filled) -> Option<Ratio> {
    let part = components(table, |_| true);
    let parts = part.iter().max().map_or(0, |last| last + 1);
    (0..parts)
        .filter_map(|this| largest_in_part(table, &part, this))
        .max()
}

/// The largest quotient over the loops inside one strongly connected part.
fn largest_in_part(table: &Filled, part: &[usize], this: usize) -> Option<Ratio> {
    let inner: Vec<usize> = (0..table.rules.len())
        .filter(|&r| part[table.rules[r].source] == this && part[table.rules[r].target] == this)
        .collect();
    if inner.is_empty() {
        return None;
    }
    let mut policy = Policy::first(table, inner);
    loop {
        let (ratio, best) = policy.best_loop();
        let values = policy.settle(&best, ratio);
        // Strict improvements only: then ratio and values climb, no policy
        // comes twice, and the search ends.
        if !policy.improve(&values, ratio) {
            return Some(ratio);
        }
    }
}

/// One rule named for each transition of a part, among the rules inside it.
struct Policy<'a> {
    table: &'a Filled,
    inner: Vec<usize>,
    named: Vec<Option<usize>>,
}

impl Policy<'_> {
    /// Names the first rule that leaves each transition.
    fn first(table: &Filled, inner: Vec<usize>) -> Policy<'_> {
        let mut named = vec![None; table.n];
        for &r in &inner {
            let slot: &mut Option<usize> = &mut named[table.rules[r].source];
            slot.get_or_insert(r);
        }
        Policy {
            table,
            inner,
            named,
        }
    }

    /// The loop of largest quotient among the named rules, from its lowest
    /// transition.
    fn best_loop(&self) -> (Ratio, Vec<usize>) {
        let mut best: Option<(Ratio, Vec<usize>)> = None;
        for walk in self.named_loops() {
            let delays = walk.iter().map(|&r| self.table.rules[r].delay).sum();
            let offsets = walk.iter().map(|&r| self.table.rules[r].offset).sum();
            let ratio = Ratio::of(delays, offsets);
            if best.as_ref().map_or(true, |(so_far, _)| ratio > *so_far) {
                best = Some((ratio, walk));
            }
        }
        best.expect("following named rules always closes a loop")
    }

    /// Each loop of the named rules once. Every transition of the part has a
    /// named rule, so a walk along them always comes back to itself.
    fn named_loops(&self) -> Vec<Vec<usize>> {
        let mut seen_by = vec![None; self.table.n];
        let mut loops = Vec::new();
        for start in 0..self.table.n {
            let mut at = start;
            while let (Some(r), None) = (self.named[at], seen_by[at]) {
                seen_by[at] = Some(start);
                at = self.table.rules[r].target;
            }
            // Back at a transition of this same walk: a loop not met before.
            if self.named[at].is_some() && seen_by[at] == Some(start) {
                loops.push(self.around(at));
            }
        }
        loops
    }

    /// The named loop through v, turned to start at its lowest transition.
    fn around(&self, v: usize) -> Vec<usize> {
        let mut walk = Vec::new();
        let mut at = v;
        loop {
            let r = self.named[at].unwrap();
            walk.push(r);
            at = self.table.rules[r].target;
            if at == v {
                break;
            }
        }
        let sources: Vec<usize> = walk.iter().map(|&r| self.table.rules[r].source).collect();
        let lowest = (0..walk.len()).min_by_key(|&k| sources[k]).unwrap();
        walk.rotate_left(lowest);
        walk
    }

    /// Values measured along the named rules: 0 where the best loop starts, and
    /// elsewhere the weight of the way there. A transition that leads to another
    /// loop is given a new named rule, one that leads to the best loop.
    fn settle(&mut self, best: &[usize], ratio: Ratio) -> Vec<Option<i128>> {
        let mut values = vec![None; self.table.n];
        let start = self.table.rules[best[0]].source;
        values[start] = Some(0);
        for &r in best.iter().skip(1).rev() {
            let rule = &self.table.rules[r];
            values[rule.source] =
                Some(schedule::weight(rule, ratio) + values[rule.target].unwrap());
        }
        self.spread(&mut values, ratio, true);
        self.spread(&mut values, ratio, false);
        values
    }

    /// Gives a value to the transitions that lead to a valued one, nearest
    /// first; `as_named` keeps to the named rules.
    fn spread(&mut self, values: &mut [Option<i128>], ratio: Ratio, as_named: bool) {
        let valued = (0..self.table.n).filter(|&v| values[v].is_some());
        let mut waiting: VecDeque<usize> = valued.collect();
        while let Some(v) = waiting.pop_front() {
            for &r in &self.inner {
                let rule = &self.table.rules[r];
                let fits = rule.target == v && (!as_named || self.named[rule.source] == Some(r));
                if fits && values[rule.source].is_none() {
                    self.named[rule.source] = Some(r);
                    values[rule.source] = Some(schedule::weight(rule, ratio) + values[v].unwrap());
                    waiting.push_back(rule.source);
                }
            }
        }
    }

    /// Names the rule of largest value where that is strictly better, and says
    /// whether any was. If none is, the values show that no loop is larger.
    fn improve(&mut self, values: &[Option<i128>], ratio: Ratio) -> bool {
        let mut highest = values.to_vec();
        let mut improved = false;
        for &r in &self.inner {
            let rule = &self.table.rules[r];
            let through = schedule::weight(rule, ratio) + values[rule.target].unwrap();
            if through > highest[rule.source].unwrap() {
                highest[rule.source] = Some(through);
                self.named[rule.source] = Some(r);
                improved = true;
            }
        }
        improved
    }
}

// ------------------------------------------------------------- reported loop

/// The reported loop. Around a loop the weights add up to at most 0, and to 0
/// exactly when it attains the period.
pub fn reported_loop(table: &Filled, period: Ratio) -> Vec<usize> {
    let rules = attaining_rules(table, period);
    let lowest = rules.iter().map(|&r| table.rules[r].source).min();
    let lowest = lowest.expect("some loop attains the period");
    first_shortest_loop(table, &rules, lowest)
}

/// The rules on the loops that attain the period: the rule and the longest way
/// back from its target to its source add up to 0. Every loop made of such rules
/// attains the period, for each of them has nothing to spare in any schedule.
fn attaining_rules(table: &Filled, period: Ratio) -> Vec<usize> {
    let longest = schedule::longest_walks(table, period);
    let back = |rule: &FilledRule| longest[rule.target][rule.source] as i128;
    (0..table.rules.len())
        .filter(|&r| {
            let rule = &table.rules[r];
            schedule::weight(rule, period) + back(rule) == 0
        })
        .collect()
}

/// Of the shortest loops through v along these rules the first in order of rule
/// numbers. Layer k holds the transitions that k rules reach and no fewer, each
/// with the first sequence that does; a shortest loop passes through a layer at
/// each step, so its first sequence grows from theirs.
fn first_shortest_loop(table: &Filled, rules: &[usize], v: usize) -> Vec<usize> {
    let mut reached = vec![false; table.n];
    let mut layer = vec![(v, Vec::new())];
    loop {
        let mut next: Vec<Option<Vec<usize>>> = vec![None; table.n];
        for (at, walk) in &layer {
            for &r in rules.iter().filter(|&&r| table.rules[r].source == *at) {
                let longer: Vec<usize> = walk.iter().copied().chain([r]).collect();
                let place = &mut next[table.rules[r].target];
                if place.as_ref().map_or(true, |first| longer < *first) {
                    *place = Some(longer);
                }
            }
        }
        if let Some(found) = next[v].take() {
            return found;
        }
        for (at, _) in &layer {
            reached[*at] = true;
        }
        layer = (0..table.n)
            .filter(|&w| !reached[w])
            .filter_map(|w| next[w].take().map(|walk| (w, walk)))
            .collect();
        assert!(!layer.is_empty(), "no loop through {v}");
    }
}

// ---------------------------------------------------------------------- wide

/// WIDE by a bound: a loop or such a path has at most n rules, so n times the
/// largest single size bounds every sum. Within the limits the bound stays below
/// 2^63 by far (the tests say how far), so it decides exactly: never.
pub fn wide(table: &Filled, period: Ratio) -> bool {
    largest_sum(table, period) >= 1 << 63
}

pub fn largest_sum(table: &Filled, period: Ratio) -> i128 {
    let sizes = table.rules.iter().flat_map(|rule| {
        let weight = schedule::weight(rule, period).abs();
        [rule.delay as i128, rule.offset as i128, weight]
    });
    table.n as i128 * sizes.max().unwrap_or(0)
}
