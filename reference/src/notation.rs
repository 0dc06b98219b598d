//! The notation `n 2: 0>1/0/3, 1>0/1/?`: source>target/offset/delay, ? for
//! unknown. Rules are parted by commas or ends of line; a line that starts with
//! # is a comment.

use crate::table::{Delay, Rule, Table};

/// Reads the notation. Values are not held against the limits here.
pub fn parse(text: &str) -> Result<Table, String> {
    let lines = text
        .lines()
        .filter(|line| !line.trim_start().starts_with('#'));
    let plain = lines.collect::<Vec<_>>().join(",");
    let (head, body) = plain.split_once(':').ok_or("no colon after n")?;
    let head = head.trim_matches(|c: char| c == ',' || c.is_whitespace());
    let n = head.strip_prefix("n ").ok_or("no n at the start")?;
    let n = number(n)?;
    let mut rules = Vec::new();
    for part in body
        .split(',')
        .map(str::trim)
        .filter(|part| !part.is_empty())
    {
        rules.push(parse_rule(part)?);
    }
    Ok(Table::new(n, rules))
}

fn parse_rule(text: &str) -> Result<Rule, String> {
    let wrong = || format!("not a rule: {text}");
    let (source, rest) = text.split_once('>').ok_or_else(wrong)?;
    let (target, rest) = rest.split_once('/').ok_or_else(wrong)?;
    let (offset, delay) = rest.split_once('/').ok_or_else(wrong)?;
    let delay = match delay.trim() {
        "?" => Delay::Unknown,
        known => Delay::Known(number(known)?),
    };
    Ok(Rule {
        source: number(source)?,
        target: number(target)?,
        offset: number(offset)?,
        delay,
    })
}

fn number(text: &str) -> Result<u32, String> {
    let text = text.trim();
    text.parse().map_err(|_| format!("not a number: {text}"))
}

/// The table on one line.
pub fn write(table: &Table) -> String {
    let rules: Vec<String> = table.used().iter().map(write_rule).collect();
    let line = format!("n {}: {}", table.n, rules.join(", "));
    line.trim_end().to_string()
}

pub fn write_rule(rule: &Rule) -> String {
    let delay = match rule.delay {
        Delay::Unknown => "?".to_string(),
        Delay::Known(delay) => delay.to_string(),
    };
    format!("{}>{}/{}/{}", rule.source, rule.target, rule.offset, delay)
}
