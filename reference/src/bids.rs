//! Two bids for the same socket, and the better of the two.

use crate::analyse::{range_by, Range, EXACT};
use crate::file;
use crate::refusal::Refusal;
use crate::report::{period_line, refused, BYTES_READ};

/// The ends of a bid, or why it cannot be analysed: 1 to 4 as reading goes, then 5, 6, 11.
pub fn ends(bytes: &[u8]) -> Result<Range, Refusal> {
    range_by(&EXACT, &file::read(bytes)?)
}

/// 0 or 1: the one with the lower high end, and at equal high ends the first. One
/// that cannot be analysed is passed over; where neither can, the first one's refusal.
pub fn choice(
    first: Result<Range, Refusal>,
    second: Result<Range, Refusal>,
) -> Result<usize, Refusal> {
    match (first, second) {
        (Ok(first), Ok(second)) => Ok((second.high < first.high) as usize),
        (Ok(_), Err(_)) => Ok(0),
        (Err(_), Ok(_)) => Ok(1),
        (Err(fault), Err(_)) => Err(fault),
    }
}

/// The better file, as it was lent, and which of the two it is.
pub fn better<'a>(first: &'a [u8], second: &'a [u8]) -> Result<(usize, &'a [u8]), Refusal> {
    let which = choice(ends(first), ends(second))?;
    Ok((which, [first, second][which]))
}

/// What `bids` prints: a line for each bid, and which is the better.
pub fn text(first: &[u8], second: &[u8]) -> String {
    let known = [first, second].map(|bytes| ends(&bytes[..bytes.len().min(BYTES_READ)]));
    let line = |ends: &Result<Range, Refusal>| match ends {
        Ok(range) => period_line(range),
        Err(fault) => refused(*fault),
    };
    let better = match choice(known[0], known[1]) {
        Ok(0) => "first",
        Ok(_) => "second",
        Err(_) => "neither",
    };
    format!(
        "first {}second {}better {better}\n",
        line(&known[0]),
        line(&known[1])
    )
}
