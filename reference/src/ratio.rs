//! P/Q in lowest terms; zero is 0/1.

use std::cmp::Ordering;
use std::fmt;

#[derive(Clone, Copy, Debug, PartialEq, Eq, Hash)]
pub struct Ratio {
    pub p: u64,
    pub q: u64,
}

impl Ratio {
    /// The quotient of two sums, brought to lowest terms. The second is not 0.
    pub fn of(delays: u64, offsets: u64) -> Ratio {
        assert!(offsets > 0, "a loop with offset sum 0 has no quotient");
        let common = greatest_common_divisor(delays, offsets);
        Ratio {
            p: delays / common,
            q: offsets / common,
        }
    }
}

fn greatest_common_divisor(a: u64, b: u64) -> u64 {
    if b == 0 {
        a
    } else {
        greatest_common_divisor(b, a % b)
    }
}

impl Ord for Ratio {
    /// By cross products: whole division would make 7/2 and 3/1 equal.
    fn cmp(&self, other: &Ratio) -> Ordering {
        let left = self.p as u128 * other.q as u128;
        let right = other.p as u128 * self.q as u128;
        left.cmp(&right)
    }
}

impl PartialOrd for Ratio {
    fn partial_cmp(&self, other: &Ratio) -> Option<Ordering> {
        Some(self.cmp(other))
    }
}

impl fmt::Display for Ratio {
    fn fmt(&self, out: &mut fmt::Formatter<'_>) -> fmt::Result {
        write!(out, "{}/{}", self.p, self.q)
    }
}
