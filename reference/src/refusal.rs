//! Number and place of a refusal.

#[derive(Clone, Copy, Debug, PartialEq, Eq, Hash)]
pub struct Refusal {
    pub number: u8,
    pub place: u64,
}

pub const CUT: u8 = 1;
pub const LONG: u8 = 2;
pub const RANGE: u8 = 3;
pub const TAIL: u8 = 4;
pub const LOOP: u8 = 5;
pub const FLAT: u8 = 6;
pub const UNKNOWN: u8 = 7;
pub const ROOM: u8 = 8;
pub const SPAN: u8 = 9;
pub const NAME: u8 = 10;
pub const WIDE: u8 = 11;

pub fn refusal(number: u8, place: usize) -> Refusal {
    Refusal {
        number,
        place: place as u64,
    }
}

/// Passes when `good`, and is refused otherwise.
pub fn demand(good: bool, number: u8, place: usize) -> Result<(), Refusal> {
    if good {
        Ok(())
    } else {
        Err(refusal(number, place))
    }
}
