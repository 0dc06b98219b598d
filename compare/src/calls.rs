//! The calls to compare, with their arguments.

/// A call on a table handed in. Numbers called room are lengths of buffers.
#[derive(Clone, Copy, Debug)]
pub enum Call {
    /// Room for schedule, low loop, high loop.
    Analyse([usize; 3]),
    Rate(usize),
    /// Occurrences, room.
    Simulate(usize, usize),
    Write(usize),
}

/// A call on the bytes of a rule file.
#[derive(Clone, Copy, Debug)]
pub enum FileCall {
    /// Room for source, target, offset, delay, known.
    Read([usize; 5]),
    Analyse([usize; 3]),
    Rate(usize),
    Simulate(usize, usize),
    Report(usize),
    /// Lowest and highest value.
    Number(u32, u32),
}
