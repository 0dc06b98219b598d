//! The period of a table of transitions and rules, exactly, and where delays are unknown between which two ratios
//! it lies. The answers come from a library whose every function is proved to meet its contract; this crate lends
//! it slices and turns its numbers of refusal into [`Refusal`].
//!
//! ```
//! use vedhrunak_period::{analyse, Delay, Ratio, Table};
//!
//! // Two signal changes: 1 follows 0 after 3, and 0 follows 1 after 4, one time round later.
//! let table = Table::new(2)
//!     .rule(0, 1, 0, Delay::Known(3))
//!     .rule(1, 0, 1, Delay::Known(4));
//! let found = analyse(&table)?;
//! assert_eq!(found.range.high, Ratio { p: 7, q: 1 });
//! assert!(found.range.exact());
//! # Ok::<(), vedhrunak_period::Refusal>(())
//! ```
//!
//! | module | what it holds |
//! |---|---|
//! | `table` | [`Delay`], [`Rule`], [`Table`] and its limits |
//! | `refusal` | [`Refusal`] with its number and place, [`Field`] |
//! | `calls` | [`read`], [`write`], [`analyse`], [`rate`], [`simulate`], [`report`], [`number`], [`better`] |
//! | [`face`] | the C calls as `include/period.h` declares them |
//!
//! The repository's root says how the archive is made: `tools/archive`.

mod calls;
pub mod face;
mod refusal;
mod table;

pub use calls::{
    analyse, analyse_into, better, number, rate, read, report, simulate, simulate_into, write,
    write_into, Analysis, Found, Range, Ratio,
};
pub use refusal::{Field, Refusal};
pub use table::{Delay, Rule, Table};
