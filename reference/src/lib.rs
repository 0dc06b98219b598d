//! A second, independent program for tables of transitions and rules.
//!
//! It exists to be compared with the proved one, so each answer is worked out
//! by other means: `loops` lists every loop literally, `exact` climbs by
//! policies, and the two are compared with each other in the tests.
//! No floating point is used anywhere.
//!
//! | module     | what it holds                                             |
//! |------------|-----------------------------------------------------------|
//! | `table`    | Delay, Rule, Table with its limits; Filled, without blanks |
//! | `refusal`  | number and place of a refusal, and the names of the numbers |
//! | `ratio`    | P/Q in lowest terms, compared by cross products           |
//! | `check`    | the earliest faulty field of a table handed in            |
//! | `file`     | the bytes of a rule file, read and written                |
//! | `loops`    | every loop listed, for small tables                       |
//! | `exact`    | the same answers for tables of any size within the limits |
//! | `schedule` | the least schedule at a period                            |
//! | `analyse`  | the analysis call                                         |
//! | `rate`     | the rate call                                             |
//! | `simulate` | the simulation call                                       |
//! | `report`   | the text that the program prints                          |
//! | `bids`     | two files side by side, the better one, and their text    |
//! | `notation` | `n 2: 0>1/0/3, 1>0/1/?` read and written                  |
//! | `vectors`  | the text file of published cases, read                    |
//! | `rng`      | a small generator of numbers that can be repeated         |
//! | `gen`      | tables and files made from it                             |

pub mod analyse;
pub mod bids;
pub mod check;
pub mod exact;
pub mod file;
pub mod gen;
pub mod loops;
pub mod notation;
pub mod rate;
pub mod ratio;
pub mod refusal;
pub mod report;
pub mod rng;
pub mod schedule;
pub mod simulate;
pub mod table;
pub mod vectors;
