//! An oracle of the tests: the column planner (FORMAT.md, "Planner") once more, in Rust, which the proved one is
//! held to segment by segment. Beside it stand the yardsticks that both are measured by, docs/PLANNER.md among
//! them, and those of the flag writer: named flag columns, and a model of the Apache writer.
#![forbid(unsafe_code)]
// Loops by row number, as the proved planner has them.
#![allow(clippy::needless_range_loop)]

pub mod apache;
pub mod apache_bytes;
pub mod bits;
pub mod columns;
pub mod flags;
pub mod frames;
pub mod menu;
pub mod page;
pub mod patched;
pub mod planner;
pub mod runs;
pub mod walk;
