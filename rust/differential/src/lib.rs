//! Compares answers: the Rust decoders' (the crate `oracle`), the rules' (the crate `model`), and
//! ours, through the linked library and through the probe program.
//!
//! The model is what the other two are held to. Ours must be equal to it: answer, counts, refusal
//! and every lent place. The Rust must agree by the rule in [`listed`]: a difference is listed
//! there, with its smallest input, or it is printed and the program's status is 1.
#![forbid(unsafe_code)]

pub mod frames;
pub mod listed;
#[cfg(feature = "ours")]
pub mod ours;
pub mod probe;
pub mod program;
pub mod said;
pub mod stages;
pub mod tally;
