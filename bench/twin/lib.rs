//! A plain implementation of the rules in docs/, to be compared with the proved crates. It shares no code with them.

pub mod blocks;
pub mod calls;
pub mod edits;
pub mod letters;
pub mod pack;
pub mod pl;
pub mod plan;
pub mod plot;
pub mod refusal;
pub mod session;
pub mod skyline;
#[cfg(test)]
mod worked;
