//! Scripts of calls and the answers to them, by the second reading of document 01.
//! The formats are fixed in docs/REPLAY.md.

pub mod benches;
pub mod call;
pub mod counts;
pub mod fresh;
pub mod fullest;
pub mod kept;
pub mod kinds;
pub mod make;
pub mod random;
pub mod replay;
pub mod script;
pub mod streams;
