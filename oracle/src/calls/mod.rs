//! Lists of calls: docs/CALLS.md.
pub mod account;
pub mod answer;
pub mod call;
pub mod feed;
pub mod flags;
pub mod found;
pub mod list;
pub mod parse;
pub mod write;
