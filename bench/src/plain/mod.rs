//! The same jobs with the same answers in straightforward Rust: the yardstick.

pub mod deframer;
pub mod fields;
pub mod header;
pub mod messages;
pub mod queue;
pub mod reader;
pub mod writer;

/// An error code: a refusal number of documents 01 and 02.
pub type Error = u32;
