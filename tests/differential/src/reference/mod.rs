//! Document 01 as document 02 changes it, in straightforward Rust, written from the papers only. Sentences in quotes are theirs.

pub mod deframer;
pub mod fields;
pub mod header;
pub mod interface;
pub mod messages;
pub mod queue;
pub mod reader;
pub mod writer;

/// A refusal number of the papers.
pub type Refusal = u32;

/// The numbers that are given: document 01's that are not retired, and document 02's of the requests so far, which is P11's 41.
#[rustfmt::skip]
pub const IN_USE: [Refusal; 26] = [
    1, 2, 3, 4, 5, 6, 7, 9, 10, 11, 12, 13, 14, 15, 16, 17, 18, 19, 21, 22, 23, 24, 25, 26, 27, 41,
];

/// The numbers that have no meaning any more. Document 02, P2: "8 is no longer given and isn't used for anything else"; P9: "20
/// is never used again."
pub const RETIRED: [Refusal; 2] = [8, 20];

#[cfg(test)]
mod tests;
