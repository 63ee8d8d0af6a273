//! What `bench/run` measures, and what it is compared with.

pub mod agreement;
pub mod cases;
pub mod entries;
pub mod frames;
pub mod inputs;
pub mod library;
pub mod peers;
pub mod plain;
pub mod random;
pub mod report;
pub mod timing;
