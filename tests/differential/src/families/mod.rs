//! The families of inputs.

pub mod ceilings;
pub mod deframer;
pub mod deframer_borders;
pub mod header;
pub mod queue;
pub mod reader;
pub mod round_trip;
pub mod versions;
pub mod writer;
pub mod writer_borders;

use crate::run::Family;

/// A family by name, with how many inputs it has for a thousand of the run's. One with 0 tries a set of inputs of its own, whole.
/// What is tried at another ceiling as well comes on top.
type Entry = (&'static str, u64, fn(&mut Family));

pub const ALL: &[Entry] = &[
    ("header", 210, header::headers),
    ("last two bytes", 0, versions::last_two_bytes),
    ("standing versions", 0, versions::standing),
    ("written versions", 0, versions::written),
    ("short messages", 0, reader::short_messages),
    ("messages", 180, reader::messages),
    ("damaged frames", 160, reader::damaged),
    ("random bytes", 140, reader::random_bytes),
    ("lent slices", 20, reader::lent_slices),
    ("every split", 0, deframer::every_split),
    ("every two cuts", 0, deframer::every_two_cuts),
    ("streams", 40, deframer::streams),
    ("states", 30, deframer::states),
    ("ends of frames", 0, deframer_borders::ends),
    ("several frames", 0, deframer_borders::several),
    ("records", 60, writer::records),
    ("grounds", 50, writer::grounds),
    ("largest frames", 5, writer::largest),
    ("outputs", 0, writer_borders::outputs),
    ("long frames", 0, writer_borders::long_frames),
    ("rows", 0, writer_borders::rows),
    ("keys", 0, writer_borders::keys),
    ("round trips", 35, round_trip::round_trips),
    ("written again", 20, round_trip::written_again),
    ("bad ceilings", 15, ceilings::bad),
    ("least ceiling", 0, ceilings::least),
    ("equal sizes", 0, ceilings::borders),
    ("switched ceilings", 10, ceilings::switched),
    ("queue calls", 30, queue::calls),
    ("queues", 20, queue::queues),
];

/// Those whose entries take no ceiling.
pub const WITHOUT_CEILING: [&str; 2] = ["queue calls", "queues"];
