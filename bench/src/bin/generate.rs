//! Writes SIZE bytes of good tRPC frames of mixed sizes to standard output, the same for the same SEED.
//!
//!     generate SIZE SEED

use bench::frames::{mixed_total, Frames};
use std::io::{self, BufWriter, Write};

fn number(index: usize) -> u64 {
    std::env::args().nth(index).and_then(|word| word.parse().ok()).expect("usage: generate SIZE SEED")
}

fn main() -> io::Result<()> {
    let mut out = BufWriter::with_capacity(1 << 20, io::stdout().lock());
    for frame in Frames::new(number(1), number(2), mixed_total) {
        out.write_all(&frame)?;
    }
    out.flush()
}
