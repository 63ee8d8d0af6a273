//! Streams of good frames, each of some protocol version, and with some reserved byte.

use crate::plain::header::{LARGEST, SIZE};
use crate::random::Random;

const HEADER: u64 = SIZE as u64;
const MAX_FRAME: u64 = LARGEST as u64;

/// A frame's total. Of 100 frames 50 have 16 to 255 bytes, 30 have 256 to 4,095, 15 have 4,096 to 16,383 and 5 have 16,384
/// to 65,536.
pub fn mixed_total(random: &mut Random) -> u64 {
    match random.between(1, 100) {
        1..=50 => small_total(random),
        51..=80 => random.between(256, 4_095),
        81..=95 => random.between(4_096, 16_383),
        _ => random.between(16_384, MAX_FRAME),
    }
}

/// The total of a small frame: 16 to 255.
pub fn small_total(random: &mut Random) -> u64 {
    random.between(HEADER, 255)
}

/// The total of the next frame where `left` bytes are still to be made: the last frame ends with them.
fn fitting(total: u64, left: u64) -> u64 {
    if total + HEADER <= left {
        total
    } else if left <= MAX_FRAME {
        left
    } else {
        HEADER
    }
}

fn frame(random: &mut Random, total: u64) -> Vec<u8> {
    let unary = random.between(0, 9) < 7;
    let header_size = if unary { random.between(0, (total - HEADER).min(200)) as u16 } else { 0 };
    let mut bytes = vec![0x09, 0x30, !unary as u8, if unary { 0 } else { random.between(1, 4) as u8 }];
    bytes.extend((total as u32).to_be_bytes());
    bytes.extend(header_size.to_be_bytes());
    let drawn = random.number();
    bytes.extend((drawn as u32).to_be_bytes());
    bytes.extend([(drawn >> 32) as u8, (drawn >> 40) as u8]);
    while (bytes.len() as u64) < total {
        bytes.extend(random.number().to_le_bytes());
    }
    bytes.truncate(total as usize);
    bytes
}

/// Frames that have so many bytes together, with totals as `total` draws them.
pub struct Frames {
    left: u64,
    random: Random,
    total: fn(&mut Random) -> u64,
}

impl Frames {
    pub fn new(bytes: u64, seed: u64, total: fn(&mut Random) -> u64) -> Frames {
        assert!(bytes == 0 || bytes >= HEADER, "a frame has 16 bytes or more");
        Frames { left: bytes, random: Random(seed), total }
    }
}

impl Iterator for Frames {
    type Item = Vec<u8>;

    fn next(&mut self) -> Option<Vec<u8>> {
        if self.left == 0 {
            return None;
        }
        let total = fitting((self.total)(&mut self.random), self.left);
        self.left -= total;
        Some(frame(&mut self.random, total))
    }
}
