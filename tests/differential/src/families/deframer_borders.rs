//! The deframer at its borders: pieces that end with a frame, right before its end or right after, with any of its first bytes
//! held; ceilings and buffers at the frame's size and next to it.

use super::deframer::{Standing, Stream};
use crate::ceilings::near;
use crate::generate::{frame, with_last_two};
use crate::reference::deframer::State;
use crate::reference::header::{judge, HIGHEST_CEILING, LARGEST, SIZE};
use crate::reference::messages::Kind;
use crate::reference::RETIRED;
use crate::run::Family;

/// Sizes of frames: the least, the largest, and such as are around what a copy may be cut into.
const SIZES: [usize; 15] = [16, 17, 31, 32, 33, 255, 4_095, 4_096, 4_097, 8_191, 8_192, 8_193, 12_288, 65_535, LARGEST];

/// The most bytes that are held before the call.
const HELD: usize = 20;

/// A frame of so many bytes. Those of one size have one version, and hardly any two sizes the same.
pub fn frame_of(size: usize) -> Vec<u8> {
    let kind = [Kind::Data, Kind::Request][size % 2];
    let body: Vec<u8> = (SIZE..size).map(|place| place as u8 ^ (place >> 8) as u8).collect();
    with_last_two(frame(kind, 7, &[], &body), (size / 16) as u8, size as u8)
}

/// A header for each refusal, with bytes after it.
pub fn refused() -> Vec<Vec<u8>> {
    let changes: [&[(usize, u8)]; 7] =
        [&[(0, 0x30)], &[(1, 0x09)], &[(2, 2)], &[(3, 5)], &[(7, 15), (6, 0)], &[(5, 1), (6, 0), (7, 1)], &[(9, 1)]];
    let change = |changes: &&[(usize, u8)]| {
        let mut bytes = with_last_two(frame(Kind::Data, 7, &[], &[0x77; 284]), 3, 4);
        changes.iter().for_each(|(place, byte)| bytes[*place] = *byte);
        bytes
    };
    changes.iter().map(change).collect()
}

/// One call with so many bytes of the frame held, in a buffer that is exact or longer.
fn call(family: &mut Family, frame: &[u8], held: usize, error: u32, piece: &[u8]) {
    let start = &frame[..held.min(frame.len())];
    let length = LARGEST + 100 * (held % 2);
    family.check_limited(&Standing::plain(State { held, error }, length, start, piece));
}

/// The same call at the ceilings at a size and next to it, each with buffers of that length and next to it.
fn call_near(family: &mut Family, size: usize, frame: &[u8], held: usize, piece: &[u8]) {
    let case = Standing::plain(State { held, error: 0 }, LARGEST, &frame[..held.min(frame.len())], piece);
    for ceiling in near(size) {
        for length in near(ceiling as usize) {
            family.check(&Standing { ceiling, length: length as usize, ..case.clone() });
        }
    }
}

/// A piece with the rest of a frame: to its end, one byte less or more, and with other frames after it.
pub fn ends(family: &mut Family) {
    let (least, other) = (frame_of(SIZE), frame_of(300));
    let after: Vec<Vec<u8>> = refused().into_iter().chain([least.clone(), [&least[..], &other].concat()]).collect();
    for size in SIZES {
        let whole = frame_of(size);
        for held in 0..=HELD {
            let rest = &whole[held.min(size)..];
            for taken in [0, 1, rest.len() / 2, rest.len().saturating_sub(1), rest.len()] {
                let piece = &rest[..taken.min(rest.len())];
                call(family, &whole, held, 0, piece);
                call_near(family, size, &whole, held, piece);
            }
            RETIRED.iter().for_each(|error| call(family, &whole, held, *error, rest));
            for next in &after {
                for length in [1, SIZE - 1, SIZE, next.len()] {
                    call(family, &whole, held, 0, &[rest, &next[..length]].concat());
                }
            }
        }
    }
    for bad in refused() {
        let error = judge(&bad[..SIZE], HIGHEST_CEILING);
        for held in 0..=HELD {
            let rest = &bad[held..];
            for taken in [0, 1, (SIZE - 1).saturating_sub(held), SIZE.saturating_sub(held), rest.len()] {
                call(family, &bad, held, 0, &rest[..taken]);
                call(family, &bad, held, error, &rest[..taken]);
            }
        }
    }
}

/// Streams of three frames, or of one and a header that is refused, in one piece, and in pieces that end with a frame or near its
/// end, at every ceiling.
pub fn several(family: &mut Family) {
    const SIZES: [usize; 7] = [16, 17, 4_095, 4_096, 4_097, 8_192, LARGEST];
    for first in SIZES {
        for bad in refused() {
            let bytes = [frame_of(first), bad].concat();
            for pieces in [vec![], vec![first], vec![first - 1], vec![first + SIZE - 1], vec![first + SIZE]] {
                let case = Stream::plain(&bytes, pieces, Kind::Response);
                family.check_at_each(&Stream { misused: true, ..case });
            }
        }
        for second in SIZES {
            let bytes = [frame_of(first), frame_of(second), frame_of(first)].concat();
            let pieces = [
                vec![],
                vec![first, second],
                vec![first + second],
                vec![first - 1, second],
                vec![first + 1, second],
                vec![first + SIZE, second],
                vec![first + second - 1, 1],
                vec![1, first + second],
            ];
            for pieces in pieces {
                family.check_at_each(&Stream::plain(&bytes, pieces, Kind::Request));
            }
        }
    }
}
