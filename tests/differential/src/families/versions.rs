//! Bytes 15 and 16 of the fixed header, the protocol version and the reserved one: every value of both, in every entry that looks
//! at a fixed header or writes one.

use super::deframer::Standing;
use super::header::Header;
use super::reader::Reading;
use super::writer::{layout, Writing};
use crate::generate::{frame, with_last_two};
use crate::reference::deframer::State;
use crate::reference::header::{LARGEST, SIZE};
use crate::reference::interface::{FIRST_FIELD, VERSION};
use crate::reference::messages::Kind;
use crate::run::Family;

/// A frame of a kind. Requests and responses have a field `version`, which is another thing.
fn frame_of(kind: Kind) -> Vec<u8> {
    let message: &[u8] = match kind {
        Kind::Data => &[],
        _ => &[0x08, 0x05],
    };
    frame(kind, 7, message, if kind.is_unary() { b"body" } else { &[] })
}

/// Each two bytes in the header of a frame of each kind: checked, parsed and read; and in headers that are refused, which tell
/// no version.
pub fn last_two_bytes(family: &mut Family) {
    for kind in Kind::ALL {
        let good = frame_of(kind);
        for version in 0..=255 {
            for last in 0..=255 {
                let frame = with_last_two(good.clone(), version, last);
                family.check_limited(&Header::plain(&frame[..SIZE]));
                family.check_limited(&Reading::plain(kind, frame));
            }
            for (place, byte) in [(0, 0x30), (2, 2), (5, 2), (9, 0xFF), (7, 99)] {
                let mut bad = with_last_two(good.clone(), version, !version);
                bad[place] = byte;
                family.check_limited(&Header::plain(&bad[..SIZE]));
                family.check_limited(&Reading::plain(kind, bad));
            }
        }
    }
}

/// Calls and ends where each version, with some last bytes, is in the header that is held or that comes: states with 8, which
/// are not known, states inside the frame, which are, and a header that becomes whole.
pub fn standing(family: &mut Family) {
    let good = frame(Kind::Data, 7, &[], &[0x77; 8]);
    for version in 0..=255 {
        for last in [0, 1, 0xFF, version] {
            let frame = with_last_two(good.clone(), version, last);
            for (held, error) in [(0, 0), (14, 0), (15, 0), (16, 0), (16, 8), (16, 7), (17, 0), (20, 0), (20, 8)] {
                let (start, piece) = frame.split_at(held);
                family.check_limited(&Standing::plain(State { held, error }, LARGEST, start, piece));
            }
        }
    }
}

/// Numbers whose low byte is a version: all of one byte, and such with something above it.
fn numbers() -> impl Iterator<Item = u32> {
    let above = [256, 257, 511, 512, 0x0100_0000, 0x0102_0304, 0x8000_0001, u32::MAX - 1, u32::MAX];
    (0..=255).chain(above).chain((0..=255).map(|version| version | !version << 8))
}

/// Each version of each kind, written to outputs of the frame's length, of one less, and of more.
pub fn written(family: &mut Family) {
    for kind in Kind::ALL {
        for number in numbers() {
            let mut case = Writing::full(kind, 1, 3, if layout(kind).has_rows { 2 } else { 0 });
            case.record[VERSION] = number;
            if kind.is_unary() {
                case.record[FIRST_FIELD] = !number & 0x7F; // the message's own version
            }
            let exact = case.size().unwrap();
            for out in [exact, exact - 1, exact + 40] {
                family.check_limited(&case.with_output(out));
            }
        }
    }
}
