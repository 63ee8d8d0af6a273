//! The writer at its borders: outputs and ceilings of each length around the frame's, frames of around 65,536 bytes and of around
//! 4,096, each count of rows, and keys that are nearly equal.

use super::writer::{layout, Layout, Writing};
use crate::ceilings::near;
use crate::reference::header::{LARGEST, SIZE};
use crate::reference::interface::VERSION;
use crate::reference::messages::{Kind, MOST_ROWS};
use crate::run::Family;

/// Numbers whose varints have each length from 1 to 5 bytes, and 10 where a negative number is written.
const NUMBERS: [u32; 8] = [0, 1, 0x7F, 0x80, 0x3FFF, 0x1F_FFFF, 0x0FFF_FFFF, u32::MAX];

const WITH_ROWS: [Kind; 4] = [Kind::Request, Kind::Response, Kind::Init, Kind::Close];

/// So many bytes, none of them as those around it.
fn varied(length: usize) -> Vec<u8> {
    (0..length).map(|place| (place * 7 + place / 256) as u8).collect()
}

impl Writing {
    /// A record with this in every number, the version's too, so many bytes in every byte field and in the body, and so many
    /// rows.
    pub fn full(kind: Kind, number: u32, length: usize, rows: usize) -> Writing {
        let mut case = Writing::new(kind);
        let Layout { numbers, bytes, marks, attachment, .. } = layout(kind);
        case.record[0] = number;
        case.record[VERSION] = number;
        for place in numbers {
            case.record[*place] = number;
        }
        for place in marks {
            case.record[*place] = number.max(1);
        }
        for place in bytes {
            let span = case.place(&varied(length));
            case.put_span(*place, span);
        }
        if has_body(kind) {
            case.body = varied(length);
        }
        if let Some(place) = attachment {
            case.record[place] = number.min(length as u32);
        }
        for row in 0..rows {
            case.put_row(&[&[row as u8], &varied(length)[..]].concat(), &varied(length));
        }
        case
    }

    /// Adds bytes to the source and gives their start and length.
    fn place(&mut self, bytes: &[u8]) -> (u32, u32) {
        let start = self.source.len();
        self.source.extend_from_slice(bytes);
        (start as u32, bytes.len() as u32)
    }

    fn put_row(&mut self, key: &[u8], value: &[u8]) {
        let (key, value) = (self.place(key), self.place(value));
        self.rows.extend([key.0, key.1, value.0, value.1]);
        self.record[1] += 1;
    }

    /// Init without the parts that are not named: request_meta, response_meta.
    fn with_parts(mut self, request_meta: bool, response_meta: bool) -> Writing {
        if !request_meta {
            self.record[8..16].fill(0);
            self.record[1] = 0;
        }
        if !response_meta {
            self.record[16..20].fill(0);
        }
        self
    }

    pub fn with_output(&self, out: usize) -> Writing {
        Writing { out, ..self.clone() }
    }

    pub fn with_ceiling(&self, ceiling: u32, out: usize) -> Writing {
        Writing { ceiling, ..self.with_output(out) }
    }
}

pub fn has_body(kind: Kind) -> bool {
    matches!(kind, Kind::Request | Kind::Response | Kind::Data)
}

/// Outputs from one byte too short to far too long, and ceilings alike: a writer that first asks whether a bound of the frame's
/// size fits finds the border of that bound among them.
fn around(family: &mut Family, case: &Writing) {
    let exact = case.size().unwrap();
    let far = if case.record[1] > 5 { exact + 131..exact + 1_000 } else { 0..0 };
    for length in [0, 1, SIZE - 1, SIZE].into_iter().chain(exact - 1..=exact + 130).chain(far.step_by(7)) {
        family.check(&case.with_output(length));
        family.check(&case.with_ceiling(length as u32, if length % 2 == 0 { exact } else { exact + 1_000 }));
    }
}

/// Outputs of each length around the frame's, and byte fields of each length.
pub fn outputs(family: &mut Family) {
    for kind in Kind::ALL {
        for length in 0..=300 {
            let case = Writing::full(kind, 1, length, if layout(kind).has_rows { 2 } else { 0 });
            all_lengths(family, &case);
        }
    }
    for kind in Kind::ALL {
        for number in NUMBERS {
            for (length, rows) in [(0, 0), (1, 1), (9, 3), (127, 2), (128, 5)] {
                let rows = if layout(kind).has_rows { rows } else { 0 };
                around(family, &Writing::full(kind, number, length, rows));
            }
        }
    }
    for kind in WITH_ROWS {
        for number in [0, u32::MAX] {
            around(family, &Writing::full(kind, number, 9, MOST_ROWS));
        }
    }
    for (request_meta, response_meta) in [(false, false), (false, true), (true, false)] {
        for number in [0, u32::MAX] {
            around(family, &Writing::full(Kind::Init, number, 9, 3).with_parts(request_meta, response_meta));
        }
    }
}

/// What makes a frame long: the body, the byte field at a place of the record, or the first row's key or value.
#[derive(Clone, Copy)]
enum Long {
    Body,
    Field(usize),
    Row(usize),
}

fn ways(kind: Kind) -> Vec<Long> {
    let Layout { bytes, has_rows, .. } = layout(kind);
    let body = has_body(kind).then_some(Long::Body);
    let rows = if has_rows { [0, 2].as_slice() } else { &[] };
    let fields = bytes.iter().map(|place| Long::Field(*place));
    body.into_iter().chain(fields).chain(rows.iter().map(|place| Long::Row(*place))).collect()
}

impl Writing {
    /// With a frame of so many bytes.
    fn lengthened(mut self, way: Long, total: usize) -> Writing {
        // From 16,384 to 65,536 a length takes three bytes, and from 128 on two, so that the frame grows as the content does.
        let least = if total > LARGEST / 2 { 16_384 } else { 128 };
        let start = self.place(&varied(LARGEST)).0;
        let put = |case: &mut Writing, length: usize| match way {
            Long::Body => case.body = varied(length),
            Long::Field(place) => case.put_span(place, (start, length as u32)),
            Long::Row(place) => (case.rows[place], case.rows[place + 1]) = (start, length as u32),
        };
        put(&mut self, least);
        let size = self.size().unwrap();
        put(&mut self, least + total - size);
        debug_assert!(total > LARGEST || self.size() == Some(total));
        self
    }
}

/// Frames of 65,536 bytes, of 65,537, and of all lengths a little under them, by whatever can be long; and frames at a ceiling, or
/// one or two bytes from it, where that is the highest or the sensor line's.
pub fn long_frames(family: &mut Family) {
    for kind in Kind::ALL {
        let rows = if layout(kind).has_rows { 2 } else { 0 };
        for way in ways(kind) {
            let case = Writing::full(kind, 1, 3, rows);
            for total in (LARGEST - 130..=LARGEST + 2).chain([LARGEST + SIZE, LARGEST + SIZE + 1]) {
                let case = case.clone().lengthened(way, total);
                family.check_limited(&case.with_output(total));
                family.check(&case.with_output(total - 1));
                if total > LARGEST - 3 {
                    family.check(&case.with_output(LARGEST));
                    family.check(&case.with_output(2 * LARGEST));
                }
            }
            for size in [4_096, LARGEST] {
                for total in size - 2..=size + 2 {
                    let case = case.clone().lengthened(way, total);
                    for ceiling in near(size) {
                        for out in [total - 1, total, total + 2_000] {
                            family.check(&case.with_ceiling(ceiling, out));
                        }
                    }
                }
            }
        }
    }
}

/// Each count of rows, one too many too: with keys of one length, and with keys of which each is the next one's start.
pub fn rows(family: &mut Family) {
    for kind in Kind::ALL {
        for count in 0..=MOST_ROWS + 1 {
            for key_length in [1, 2, 30] {
                let mut case = Writing::full(kind, 300, 4, 0);
                for row in 0..count {
                    let mut key = vec![b'k'; key_length];
                    key[0] = row as u8;
                    case.put_row(&key, &key[..row % key_length]);
                }
                all_lengths(family, &case);
            }
            let mut case = Writing::full(kind, 300, 4, 0);
            for row in 0..count {
                case.put_row(&vec![b'k'; row], b"value");
            }
            all_lengths(family, &case);
        }
    }
}

/// With an output of the frame's length, of one less, and of more; at ceilings of the frame's length and next to it too.
fn all_lengths(family: &mut Family, case: &Writing) {
    let exact = case.size().unwrap_or(100);
    for out in [exact, exact - 1, exact + 1_000] {
        family.check_limited(&case.with_output(out));
        for ceiling in near(exact) {
            family.check(&case.with_ceiling(ceiling, out));
        }
    }
}

/// The places in a key that are tried: all of a short one.
fn places(length: usize) -> Vec<usize> {
    let tried = |place: &usize| length <= 40 || *place < 2 || *place % 16 < 2 && *place < 40 || *place + 18 > length;
    (0..length).filter(tried).collect()
}

/// Rows with keys that differ only in the byte at this place.
fn nearly_equal(kind: Kind, count: usize, length: usize, place: usize) -> Writing {
    let mut case = Writing::full(kind, 1, 2, 0);
    for row in 0..count {
        let mut key = varied(length);
        key[place] = row as u8;
        case.put_row(&key, &[]);
    }
    case
}

/// Keys of one length that differ in one byte, wherever it is, and the same with two that are equal: next to each other or far
/// apart, at one place of the source or at two.
pub fn keys(family: &mut Family) {
    for length in (1..=40).chain([63, 64, 65, 127, 128, 129, 255, 256, 257, 900]) {
        for place in places(length) {
            let kind = WITH_ROWS[(length + place) % WITH_ROWS.len()];
            for count in [2, 3, 16, MOST_ROWS] {
                let case = nearly_equal(kind, count, length, place);
                family.check_limited(&case.with_output(case.size().unwrap()));
                for (earlier, later) in [(0, 1), (0, count - 1), (count / 2 - 1, count - 1), (count - 2, count - 1)] {
                    let mut equal = case.clone();
                    let start = case.rows[4 * earlier] as usize;
                    equal.rows[4 * later] = start as u32;
                    if place % 2 == 1 {
                        equal.rows[4 * later] = equal.place(&case.source[start..start + length]).0;
                    }
                    family.check_limited(&equal.with_output(LARGEST));
                }
            }
        }
    }
}
