//! Ceilings: 41 beside every other ground; the least one; total, ceiling and buffer all of one size, and next to it; ceilings that
//! change between calls. The round trip at the frame's own length, above it and at one below is in `round_trip`.

use super::deframer::{any_standing, Buffers, Given, Standing, Stream};
use super::deframer_borders::{frame_of, refused};
use super::header::{header, Header};
use super::reader::{any_reading, Reading};
use super::writer::{any_grounds, layout, Writing};
use super::writer_borders::has_body;
use crate::ceilings::{ceiling, near, out_of_range, Limited, CEILINGS};
use crate::difference::{hex, Difference};
use crate::generate::{frame, with_last_two};
use crate::random::Random;
use crate::reference::deframer::State;
use crate::reference::header::{LARGEST, SIZE};
use crate::reference::interface::VERSION;
use crate::reference::messages::{Kind, ROW_NUMBERS};
use crate::reference::RETIRED;
use crate::run::{Family, Tally};
use crate::shrink::{fewer, less, lower, Case};

/// Ceilings out of the range, beside those that are always tried. Some have one that is in it in their low bits.
const BAD: [u32; 10] = [1, 14, 65_538, 65_552, 69_632, 1 << 17, 1 << 24 | 4_096, 1 << 31, 1 << 31 | 16, u32::MAX - 1];

/// An input at each of these, and at each ceiling that is always tried.
fn check_bad<C: Case>(family: &mut Family, at: impl Fn(u32) -> C) {
    BAD.into_iter().chain(CEILINGS).for_each(|ceiling| family.check(&at(ceiling)));
}

/// Headers with one ground or none, of any length, and with all of them.
fn bad_headers(family: &mut Family) {
    let good = frame_of(300)[..SIZE].to_vec();
    let lengths = [0, 1, SIZE - 1, SIZE + 1, 40].map(|length| good.iter().copied().cycle().take(length).collect());
    let refused = refused().into_iter().map(|bad| bad[..SIZE].to_vec());
    let all = [vec![0xFF; SIZE], vec![0; SIZE], vec![0xFF; 3], good];
    for bytes in refused.chain(lengths).chain(all) {
        check_bad(family, |ceiling| Header { bytes: bytes.clone(), ceiling });
    }
}

/// States that a call can have left, and others, over each refusal and over none, with buffers that are too short and not.
fn bad_standings(family: &mut Family) {
    let states =
        [(0, 0), (1, 0), (15, 0), (16, 0), (17, 0), (299, 0), (300, 0), (16, 41), (0, 41), (usize::MAX, u32::MAX)];
    let refusals = (1..=9).map(|error| (16, error));
    let starts: Vec<Vec<u8>> = refused().into_iter().chain([frame_of(300)]).collect();
    for (held, error) in states.into_iter().chain(refusals) {
        for start in &starts {
            for length in [0, 15, 16, 300, LARGEST - 1, LARGEST] {
                let case = Standing::plain(State { held, error }, length, start, &start[held.min(SIZE)..]);
                check_bad(family, |ceiling| Standing { ceiling, ..case.clone() });
            }
        }
    }
}

/// Frames of every kind with one of the reader's grounds or none, with row slices that are too short or not.
fn bad_readings(family: &mut Family) {
    let sixty_five: Vec<u8> = [0x2A, 0x00].repeat(65);
    let nested: Vec<u8> = vec![0x7B; 33];
    // 10 twice, 11, 12, 13, 15 in a request; 14 in Close; none.
    let messages: [&[u8]; 8] =
        [&[0x80], &[0x08, 0x80], &[0x07], &[0x0A, 0x02, 0x01], &nested, &[0x60, 0x09], &sixty_five, &[0x08, 0x05]];
    for kind in Kind::ALL {
        let good = messages.iter().map(|message| frame(kind, 7, message, if kind.is_unary() { &[1; 4] } else { &[] }));
        let short = [vec![], vec![0x09], good.clone().next().unwrap()[..SIZE - 1].to_vec()];
        let longer = good.clone().map(|frame| [&frame[..], &[0]].concat());
        for frame in good.chain(longer).chain(short).chain(refused()) {
            for rows in [0, ROW_NUMBERS - 1, ROW_NUMBERS, ROW_NUMBERS + 8] {
                check_bad(family, |ceiling| Reading { kind, frame: frame.clone(), ceiling, rows });
            }
        }
    }
}

/// A record with every ground of the writer that its kind can have, with each of them alone, and with none.
fn bad_writings(family: &mut Family) {
    for kind in Kind::ALL {
        let has_rows = layout(kind).has_rows;
        let good = Writing::full(kind, 1, 3, if has_rows { 2 } else { 0 }).with_output(400);
        let changes: [fn(&mut Writing); 6] = [
            |case| case.record[1] = 65,
            |case| case.source.truncate(1),
            |case| {
                if case.rows.len() >= 8 {
                    case.rows.copy_within(0..2, 4); // the second key is the first
                }
            },
            |case| match layout(case.kind).attachment {
                Some(place) => case.record[place] = 900,
                None => case.body.push(1),
            },
            |case| case.body = vec![7; LARGEST],
            |case| case.out = 3,
        ];
        let all = changes.iter().fold(good.clone(), |mut case, change| {
            change(&mut case);
            case
        });
        let single = changes.iter().map(|change| {
            let mut case = good.clone();
            change(&mut case);
            case
        });
        for case in single.chain([all, good.clone()]) {
            check_bad(family, |ceiling| Writing { ceiling, ..case.clone() });
        }
    }
}

/// 41 comes before every other number of every entry, and nothing that is lent is touched.
pub fn bad(family: &mut Family) {
    bad_headers(family);
    bad_standings(family);
    bad_readings(family);
    bad_writings(family);
    for _ in 0..family.inputs {
        let random = &mut family.random;
        let bad = out_of_range(random);
        match random.below(4) {
            0 => {
                let case = Header::plain(&header(random)).at(bad, random);
                family.check(&case);
            }
            1 => {
                let case = any_standing(random).at(bad, random);
                family.check(&case);
            }
            2 => {
                let case = any_reading(random).at(bad, random);
                family.check(&case);
            }
            _ => {
                let case = any_grounds(random).at(bad, random);
                family.check(&case);
            }
        }
    }
}

/// At 16 there are only empty frames, and at 17 such of one byte more. Headers and readings are at every ceiling too.
pub fn least(family: &mut Family) {
    let ceilings = [15, 16, 17, 18];
    for kind in Kind::ALL {
        for size in SIZE - 1..=SIZE + 3 {
            let message = vec![0x08; size.saturating_sub(SIZE)];
            let (message, body) = if has_body(kind) { (&[][..], &message[..]) } else { (&message[..], &[][..]) };
            let mut bytes = with_last_two(frame(kind, 7, message, body), 3, 4);
            bytes[7] = size as u8;
            for ceiling in ceilings.into_iter().chain(CEILINGS) {
                family.check(&Header { bytes: bytes[..SIZE].to_vec(), ceiling });
                family.check(&Reading { ceiling, ..Reading::plain(kind, bytes.clone()) });
            }
        }
        empty_records(family, kind, &ceilings);
    }
    let empty = |kind: Kind| with_last_two(frame(kind, 9, &[], &[]), 1, kind.stream_type());
    let three = [Kind::Request, Kind::Data, Kind::Close].map(empty).concat();
    let longer = frame(Kind::Data, 9, &[], &[1]);
    for bytes in [[&three[..], &longer].concat(), [&longer[..], &three].concat(), three[..40].to_vec(), three] {
        for first in 0..=bytes.len() {
            for second in first..=bytes.len() {
                let ceiling = ceilings[(first + second) % ceilings.len()];
                let length = near(ceiling as usize)[second % 3] as usize;
                let case = Stream::plain(&bytes, vec![first, second - first], Kind::Response);
                family.check(&Stream { misused: first % 4 == 0, ceiling, length, ..case.clone() });
                family.check(&Stream { ceiling: 16, length: 16, ..case });
            }
        }
    }
}

/// A record that says nothing, and records with one thing in them.
fn empty_records(family: &mut Family, kind: Kind, ceilings: &[u32]) {
    let empty = Writing { source: vec![1; 3], ..Writing::new(kind) };
    let layout = layout(kind);
    let mut cases = vec![empty.clone()];
    for place in [0, VERSION].iter().chain(layout.numbers).chain(layout.marks) {
        let mut case = empty.clone();
        case.record[*place] = 1;
        cases.push(case);
    }
    for place in layout.bytes {
        let mut case = empty.clone();
        layout.marks.iter().for_each(|mark| case.record[*mark] = 1);
        case.put_span(*place, (1, 1));
        cases.push(case);
    }
    if has_body(kind) {
        cases.push(Writing { body: vec![1], ..empty.clone() });
    }
    if layout.has_rows {
        let mut case = Writing { rows: vec![0; 4], ..empty.clone() };
        layout.marks.iter().for_each(|mark| case.record[*mark] = 1);
        case.record[1] = 1;
        cases.push(case);
    }
    for case in cases {
        let exact = case.size().unwrap_or(SIZE); // 18, where its part is absent
        for ceiling in ceilings.iter().copied().chain(near(exact)) {
            for out in [0, SIZE - 1, SIZE, SIZE + 1, exact - 1, exact, 100] {
                family.check(&case.with_ceiling(ceiling, out));
            }
        }
    }
}

/// Total, ceiling and buffer all equal, and each of them one to each side.
pub fn borders(family: &mut Family) {
    const SIZES: [usize; 16] =
        [16, 17, 18, 31, 32, 33, 127, 128, 255, 256, 257, 4_095, 4_096, 4_097, LARGEST - 1, LARGEST];
    for size in SIZES {
        for total in near(size).map(|total| total as usize) {
            let mut whole = frame_of(total);
            whole[4..8].copy_from_slice(&(total as u32).to_be_bytes());
            let next = [&whole[..], &frame_of(SIZE)].concat();
            family.check_at_each(&Header::plain(&whole[..SIZE]));
            for ceiling in near(size) {
                family.check(&Header { bytes: whole[..SIZE].to_vec(), ceiling });
                for length in near(size).map(|length| length as usize) {
                    for held in [0, 1, SIZE - 1, SIZE, SIZE + 1, total - 1] {
                        let start = &whole[..held.min(whole.len())];
                        let rest = &next[start.len()..];
                        for piece in [rest, &rest[..whole.len() - start.len()], &rest[..rest.len().min(2)], &[]] {
                            let case = Standing::plain(State { held, error: 0 }, length, start, piece);
                            family.check(&Standing { ceiling, ..case });
                        }
                    }
                    for error in [6, 7, 41].into_iter().chain(RETIRED) {
                        let state = State { held: SIZE, error };
                        family.check(&Standing { ceiling, ..Standing::plain(state, length, &whole, b"piece") });
                    }
                    readings_and_writings(family, &whole, ceiling, length);
                    let case = Stream::plain(&next, vec![SIZE + 1], Kind::Request);
                    family.check(&Stream { ceiling, length, misused: true, ..case });
                }
            }
        }
    }
}

/// The reader given so many bytes of a frame, or of more than it, and the writer given its body and so long an output.
fn readings_and_writings(family: &mut Family, whole: &[u8], ceiling: u32, length: usize) {
    for kind in [Kind::Request, Kind::Data] {
        let mut frame = whole.to_vec();
        frame.resize(length, 0x77);
        family.check(&Reading { ceiling, ..Reading::plain(kind, frame) });
        let body = whole.get(SIZE..).unwrap_or(&[]).to_vec();
        family.check(&Writing { body, out: length, ceiling, ..Writing::new(kind) });
    }
}

/// A stream of which each call takes its own piece at its own ceiling; what a call has not taken is offered again.
#[derive(Clone)]
struct Switched {
    bytes: Vec<u8>,
    /// How many bytes are offered, and at which ceiling.
    calls: Vec<(usize, u32)>,
    length: usize,
}

impl Case for Switched {
    fn compare(&self, tally: &mut Tally) -> Result<(), Difference> {
        Buffers::lend(|buffers| {
            let (mut state, mut rest) = (State::default(), self.bytes.as_slice());
            for (place, (offered, ceiling)) in self.calls.iter().enumerate() {
                let piece = &rest[..rest.len().min(*offered)];
                let given = Given { state, length: self.length, ceiling: *ceiling, piece };
                tally.count_ceiling(*ceiling);
                let answer = buffers.call(&given, tally)?;
                (state, rest) = (answer.next, &rest[answer.taken..]);
                // The end at this ceiling, and at the next call's.
                for (_, ceiling) in self.calls[place..].iter().take(2) {
                    buffers.end(&Given { state, ceiling: *ceiling, ..given })?;
                }
            }
            Ok(())
        })
    }

    fn smaller(&self) -> Box<dyn Iterator<Item = Switched> + '_> {
        let fewer_calls = fewer(&self.calls).map(|calls| Switched { calls, ..self.clone() });
        let bytes = fewer(&self.bytes).chain(lower(&self.bytes)).map(|bytes| Switched { bytes, ..self.clone() });
        let lower_calls = (0..self.calls.len()).flat_map(move |place| {
            let (offered, ceiling) = self.calls[place];
            let offers = less(offered as u64).map(move |offered| (offered as usize, ceiling));
            let ceilings = less(ceiling.into()).map(move |ceiling| (offered, ceiling as u32));
            offers.chain(ceilings).map(move |call| {
                let mut calls = self.calls.clone();
                calls[place] = call;
                Switched { calls, ..self.clone() }
            })
        });
        let lengths = less(self.length as u64).map(|length| Switched { length: length as usize, ..self.clone() });
        Box::new(fewer_calls.chain(bytes).chain(lower_calls).chain(lengths))
    }

    fn show(&self) -> String {
        let mut shown = format!("stream, {} bytes: {}", self.bytes.len(), hex(&self.bytes));
        shown += &format!("\nin a buffer of {} bytes, by calls:", self.length);
        for (offered, ceiling) in &self.calls {
            shown += &format!("\n  up to {offered} bytes at ceiling {ceiling}");
        }
        shown
    }
}

/// Frames around two ceilings, and calls at those, now and then at others: one may not know what the one before it has left.
fn any_switched(random: &mut Random) -> Switched {
    let low = random.between(16, 80) as u32;
    let high = random.pick(&[low + 1, low + 2, low + 40, 4_096, 65_536]);
    let sizes = [low as usize, low as usize + 1, high as usize, SIZE, 100, 5_000];
    let mut bytes = Vec::new();
    for _ in 0..random.between(1, 4) {
        let size = random.pick(&sizes).clamp(SIZE, 6_000);
        bytes.extend(frame_of(size));
    }
    if random.one_in(4) {
        bytes.extend(header(random));
    }
    let mut calls = Vec::new();
    for _ in 0..random.between(2, 12) {
        let offered = random.pick(&[0, 1, 5, 15, 16, 17, 20, 40, 300, 9_000]);
        let other = ceiling(random, &sizes);
        calls.push((offered, random.pick(&[low, low, high, high, other])));
    }
    let length = random.pick(&[LARGEST, LARGEST, LARGEST + 1, high as usize, high as usize, low as usize]);
    Switched { bytes, calls, length }
}

/// Each two ceilings with a frame that one of them lets pass, switched after each count of its bytes; and any calls.
pub fn switched(family: &mut Family) {
    const PAIRS: [(u32, u32); 6] = [(16, 17), (40, 41), (40, 60), (4_096, 65_536), (65_535, 65_536), (16, 65_536)];
    for (low, high) in PAIRS {
        for (one, other) in [(low, high), (high, low)] {
            for size in near(low as usize).into_iter().chain(near(high as usize)).chain([5_000]) {
                let bytes = [frame_of((size as usize).clamp(SIZE, LARGEST)), frame_of(SIZE)].concat();
                for first in [0, 1, 15, 16, 17, 18, bytes.len() - SIZE - 1, bytes.len() - SIZE] {
                    let calls = vec![(first, one), (9, other), (9, 15), (LARGEST, one), (LARGEST, other)];
                    for length in [high as usize, low as usize, LARGEST + 1] {
                        family.check(&Switched { bytes: bytes.clone(), calls: calls.clone(), length });
                    }
                }
            }
        }
    }
    for _ in 0..family.inputs {
        let case = any_switched(&mut family.random);
        family.check(&case);
    }
}
