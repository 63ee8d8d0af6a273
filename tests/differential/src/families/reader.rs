//! The reader of a frame.

use crate::ceilings::{lowered, plainer, Limited};
use crate::difference::{hex, same, Difference};
use crate::generate::{damage, frame, Generator};
use crate::lent::Lent;
use crate::library;
use crate::random::Random;
use crate::reference::header::{first, HIGHEST_CEILING, SIZE, UNARY};
use crate::reference::interface::{self, Numbers, RECORD_NUMBERS};
use crate::reference::messages::{Kind, ROW_NUMBERS};
use crate::run::{Family, Tally};
use crate::shrink::{fewer, lower, smaller_messages, Case};

/// A frame read as a kind at a ceiling, with so many row numbers lent.
#[derive(Clone)]
pub struct Reading {
    pub kind: Kind,
    pub frame: Vec<u8>,
    pub ceiling: u32,
    pub rows: usize,
}

/// What is in the row numbers before the call.
pub fn filled(count: usize, with: u32) -> Vec<u32> {
    (0..count as u32).map(|place| with + place).collect()
}

/// What is in the record before the call.
pub fn filled_record(with: u32) -> Numbers {
    std::array::from_fn(|place| with + place as u32)
}

impl Reading {
    pub fn plain(kind: Kind, frame: Vec<u8>) -> Reading {
        Reading { kind, frame, ceiling: HIGHEST_CEILING, rows: ROW_NUMBERS + 8 }
    }
}

impl Case for Reading {
    fn compare(&self, tally: &mut Tally) -> Result<(), Difference> {
        let (mut rows, mut record) = (filled(self.rows, 0xA5A5_0000), filled_record(0x5A5A_0000));
        let (mut lent_rows, mut lent_record) = (Lent::new(&rows, 0xBEEF), Lent::new(&record, 0xFEED));
        let lent_frame = Lent::new(&self.frame, 0x08);

        let Reading { kind, frame, ceiling, .. } = self;
        let expected = interface::read(*kind, frame, *ceiling, &mut rows, &mut record);
        let actual = library::read(*kind, lent_frame.get(), *ceiling, lent_rows.get_mut(), lent_record.array());

        tally.count(expected);
        tally.count_ceiling(*ceiling);
        same(&"the error code", &expected, &actual)?;
        lent_record.holds("the record", &record)?;
        lent_rows.holds("the row numbers", &rows)?;
        lent_frame.holds("the frame", frame)
    }

    fn smaller(&self) -> Box<dyn Iterator<Item = Reading> + '_> {
        let fewer_rows = (ROW_NUMBERS < self.rows).then(|| Reading { rows: ROW_NUMBERS, ..self.clone() });
        let ceilings = plainer(self.ceiling).map(|ceiling| Reading { ceiling, ..self.clone() });
        let frames = smaller_frames(&self.frame).into_iter().chain(fewer(&self.frame)).chain(lower(&self.frame));
        // As it is, and with a ceiling that is lower by as much as the frame is shorter.
        let frames = frames.flat_map(move |frame| {
            let lower = lowered(self.ceiling, self.frame.len(), frame.len());
            let with = move |ceiling| Reading { frame: frame.clone(), ceiling, ..self.clone() };
            lower.into_iter().chain([self.ceiling]).map(with)
        });
        Box::new(fewer_rows.into_iter().chain(frames).chain(ceilings))
    }

    fn show(&self) -> String {
        format!(
            "read as {:?} at ceiling {} with {} row numbers (A5A50000 and on) and a record of {RECORD_NUMBERS} (5A5A0000 \
             and on)\nframe, {} bytes: {}",
            self.kind,
            self.ceiling,
            self.rows,
            self.frame.len(),
            hex(&self.frame)
        )
    }
}

impl Limited for Reading {
    fn sizes(&self) -> Vec<usize> {
        let total = (self.frame.len() >= SIZE).then(|| first(&self.frame).total);
        total.into_iter().chain([self.frame.len()]).collect()
    }

    fn at(&self, ceiling: u32, _: &mut Random) -> Reading {
        Reading { ceiling, ..self.clone() }
    }
}

/// Smaller frames with sizes that fit again: without some of the body's bytes, and with a smaller message.
pub fn smaller_frames(frame: &[u8]) -> Vec<Vec<u8>> {
    if frame.len() < SIZE {
        return Vec::new();
    }
    let fixed = first(frame);
    let header_size = if fixed.data_type == UNARY { fixed.header_size } else { frame.len() - SIZE };
    let (message, body) = frame[SIZE..].split_at(header_size.min(frame.len() - SIZE));
    let with = |message: &[u8], body: &[u8]| {
        let mut smaller = [&frame[..SIZE], message, body].concat();
        let total = smaller.len() as u32;
        smaller[4..8].copy_from_slice(&total.to_be_bytes());
        if fixed.data_type == UNARY {
            smaller[8..10].copy_from_slice(&(message.len() as u16).to_be_bytes());
        }
        smaller
    };
    let bodies = fewer(body).map(|body| with(message, &body));
    let messages = smaller_messages(message).into_iter().chain(fewer(message)).map(|message| with(&message, body));
    bodies.chain(messages).collect()
}

/// Every message of up to two bytes, of every kind that has one; three bytes of those that begin, end or bend a field.
pub fn short_messages(family: &mut Family) {
    const TELLING: [u8; 20] = [
        0x00, 0x01, 0x02, 0x05, 0x07, 0x08, 0x0A, 0x0B, 0x0C, 0x0D, 0x0E, 0x10, 0x12, 0x20, 0x4A, 0x60, 0x7F, 0x80,
        0x81, 0xFF,
    ];
    for kind in [Kind::Request, Kind::Response, Kind::Init, Kind::Feedback, Kind::Close] {
        let mut check = |message: &[u8]| family.check_limited(&Reading::plain(kind, frame(kind, 7, message, &[])));
        check(&[]);
        for first in 0..=255 {
            check(&[first]);
            for second in 0..=255 {
                check(&[first, second]);
            }
        }
        for first in TELLING {
            for second in TELLING {
                for third in TELLING {
                    check(&[first, second, third]);
                }
            }
        }
    }
}

fn kind(random: &mut Random) -> Kind {
    let any = random.pick(&Kind::ALL);
    // Data has no message: fewer of it.
    if any == Kind::Data && !random.one_in(8) {
        Kind::Request
    } else {
        any
    }
}

pub fn message_frame(random: &mut Random) -> (Kind, Vec<u8>) {
    let kind = kind(random);
    let faults = random.pick(&[0, 0, 0, 1, 1, 2]);
    let tidy = random.one_in(4);
    let large = random.one_in(400);
    let mut generator = Generator { random, tidy };
    (kind, if large { generator.large_frame(kind) } else { generator.frame(kind, faults) })
}

/// Whole frames, and such with a field that breaks a rule.
pub fn messages(family: &mut Family) {
    for _ in 0..family.inputs {
        let (kind, frame) = message_frame(&mut family.random);
        family.check_limited(&Reading::plain(kind, frame));
    }
}

/// Frames with bytes changed, dropped, added or cut off; some are read as another kind.
pub fn damaged(family: &mut Family) {
    for _ in 0..family.inputs {
        let (mut kind, mut frame) = message_frame(&mut family.random);
        damage(&mut family.random, &mut frame);
        if family.random.one_in(16) {
            kind = family.random.pick(&Kind::ALL);
        }
        family.check_limited(&Reading::plain(kind, frame));
    }
}

/// Any bytes as the message of a good header.
pub fn random_bytes(family: &mut Family) {
    for _ in 0..family.inputs {
        let random = &mut family.random;
        let kind = kind(random);
        let length = random.below(48);
        // Low bytes are tags and lengths more often than high ones.
        let narrow = random.pick(&[0xFF, 0xFF, 0x7F, 0x1F, 0x0F]);
        let message: Vec<u8> = random.bytes(length).iter().map(|byte| byte & narrow).collect();
        let body_size = random.below(6);
        let body = if kind.is_unary() { random.bytes(body_size) } else { Vec::new() };
        let id = random.u32();
        let frame = Generator { random, tidy: false }.under_a_version(frame(kind, id, &message, &body));
        family.check_limited(&Reading::plain(kind, frame));
    }
}

/// A frame, damaged or not, read as any kind, with any count of row numbers.
pub fn any_reading(random: &mut Random) -> Reading {
    let (mut kind, mut frame) = message_frame(random);
    if random.one_in(4) {
        damage(random, &mut frame);
    }
    if random.one_in(4) {
        kind = random.pick(&Kind::ALL);
    }
    let some = random.below(400);
    let rows = random.pick(&[0, 1, 4, 255, 256, 256, 256, 257, 300, 300, some]);
    Reading { rows, ..Reading::plain(kind, frame) }
}

/// Row slices of other lengths, and frames read as every kind.
pub fn lent_slices(family: &mut Family) {
    for _ in 0..family.inputs {
        let case = any_reading(&mut family.random);
        family.check_limited(&case);
    }
}
