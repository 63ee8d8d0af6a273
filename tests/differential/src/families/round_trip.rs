//! What the library writes, it cuts and reads back with the same meaning; and what it has read, it writes again as the same
//! bytes: at the ceiling that is the frame's length too, and at larger ones, and not at one below. What it reads of any frame,
//! it writes as the reference does.

use super::reader::message_frame;
use super::writer::{large, layout, Writing};
use crate::ceilings::Limited;
use crate::difference::{same, same_slices, Difference};
use crate::lent::Lent;
use crate::library;
use crate::random::Random;
use crate::reference::deframer::State;
use crate::reference::header::{HIGHEST_CEILING, LARGEST, SIZE};
use crate::reference::interface::{self, Deframed, Finished, Numbers, Written, RECORD_NUMBERS, VERSION};
use crate::reference::messages::{Kind, Span, ROW_NUMBERS};
use crate::run::{Family, Tally};
use crate::shrink::Case;

#[derive(Clone)]
struct RoundTrip(Writing);

/// What a record says, whatever its starts: id, version, numbers and marks, byte fields, rows, body.
#[derive(Debug, PartialEq)]
struct Meaning<'a> {
    id: u32,
    version: u8,
    numbers: Vec<u32>,
    marks: Vec<bool>,
    bytes: Vec<&'a [u8]>,
    rows: Vec<(&'a [u8], &'a [u8])>,
    body: &'a [u8],
}

fn meaning<'a>(kind: Kind, record: &Numbers, source: &'a [u8], rows: &[u32], body: &'a [u8]) -> Meaning<'a> {
    let layout = layout(kind);
    let bytes = |start, length| Span { start, length }.bytes(source);
    let numbers = layout.numbers.iter().chain(&layout.attachment);
    Meaning {
        id: record[0],
        version: record[VERSION] as u8,
        numbers: numbers.map(|place| record[*place]).collect(),
        marks: layout.marks.iter().map(|place| record[*place] != 0).collect(),
        bytes: layout.bytes.iter().map(|place| bytes(record[*place], record[place + 1])).collect(),
        rows: rows
            .chunks(4)
            .take(record[1] as usize)
            .map(|row| (bytes(row[0], row[1]), bytes(row[2], row[3])))
            .collect(),
        body,
    }
}

impl RoundTrip {
    fn write(&self, out: &mut [u8], ceiling: u32) -> Written {
        let Writing { kind, record, source, rows, body, .. } = &self.0;
        library::write(*kind, record, source, rows, body, out, ceiling)
    }

    /// What was written is read back at this ceiling, and written again.
    fn comes_back(&self, frame: &[u8], ceiling: u32) -> Result<(), Difference> {
        let Writing { kind, record, source, rows, body, .. } = &self.0;
        let (mut read_rows, mut read) = ([9; ROW_NUMBERS], [9; RECORD_NUMBERS]);
        let error = library::read(*kind, frame, ceiling, &mut read_rows, &mut read);
        same(&"the error code of what was written", &0, &error)?;

        let read_body = Span { start: read[4], length: read[5] }.bytes(frame);
        let expected = meaning(*kind, record, source, rows, body);
        same(&"the meaning of what was written", &expected, &meaning(*kind, &read, frame, &read_rows, read_body))?;
        let attachment = layout(*kind).attachment.map_or(0, |place| record[place]);
        let attached = Span { start: read[6], length: read[7] }.bytes(frame);
        same_slices("the attachment of what was written", &body[body.len() - attachment as usize..], attached)?;

        let mut again = vec![0; frame.len()];
        let written = library::write(*kind, &read, frame, &read_rows, read_body, &mut again, ceiling);
        same(&"the answer to what was read, written again", &Written { error: 0, size: frame.len() }, &written)?;
        same_slices("what was read, written again", frame, &again)
    }

    /// All goes as well at the ceiling that is the frame's length, with an output and a buffer of no more. What was written at it
    /// is cut and read at larger ones too: one more, the highest, and one between.
    fn at_its_length(&self, frame: &[u8]) -> Result<(), Difference> {
        let size = frame.len();
        let ceiling = size as u32;
        let mut out = Lent::new(&vec![0; size], 0x5C);
        let written = self.write(out.get_mut(), ceiling);
        same(&"the answer at the ceiling that is the frame's length", &Written { error: 0, size }, &written)?;
        out.holds("the output at the ceiling that is the frame's length", frame)?;

        let mut buffer = Lent::new(&vec![0; size], 0x09);
        let cut = library::deframe(State::default(), buffer.get_mut(), ceiling, frame);
        let whole = Deframed { error: 0, next: State::default(), taken: size, size };
        same(&"the call at the ceiling that is the frame's length", &whole, &cut)?;
        buffer.holds("the buffer at the ceiling that is the frame's length", frame)?;
        let end = library::finish(cut.next, buffer.get(), ceiling);
        same(&"the end at the ceiling that is the frame's length", &Finished { error: 0, short_by: 0 }, &end)?;
        self.comes_back(frame, ceiling)?;
        for larger in [HIGHEST_CEILING.min(ceiling + 1), ceiling.midpoint(HIGHEST_CEILING), HIGHEST_CEILING] {
            let mut buffer = vec![0; larger as usize];
            let cut = library::deframe(State::default(), &mut buffer, larger, out.get());
            same(&format_args!("the call at the ceiling {larger}"), &whole, &cut)?;
            same_slices("the buffer at a larger ceiling", frame, &buffer[..size])?;
            self.comes_back(out.get(), larger)?;
        }
        Ok(())
    }

    /// At one below, the writer gives 19, and the judge 6 to all others; below 16 all give 41.
    fn at_one_below(&self, frame: &[u8], tally: &mut Tally) -> Result<(), Difference> {
        let ceiling = frame.len() as u32 - 1;
        let (over, judged, taken) = if frame.len() > SIZE { (19, 6, SIZE) } else { (41, 41, 0) };
        tally.count(over);
        tally.count(judged);

        let mut out = Lent::new(frame, 0x5C);
        let written = self.write(out.get_mut(), ceiling);
        same(&"the answer at the ceiling one below", &Written { error: over, size: 0 }, &written)?;
        out.holds("the output at the ceiling one below", frame)?;

        let start = vec![0x30; frame.len() - 1];
        let mut buffer = Lent::new(&start, 0x09);
        let cut = library::deframe(State::default(), buffer.get_mut(), ceiling, frame);
        let next = if taken > 0 { State { held: SIZE, error: judged } } else { State::default() };
        same(&"the call at the ceiling one below", &Deframed { error: judged, next, taken, size: 0 }, &cut)?;
        buffer.holds("the buffer at the ceiling one below", &[&frame[..taken], &start[taken..]].concat())?;
        let end = library::finish(cut.next, buffer.get(), ceiling);
        same(&"the end at the ceiling one below", &Finished { error: judged, short_by: 0 }, &end)?;

        let (mut rows, mut record) = ([9; ROW_NUMBERS], [9; RECORD_NUMBERS]);
        let error = library::read(self.0.kind, frame, ceiling, &mut rows, &mut record);
        same(&"the error code at the ceiling one below", &judged, &error)?;
        same(&"the record at the ceiling one below", &[0; RECORD_NUMBERS], &record)?;
        same_slices("the row numbers at the ceiling one below", &[9; ROW_NUMBERS], &rows)
    }
}

impl Case for RoundTrip {
    fn compare(&self, tally: &mut Tally) -> Result<(), Difference> {
        let mut out = vec![0; LARGEST];
        let written = self.write(&mut out, self.0.ceiling);
        tally.count(written.error);
        tally.count_ceiling(self.0.ceiling);
        if written.error != 0 {
            return Ok(()); // whether it should be is compared by the writer's families
        }
        let frame = &out[..written.size];
        self.comes_back(frame, self.0.ceiling)?;
        self.at_its_length(frame)?;
        self.at_one_below(frame, tally)
    }

    fn smaller(&self) -> Box<dyn Iterator<Item = RoundTrip> + '_> {
        Box::new(self.0.smaller().map(RoundTrip))
    }

    fn show(&self) -> String {
        format!("written, read and written again:\n{}", self.0.show())
    }
}

impl Limited for RoundTrip {
    fn sizes(&self) -> Vec<usize> {
        self.0.sizes()
    }

    fn at(&self, ceiling: u32, random: &mut Random) -> RoundTrip {
        RoundTrip(self.0.at(ceiling, random))
    }
}

pub fn round_trips(family: &mut Family) {
    for _ in 0..family.inputs {
        let random = &mut family.random;
        let record = if random.one_in(200) { large(random) } else { Writing::good(random) };
        family.check_limited(&RoundTrip(record));
    }
}

/// What is read of a frame, whatever its encoding and its last two bytes of the fixed header, is written again, with the frame
/// as the source.
pub fn written_again(family: &mut Family) {
    for _ in 0..family.inputs {
        let (kind, frame) = message_frame(&mut family.random);
        let (mut rows, mut record) = (vec![9; ROW_NUMBERS], [9; RECORD_NUMBERS]);
        if interface::read(kind, &frame, HIGHEST_CEILING, &mut rows, &mut record) == 0 {
            let body = Span { start: record[4], length: record[5] }.bytes(&frame).to_vec();
            let mut case = Writing { kind, record, source: frame, rows, body, out: 0, ceiling: HIGHEST_CEILING };
            case.out = case.size().map_or(LARGEST, |size| size + family.random.below(3));
            family.check_limited(&case);
        }
    }
}
