//! The entries of the C interface (include/bekurapi.h), over the reference. The types are those of `library`, so that the two
//! can be compared value by value.

use super::deframer::{self, Answer, End, State};
use super::header::{self, FixedHeader};
use super::messages::{Kind, Message, FIELD_NUMBERS};
use super::queue::{Job, Queue};
use super::{reader, writer};

/// How many numbers a record has, where its fields begin, and which has the version in its low byte.
pub const RECORD_NUMBERS: usize = 25;
pub const FIRST_FIELD: usize = 8;
pub const VERSION: usize = FIRST_FIELD + FIELD_NUMBERS;

/// The record of a kind as numbers.
pub type Numbers = [u32; RECORD_NUMBERS];

/// What a fixed header says. All is 0 after a refusal.
#[derive(Clone, Copy, Debug, Default, PartialEq, Eq)]
pub struct Parsed {
    pub error: u32,
    pub frame_type: u32,
    pub total: usize,
    pub header_size: usize,
    pub id: u32,
    pub version: u8,
}

/// What a call of the deframer answered. `size` is the whole frame's, 0 where there is none.
#[derive(Clone, Copy, Debug, PartialEq, Eq)]
pub struct Deframed {
    pub error: u32,
    pub next: State,
    pub taken: usize,
    pub size: usize,
}

/// How a stream ended. `short_by` is the count held, 0 where the end is clean or refused.
#[derive(Clone, Copy, Debug, PartialEq, Eq)]
pub struct Finished {
    pub error: u32,
    pub short_by: usize,
}

/// What the writer answered. `size` is 0 after a refusal.
#[derive(Clone, Copy, Debug, PartialEq, Eq)]
pub struct Written {
    pub error: u32,
    pub size: usize,
}

/// What the queue answered to a call that removes a job. "A refused record or job is all zero"
#[derive(Clone, Copy, Debug, PartialEq, Eq)]
pub struct Removed {
    pub error: u32,
    pub job: Job,
}

pub fn header_check(bytes: &[u8], ceiling: u32) -> u32 {
    header::judge(bytes, ceiling)
}

/// "0 unary, 1 stream", "1 Init, 2 Data, 3 Feedback, 4 Close; ignored in unary": the type is the stream type, 0 for unary.
pub fn header_parse(bytes: &[u8], ceiling: u32) -> Parsed {
    match header::judge(bytes, ceiling) {
        0 => {
            let FixedHeader { data_type, stream_type, total, header_size, id, version, .. } = header::first(bytes);
            let frame_type = u32::from(data_type * stream_type);
            Parsed { error: 0, frame_type, total, header_size, id, version }
        }
        error => Parsed { error, ..Parsed::default() },
    }
}

pub fn deframe(state: State, buffer: &mut [u8], ceiling: u32, piece: &[u8]) -> Deframed {
    let step = deframer::deframe(state, buffer, ceiling, piece);
    let (error, size) = match step.answer {
        Answer::Frame(size) => (0, size),
        Answer::More => (0, 0),
        Answer::Refused(error) => (error, 0),
    };
    Deframed { error, next: step.next, taken: step.taken, size }
}

pub fn finish(state: State, buffer: &[u8], ceiling: u32) -> Finished {
    finished(deframer::finish(state, buffer, ceiling))
}

pub fn finished(end: End) -> Finished {
    match end {
        End::Clean => Finished { error: 0, short_by: 0 },
        End::Short(held) => Finished { error: 0, short_by: held },
        End::Refused(error) => Finished { error, short_by: 0 },
    }
}

/// Reads a frame as a kind. "A refused record or job is all zero"
pub fn read(kind: Kind, frame: &[u8], ceiling: u32, rows: &mut [u32], record: &mut Numbers) -> u32 {
    *record = [0; RECORD_NUMBERS];
    let reading = match reader::read(kind, frame, ceiling, rows) {
        Ok(reading) => reading,
        Err(error) => return error,
    };
    record[0] = reading.id;
    record[1] = reading.row_count;
    for (place, part) in [(2, reading.header), (4, reading.body), (6, reading.attachment)] {
        record[place] = part.start;
        record[place + 1] = part.length;
    }
    record[FIRST_FIELD..VERSION].copy_from_slice(&reading.message.numbers());
    record[VERSION] = reading.header_version.into();
    0
}

/// The writer's input. The version is the low byte of its number; the others are not looked at.
pub fn input<'a>(kind: Kind, record: &Numbers, source: &'a [u8], rows: &'a [u32], body: &'a [u8]) -> writer::Input<'a> {
    let mut fields = [0; FIELD_NUMBERS];
    fields.copy_from_slice(&record[FIRST_FIELD..VERSION]);
    let message = Message::of(kind, &fields);
    let [header_version, ..] = record[VERSION].to_le_bytes();
    writer::Input { id: record[0], header_version, row_count: record[1], message, source, rows, body }
}

/// Writes the frame of a record. "a refused write counts 0 bytes"
pub fn write(
    kind: Kind,
    record: &Numbers,
    source: &[u8],
    rows: &[u32],
    body: &[u8],
    out: &mut [u8],
    ceiling: u32,
) -> Written {
    match writer::write(&input(kind, record, source, rows, body), out, ceiling) {
        Ok(size) => Written { error: 0, size },
        Err(error) => Written { error, size: 0 },
    }
}

pub fn queue_init(queue: &mut Queue) {
    *queue = Queue::default();
}

pub fn queue_add(queue: &mut Queue, connection: u32, request: u32, timeout: u32, arrival: u64) -> u32 {
    queue.add(Job { connection, request, timeout, zero: 0, arrival }).err().unwrap_or(0)
}

fn removed(answer: Result<Job, u32>) -> Removed {
    match answer {
        Ok(job) => Removed { error: 0, job },
        Err(error) => Removed { error, job: Job::default() },
    }
}

pub fn queue_take(queue: &mut Queue) -> Removed {
    removed(queue.take())
}

pub fn queue_cancel(queue: &mut Queue, connection: u32, request: u32) -> Removed {
    removed(queue.cancel(connection, request))
}
