//! The jobs that are measured. Each contender's pass sums up what it found.

use crate::entries::{Deframe, HeaderCheck, QueueCalls};
use crate::frames::{mixed_total, small_total, Frames};
use crate::inputs::{headers, large_requests, responses, small_requests, Input, VARIANTS};
use crate::library::{self, PARTS, RECORD_NUMBERS, VERSION};
use crate::plain::deframer::{Buffer, Deframer};
use crate::plain::header::MAX_CEILING;
use crate::plain::messages::{Message, Request, Response};
use crate::plain::queue::{Job, Queue, CAPACITY};
use crate::plain::reader::{self, Reading, ROW_NUMBERS};
use crate::plain::{writer, Error};
use crate::random::Random;
use crate::timing::Case;
use std::hint::black_box;
use std::rc::Rc;

/// The names of the contenders, as the report shows them.
pub const OURS: &str = "Bekurapi";
pub const RUST: &str = "Rust";
pub const RUST_OWN: &str = "Rust, own state";
pub const PROTOBUF_REUSED: &str = "protobuf C++, reused message";
pub const PROTOBUF_FRESH: &str = "protobuf C++, fresh message";
pub const NANOPB: &str = "nanopb";

const READING: &str = "Reading a frame";
const WRITING: &str = "Writing a frame";
const CUTTING: &str = "Cutting a stream";
const QUEUE: &str = "The queue";

pub fn all() -> Vec<Case> {
    let (small, large, responses) = (Rc::new(small_requests()), Rc::new(large_requests()), Rc::new(self::responses()));
    let mut cases = vec![
        header_check(),
        reading("small request", small.clone()),
        reading("large request, 20 map entries", large.clone()),
        reading("response", responses.clone()),
        writing("small request", small),
        writing("large request, 20 map entries", large),
        writing("response", responses),
        cutting("frames of mixed sizes, pieces of 65,536 bytes", mixed_total, 4 << 20, 65_536),
        cutting("frames of mixed sizes, pieces of 1,460 bytes", mixed_total, 4 << 20, 1_460),
        cutting("frames of 16 to 255 bytes, pieces of 1,460 bytes", small_total, 1 << 20, 1_460),
    ];
    for jobs in [1, 16, CAPACITY] {
        cases.push(add_and_take(jobs));
    }
    for jobs in [1, 16, CAPACITY] {
        cases.push(cancel_and_add(jobs));
    }
    cases
}

/// The ceiling of every call. It is hidden from the compiler, so that plain Rust is not compiled for this one only.
fn ceiling() -> u32 {
    black_box(MAX_CEILING)
}

fn header_check() -> Case {
    let headers = Rc::new(headers());
    let pass = |check: HeaderCheck| {
        let (headers, ceiling) = (headers.clone(), ceiling());
        move || headers.iter().map(|header| u64::from(check.call(black_box(header), ceiling))).sum()
    };
    Case::new(READING, "check of a fixed header", headers.len())
        .with(OURS, pass(HeaderCheck::LIBRARY))
        .with(RUST, pass(HeaderCheck::RUST))
}

/// What a record says, as one number that each reader can tell: the peers' sources have the same sum.
trait Found: Message {
    /// Where the numbers of the sum are in a record's 25.
    const PLACES: &'static [usize];

    fn found(&self) -> u64;
}

impl Found for Request {
    const PLACES: &'static [usize] = &[10, 11, 13, 15, 17];

    #[inline]
    fn found(&self) -> u64 {
        let lengths = [self.caller.length, self.callee.length, self.func.length];
        u64::from(self.request_id) + u64::from(self.timeout) + lengths.map(u64::from).iter().sum::<u64>()
    }
}

impl Found for Response {
    const PLACES: &'static [usize] = &[10, 11, 12, 14];

    #[inline]
    fn found(&self) -> u64 {
        [self.request_id, self.ret as u32, self.func_ret as u32, self.error_msg.length].map(u64::from).iter().sum()
    }
}

#[inline]
fn found_in<M: Found>(error: Error, numbers: &[u32; RECORD_NUMBERS]) -> u64 {
    assert_eq!(error, 0);
    let beside = u64::from(numbers[1]) + u64::from(numbers[PARTS + 3]) + u64::from(numbers[VERSION]);
    M::PLACES.iter().map(|place| u64::from(numbers[*place])).sum::<u64>() + beside
}

#[inline]
fn found<M: Found>(reading: Result<Reading<M>, Error>) -> u64 {
    let reading = reading.expect("a good frame");
    let beside = u64::from(reading.body.length) + u64::from(reading.record.header_version);
    reading.record.message.found() + reading.record.row_count as u64 + beside
}

/// A pass over the inputs: the sum of what `one` says of each.
fn over<M: 'static>(inputs: &Rc<Vec<Input<M>>>, mut one: impl FnMut(usize, &Input<M>) -> u64) -> impl FnMut() -> u64 {
    let inputs = inputs.clone();
    move || inputs.iter().enumerate().map(|(index, input)| one(index, black_box(input))).sum()
}

fn reading<M: Found + 'static>(name: &str, inputs: Rc<Vec<Input<M>>>) -> Case {
    let mut rows = vec![0; ROW_NUMBERS];
    let mut plain_rows = rows.clone();
    let mut record = [0; RECORD_NUMBERS];
    let ceiling = ceiling();
    let case = Case::new(READING, name, VARIANTS)
        .with(
            OURS,
            over(&inputs, move |_, input| {
                let error = library::read(M::KIND, &input.frame, ceiling, &mut rows, &mut record);
                black_box(&rows);
                found_in::<M>(error, black_box(&record))
            }),
        )
        .with(
            RUST,
            over(&inputs, move |_, input| {
                let reading = reader::read::<M>(&input.frame, ceiling, &mut plain_rows);
                black_box(&plain_rows);
                found(black_box(reading))
            }),
        );
    reading_peers::<M>(case, &inputs)
}

#[allow(unused_mut, unused_variables, reason = "nothing uses them where no peer is installed")]
fn reading_peers<M: Found + 'static>(mut case: Case, inputs: &Rc<Vec<Input<M>>>) -> Case {
    #[cfg(protobuf)]
    {
        use crate::peers::protobuf;
        let message = protobuf::new(M::KIND);
        case = case
            .with(PROTOBUF_REUSED, over(inputs, move |_, input| protobuf::read(message, &input.frame)))
            .with(PROTOBUF_FRESH, over(inputs, |_, input| protobuf::read_fresh(M::KIND, &input.frame)));
    }
    #[cfg(nanopb)]
    {
        use crate::peers::nanopb;
        let message = nanopb::new(M::KIND);
        case = case.with(NANOPB, over(inputs, move |_, input| nanopb::read(message, &input.frame)));
    }
    case
}

/// A pass that writes all inputs to one buffer.
fn to_buffer<M: 'static>(
    inputs: &Rc<Vec<Input<M>>>,
    mut write: impl FnMut(usize, &Input<M>, &mut [u8]) -> usize,
) -> impl FnMut() -> u64 {
    let mut out = Buffer::page();
    over(inputs, move |index, input| {
        let size = write(index, input, &mut out.0);
        black_box(&out.0);
        size as u64
    })
}

fn writing<M: Found + 'static>(name: &str, inputs: Rc<Vec<Input<M>>>) -> Case {
    let ceiling = ceiling();
    let ours = move |_, i: &Input<M>, out: &mut [u8]| {
        library::write(M::KIND, &i.numbers, &i.source, &i.rows, &i.body, out, ceiling)
            .expect("a record that can be written")
    };
    let plain = move |_, i: &Input<M>, out: &mut [u8]| {
        writer::write(&i.record, &i.source, &i.rows, &i.body, out, ceiling).expect("a record that can be written")
    };
    let case =
        Case::new(WRITING, name, VARIANTS).with(OURS, to_buffer(&inputs, ours)).with(RUST, to_buffer(&inputs, plain));
    writing_peers::<M>(case, &inputs)
}

/// A reused message was filled before, by reading the frame.
#[allow(unused_mut, unused_variables, reason = "nothing uses them where no peer is installed")]
fn writing_peers<M: Found + 'static>(mut case: Case, inputs: &Rc<Vec<Input<M>>>) -> Case {
    #[cfg(protobuf)]
    {
        use crate::peers::protobuf;
        let filled = |input: &Input<M>| {
            let message = protobuf::new(M::KIND);
            protobuf::read(message, &input.frame);
            message
        };
        let messages: Vec<_> = inputs.iter().map(filled).collect();
        let reused =
            move |index: usize, i: &Input<M>, out: &mut [u8]| protobuf::write(messages[index], &i.record, &i.body, out);
        let fresh = |_, i: &Input<M>, out: &mut [u8]| {
            protobuf::write_fresh(M::KIND, &i.numbers, &i.source, &i.rows, &i.body, out)
        };
        case = case.with(PROTOBUF_REUSED, to_buffer(inputs, reused)).with(PROTOBUF_FRESH, to_buffer(inputs, fresh));
    }
    #[cfg(nanopb)]
    {
        use crate::peers::nanopb;
        let filled = |input: &Input<M>| {
            let message = nanopb::new(M::KIND);
            nanopb::read(message, &input.frame);
            message
        };
        let messages: Vec<_> = inputs.iter().map(filled).collect();
        let reused =
            move |index: usize, i: &Input<M>, out: &mut [u8]| nanopb::write(messages[index], &i.record, &i.body, out);
        case = case.with(NANOPB, to_buffer(inputs, reused));
    }
    case
}

/// A pass over a stream: hands over each piece until it is used up, and sums up the ids of the frames. A call stores the bytes
/// that it took and gives its error code and the id.
fn cut(stream: &[u8], piece: usize, mut call: impl FnMut(&[u8], &mut usize) -> (Error, u64)) -> u64 {
    let mut sum = 0;
    for mut rest in stream.chunks(piece) {
        while !rest.is_empty() {
            let mut taken = 0;
            let (error, id) = call(rest, &mut taken);
            assert_eq!(error, 0);
            rest = &rest[taken..];
            sum += id;
        }
    }
    sum
}

/// The id of the frame at the start of the buffer.
#[inline]
fn id(buffer: &[u8], size: usize) -> u64 {
    if size == 0 {
        return 0;
    }
    let frame = black_box(&buffer[..size]);
    u32::from_be_bytes([frame[10], frame[11], frame[12], frame[13]]).into()
}

fn cutting(name: &str, total: fn(&mut Random) -> u64, bytes: usize, piece: usize) -> Case {
    let frames: Vec<Vec<u8>> = Frames::new(bytes as u64, 1, total).collect();
    let stream = Rc::new(frames.concat());
    let ceiling = ceiling();
    let lent = |deframe: Deframe| {
        let stream = stream.clone();
        let (mut held, mut error, mut buffer) = (0, 0, Buffer::page());
        move || {
            cut(&stream, piece, |rest, taken| {
                let mut size = 0;
                let code = deframe.call(&mut held, &mut error, &mut buffer.0, ceiling, rest, taken, &mut size);
                (code, id(&buffer.0, size))
            })
        }
    };
    let own = stream.clone();
    let mut deframer = Deframer::new(ceiling).expect("a ceiling in range");
    Case::new(CUTTING, name, frames.len())
        .bytes(bytes)
        .with(OURS, lent(Deframe::LIBRARY))
        .with(RUST, lent(Deframe::RUST))
        .with(RUST_OWN, move || {
            cut(&own, piece, |rest, taken| {
                let mut size = 0;
                let code = deframer.push(rest, taken, &mut size);
                (code, id(deframer.frame(size), size))
            })
        })
}

/// The milliseconds between two arrivals.
const STEP: u64 = 10;

/// Jobs of some connections, with request ids and arrivals that rise.
fn jobs(count: usize, seed: u64) -> Vec<Job> {
    let mut random = Random(seed);
    let job = |request| Job {
        connection: random.between(1, 8) as u32,
        request: request as u32,
        timeout: random.between(1, 5_000) as u32,
        zero: 0,
        arrival: STEP * request as u64,
    };
    (0..count).map(job).collect()
}

/// A queue in which the jobs wait.
fn waiting(calls: QueueCalls, jobs: &[Job]) -> Queue {
    let mut queue = Queue::default();
    jobs.iter().for_each(|job| assert_eq!(calls.add(&mut queue, job), 0));
    queue
}

/// Adds a job, which makes so many, and takes the one due first. Each pass brings jobs that come after those of the last.
fn taking(calls: QueueCalls, count: usize) -> impl FnMut() -> u64 {
    let mut queue = waiting(calls, &jobs(count - 1, 7));
    let mut incoming = jobs(VARIANTS, 8);
    let mut removed = Job::default();
    move || {
        let mut sum = 0;
        for job in &mut incoming {
            job.request += VARIANTS as u32;
            job.arrival += VARIANTS as u64 * STEP;
            assert_eq!(calls.add(&mut queue, black_box(job)), 0);
            assert_eq!(calls.take(&mut queue, &mut removed), 0);
            sum += u64::from(black_box(&removed).request);
        }
        sum
    }
}

fn add_and_take(count: usize) -> Case {
    Case::new(QUEUE, format!("add and take, {count} waiting"), VARIANTS)
        .with(OURS, taking(QueueCalls::LIBRARY, count))
        .with(RUST, taking(QueueCalls::RUST, count))
        .with(RUST_OWN, taking(QueueCalls::RUST_OWN, count))
}

/// Of so many waiting jobs one is cancelled and added again.
fn cancelling(calls: QueueCalls, count: usize) -> impl FnMut() -> u64 {
    let jobs = jobs(count, 9);
    let mut queue = waiting(calls, &jobs);
    let mut random = Random(10);
    let named: Vec<Job> = (0..VARIANTS).map(|_| jobs[random.between(0, count as u64 - 1) as usize]).collect();
    let mut removed = Job::default();
    move || {
        let mut sum = 0;
        for job in &named {
            let job = black_box(job);
            assert_eq!(calls.cancel(&mut queue, job.connection, job.request, &mut removed), 0);
            sum += u64::from(black_box(&removed).timeout);
            assert_eq!(calls.add(&mut queue, job), 0);
        }
        sum
    }
}

fn cancel_and_add(count: usize) -> Case {
    Case::new(QUEUE, format!("cancel and add, {count} waiting"), VARIANTS)
        .with(OURS, cancelling(QueueCalls::LIBRARY, count))
        .with(RUST, cancelling(QueueCalls::RUST, count))
        .with(RUST_OWN, cancelling(QueueCalls::RUST_OWN, count))
}
