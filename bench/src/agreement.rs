//! The library and the straightforward Rust give the same answers, to the number, and the peers write the same frames:
//! without that, comparing them says nothing.

use crate::entries::{Deframe, HeaderCheck, QueueCalls};
use crate::frames::{mixed_total, small_total, Frames};
use crate::inputs::{headers, large_requests, responses, small_requests, Input};
use crate::library::{self, FIELDS, PARTS, RECORD_NUMBERS, VERSION};
use crate::plain::header::{LARGEST, MAX_CEILING};
use crate::plain::messages::Message;
use crate::plain::queue::{Job, Queue, CAPACITY};
use crate::plain::reader::{self, Reading, ROW_NUMBERS};
use crate::plain::writer;
use crate::random::Random;

/// How many damaged versions of each frame are compared.
const DAMAGED: usize = 50;

/// Ceilings in range and out of it.
const CEILINGS: [u32; 9] = [0, 15, 16, 64, 4_095, 4_096, MAX_CEILING, MAX_CEILING + 1, u32::MAX];

/// Those, and one to each side of a frame's size.
fn ceilings(frame: usize) -> impl Iterator<Item = u32> {
    let size = frame as u32;
    CEILINGS.into_iter().chain(size - 1..=size + 1)
}

/// Compares the two on all inputs and on damaged versions of them.
pub fn check() {
    for header in headers() {
        for length in 0..=header.len() {
            let bytes = &header[..length];
            for ceiling in CEILINGS {
                assert_eq!(HeaderCheck::LIBRARY.call(bytes, ceiling), HeaderCheck::RUST.call(bytes, ceiling));
            }
        }
    }
    check_messages(&small_requests());
    check_messages(&large_requests());
    check_messages(&responses());
    check_cutting();
    check_queue();
}

fn damage(bytes: &mut [u8], random: &mut Random) {
    for _ in 0..random.between(1, 2) {
        let at = random.between(0, bytes.len() as u64 - 1) as usize;
        bytes[at] = random.number() as u8;
    }
}

fn check_messages<M: Message>(inputs: &[Input<M>]) {
    let mut random = Random(11);
    for input in inputs {
        ceilings(input.frame.len()).for_each(|ceiling| check_written(input, ceiling));
        check_peers(input);
        ceilings(input.frame.len()).for_each(|ceiling| check_read::<M>(&input.frame, ceiling));
        let header = input.frame.len() - input.body.len();
        for _ in 0..DAMAGED {
            let mut frame = input.frame.clone();
            damage(&mut frame[..header], &mut random);
            ceilings(frame.len()).for_each(|ceiling| check_read::<M>(&frame, ceiling));
        }
    }
}

fn check_written<M: Message>(i: &Input<M>, ceiling: u32) {
    let mut ours = vec![0x55; LARGEST];
    let mut plain = ours.clone();
    let size = library::write(M::KIND, &i.numbers, &i.source, &i.rows, &i.body, &mut ours, ceiling);
    assert_eq!(size, writer::write(&i.record, &i.source, &i.rows, &i.body, &mut plain, ceiling));
    assert!(ours == plain, "the frames written differ");
}

/// The peers write the same frame; protobuf C++ has the entries of a map in no order.
#[allow(unused_variables, reason = "nothing uses it where no peer is installed")]
fn check_peers<M: Message>(i: &Input<M>) {
    #[cfg(protobuf)]
    {
        use crate::peers::protobuf;
        let sorted = |bytes: &[u8]| {
            let mut bytes = bytes.to_vec();
            bytes.sort();
            bytes
        };
        let mut out = vec![0; LARGEST];
        let message = protobuf::new(M::KIND);
        protobuf::read(message, &i.frame);
        let size = protobuf::write(message, &i.record, &i.body, &mut out);
        assert!(sorted(&out[..size]) == sorted(&i.frame), "protobuf C++ writes another frame");
        let size = protobuf::write_fresh(M::KIND, &i.numbers, &i.source, &i.rows, &i.body, &mut out);
        assert!(sorted(&out[..size]) == sorted(&i.frame), "protobuf C++ writes another frame");
    }
    #[cfg(nanopb)]
    {
        use crate::peers::nanopb;
        let mut out = vec![0; LARGEST];
        let message = nanopb::new(M::KIND);
        nanopb::read(message, &i.frame);
        let size = nanopb::write(message, &i.record, &i.body, &mut out);
        assert!(out[..size] == i.frame, "nanopb writes another frame");
    }
}

fn check_read<M: Message>(frame: &[u8], ceiling: u32) {
    let mut ours = ([0x55; RECORD_NUMBERS], [0x55; ROW_NUMBERS]);
    let mut rows = [0x55; ROW_NUMBERS];
    let error = library::read(M::KIND, frame, ceiling, &mut ours.1, &mut ours.0);
    let plain = reader::read::<M>(frame, ceiling, &mut rows);
    assert_eq!(error, plain.as_ref().err().copied().unwrap_or(0), "reading {frame:x?}");
    assert_eq!(ours, (plain.as_ref().map_or([0; RECORD_NUMBERS], numbers), rows), "reading {frame:x?}");
}

/// The numbers of a record as the C interface has them.
fn numbers<M: Message>(reading: &Reading<M>) -> [u32; RECORD_NUMBERS] {
    let mut numbers = [0; RECORD_NUMBERS];
    numbers[0] = reading.record.id;
    numbers[1] = reading.record.row_count as u32;
    for (index, part) in [reading.header, reading.body, reading.attachment].iter().enumerate() {
        numbers[PARTS + 2 * index] = part.start;
        numbers[PARTS + 2 * index + 1] = part.length;
    }
    let fields = reading.record.message.numbers();
    numbers[FIELDS..FIELDS + fields.len()].copy_from_slice(&fields);
    numbers[VERSION] = reading.record.header_version.into();
    numbers
}

/// A deframer's state and buffer, with what its last call answered.
#[derive(Clone, PartialEq, Eq)]
struct Cut {
    held: usize,
    error: u32,
    buffer: Vec<u8>,
    taken: usize,
    size: usize,
    answer: u32,
}

impl Cut {
    fn call(&mut self, deframe: Deframe, ceiling: u32, piece: &[u8]) {
        let Cut { held, error, buffer, taken, size, .. } = self;
        self.answer = deframe.call(held, error, buffer, ceiling, piece, taken, size);
    }
}

/// Cuts a stream into pieces of many sizes, call by call, until it is refused.
fn check_stream(stream: &[u8], ceiling: u32, room: usize, random: &mut Random) {
    let mut ours = Cut { held: 0, error: 0, buffer: vec![0; room], taken: 0, size: 0, answer: 0 };
    let mut plain = ours.clone();
    let mut rest = stream;
    while !rest.is_empty() && ours.answer == 0 {
        let piece = &rest[..(random.between(0, 3_000) as usize).min(rest.len())];
        ours.call(Deframe::LIBRARY, ceiling, piece);
        plain.call(Deframe::RUST, ceiling, piece);
        assert!(ours == plain, "the answers, the states or the buffers differ");
        rest = &rest[ours.taken..];
    }
}

/// Each stream but the first has one damaged byte. Where the ceiling is smaller, so are the buffer and the frames.
fn check_cutting() {
    let stream = Frames::new(1 << 18, 2, mixed_total).collect::<Vec<_>>().concat();
    let small = Frames::new(1 << 16, 2, small_total).collect::<Vec<_>>().concat();
    let mut random = Random(12);
    for round in 0..20 {
        let (mut stream, mut small) = (stream.clone(), small.clone());
        if round > 0 {
            damage(&mut stream, &mut random);
            damage(&mut small, &mut random);
        }
        check_stream(&stream, MAX_CEILING, LARGEST, &mut random);
        check_stream(&stream, 4_096, 4_096, &mut random);
        check_stream(&small, 255, 255, &mut random);
        check_stream(&small, 254, 255, &mut random);
        check_stream(&small, 255, 254, &mut random);
        check_stream(&small, MAX_CEILING + 1, LARGEST, &mut random);
    }
}

/// Calls on two queues, which now and then are filled with anything, valid or not.
fn check_queue() {
    let mut random = Random(13);
    let (mut ours, mut plain) = (Queue::default(), Queue::default());
    for call in 0..20_000 {
        let job = any_job(&mut random);
        let kind = random.between(0, 3);
        let answer = |calls: QueueCalls, queue: &mut Queue| {
            let mut removed = Job { zero: 5, ..job };
            let error = match kind {
                0 | 1 => calls.add(queue, &job),
                2 => calls.take(queue, &mut removed),
                _ => calls.cancel(queue, job.connection, job.request, &mut removed),
            };
            (error, removed)
        };
        assert_eq!(answer(QueueCalls::LIBRARY, &mut ours), answer(QueueCalls::RUST, &mut plain));
        assert_eq!(ours, plain);
        if call % 200 == 0 {
            ours.jobs = std::array::from_fn(|_| Job { zero: random.number() as u32, ..any_job(&mut random) });
            ours.count = random.between(0, CAPACITY as u64 / 4) as usize;
            plain = ours.clone();
        }
    }
}

fn any_job(random: &mut Random) -> Job {
    Job {
        connection: random.between(0, 3) as u32,
        request: random.between(0, 60) as u32,
        timeout: random.between(0, 50) as u32,
        zero: 0,
        arrival: if random.between(0, 99) == 0 { random.number() } else { random.between(0, 50) },
    }
}
