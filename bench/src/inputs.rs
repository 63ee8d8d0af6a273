//! The frames that are read and written: 64 of each sort, so that branch prediction does not learn one by heart. Each has some
//! protocol version.

use crate::library::{FIELDS, RECORD_NUMBERS, VERSION};
use crate::plain::header::{LARGEST, MAX_CEILING};
use crate::plain::messages::{Message, Record, Request, Response, Span};
use crate::plain::writer;
use crate::random::Random;

pub const VARIANTS: usize = 64;

/// A record with all that its writer takes, and the frame.
pub struct Input<M> {
    pub record: Record<M>,
    pub numbers: [u32; RECORD_NUMBERS],
    pub source: Vec<u8>,
    pub rows: Vec<u32>,
    pub body: Vec<u8>,
    pub frame: Vec<u8>,
}

/// The bytes that the places of a record refer to, as they come together.
struct Source {
    random: Random,
    bytes: Vec<u8>,
    rows: Vec<u32>,
}

impl Source {
    fn new(seed: u64) -> Source {
        Source { random: Random(seed), bytes: Vec::new(), rows: Vec::new() }
    }

    fn number(&mut self, low: u64, high: u64) -> u32 {
        self.random.between(low, high) as u32
    }

    fn place(&mut self, bytes: &[u8]) -> Span {
        let place = Span::new(self.bytes.len(), bytes.len());
        self.bytes.extend(bytes);
        place
    }

    /// Letters after a prefix.
    fn name(&mut self, prefix: &str, low: u64, high: u64) -> Span {
        let length = self.random.between(low, high);
        let letters = self.random.text(length);
        self.place(&[prefix.as_bytes(), &letters].concat())
    }

    fn row(&mut self, index: usize) {
        let key = self.name(&format!("k{index}-"), 4, 20);
        let value = self.name("", 4, 48);
        self.rows.extend([key.start, key.length, value.start, value.length]);
    }

    fn input<M: Message>(mut self, message: M, body: u64) -> Input<M> {
        let drawn = self.random.number();
        let (id, header_version) = (drawn as u32, (drawn >> 32) as u8);
        let record = Record { id, header_version, row_count: self.rows.len() / 4, message };
        let mut numbers = [0; RECORD_NUMBERS];
        numbers[0] = record.id;
        numbers[1] = record.row_count as u32;
        let fields = message.numbers();
        numbers[FIELDS..FIELDS + fields.len()].copy_from_slice(&fields);
        numbers[VERSION] = header_version.into();
        let body = self.random.bytes(body);
        let mut frame = vec![0; LARGEST];
        let size = writer::write(&record, &self.bytes, &self.rows, &body, &mut frame, MAX_CEILING)
            .expect("a record that can be written");
        frame.truncate(size);
        Input { record, numbers, source: self.bytes, rows: self.rows, body, frame }
    }
}

fn request(source: &mut Source) -> Request {
    Request {
        request_id: source.number(1, 1 << 20),
        timeout: source.number(100, 5_000),
        caller: source.name("trpc.app.server.", 4, 12),
        callee: source.name("trpc.app.server.", 4, 12),
        func: source.name("/trpc.app.server.Greeter/", 4, 16),
        content_type: source.number(0, 4),
        content_encoding: source.number(0, 1),
        ..Request::default()
    }
}

/// The usual request: ids, timeout, names, content type.
pub fn small_requests() -> Vec<Input<Request>> {
    let input = |seed| {
        let mut source = Source::new(seed);
        let message = request(&mut source);
        let body = source.random.between(16, 128);
        source.input(message, body)
    };
    (0..VARIANTS as u64).map(input).collect()
}

/// A request with every field and 20 map entries.
pub fn large_requests() -> Vec<Input<Request>> {
    let input = |seed| {
        let mut source = Source::new(1_000 + seed);
        let message = Request {
            version: 1,
            call_type: 1,
            message_type: source.number(1, 40),
            attachment_size: 8,
            ..request(&mut source)
        };
        (0..20).for_each(|index| source.row(index));
        let body = source.random.between(64, 256);
        source.input(message, body)
    };
    (0..VARIANTS as u64).map(input).collect()
}

/// A response with up to two map entries; one in eight tells an error.
pub fn responses() -> Vec<Input<Response>> {
    let input = |seed| {
        let mut source = Source::new(2_000 + seed);
        let mut message = Response {
            request_id: source.number(1, 1 << 20),
            content_type: source.number(0, 4),
            content_encoding: source.number(0, 1),
            ..Response::default()
        };
        if source.number(1, 8) == 1 {
            message.ret = source.number(1, 200) as i32;
            message.func_ret = -1;
            message.error_msg = source.name("", 8, 40);
        }
        let rows = source.number(0, 2) as usize;
        (0..rows).for_each(|index| source.row(index));
        let body = source.random.between(16, 128);
        source.input(message, body)
    };
    (0..VARIANTS as u64).map(input).collect()
}

/// Fixed headers of all kinds; one in eight has a byte changed.
pub fn headers() -> Vec<[u8; 16]> {
    let mut random = Random(3_000);
    crate::frames::Frames::new(VARIANTS as u64 * 64, 4, |_| 64)
        .map(|frame| {
            let mut header: [u8; 16] = *frame.first_chunk().unwrap();
            if random.between(1, 8) == 1 {
                header[random.between(0, 15) as usize] ^= random.between(1, 255) as u8;
            }
            header
        })
        .collect()
}
