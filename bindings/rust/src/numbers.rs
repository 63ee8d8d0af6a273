//! A record as the C interface has it: 25 numbers, and four numbers for each pair of its map.

use crate::record::{Close, Data, Feedback, Init, Kind, Record, Request, RequestMeta, Response, ResponseMeta};
use crate::trans_info::TransInfo;

/// How many numbers a record has, as the library's readers and writers take it.
pub const RECORD_NUMBERS: usize = 25;

/// How many row numbers a reader is lent, four for each of up to 64 pairs.
pub const ROW_NUMBERS: usize = 256;

// Where the numbers of a record are. A part, like a byte field, is two numbers: start and length.
const ID: usize = 0;
const ROW_COUNT: usize = 1;
const HEADER: usize = 2;
const BODY: usize = 4;
const ATTACHMENT: usize = 6;
const FIELDS: usize = 8;
const HEADER_VERSION: usize = 24;

/// What the reader left of a frame; the fields are read one after the other.
pub struct Numbers<'a> {
    frame: &'a [u8],
    record: [u32; RECORD_NUMBERS],
    rows: [u32; ROW_NUMBERS],
    next: usize,
}

impl<'a> Numbers<'a> {
    pub fn new(frame: &'a [u8], record: [u32; RECORD_NUMBERS], rows: [u32; ROW_NUMBERS]) -> Self {
        Numbers { frame, record, rows, next: FIELDS }
    }

    pub fn id(&self) -> u32 {
        self.record[ID]
    }

    pub fn header(&self) -> &'a [u8] {
        self.span(&self.record[HEADER..])
    }

    pub fn body(&self) -> &'a [u8] {
        self.span(&self.record[BODY..])
    }

    pub fn attachment(&self) -> &'a [u8] {
        self.span(&self.record[ATTACHMENT..])
    }

    pub fn record(&mut self, kind: Kind) -> Record<'a> {
        match kind {
            Kind::Request => Record::Request(self.request()),
            Kind::Response => Record::Response(self.response()),
            Kind::Init => Record::Init(self.init()),
            Kind::Data => Record::Data(Data { header_version: self.header_version() }),
            Kind::Feedback => Record::Feedback(self.feedback()),
            Kind::Close => Record::Close(self.close()),
        }
    }

    fn request(&mut self) -> Request<'a> {
        Request {
            header_version: self.header_version(),
            version: self.number(),
            call_type: self.number(),
            request_id: self.number(),
            timeout: self.number(),
            caller: self.bytes(),
            callee: self.bytes(),
            func: self.bytes(),
            message_type: self.number(),
            content_type: self.number(),
            content_encoding: self.number(),
            attachment_size: self.number(),
            trans_info: self.trans_info(),
        }
    }

    fn response(&mut self) -> Response<'a> {
        Response {
            header_version: self.header_version(),
            version: self.number(),
            call_type: self.number(),
            request_id: self.number(),
            ret: self.signed(),
            func_ret: self.signed(),
            error_msg: self.bytes(),
            message_type: self.number(),
            content_type: self.number(),
            content_encoding: self.number(),
            attachment_size: self.number(),
            trans_info: self.trans_info(),
        }
    }

    fn init(&mut self) -> Init<'a> {
        let asks = self.present();
        let request_meta = self.request_meta();
        let answers = self.present();
        let response_meta = ResponseMeta { ret: self.signed(), error_msg: self.bytes() };
        Init {
            header_version: self.header_version(),
            request_meta: asks.then_some(request_meta),
            response_meta: answers.then_some(response_meta),
            init_window_size: self.number(),
            content_type: self.number(),
            content_encoding: self.number(),
        }
    }

    fn request_meta(&mut self) -> RequestMeta<'a> {
        RequestMeta {
            caller: self.bytes(),
            callee: self.bytes(),
            func: self.bytes(),
            message_type: self.number(),
            trans_info: self.trans_info(),
        }
    }

    fn feedback(&mut self) -> Feedback {
        Feedback { header_version: self.header_version(), window_size_increment: self.number() }
    }

    fn close(&mut self) -> Close<'a> {
        Close {
            header_version: self.header_version(),
            close_type: self.signed(),
            ret: self.signed(),
            msg: self.bytes(),
            message_type: self.number(),
            func_ret: self.signed(),
            trans_info: self.trans_info(),
        }
    }

    /// The low byte of its number; the others are 0.
    fn header_version(&self) -> u8 {
        self.record[HEADER_VERSION] as u8
    }

    fn number(&mut self) -> u32 {
        let number = self.record[self.next];
        self.next += 1;
        number
    }

    fn signed(&mut self) -> i32 {
        self.number() as i32
    }

    fn present(&mut self) -> bool {
        self.number() != 0
    }

    fn bytes(&mut self) -> &'a [u8] {
        let bytes = self.span(&self.record[self.next..]);
        self.next += 2;
        bytes
    }

    fn trans_info(&self) -> TransInfo<'a> {
        let rows = self.rows.chunks_exact(4).take(self.record[ROW_COUNT] as usize);
        rows.map(|row| (self.span(row), self.span(&row[2..]))).collect()
    }

    /// The part of the frame that a start and a length name.
    fn span(&self, numbers: &[u32]) -> &'a [u8] {
        let start = numbers[0] as usize;
        &self.frame[start..start + numbers[1] as usize]
    }
}

/// What the writer takes: a record's numbers, its rows, and the parts that make up its source bytes.
pub struct Source<'a> {
    pub record: [u32; RECORD_NUMBERS],
    pub rows: Vec<u32>,
    parts: Vec<&'a [u8]>,
    len: usize,
    next: usize,
}

impl<'a> Source<'a> {
    pub fn new(id: u32, record: &Record<'a>) -> Self {
        let mut source =
            Source { record: [0; RECORD_NUMBERS], rows: Vec::new(), parts: Vec::new(), len: 0, next: FIELDS };
        source.record[ID] = id;
        source.record[HEADER_VERSION] = record.header_version().into();
        source.put(record);
        source
    }

    /// How many source bytes there are.
    pub fn len(&self) -> usize {
        self.len
    }

    /// The source bytes.
    pub fn bytes(&self) -> Vec<u8> {
        self.parts.concat()
    }

    fn put(&mut self, record: &Record<'a>) {
        match record {
            Record::Request(request) => self.put_request(request),
            Record::Response(response) => self.put_response(response),
            Record::Init(init) => self.put_init(init),
            Record::Data(_) => {}
            Record::Feedback(feedback) => self.put_number(feedback.window_size_increment),
            Record::Close(close) => self.put_close(close),
        }
    }

    fn put_request(&mut self, request: &Request<'a>) {
        self.put_number(request.version);
        self.put_number(request.call_type);
        self.put_number(request.request_id);
        self.put_number(request.timeout);
        self.put_bytes(request.caller);
        self.put_bytes(request.callee);
        self.put_bytes(request.func);
        self.put_number(request.message_type);
        self.put_number(request.content_type);
        self.put_number(request.content_encoding);
        self.put_number(request.attachment_size);
        self.put_trans_info(&request.trans_info);
    }

    fn put_response(&mut self, response: &Response<'a>) {
        self.put_number(response.version);
        self.put_number(response.call_type);
        self.put_number(response.request_id);
        self.put_signed(response.ret);
        self.put_signed(response.func_ret);
        self.put_bytes(response.error_msg);
        self.put_number(response.message_type);
        self.put_number(response.content_type);
        self.put_number(response.content_encoding);
        self.put_number(response.attachment_size);
        self.put_trans_info(&response.trans_info);
    }

    fn put_init(&mut self, init: &Init<'a>) {
        // A part that is absent is all zero.
        let absent = RequestMeta::default();
        self.put_number(init.request_meta.is_some().into());
        self.put_request_meta(init.request_meta.as_ref().unwrap_or(&absent));
        let absent = ResponseMeta::default();
        self.put_number(init.response_meta.is_some().into());
        self.put_response_meta(init.response_meta.as_ref().unwrap_or(&absent));
        self.put_number(init.init_window_size);
        self.put_number(init.content_type);
        self.put_number(init.content_encoding);
    }

    fn put_request_meta(&mut self, meta: &RequestMeta<'a>) {
        self.put_bytes(meta.caller);
        self.put_bytes(meta.callee);
        self.put_bytes(meta.func);
        self.put_number(meta.message_type);
        self.put_trans_info(&meta.trans_info);
    }

    fn put_response_meta(&mut self, meta: &ResponseMeta<'a>) {
        self.put_signed(meta.ret);
        self.put_bytes(meta.error_msg);
    }

    fn put_close(&mut self, close: &Close<'a>) {
        self.put_signed(close.close_type);
        self.put_signed(close.ret);
        self.put_bytes(close.msg);
        self.put_number(close.message_type);
        self.put_signed(close.func_ret);
        self.put_trans_info(&close.trans_info);
    }

    fn put_number(&mut self, number: u32) {
        self.record[self.next] = number;
        self.next += 1;
    }

    fn put_signed(&mut self, number: i32) {
        self.put_number(number as u32);
    }

    fn put_bytes(&mut self, bytes: &'a [u8]) {
        for number in self.span(bytes) {
            self.put_number(number);
        }
    }

    fn put_trans_info(&mut self, info: &TransInfo<'a>) {
        self.record[ROW_COUNT] = clamped(info.len());
        for (key, value) in info {
            let row = [self.span(key), self.span(value)];
            self.rows.extend(row.concat());
        }
    }

    /// The start and length of a part that goes after the others; 0, 0 for an empty one.
    fn span(&mut self, part: &'a [u8]) -> [u32; 2] {
        if part.is_empty() {
            return [0, 0];
        }
        let start = self.len;
        self.parts.push(part);
        self.len = self.len.saturating_add(part.len());
        [clamped(start), clamped(part.len())]
    }
}

/// A count as a record has it. One above 32 bits is never handed over: `write` refuses so many source bytes itself, and rows
/// that are so many have more source bytes or are refused by the library.
fn clamped(count: usize) -> u32 {
    u32::try_from(count).unwrap_or(u32::MAX)
}
