//! The header messages of unary frames.

/// A byte field: its place in the frame, 0 and 0 where it is empty.
#[derive(Clone, Copy, Default, Debug, PartialEq, Eq)]
pub struct Span {
    pub start: u32,
    pub length: u32,
}

impl Span {
    #[inline]
    pub fn new(start: usize, length: usize) -> Span {
        if length == 0 {
            Span::default()
        } else {
            Span { start: start as u32, length: length as u32 }
        }
    }

    #[inline]
    pub fn end(self) -> usize {
        self.start as usize + self.length as usize
    }

    #[inline]
    pub fn of(self, bytes: &[u8]) -> &[u8] {
        &bytes[self.start as usize..self.end()]
    }
}

#[derive(Clone, Copy, Default, Debug, PartialEq, Eq)]
pub struct Request {
    pub version: u32,
    pub call_type: u32,
    pub request_id: u32,
    pub timeout: u32,
    pub caller: Span,
    pub callee: Span,
    pub func: Span,
    pub message_type: u32,
    pub content_type: u32,
    pub content_encoding: u32,
    pub attachment_size: u32,
}

#[derive(Clone, Copy, Default, Debug, PartialEq, Eq)]
pub struct Response {
    pub version: u32,
    pub call_type: u32,
    pub request_id: u32,
    pub ret: i32,
    pub func_ret: i32,
    pub error_msg: Span,
    pub message_type: u32,
    pub content_type: u32,
    pub content_encoding: u32,
    pub attachment_size: u32,
}

/// A record: a message with what is said beside it. The rows of its map are in a slice of their own.
#[derive(Clone, Copy, Default, Debug, PartialEq, Eq)]
pub struct Record<M> {
    pub id: u32,
    pub header_version: u8,
    pub row_count: usize,
    pub message: M,
}

/// The kinds by number.
pub const REQUEST: u32 = 0;
pub const RESPONSE: u32 = 1;

/// What the two have in common, and how the C interface passes them as numbers.
pub trait Message: Copy + Default {
    /// The kind's number, one of the two.
    const KIND: u32;
    /// The number of the map's field.
    const TRANS_INFO: u32;

    fn set_number(&mut self, field: u32, value: u64);
    fn set_bytes(&mut self, field: u32, value: Span);
    fn attachment_size(&self) -> u32;

    /// The fields by rising number, zero and empty ones too; `rows` stands for the map.
    fn fields(&self, sink: &mut impl Sink, rows: &[[u32; 4]]);
    fn spans(&self) -> impl Iterator<Item = Span>;
    fn numbers(&self) -> Vec<u32>;
}

/// Takes the fields of a message.
pub trait Sink {
    fn uint32(&mut self, field: u32, value: u32);
    fn int32(&mut self, field: u32, value: i32);
    fn bytes(&mut self, field: u32, value: Span);
    fn rows(&mut self, field: u32, rows: &[[u32; 4]]);
}

impl Message for Request {
    const KIND: u32 = REQUEST;
    const TRANS_INFO: u32 = 9;

    #[inline]
    fn set_number(&mut self, field: u32, value: u64) {
        let value = value as u32;
        match field {
            1 => self.version = value,
            2 => self.call_type = value,
            3 => self.request_id = value,
            4 => self.timeout = value,
            8 => self.message_type = value,
            10 => self.content_type = value,
            11 => self.content_encoding = value,
            12 => self.attachment_size = value,
            _ => {}
        }
    }

    #[inline]
    fn set_bytes(&mut self, field: u32, value: Span) {
        match field {
            5 => self.caller = value,
            6 => self.callee = value,
            7 => self.func = value,
            _ => {}
        }
    }

    #[inline]
    fn attachment_size(&self) -> u32 {
        self.attachment_size
    }

    #[inline]
    fn fields(&self, sink: &mut impl Sink, rows: &[[u32; 4]]) {
        sink.uint32(1, self.version);
        sink.uint32(2, self.call_type);
        sink.uint32(3, self.request_id);
        sink.uint32(4, self.timeout);
        sink.bytes(5, self.caller);
        sink.bytes(6, self.callee);
        sink.bytes(7, self.func);
        sink.uint32(8, self.message_type);
        sink.rows(9, rows);
        sink.uint32(10, self.content_type);
        sink.uint32(11, self.content_encoding);
        sink.uint32(12, self.attachment_size);
    }

    #[inline]
    fn spans(&self) -> impl Iterator<Item = Span> {
        [self.caller, self.callee, self.func].into_iter()
    }

    fn numbers(&self) -> Vec<u32> {
        let [caller, callee, func] = [self.caller, self.callee, self.func];
        vec![
            self.version,
            self.call_type,
            self.request_id,
            self.timeout,
            caller.start,
            caller.length,
            callee.start,
            callee.length,
            func.start,
            func.length,
            self.message_type,
            self.content_type,
            self.content_encoding,
            self.attachment_size,
        ]
    }
}

impl Message for Response {
    const KIND: u32 = RESPONSE;
    const TRANS_INFO: u32 = 8;

    #[inline]
    fn set_number(&mut self, field: u32, value: u64) {
        let value = value as u32;
        match field {
            1 => self.version = value,
            2 => self.call_type = value,
            3 => self.request_id = value,
            4 => self.ret = value as i32,
            5 => self.func_ret = value as i32,
            7 => self.message_type = value,
            9 => self.content_type = value,
            10 => self.content_encoding = value,
            12 => self.attachment_size = value,
            _ => {}
        }
    }

    #[inline]
    fn set_bytes(&mut self, field: u32, value: Span) {
        if field == 6 {
            self.error_msg = value;
        }
    }

    #[inline]
    fn attachment_size(&self) -> u32 {
        self.attachment_size
    }

    #[inline]
    fn fields(&self, sink: &mut impl Sink, rows: &[[u32; 4]]) {
        sink.uint32(1, self.version);
        sink.uint32(2, self.call_type);
        sink.uint32(3, self.request_id);
        sink.int32(4, self.ret);
        sink.int32(5, self.func_ret);
        sink.bytes(6, self.error_msg);
        sink.uint32(7, self.message_type);
        sink.rows(8, rows);
        sink.uint32(9, self.content_type);
        sink.uint32(10, self.content_encoding);
        sink.uint32(12, self.attachment_size);
    }

    #[inline]
    fn spans(&self) -> impl Iterator<Item = Span> {
        std::iter::once(self.error_msg)
    }

    fn numbers(&self) -> Vec<u32> {
        vec![
            self.version,
            self.call_type,
            self.request_id,
            self.ret as u32,
            self.func_ret as u32,
            self.error_msg.start,
            self.error_msg.length,
            self.message_type,
            self.content_type,
            self.content_encoding,
            self.attachment_size,
        ]
    }
}
