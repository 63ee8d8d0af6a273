//! "The messages (000)": the records, and the 16 numbers in which the C interface passes their fields.

/// "A byte field is a start and length counted from the frame's first byte; an empty one is 0, 0."
#[derive(Clone, Copy, Debug, Default, PartialEq, Eq)]
pub struct Span {
    pub start: u32,
    pub length: u32,
}

impl Span {
    pub fn of(start: usize, length: usize) -> Span {
        if length == 0 {
            Span::default()
        } else {
            Span { start: start as u32, length: length as u32 }
        }
    }

    pub fn end(self) -> usize {
        self.start as usize + self.length as usize
    }

    pub fn is_empty(self) -> bool {
        self.length == 0
    }

    /// The bytes that it names; the caller knows that it lies within them.
    pub fn bytes(self, source: &[u8]) -> &[u8] {
        &source[self.start as usize..self.end()]
    }
}

/// "four to a row (key start, key length, value start, value length)"
#[derive(Clone, Copy, Debug, Default, PartialEq, Eq)]
pub struct Row {
    pub key: Span,
    pub value: Span,
}

/// "up to 64 rows"
pub const MOST_ROWS: usize = 64;

/// "zeros after them up to 256 numbers"
pub const ROW_NUMBERS: usize = 256;

#[derive(Clone, Copy, Debug, PartialEq, Eq)]
pub enum Kind {
    Request,
    Response,
    Init,
    Data,
    Feedback,
    Close,
}

impl Kind {
    pub const ALL: [Kind; 6] = [Kind::Request, Kind::Response, Kind::Init, Kind::Data, Kind::Feedback, Kind::Close];

    pub fn is_unary(self) -> bool {
        matches!(self, Kind::Request | Kind::Response)
    }

    /// "1 Init, 2 Data, 3 Feedback, 4 Close; ignored in unary, written 0"
    pub fn stream_type(self) -> u8 {
        match self {
            Kind::Request | Kind::Response => 0,
            Kind::Init => 1,
            Kind::Data => 2,
            Kind::Feedback => 3,
            Kind::Close => 4,
        }
    }
}

#[derive(Clone, Copy, Debug, Default, PartialEq, Eq)]
pub struct Request {
    pub version: u32,
    pub call_type: u32,
    pub request_id: u32,
    pub timeout: u32,
    pub caller: Span,
    pub callee: Span,
    pub func: Span,
    pub message_type: u32,
    pub content_type: u32,
    pub content_encoding: u32,
    pub attachment_size: u32,
}

#[derive(Clone, Copy, Debug, Default, PartialEq, Eq)]
pub struct Response {
    pub version: u32,
    pub call_type: u32,
    pub request_id: u32,
    pub ret: i32,
    pub func_ret: i32,
    pub error_msg: Span,
    pub message_type: u32,
    pub content_type: u32,
    pub content_encoding: u32,
    pub attachment_size: u32,
}

#[derive(Clone, Copy, Debug, Default, PartialEq, Eq)]
pub struct RequestMeta {
    pub caller: Span,
    pub callee: Span,
    pub func: Span,
    pub message_type: u32,
}

#[derive(Clone, Copy, Debug, Default, PartialEq, Eq)]
pub struct ResponseMeta {
    pub ret: i32,
    pub error_msg: Span,
}

/// "Both meta parts of Init carry a present mark."
#[derive(Clone, Copy, Debug, Default, PartialEq, Eq)]
pub struct Init {
    pub request_meta_present: bool,
    pub request_meta: RequestMeta,
    pub response_meta_present: bool,
    pub response_meta: ResponseMeta,
    pub init_window_size: u32,
    pub content_type: u32,
    pub content_encoding: u32,
}

#[derive(Clone, Copy, Debug, Default, PartialEq, Eq)]
pub struct Feedback {
    pub window_size_increment: u32,
}

#[derive(Clone, Copy, Debug, Default, PartialEq, Eq)]
pub struct Close {
    pub close_type: i32,
    pub ret: i32,
    pub msg: Span,
    pub message_type: u32,
    pub func_ret: i32,
}

#[derive(Clone, Copy, Debug, PartialEq, Eq)]
pub enum Message {
    Request(Request),
    Response(Response),
    Init(Init),
    Data,
    Feedback(Feedback),
    Close(Close),
}

/// How many numbers the message's own fields have room for.
pub const FIELD_NUMBERS: usize = 16;

/// Hands out the numbers of a record one after another.
struct Numbers<'a>(std::slice::Iter<'a, u32>);

impl Numbers<'_> {
    fn next(&mut self) -> u32 {
        *self.0.next().unwrap()
    }

    fn signed(&mut self) -> i32 {
        self.next() as i32
    }

    fn span(&mut self) -> Span {
        Span { start: self.next(), length: self.next() }
    }

    fn mark(&mut self) -> bool {
        self.next() != 0
    }
}

impl Message {
    pub fn kind(&self) -> Kind {
        match self {
            Message::Request(_) => Kind::Request,
            Message::Response(_) => Kind::Response,
            Message::Init(_) => Kind::Init,
            Message::Data => Kind::Data,
            Message::Feedback(_) => Kind::Feedback,
            Message::Close(_) => Kind::Close,
        }
    }

    /// The fields as the C interface orders them, zeros after.
    #[rustfmt::skip]
    pub fn numbers(&self) -> [u32; FIELD_NUMBERS] {
        let fields = match self {
            Message::Request(m) => vec![
                m.version, m.call_type, m.request_id, m.timeout,
                m.caller.start, m.caller.length, m.callee.start, m.callee.length, m.func.start, m.func.length,
                m.message_type, m.content_type, m.content_encoding, m.attachment_size,
            ],
            Message::Response(m) => vec![
                m.version, m.call_type, m.request_id, m.ret as u32, m.func_ret as u32,
                m.error_msg.start, m.error_msg.length,
                m.message_type, m.content_type, m.content_encoding, m.attachment_size,
            ],
            Message::Init(m) => vec![
                m.request_meta_present.into(),
                m.request_meta.caller.start, m.request_meta.caller.length,
                m.request_meta.callee.start, m.request_meta.callee.length,
                m.request_meta.func.start, m.request_meta.func.length,
                m.request_meta.message_type,
                m.response_meta_present.into(),
                m.response_meta.ret as u32, m.response_meta.error_msg.start, m.response_meta.error_msg.length,
                m.init_window_size, m.content_type, m.content_encoding,
            ],
            Message::Data => vec![],
            Message::Feedback(m) => vec![m.window_size_increment],
            Message::Close(m) => vec![
                m.close_type as u32, m.ret as u32, m.msg.start, m.msg.length, m.message_type, m.func_ret as u32,
            ],
        };
        let mut numbers = [0; FIELD_NUMBERS];
        numbers[..fields.len()].copy_from_slice(&fields);
        numbers
    }

    /// The message of a kind whose fields these are, in the order of `numbers`.
    pub fn of(kind: Kind, numbers: &[u32; FIELD_NUMBERS]) -> Message {
        let mut n = Numbers(numbers.iter());
        match kind {
            Kind::Request => Message::Request(Request {
                version: n.next(),
                call_type: n.next(),
                request_id: n.next(),
                timeout: n.next(),
                caller: n.span(),
                callee: n.span(),
                func: n.span(),
                message_type: n.next(),
                content_type: n.next(),
                content_encoding: n.next(),
                attachment_size: n.next(),
            }),
            Kind::Response => Message::Response(Response {
                version: n.next(),
                call_type: n.next(),
                request_id: n.next(),
                ret: n.signed(),
                func_ret: n.signed(),
                error_msg: n.span(),
                message_type: n.next(),
                content_type: n.next(),
                content_encoding: n.next(),
                attachment_size: n.next(),
            }),
            Kind::Init => Message::Init(Init {
                request_meta_present: n.mark(),
                request_meta: RequestMeta {
                    caller: n.span(),
                    callee: n.span(),
                    func: n.span(),
                    message_type: n.next(),
                },
                response_meta_present: n.mark(),
                response_meta: ResponseMeta { ret: n.signed(), error_msg: n.span() },
                init_window_size: n.next(),
                content_type: n.next(),
                content_encoding: n.next(),
            }),
            Kind::Data => Message::Data,
            Kind::Feedback => Message::Feedback(Feedback { window_size_increment: n.next() }),
            Kind::Close => Message::Close(Close {
                close_type: n.signed(),
                ret: n.signed(),
                msg: n.span(),
                message_type: n.next(),
                func_ret: n.signed(),
            }),
        }
    }
}
