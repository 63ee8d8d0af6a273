use crate::trans_info::TransInfo;

/// The six kinds of frames. A unary frame doesn't say whether it is a request or a response, so whoever reads a frame names
/// the kind that is expected.
///
/// ```
/// use bekurapi::{read, to_vec, Data, Error, Kind, Record};
///
/// let frame = to_vec(7, &Record::Data(Data::default()), b"camera picture").unwrap();
/// assert!(read(Kind::Data, &frame).is_ok());
/// assert_eq!(read(Kind::Feedback, &frame), Err(Error::LengthOrKind));
/// ```
#[derive(Clone, Copy, Debug, PartialEq, Eq, Hash)]
pub enum Kind {
    /// A unary frame from the caller.
    Request,
    /// A unary frame that answers a request.
    Response,
    /// Opens a stream.
    Init,
    /// Raw bytes of a stream.
    Data,
    /// Grants a stream more window.
    Feedback,
    /// Closes a stream.
    Close,
}

/// A message by its kind.
///
/// ```
/// use bekurapi::{Feedback, Kind, Record};
///
/// let record = Record::Feedback(Feedback { window_size_increment: 300, ..Feedback::default() });
/// assert_eq!(record.kind(), Kind::Feedback);
/// ```
#[derive(Clone, Debug, PartialEq, Eq)]
pub enum Record<'a> {
    /// The header of a request.
    Request(Request<'a>),
    /// The header of a response.
    Response(Response<'a>),
    /// The message of an Init frame.
    Init(Init<'a>),
    /// A Data frame, which has only a body.
    Data(Data),
    /// The message of a Feedback frame.
    Feedback(Feedback),
    /// The message of a Close frame.
    Close(Close<'a>),
}

impl Record<'_> {
    /// The kind of frame that the message is of.
    ///
    /// ```
    /// use bekurapi::{Close, Kind, Record};
    ///
    /// assert_eq!(Record::Close(Close::default()).kind(), Kind::Close);
    /// ```
    pub fn kind(&self) -> Kind {
        match self {
            Record::Request(_) => Kind::Request,
            Record::Response(_) => Kind::Response,
            Record::Init(_) => Kind::Init,
            Record::Data(_) => Kind::Data,
            Record::Feedback(_) => Kind::Feedback,
            Record::Close(_) => Kind::Close,
        }
    }

    /// The protocol version of the frame, byte 15 of its fixed header: every kind has it.
    ///
    /// ```
    /// use bekurapi::{read, to_vec, Data, Kind, Record};
    ///
    /// let frame = to_vec(7, &Record::Data(Data { header_version: 2 }), b"camera picture")?;
    /// assert_eq!(frame[14..16], [2, 0]);
    /// assert_eq!(read(Kind::Data, &frame)?.record.header_version(), 2);
    /// # Ok::<(), bekurapi::Error>(())
    /// ```
    pub fn header_version(&self) -> u8 {
        match self {
            Record::Request(request) => request.header_version,
            Record::Response(response) => response.header_version,
            Record::Init(init) => init.header_version,
            Record::Data(data) => data.header_version,
            Record::Feedback(feedback) => feedback.header_version,
            Record::Close(close) => close.header_version,
        }
    }
}

/// The header of a request. Enumerated numbers are not judged.
///
/// ```
/// use bekurapi::{read, to_vec, Kind, Record, Request};
///
/// let request = Request { request_id: 7, timeout: 5_000, func: b"/cell.Robot/Pick", ..Request::default() };
/// let frame = to_vec(7, &Record::Request(request.clone()), b"crate 12")?;
/// assert_eq!(read(Kind::Request, &frame)?.record, Record::Request(request));
/// # Ok::<(), bekurapi::Error>(())
/// ```
#[derive(Clone, Debug, Default, PartialEq, Eq)]
#[allow(missing_docs, reason = "the members have the protocol's own names")]
pub struct Request<'a> {
    /// The protocol version: byte 15 of the fixed header. The message's own `version` is another thing.
    pub header_version: u8,
    pub version: u32,
    pub call_type: u32,
    /// The message's own request id. [`Message::id`](crate::Message::id) is the one to answer with.
    pub request_id: u32,
    /// In ms; 0 is no deadline.
    pub timeout: u32,
    pub caller: &'a [u8],
    pub callee: &'a [u8],
    pub func: &'a [u8],
    pub message_type: u32,
    pub trans_info: TransInfo<'a>,
    pub content_type: u32,
    pub content_encoding: u32,
    /// How many of the body's last bytes are the attachment.
    pub attachment_size: u32,
}

/// The header of a response. Enumerated numbers are not judged.
///
/// ```
/// use bekurapi::{read, to_vec, Kind, Record, Response};
///
/// let response = Response { request_id: 7, ret: -1, error_msg: b"gripper open", ..Response::default() };
/// let frame = to_vec(7, &Record::Response(response.clone()), b"")?;
/// assert_eq!(read(Kind::Response, &frame)?.record, Record::Response(response));
/// # Ok::<(), bekurapi::Error>(())
/// ```
#[derive(Clone, Debug, Default, PartialEq, Eq)]
#[allow(missing_docs, reason = "the members have the protocol's own names")]
pub struct Response<'a> {
    /// The protocol version: byte 15 of the fixed header. The message's own `version` is another thing.
    pub header_version: u8,
    pub version: u32,
    pub call_type: u32,
    /// The message's own request id. [`Message::id`](crate::Message::id) is the one that was answered.
    pub request_id: u32,
    pub ret: i32,
    pub func_ret: i32,
    pub error_msg: &'a [u8],
    pub message_type: u32,
    pub trans_info: TransInfo<'a>,
    pub content_type: u32,
    pub content_encoding: u32,
    /// How many of the body's last bytes are the attachment.
    pub attachment_size: u32,
}

/// The message of an Init frame. Enumerated numbers are not judged.
///
/// ```
/// use bekurapi::{read, to_vec, Init, Kind, Record, RequestMeta};
///
/// let meta = RequestMeta { func: b"/cell.Camera/Watch", ..RequestMeta::default() };
/// let init = Init { request_meta: Some(meta), init_window_size: 65_536, ..Init::default() };
/// let frame = to_vec(9, &Record::Init(init.clone()), b"")?;
/// assert_eq!(read(Kind::Init, &frame)?.record, Record::Init(init));
/// # Ok::<(), bekurapi::Error>(())
/// ```
#[derive(Clone, Debug, Default, PartialEq, Eq)]
#[allow(missing_docs, reason = "the members have the protocol's own names")]
pub struct Init<'a> {
    /// The protocol version: byte 15 of the fixed header.
    pub header_version: u8,
    pub request_meta: Option<RequestMeta<'a>>,
    pub response_meta: Option<ResponseMeta<'a>>,
    pub init_window_size: u32,
    pub content_type: u32,
    pub content_encoding: u32,
}

/// What an [`Init`] asks for. One that is present is written even if it is empty.
///
/// ```
/// use bekurapi::{RequestMeta, TransInfo};
///
/// let meta = RequestMeta { caller: b"vision", trans_info: TransInfo::from([("cell", "4")]), ..RequestMeta::default() };
/// assert_eq!(meta.trans_info.len(), 1);
/// ```
#[derive(Clone, Debug, Default, PartialEq, Eq)]
#[allow(missing_docs, reason = "the members have the protocol's own names")]
pub struct RequestMeta<'a> {
    pub caller: &'a [u8],
    pub callee: &'a [u8],
    pub func: &'a [u8],
    pub message_type: u32,
    pub trans_info: TransInfo<'a>,
}

/// What an [`Init`] answers. One that is present is written even if it is empty.
///
/// ```
/// use bekurapi::{read, to_vec, Init, Kind, Record, ResponseMeta};
///
/// let init = Init { response_meta: Some(ResponseMeta::default()), ..Init::default() };
/// let frame = to_vec(9, &Record::Init(init.clone()), b"")?;
/// assert_eq!(read(Kind::Init, &frame)?.record, Record::Init(init));
/// # Ok::<(), bekurapi::Error>(())
/// ```
#[derive(Clone, Debug, Default, PartialEq, Eq)]
#[allow(missing_docs, reason = "the members have the protocol's own names")]
pub struct ResponseMeta<'a> {
    pub ret: i32,
    pub error_msg: &'a [u8],
}

/// What is said of a Data frame beside its id and its body: it has no message.
///
/// ```
/// use bekurapi::{read, to_vec, Data, Kind, Record};
///
/// let frame = to_vec(9, &Record::Data(Data::default()), b"camera picture")?;
/// assert_eq!(read(Kind::Data, &frame)?.record, Record::Data(Data { header_version: 0 }));
/// # Ok::<(), bekurapi::Error>(())
/// ```
#[derive(Clone, Copy, Debug, Default, PartialEq, Eq)]
pub struct Data {
    /// The protocol version: byte 15 of the fixed header.
    pub header_version: u8,
}

/// The message of a Feedback frame.
///
/// ```
/// use bekurapi::{read, to_vec, Feedback, Kind, Record};
///
/// let feedback = Feedback { window_size_increment: 300, ..Feedback::default() };
/// let frame = to_vec(5, &Record::Feedback(feedback), b"")?;
/// assert_eq!(read(Kind::Feedback, &frame)?.header, [0x08, 0xac, 0x02]);
/// # Ok::<(), bekurapi::Error>(())
/// ```
#[derive(Clone, Copy, Debug, Default, PartialEq, Eq)]
#[allow(missing_docs, reason = "the members have the protocol's own names")]
pub struct Feedback {
    /// The protocol version: byte 15 of the fixed header.
    pub header_version: u8,
    pub window_size_increment: u32,
}

/// The message of a Close frame. Enumerated numbers are not judged.
///
/// ```
/// use bekurapi::{read, to_vec, Close, Kind, Record};
///
/// let close = Close { close_type: 1, ret: -2, msg: b"camera lost", ..Close::default() };
/// let frame = to_vec(9, &Record::Close(close.clone()), b"")?;
/// assert_eq!(read(Kind::Close, &frame)?.record, Record::Close(close));
/// # Ok::<(), bekurapi::Error>(())
/// ```
#[derive(Clone, Debug, Default, PartialEq, Eq)]
#[allow(missing_docs, reason = "the members have the protocol's own names")]
pub struct Close<'a> {
    /// The protocol version: byte 15 of the fixed header.
    pub header_version: u8,
    pub close_type: i32,
    pub ret: i32,
    pub msg: &'a [u8],
    pub message_type: u32,
    pub trans_info: TransInfo<'a>,
    pub func_ret: i32,
}
