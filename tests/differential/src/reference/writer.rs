//! Writing the frame of a record.

use super::header::{in_range, SIZE};
use super::messages::{Init, Kind, Message, RequestMeta, ResponseMeta, Row, Span, MOST_ROWS};
use super::Refusal;

/// "The writer takes a record, the bytes its starts refer to, its rows and a body."
pub struct Input<'a> {
    pub id: u32,
    pub header_version: u8,
    pub row_count: u32,
    pub message: Message,
    pub source: &'a [u8],
    pub rows: &'a [u32],
    pub body: &'a [u8],
}

/// Writes the frame to the start of `out` and gives its size. "Bytes past the frame stay as they were."
///
/// The order is document 01's, without the number that is retired: 18's first three grounds, 17, 18's others, 15, 19, 27; and 41 is
/// "before all others".
pub fn write(input: &Input, out: &mut [u8], ceiling: u32) -> Result<usize, Refusal> {
    let frame = frame(input, ceiling)?;
    // "output shorter than the frame", whatever the ceiling
    if frame.len() > out.len() {
        return Err(27);
    }
    out[..frame.len()].copy_from_slice(&frame);
    Ok(frame.len())
}

/// The whole frame, or the refusal that comes before the output is looked at.
pub fn frame(input: &Input, ceiling: u32) -> Result<Vec<u8>, Refusal> {
    if !in_range(ceiling) {
        return Err(41);
    }
    let Input { row_count, message, source, body, .. } = *input;
    let kind = message.kind();

    // "over 64 rows, rows with Feedback or Data, row slice too short for them"
    if row_count as usize > MOST_ROWS
        || (row_count > 0 && matches!(kind, Kind::Feedback | Kind::Data))
        || (row_count as usize) * 4 > input.rows.len()
    {
        return Err(18);
    }
    let rows = rows(input);

    // 17: "a start plus length past the end of the source bytes, empty fields too"
    let row_spans = rows.iter().flat_map(|row| [row.key, row.value]);
    if spans(&message).into_iter().chain(row_spans).any(|span| span.end() > source.len()) {
        return Err(17);
    }

    // 18: "equal keys, or a meta part marked absent and not all zero, empty and rowless"
    let key = |index: usize| rows[index].key.bytes(source);
    if (0..rows.len()).any(|later| (0..later).any(|earlier| key(earlier) == key(later))) || !absent_parts_empty(input) {
        return Err(18);
    }

    // 15: "attachment larger than body; writer: a body with Init, Feedback or Close"
    let attachment_size = match message {
        Message::Request(request) => request.attachment_size,
        Message::Response(response) => response.attachment_size,
        _ => 0,
    };
    if attachment_size as usize > body.len()
        || (!body.is_empty() && matches!(kind, Kind::Init | Kind::Feedback | Kind::Close))
    {
        return Err(15);
    }

    let header = header_message(input);
    let total = SIZE + header.len() + body.len();
    if total > ceiling as usize {
        return Err(19); // "1, 6 and 19 speak of the ceiling"
    }
    Ok([&fixed_header(input, total, header.len()), header.as_slice(), body].concat())
}

/// The header message of an input that has no ground before its size.
pub fn header_message(input: &Input) -> Vec<u8> {
    encode(&input.message, input.source, &rows(input))
}

fn rows(input: &Input) -> Vec<Row> {
    input.rows.chunks_exact(4).take(input.row_count as usize).map(row).collect()
}

fn row(numbers: &[u32]) -> Row {
    Row { key: Span { start: numbers[0], length: numbers[1] }, value: Span { start: numbers[2], length: numbers[3] } }
}

/// The byte fields of a message, of absent meta parts too.
fn spans(message: &Message) -> Vec<Span> {
    match message {
        Message::Request(m) => vec![m.caller, m.callee, m.func],
        Message::Response(m) => vec![m.error_msg],
        Message::Init(m) => {
            vec![m.request_meta.caller, m.request_meta.callee, m.request_meta.func, m.response_meta.error_msg]
        }
        Message::Data | Message::Feedback(_) => vec![],
        Message::Close(m) => vec![m.msg],
    }
}

/// Whether each meta part that is marked absent is "all zero, empty and rowless". A byte field is empty by its length.
fn absent_parts_empty(input: &Input) -> bool {
    let Message::Init(Init { request_meta_present, request_meta, response_meta_present, response_meta, .. }) =
        input.message
    else {
        return true;
    };
    let RequestMeta { caller, callee, func, message_type } = request_meta;
    let ResponseMeta { ret, error_msg } = response_meta;
    let request_meta_empty =
        [caller, callee, func].iter().all(|span| span.is_empty()) && message_type == 0 && input.row_count == 0;
    let response_meta_empty = ret == 0 && error_msg.is_empty();
    (request_meta_present || request_meta_empty) && (response_meta_present || response_meta_empty)
}

/// The 16 bytes. "the writer writes the version given and 0 in byte 16"
fn fixed_header(input: &Input, total: usize, header_size: usize) -> [u8; SIZE] {
    let kind = input.message.kind();
    let (data_type, header_size) = if kind.is_unary() { (0, header_size) } else { (1, 0) };
    let mut bytes = [0; SIZE];
    bytes[0..2].copy_from_slice(&[0x09, 0x30]);
    bytes[2] = data_type;
    bytes[3] = kind.stream_type();
    bytes[4..8].copy_from_slice(&(total as u32).to_be_bytes());
    bytes[8..10].copy_from_slice(&(header_size as u16).to_be_bytes());
    bytes[10..14].copy_from_slice(&input.id.to_be_bytes());
    bytes[14] = input.header_version;
    bytes
}

/// The header message. "It writes fields by rising number, zero and empty ones left out, a present meta part even if empty"
pub fn encode(message: &Message, source: &[u8], rows: &[Row]) -> Vec<u8> {
    let mut out = Encoder { source, bytes: Vec::new() };
    match message {
        Message::Request(m) => {
            out.uint32(1, m.version);
            out.uint32(2, m.call_type);
            out.uint32(3, m.request_id);
            out.uint32(4, m.timeout);
            out.field(5, m.caller);
            out.field(6, m.callee);
            out.field(7, m.func);
            out.uint32(8, m.message_type);
            out.rows(9, rows);
            out.uint32(10, m.content_type);
            out.uint32(11, m.content_encoding);
            out.uint32(12, m.attachment_size);
        }
        Message::Response(m) => {
            out.uint32(1, m.version);
            out.uint32(2, m.call_type);
            out.uint32(3, m.request_id);
            out.int32(4, m.ret);
            out.int32(5, m.func_ret);
            out.field(6, m.error_msg);
            out.uint32(7, m.message_type);
            out.rows(8, rows);
            out.uint32(9, m.content_type);
            out.uint32(10, m.content_encoding);
            out.uint32(12, m.attachment_size);
        }
        Message::Init(m) => {
            if m.request_meta_present {
                out.bytes(1, &request_meta(&m.request_meta, source, rows));
            }
            if m.response_meta_present {
                out.bytes(2, &response_meta(&m.response_meta, source));
            }
            out.uint32(3, m.init_window_size);
            out.uint32(4, m.content_type);
            out.uint32(5, m.content_encoding);
        }
        Message::Data => {}
        Message::Feedback(m) => out.uint32(1, m.window_size_increment),
        Message::Close(m) => {
            out.int32(1, m.close_type);
            out.int32(2, m.ret);
            out.field(3, m.msg);
            out.uint32(4, m.message_type);
            out.rows(5, rows);
            out.int32(6, m.func_ret);
        }
    }
    out.bytes
}

fn request_meta(m: &RequestMeta, source: &[u8], rows: &[Row]) -> Vec<u8> {
    let mut out = Encoder { source, bytes: Vec::new() };
    out.field(1, m.caller);
    out.field(2, m.callee);
    out.field(3, m.func);
    out.uint32(4, m.message_type);
    out.rows(5, rows);
    out.bytes
}

fn response_meta(m: &ResponseMeta, source: &[u8]) -> Vec<u8> {
    let mut out = Encoder { source, bytes: Vec::new() };
    out.int32(1, m.ret);
    out.field(2, m.error_msg);
    out.bytes
}

struct Encoder<'a> {
    source: &'a [u8],
    bytes: Vec<u8>,
}

impl Encoder<'_> {
    /// "varints shortest"
    fn varint(&mut self, mut value: u64) {
        while value >= 0x80 {
            self.bytes.push(value as u8 | 0x80);
            value >>= 7;
        }
        self.bytes.push(value as u8);
    }

    fn tag(&mut self, number: u32, wire_type: u32) {
        self.varint(u64::from(number * 8 + wire_type));
    }

    fn number(&mut self, number: u32, value: u64) {
        if value != 0 {
            self.tag(number, 0);
            self.varint(value);
        }
    }

    fn uint32(&mut self, number: u32, value: u32) {
        self.number(number, u64::from(value));
    }

    /// "A negative int32 is written in ten bytes."
    fn int32(&mut self, number: u32, value: i32) {
        self.number(number, i64::from(value) as u64);
    }

    /// Bytes, empty ones too.
    fn bytes(&mut self, number: u32, content: &[u8]) {
        self.tag(number, 2);
        self.varint(content.len() as u64);
        self.bytes.extend_from_slice(content);
    }

    /// A byte field.
    fn field(&mut self, number: u32, span: Span) {
        if !span.is_empty() {
            self.bytes(number, span.bytes(self.source));
        }
    }

    /// "rows in the given order with key and value always both written"
    fn rows(&mut self, number: u32, rows: &[Row]) {
        for row in rows {
            let mut entry = Encoder { source: self.source, bytes: Vec::new() };
            entry.bytes(1, row.key.bytes(self.source));
            entry.bytes(2, row.value.bytes(self.source));
            self.bytes(number, &entry.bytes);
        }
    }
}
