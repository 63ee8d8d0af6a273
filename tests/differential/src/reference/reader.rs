//! Reading a frame as a kind.

use super::fields::{Value, Walk};
use super::header::{first, in_range, judge, FixedHeader, SIZE, UNARY};
use super::messages::{
    Close, Feedback, Init, Kind, Message, Request, RequestMeta, Response, ResponseMeta, Row, Span, MOST_ROWS,
    ROW_NUMBERS,
};
use super::Refusal;

/// What a frame says. "Beside its kind, a record is the id of bytes 11-14, that kind's own fields and present marks, and the
/// row count"; "Every record carries the version"; "Header, body and attachment are handed back as parts of the caller's frame".
pub struct Reading {
    pub id: u32,
    pub header_version: u8,
    pub row_count: u32,
    pub header: Span,
    pub body: Span,
    pub attachment: Span,
    pub message: Message,
}

/// Reads a frame as a kind.
///
/// "Reader: 16; fewer than 16 bytes is 9; 3 to 8; 9; then fields from left to right, .. 15 last", where "8 is no longer given" and
/// 41 is "before all others".
pub fn read(kind: Kind, frame: &[u8], ceiling: u32, rows: &mut [u32]) -> Result<Reading, Refusal> {
    if !in_range(ceiling) {
        return Err(41);
    }
    if rows.len() < ROW_NUMBERS {
        return Err(16);
    }
    if frame.len() < SIZE {
        return Err(9);
    }
    let error = judge(&frame[..SIZE], ceiling);
    if error != 0 {
        return Err(error);
    }
    let fixed = first(frame);
    if frame.len() != fixed.total || !is_of(&fixed, kind) {
        return Err(9);
    }
    // "A reader's refusals 10 to 15 leave the first 256 row numbers 0", and a record has "zeros after them up to 256 numbers".
    rows[..ROW_NUMBERS].fill(0);
    let reading = read_parts(kind, &fixed, frame)?;
    for (place, row) in rows.chunks_exact_mut(4).zip(&reading.1) {
        place.copy_from_slice(&[row.key.start, row.key.length, row.value.start, row.value.length]);
    }
    Ok(reading.0)
}

fn is_of(fixed: &FixedHeader, kind: Kind) -> bool {
    if fixed.data_type == UNARY {
        kind.is_unary()
    } else {
        kind.stream_type() == fixed.stream_type
    }
}

fn read_parts(kind: Kind, fixed: &FixedHeader, frame: &[u8]) -> Result<(Reading, Vec<Row>), Refusal> {
    // "A unary frame is these 16, the header message, then the body." "In Init, Feedback and Close the message is the header
    // and the others are empty; Data has only a body."
    let header_size = match kind {
        Kind::Request | Kind::Response => fixed.header_size,
        Kind::Init | Kind::Feedback | Kind::Close => frame.len() - SIZE,
        Kind::Data => 0,
    };
    let header = Span::of(SIZE, header_size);
    let body = Span::of(SIZE + header_size, frame.len() - SIZE - header_size);

    let mut reader = Reader { frame, rows: Vec::new(), entries: 0 };
    let (message, attachment_size) = match kind {
        Kind::Request => {
            let request = reader.request(header)?;
            (Message::Request(request), request.attachment_size)
        }
        Kind::Response => {
            let response = reader.response(header)?;
            (Message::Response(response), response.attachment_size)
        }
        Kind::Init => (Message::Init(reader.init(header)?), 0),
        Kind::Data => (Message::Data, 0),
        Kind::Feedback => (Message::Feedback(reader.feedback(header)?), 0),
        Kind::Close => (Message::Close(reader.close(header)?), 0),
    };
    // "The attachment is the last attachment_size bytes of the body."
    if attachment_size > body.length {
        return Err(15);
    }
    let attachment = Span::of(body.end() - attachment_size as usize, attachment_size as usize);
    let row_count = reader.rows.len() as u32;
    let FixedHeader { id, version: header_version, .. } = *fixed;
    Ok((Reading { id, header_version, row_count, header, body, attachment, message }, reader.rows))
}

/// The messages of a frame. In each, "The last occurrence of a field wins; absent is 0 or empty", and "An unknown field, or a
/// known one with another wire type, is skipped". "uint32 takes the low 32 bits; int32 the same as two's complement."
struct Reader<'a> {
    frame: &'a [u8],
    rows: Vec<Row>,
    entries: usize,
}

impl Reader<'_> {
    /// Calls `take` with each field of a part, from left to right.
    fn each(
        &mut self,
        part: Span,
        mut take: impl FnMut(&mut Self, u32, Value) -> Result<(), Refusal>,
    ) -> Result<(), Refusal> {
        let mut walk = Walk::new(self.frame, part);
        while let Some(field) = walk.next()? {
            take(self, field.number, field.value)?;
        }
        Ok(())
    }

    fn request(&mut self, part: Span) -> Result<Request, Refusal> {
        let mut m = Request::default();
        self.each(part, |reader, number, value| {
            match (number, value) {
                (1, Value::Varint(v)) => m.version = v as u32,
                (2, Value::Varint(v)) => m.call_type = v as u32,
                (3, Value::Varint(v)) => m.request_id = v as u32,
                (4, Value::Varint(v)) => m.timeout = v as u32,
                (5, Value::Bytes(b)) => m.caller = b,
                (6, Value::Bytes(b)) => m.callee = b,
                (7, Value::Bytes(b)) => m.func = b,
                (8, Value::Varint(v)) => m.message_type = v as u32,
                (9, Value::Bytes(b)) => reader.trans_info(b)?,
                (10, Value::Varint(v)) => m.content_type = v as u32,
                (11, Value::Varint(v)) => m.content_encoding = v as u32,
                (12, Value::Varint(v)) => m.attachment_size = v as u32,
                _ => {}
            }
            Ok(())
        })?;
        Ok(m)
    }

    fn response(&mut self, part: Span) -> Result<Response, Refusal> {
        let mut m = Response::default();
        self.each(part, |reader, number, value| {
            match (number, value) {
                (1, Value::Varint(v)) => m.version = v as u32,
                (2, Value::Varint(v)) => m.call_type = v as u32,
                (3, Value::Varint(v)) => m.request_id = v as u32,
                (4, Value::Varint(v)) => m.ret = v as i32,
                (5, Value::Varint(v)) => m.func_ret = v as i32,
                (6, Value::Bytes(b)) => m.error_msg = b,
                (7, Value::Varint(v)) => m.message_type = v as u32,
                (8, Value::Bytes(b)) => reader.trans_info(b)?,
                (9, Value::Varint(v)) => m.content_type = v as u32,
                (10, Value::Varint(v)) => m.content_encoding = v as u32,
                (12, Value::Varint(v)) => m.attachment_size = v as u32,
                _ => {}
            }
            Ok(())
        })?;
        Ok(m)
    }

    /// "A message field that comes again is merged into the earlier one."
    fn init(&mut self, part: Span) -> Result<Init, Refusal> {
        let mut m = Init::default();
        self.each(part, |reader, number, value| {
            match (number, value) {
                (1, Value::Bytes(b)) => {
                    m.request_meta_present = true;
                    reader.request_meta(b, &mut m.request_meta)?;
                }
                (2, Value::Bytes(b)) => {
                    m.response_meta_present = true;
                    reader.response_meta(b, &mut m.response_meta)?;
                }
                (3, Value::Varint(v)) => m.init_window_size = v as u32,
                (4, Value::Varint(v)) => m.content_type = v as u32,
                (5, Value::Varint(v)) => m.content_encoding = v as u32,
                _ => {}
            }
            Ok(())
        })?;
        Ok(m)
    }

    fn request_meta(&mut self, part: Span, m: &mut RequestMeta) -> Result<(), Refusal> {
        self.each(part, |reader, number, value| {
            match (number, value) {
                (1, Value::Bytes(b)) => m.caller = b,
                (2, Value::Bytes(b)) => m.callee = b,
                (3, Value::Bytes(b)) => m.func = b,
                (4, Value::Varint(v)) => m.message_type = v as u32,
                (5, Value::Bytes(b)) => reader.trans_info(b)?,
                _ => {}
            }
            Ok(())
        })
    }

    fn response_meta(&mut self, part: Span, m: &mut ResponseMeta) -> Result<(), Refusal> {
        self.each(part, |_, number, value| {
            match (number, value) {
                (1, Value::Varint(v)) => m.ret = v as i32,
                (2, Value::Bytes(b)) => m.error_msg = b,
                _ => {}
            }
            Ok(())
        })
    }

    fn feedback(&mut self, part: Span) -> Result<Feedback, Refusal> {
        let mut m = Feedback::default();
        self.each(part, |_, number, value| {
            if let (1, Value::Varint(v)) = (number, value) {
                m.window_size_increment = v as u32;
            }
            Ok(())
        })?;
        Ok(m)
    }

    fn close(&mut self, part: Span) -> Result<Close, Refusal> {
        let mut m = Close::default();
        self.each(part, |reader, number, value| {
            match (number, value) {
                (1, Value::Varint(v)) => m.close_type = v as i32,
                (2, Value::Varint(v)) => m.ret = v as i32,
                (3, Value::Bytes(b)) => m.msg = b,
                (4, Value::Varint(v)) => m.message_type = v as u32,
                (5, Value::Bytes(b)) => reader.trans_info(b)?,
                (6, Value::Varint(v)) => m.func_ret = v as i32,
                _ => {}
            }
            Ok(())
        })?;
        Ok(m)
    }

    /// "A map entry is a message of key 1 and value 2. Keys are taken as plain bytes. A key that comes again keeps its row and
    /// takes the new value."
    fn trans_info(&mut self, entry: Span) -> Result<(), Refusal> {
        // "14 before an entry's inside": "65th map entry, repeats counted"
        self.entries += 1;
        if self.entries > MOST_ROWS {
            return Err(14);
        }
        let mut new = Row::default();
        self.each(entry, |_, number, value| {
            match (number, value) {
                (1, Value::Bytes(b)) => new.key = b,
                (2, Value::Bytes(b)) => new.value = b,
                _ => {}
            }
            Ok(())
        })?;
        let frame = self.frame;
        match self.rows.iter_mut().find(|row| row.key.bytes(frame) == new.key.bytes(frame)) {
            Some(row) => row.value = new.value,
            None => self.rows.push(new), // "in order of first appearance"
        }
        Ok(())
    }
}
