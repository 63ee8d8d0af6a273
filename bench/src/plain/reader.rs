//! Reading a unary frame. The record's byte fields are places in the frame; nothing is copied or allocated.

use super::fields::{Fields, Value};
use super::header::{most_bytes, FixedHeader, Kind, SIZE};
use super::messages::{Message, Record, Span};
use super::Error;

pub const MOST_ROWS: usize = 64;

/// How many numbers the rows have room for, four to a row: key start and length, value start and length.
pub const ROW_NUMBERS: usize = 256;

/// What a frame says.
pub struct Reading<M> {
    pub record: Record<M>,
    pub header: Span,
    pub body: Span,
    pub attachment: Span,
}

#[inline(never)]
pub fn read<M: Message>(frame: &[u8], ceiling: u32, rows: &mut [u32]) -> Result<Reading<M>, Error> {
    let most = most_bytes(ceiling)?;
    let rows = rows.get_mut(..ROW_NUMBERS).ok_or(16u32)?;
    let fixed = FixedHeader::parse(frame.first_chunk().ok_or(9u32)?, most)?;
    if frame.len() != fixed.total || fixed.kind != Kind::Unary {
        return Err(9);
    }
    rows.fill(0);
    let reading = read_parts(&fixed, frame, rows);
    if reading.is_err() {
        rows.fill(0);
    }
    reading
}

#[inline]
fn read_parts<M: Message>(fixed: &FixedHeader, frame: &[u8], rows: &mut [u32]) -> Result<Reading<M>, Error> {
    let header = Span::new(SIZE, fixed.header_size);
    let body_start = SIZE + fixed.header_size;
    let body = Span::new(body_start, frame.len() - body_start);
    let mut record = Record { id: fixed.id, header_version: fixed.version, row_count: 0, message: M::default() };
    let mut entries = 0;
    let mut fields = Fields::new(frame, header);
    while let Some((number, value)) = fields.next_field()? {
        match value {
            Value::Number(value) => record.message.set_number(number, value),
            Value::Bytes(entry) if number == M::TRANS_INFO => {
                entries += 1;
                if entries > MOST_ROWS {
                    return Err(14);
                }
                let (key, value) = read_entry(frame, entry)?;
                set_row(frame, rows, &mut record.row_count, key, value);
            }
            Value::Bytes(value) => record.message.set_bytes(number, value),
            Value::Skipped => {}
        }
    }
    let size = record.message.attachment_size();
    if size > body.length {
        return Err(15);
    }
    let attachment = Span::new(frame.len() - size as usize, size as usize);
    Ok(Reading { record, header, body, attachment })
}

#[inline]
fn read_entry(frame: &[u8], entry: Span) -> Result<(Span, Span), Error> {
    let (mut key, mut value) = (Span::default(), Span::default());
    let mut fields = Fields::new(frame, entry);
    while let Some(field) = fields.next_field()? {
        match field {
            (1, Value::Bytes(bytes)) => key = bytes,
            (2, Value::Bytes(bytes)) => value = bytes,
            _ => {}
        }
    }
    Ok((key, value))
}

/// A key that comes again keeps its row and takes the new value.
#[inline]
fn set_row(frame: &[u8], rows: &mut [u32], count: &mut usize, key: Span, value: Span) {
    let (rows, _) = rows.as_chunks_mut::<4>();
    let is_key = |row: &[u32; 4]| Span { start: row[0], length: row[1] }.of(frame) == key.of(frame);
    match rows[..*count].iter_mut().find(|row| is_key(row)) {
        Some(row) => {
            row[2] = value.start;
            row[3] = value.length;
        }
        None => {
            rows[*count] = [key.start, key.length, value.start, value.length];
            *count += 1;
        }
    }
}
