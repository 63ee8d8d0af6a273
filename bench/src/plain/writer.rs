//! Writing a unary frame: the header message is measured first, then written in place.

use super::header::{most_bytes, SIZE};
use super::messages::{Message, Record, Sink, Span};
use super::reader::MOST_ROWS;
use super::Error;

/// Writes the frame to the start of `out` and gives its size.
#[inline(never)]
pub fn write<M: Message>(
    record: &Record<M>,
    source: &[u8],
    rows: &[u32],
    body: &[u8],
    out: &mut [u8],
    ceiling: u32,
) -> Result<usize, Error> {
    let most = most_bytes(ceiling)?;
    if record.row_count > MOST_ROWS {
        return Err(18);
    }
    let rows = rows.as_chunks().0.get(..record.row_count).ok_or(18u32)?;
    check_places(&record.message, rows, source)?;
    if record.message.attachment_size() as usize > body.len() {
        return Err(15);
    }
    let mut length = Length(0);
    record.message.fields(&mut length, rows);
    let total = SIZE + length.0 + body.len();
    if total > most {
        return Err(19);
    }
    let frame = out.get_mut(..total).ok_or(27u32)?;
    frame[..SIZE].copy_from_slice(&fixed_header(total, length.0, record.id, record.header_version));
    let mut writer = Writer { source, out: frame, at: SIZE };
    record.message.fields(&mut writer, rows);
    writer.put(body);
    Ok(total)
}

/// Each place lies in the source, and no key comes twice.
#[inline]
fn check_places<M: Message>(message: &M, rows: &[[u32; 4]], source: &[u8]) -> Result<(), Error> {
    let places = message.spans().chain(rows.iter().flat_map(|row| [key(row), value(row)]));
    for place in places {
        if place.end() > source.len() {
            return Err(17);
        }
    }
    for (index, row) in rows.iter().enumerate() {
        if rows[..index].iter().any(|earlier| key(earlier).of(source) == key(row).of(source)) {
            return Err(18);
        }
    }
    Ok(())
}

#[inline]
fn key(row: &[u32; 4]) -> Span {
    Span { start: row[0], length: row[1] }
}

#[inline]
fn value(row: &[u32; 4]) -> Span {
    Span { start: row[2], length: row[3] }
}

#[inline]
fn fixed_header(total: usize, header_size: usize, id: u32, version: u8) -> [u8; SIZE] {
    let mut bytes = [0; SIZE];
    bytes[..2].copy_from_slice(&[0x09, 0x30]);
    bytes[4..8].copy_from_slice(&(total as u32).to_be_bytes());
    bytes[8..10].copy_from_slice(&(header_size as u16).to_be_bytes());
    bytes[10..14].copy_from_slice(&id.to_be_bytes());
    bytes[14] = version;
    bytes
}

/// The bytes of a varint.
#[inline]
fn varint_length(value: u64) -> usize {
    (64 - (value | 1).leading_zeros() as usize).div_ceil(7)
}

/// The bytes of a field whose content has so many. All field numbers here are under 16: a tag has one byte.
#[inline]
fn bytes_length(content: usize) -> usize {
    1 + varint_length(content as u64) + content
}

#[inline]
fn entry_length(row: &[u32; 4]) -> usize {
    bytes_length(row[1] as usize) + bytes_length(row[3] as usize)
}

/// Adds up the bytes of the fields.
struct Length(usize);

impl Length {
    #[inline]
    fn number(&mut self, value: u64) {
        if value != 0 {
            self.0 += 1 + varint_length(value);
        }
    }
}

impl Sink for Length {
    #[inline]
    fn uint32(&mut self, _: u32, value: u32) {
        self.number(value.into());
    }

    #[inline]
    fn int32(&mut self, _: u32, value: i32) {
        self.number(value as u64);
    }

    #[inline]
    fn bytes(&mut self, _: u32, value: Span) {
        if value.length != 0 {
            self.0 += bytes_length(value.length as usize);
        }
    }

    #[inline]
    fn rows(&mut self, _: u32, rows: &[[u32; 4]]) {
        self.0 += rows.iter().map(|row| bytes_length(entry_length(row))).sum::<usize>();
    }
}

/// Writes the fields to a slice that has room for them.
struct Writer<'a> {
    source: &'a [u8],
    out: &'a mut [u8],
    at: usize,
}

impl Writer<'_> {
    #[inline]
    fn put(&mut self, bytes: &[u8]) {
        self.out[self.at..self.at + bytes.len()].copy_from_slice(bytes);
        self.at += bytes.len();
    }

    #[inline]
    fn varint(&mut self, mut value: u64) {
        while value >= 0x80 {
            self.out[self.at] = value as u8 | 0x80;
            self.at += 1;
            value >>= 7;
        }
        self.out[self.at] = value as u8;
        self.at += 1;
    }

    #[inline]
    fn number(&mut self, field: u32, value: u64) {
        if value != 0 {
            self.varint(u64::from(field << 3));
            self.varint(value);
        }
    }

    #[inline]
    fn start(&mut self, field: u32, length: usize) {
        self.varint(u64::from(field << 3 | 2));
        self.varint(length as u64);
    }

    #[inline]
    fn content(&mut self, field: u32, place: Span) {
        self.start(field, place.length as usize);
        self.put(place.of(self.source));
    }
}

impl Sink for Writer<'_> {
    #[inline]
    fn uint32(&mut self, field: u32, value: u32) {
        self.number(field, value.into());
    }

    #[inline]
    fn int32(&mut self, field: u32, value: i32) {
        self.number(field, value as u64);
    }

    #[inline]
    fn bytes(&mut self, field: u32, value: Span) {
        if value.length != 0 {
            self.content(field, value);
        }
    }

    #[inline]
    fn rows(&mut self, field: u32, rows: &[[u32; 4]]) {
        for row in rows {
            self.start(field, entry_length(row));
            self.content(1, key(row));
            self.content(2, value(row));
        }
    }
}
