//! Protobuf fields, from left to right.

use super::messages::Span;
use super::Error;

const DEEPEST: u32 = 32;

pub enum Value {
    Number(u64),
    Bytes(Span),
    Skipped,
}

/// A walk over the end of `bytes`, from `at` on.
pub struct Fields<'a> {
    bytes: &'a [u8],
    at: usize,
}

impl<'a> Fields<'a> {
    #[inline]
    pub fn new(frame: &'a [u8], part: Span) -> Fields<'a> {
        Fields { bytes: &frame[..part.end()], at: part.start as usize }
    }

    /// The next field's number and value.
    #[inline]
    pub fn next_field(&mut self) -> Result<Option<(u32, Value)>, Error> {
        if self.at == self.bytes.len() {
            return Ok(None);
        }
        let (number, wire_type) = self.tag()?;
        let value = match wire_type {
            0 => Value::Number(self.varint()?),
            2 => {
                let length = self.varint()?;
                let start = self.at;
                self.pass(length)?;
                Value::Bytes(Span::new(start, length as usize))
            }
            _ => {
                self.skip(number, wire_type, 1)?;
                Value::Skipped
            }
        };
        Ok(Some((number, value)))
    }

    #[inline]
    fn varint(&mut self) -> Result<u64, Error> {
        let mut value = 0;
        let mut shift = 0;
        loop {
            let byte = *self.bytes.get(self.at).ok_or(10u32)?;
            self.at += 1;
            if shift == 63 && byte > 1 {
                return Err(10);
            }
            value |= u64::from(byte & 0x7F) << shift;
            if byte < 0x80 {
                return Ok(value);
            }
            shift += 7;
        }
    }

    #[inline]
    fn tag(&mut self) -> Result<(u32, u32), Error> {
        let tag = u32::try_from(self.varint()?).map_err(|_| 11u32)?;
        if tag < 8 || tag & 7 > 5 {
            return Err(11);
        }
        Ok((tag >> 3, tag & 7))
    }

    #[inline]
    fn pass(&mut self, length: u64) -> Result<(), Error> {
        if length > (self.bytes.len() - self.at) as u64 {
            return Err(12);
        }
        self.at += length as usize;
        Ok(())
    }

    /// Goes over a value; `depth` is how deep a group would be that starts here.
    fn skip(&mut self, number: u32, wire_type: u32, depth: u32) -> Result<(), Error> {
        match wire_type {
            0 => self.varint().map(|_| ()),
            1 => self.pass(8),
            2 => {
                let length = self.varint()?;
                self.pass(length)
            }
            3 if depth > DEEPEST => Err(13),
            3 => self.skip_group(number, depth),
            5 => self.pass(4),
            _ => Err(11),
        }
    }

    fn skip_group(&mut self, number: u32, depth: u32) -> Result<(), Error> {
        loop {
            if self.at == self.bytes.len() {
                return Err(12);
            }
            match self.tag()? {
                (end, 4) if end == number => return Ok(()),
                (inner, wire_type) => self.skip(inner, wire_type, depth + 1)?,
            }
        }
    }
}
