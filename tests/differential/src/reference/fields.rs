//! "Fields (Protobuf encoding)": a walk over the fields of a part of the frame, from left to right.

use super::messages::Span;
use super::Refusal;

/// "A skipped group may hold fields and groups, nested to 32"
const DEEPEST: u32 = 32;

#[derive(Clone, Copy)]
pub enum Value {
    Varint(u64),
    Fixed64,
    Bytes(Span),
    Group,
    Fixed32,
}

pub struct Field {
    pub number: u32,
    pub value: Value,
}

/// A walk over the bytes from `at` to `end` of the frame.
pub struct Walk<'a> {
    frame: &'a [u8],
    at: usize,
    end: usize,
}

impl<'a> Walk<'a> {
    pub fn new(frame: &'a [u8], part: Span) -> Walk<'a> {
        Walk { frame, at: part.start as usize, end: part.end() }
    }

    /// The next field. "fields from left to right, at each place tag 10, 11, 13, value 10, 12"
    pub fn next(&mut self) -> Result<Option<Field>, Refusal> {
        if self.at == self.end {
            return Ok(None);
        }
        let (number, wire_type) = self.tag()?;
        let value = self.value(number, wire_type, 1)?;
        Ok(Some(Field { number, value }))
    }

    /// "A varint has at most 10 bytes, seven bits each, low group first; a tenth byte above 1 is bad."
    fn varint(&mut self) -> Result<u64, Refusal> {
        let mut value = 0;
        for group in 0..10 {
            if self.at == self.end {
                return Err(10);
            }
            let byte = self.frame[self.at];
            self.at += 1;
            if group == 9 && byte > 1 {
                return Err(10);
            }
            value |= u64::from(byte & 0x7F) << (7 * group);
            if byte < 0x80 {
                return Ok(value);
            }
        }
        unreachable!("a tenth byte up to 1 is the last")
    }

    /// "A tag is a varint up to 4,294,967,295: field number times 8 plus wire type. Field 0 and wire types 6, 7 are bad."
    fn tag(&mut self) -> Result<(u32, u32), Refusal> {
        let tag = u32::try_from(self.varint()?).map_err(|_| 11u32)?;
        match (tag / 8, tag % 8) {
            (0, _) | (_, 6 | 7) => Err(11),
            tag => Ok(tag),
        }
    }

    /// The value after a tag; `depth` is how deep a group would be that starts here.
    fn value(&mut self, number: u32, wire_type: u32, depth: u32) -> Result<Value, Refusal> {
        match wire_type {
            0 => Ok(Value::Varint(self.varint()?)),
            1 => self.pass(8).map(|_| Value::Fixed64),
            2 => {
                let length = self.varint()?;
                self.pass(length).map(Value::Bytes)
            }
            3 if depth > DEEPEST => Err(13), // "33rd nested group"
            3 => self.group(number, depth).map(|()| Value::Group),
            4 => Err(11), // "group end stray"
            5 => self.pass(4).map(|_| Value::Fixed32),
            _ => unreachable!("the tag is good"),
        }
    }

    /// Goes over so many bytes. 12: "a length, fixed value or open group passes the end of its part"
    fn pass(&mut self, length: u64) -> Result<Span, Refusal> {
        if length > (self.end - self.at) as u64 {
            return Err(12);
        }
        let span = Span::of(self.at, length as usize);
        self.at += length as usize;
        Ok(span)
    }

    /// "A skipped group may hold fields and groups, nested to 32; its end must bear its number."
    fn group(&mut self, number: u32, depth: u32) -> Result<(), Refusal> {
        loop {
            if self.at == self.end {
                return Err(12);
            }
            match self.tag()? {
                (end, 4) if end == number => return Ok(()),
                (_, 4) => return Err(11), // "group end .. of another number"
                (inner, wire_type) => self.value(inner, wire_type, depth + 1)?,
            };
        }
    }
}
