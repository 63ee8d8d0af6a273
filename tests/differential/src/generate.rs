//! Frames and messages to try: whole ones in every shape that Protobuf allows, and such as break one rule or another.

use crate::random::Random;
use crate::reference::header::{LARGEST, SIZE};
use crate::reference::messages::Kind;

/// What a field holds.
#[derive(Clone, Copy)]
pub enum Holds {
    Number,
    Bytes,
    Map,
    Part(&'static [(u32, Holds)]),
}

use Holds::{Bytes, Map, Number, Part};

#[rustfmt::skip]
const REQUEST: &[(u32, Holds)] = &[
    (1, Number), (2, Number), (3, Number), (4, Number), (5, Bytes), (6, Bytes), (7, Bytes), (8, Number), (9, Map),
    (10, Number), (11, Number), (12, Number),
];
#[rustfmt::skip]
const RESPONSE: &[(u32, Holds)] = &[
    (1, Number), (2, Number), (3, Number), (4, Number), (5, Number), (6, Bytes), (7, Number), (8, Map), (9, Number),
    (10, Number), (12, Number),
];
const REQUEST_META: &[(u32, Holds)] = &[(1, Bytes), (2, Bytes), (3, Bytes), (4, Number), (5, Map)];
const RESPONSE_META: &[(u32, Holds)] = &[(1, Number), (2, Bytes)];
const INIT: &[(u32, Holds)] =
    &[(1, Part(REQUEST_META)), (2, Part(RESPONSE_META)), (3, Number), (4, Number), (5, Number)];
const FEEDBACK: &[(u32, Holds)] = &[(1, Number)];
const CLOSE: &[(u32, Holds)] = &[(1, Number), (2, Number), (3, Bytes), (4, Number), (5, Map), (6, Number)];
const ENTRY: &[(u32, Holds)] = &[(1, Bytes), (2, Bytes)];

fn fields(kind: Kind) -> &'static [(u32, Holds)] {
    match kind {
        Kind::Request => REQUEST,
        Kind::Response => RESPONSE,
        Kind::Init => INIT,
        Kind::Data => &[],
        Kind::Feedback => FEEDBACK,
        Kind::Close => CLOSE,
    }
}

/// Writes pieces of messages. A tidy one writes every varint in its shortest form.
pub struct Generator<'r> {
    pub random: &'r mut Random,
    pub tidy: bool,
}

impl Generator<'_> {
    /// A varint, now and then in more bytes than needed.
    fn varint(&mut self, value: u64, out: &mut Vec<u8>) {
        let shortest = (64 - value.leading_zeros() as usize).div_ceil(7).max(1);
        let length = if !self.tidy && self.random.one_in(8) { self.random.between(shortest, 10) } else { shortest };
        for group in 0..length {
            let more = if group + 1 < length { 0x80 } else { 0 };
            out.push((value >> (7 * group)) as u8 & 0x7F | more);
        }
    }

    fn tag(&mut self, number: u32, wire_type: u64, out: &mut Vec<u8>) {
        self.varint(u64::from(number) << 3 | wire_type, out);
    }

    /// The bytes of a byte field: empty, short, or now and then long.
    fn content(&mut self) -> Vec<u8> {
        let length = match self.random.below(16) {
            0 | 1 => 0,
            2 => self.random.between(120, 140),
            3 if self.random.one_in(16) => self.random.between(0, 3_000),
            _ => self.random.between(1, 12),
        };
        self.random.bytes(length)
    }

    fn delimited(&mut self, number: u32, content: &[u8], out: &mut Vec<u8>) {
        self.tag(number, 2, out);
        self.varint(content.len() as u64, out);
        out.extend_from_slice(content);
    }

    /// A field with a value of its own type.
    fn known(&mut self, number: u32, holds: Holds, out: &mut Vec<u8>) {
        match holds {
            Number => {
                let value = self.random.number();
                self.tag(number, 0, out);
                self.varint(value, out);
            }
            Bytes => {
                let content = self.content();
                self.delimited(number, &content, out);
            }
            Map => {
                let entry = self.entry();
                self.delimited(number, &entry, out);
            }
            Part(fields) => {
                let count = self.random.below(8);
                let part = self.loose(fields, count).concat();
                self.delimited(number, &part, out);
            }
        }
    }

    /// A map entry with a key of a few, so that keys come again; sometimes a stranger one.
    fn entry(&mut self) -> Vec<u8> {
        if self.random.one_in(8) {
            let count = self.random.below(5);
            return self.loose(ENTRY, count).concat();
        }
        let key = self.random.pick::<&[u8]>(&[b"", b"a", b"b", b"ab", b"abc", b"abd", b"trpc-trace", b"\xFF\x00"]);
        let value = self.content();
        let mut parts = [Vec::new(), Vec::new()];
        self.delimited(1, key, &mut parts[0]);
        self.delimited(2, &value, &mut parts[1]);
        match self.random.below(12) {
            0 => parts.swap(0, 1),
            1 => parts[0].clear(),
            2 => parts[1].clear(),
            _ => {}
        }
        parts.concat()
    }

    /// An entry whose key is a number's, so that many are different.
    fn numbered_entry(&mut self, number: usize) -> Vec<u8> {
        let mut entry = Vec::new();
        self.delimited(1, &[number as u8], &mut entry);
        self.delimited(2, b"v", &mut entry);
        entry
    }

    /// A value of any wire type, with its tag.
    fn unknown(&mut self, number: u32, out: &mut Vec<u8>) {
        match self.random.below(5) {
            0 => self.known(number, Number, out),
            1 => {
                self.tag(number, 1, out);
                out.extend(self.random.bytes(8));
            }
            2 => self.known(number, Bytes, out),
            3 => {
                self.tag(number, 5, out);
                out.extend(self.random.bytes(4));
            }
            _ => {
                let depth = self.random.pick(&[1, 1, 1, 2, 3, 8, 31, 32, 32]);
                self.groups(number, depth, out);
            }
        }
    }

    /// Groups nested so deep, with fields in them.
    fn groups(&mut self, number: u32, depth: usize, out: &mut Vec<u8>) {
        self.tag(number, 3, out);
        if depth > 1 {
            let inner = self.number_of_field();
            self.groups(inner, depth - 1, out);
        }
        if self.random.one_in(3) {
            let (inner, holds) = (self.number_of_field(), self.random.pick(&[Number, Bytes]));
            self.known(inner, holds, out);
        }
        self.tag(number, 4, out);
    }

    fn number_of_field(&mut self) -> u32 {
        match self.random.below(4) {
            0 => self.random.between(1, 16) as u32,
            1 => self.random.pick(&[11, 13, 15, 16, 19, 2047, 2048, (1 << 29) - 1]),
            2 => (self.random.u32() >> 3).max(1),
            _ => self.random.between(7, 40) as u32,
        }
    }

    /// So many fields in any order: known ones, known ones of another wire type, and unknown ones.
    fn loose(&mut self, fields: &[(u32, Holds)], count: usize) -> Vec<Vec<u8>> {
        (0..count)
            .map(|_| {
                let mut out = Vec::new();
                if self.random.one_in(6) || fields.is_empty() {
                    let number = self.number_of_field();
                    self.unknown(number, &mut out);
                } else {
                    let (number, holds) = self.random.pick(fields);
                    if self.random.one_in(10) {
                        self.unknown(number, &mut out);
                    } else {
                        self.known(number, holds, &mut out);
                    }
                }
                out
            })
            .collect()
    }

    /// Known fields, each at most once, by rising number.
    fn rising(&mut self, fields: &[(u32, Holds)]) -> Vec<Vec<u8>> {
        let mut message = Vec::new();
        for (number, holds) in fields {
            if !self.random.one_in(3) {
                let mut out = Vec::new();
                self.known(*number, *holds, &mut out);
                message.push(out);
            }
        }
        message
    }

    /// Map entries around the limit of 64, with other fields between them. In Init they are spread over several parts.
    fn many_entries(&mut self, kind: Kind) -> Vec<Vec<u8>> {
        let Some(number) = map_number(kind) else {
            return self.loose(fields(kind), 3);
        };
        let count = self.random.pick(&[63, 64, 64, 65, 66]);
        let keys = self.random.pick(&[1, 5, 64, 256]);
        let mut entries = Vec::new();
        for place in 0..count {
            let entry = self.numbered_entry(place % keys);
            let mut out = Vec::new();
            self.delimited(number, &entry, &mut out);
            entries.push(out);
        }
        if kind == Kind::Init {
            let cut = self.random.below(entries.len());
            entries = [entries[..cut].concat(), entries[cut..].concat()]
                .map(|part| {
                    let mut out = Vec::new();
                    self.delimited(1, &part, &mut out);
                    out
                })
                .to_vec();
        }
        if self.random.one_in(2) {
            let extra = self.loose(fields(kind), 2);
            entries.extend(extra);
            self.random.shuffle(&mut entries);
        }
        entries
    }

    /// Bytes that break a rule where a field should be. Some only do so as the last of their part.
    fn fault(&mut self) -> Vec<u8> {
        let mut out = Vec::new();
        let number = self.number_of_field();
        match self.random.below(16) {
            0 => out.extend([0xFF; 9].iter().chain(&[self.random.pick(&[2, 0x7F, 0x80, 0xFF])])),
            1 => out.resize(self.random.between(1, 11), 0x80),
            2 => {
                self.tag(number, 0, &mut out);
                out.extend([0xFF; 9].iter().chain(&[self.random.pick(&[2, 0x80])]));
            }
            3 => {
                let wire_type = self.random.pick(&[0, 2]);
                self.tag(number, wire_type, &mut out);
                out.resize(out.len() + self.random.below(10), 0xFF);
            }
            4 => {
                let field_0 = self.random.below(8) as u64;
                self.varint(field_0, &mut out);
            }
            5 => {
                let wire_type = self.random.pick(&[6, 7]);
                self.tag(number, wire_type, &mut out);
            }
            6 => {
                let places = self.random.between(2, 60);
                let above = (1 << 32) + (self.random.u64() >> places);
                self.varint(above, &mut out);
            }
            7 => self.tag(number, 4, &mut out),
            8 => {
                self.tag(number, 3, &mut out);
                let other = self.number_of_field();
                self.tag(other, 4, &mut out);
            }
            9 => {
                self.tag(number, 2, &mut out);
                let length = self.random.number().max(1);
                self.varint(length, &mut out);
            }
            10 => {
                self.tag(number, 1, &mut out);
                let count = self.random.below(8);
                out.extend(self.random.bytes(count));
            }
            11 => {
                self.tag(number, 5, &mut out);
                let count = self.random.below(4);
                out.extend(self.random.bytes(count));
            }
            12 => {
                let depth = self.random.between(1, 4);
                self.groups(number, depth, &mut out);
                out.pop();
            }
            13 => {
                let depth = self.random.pick(&[33, 33, 34, 40]);
                self.groups(number, depth, &mut out);
            }
            14 => {
                let depth = self.random.between(30, 34);
                (0..depth).for_each(|_| self.tag(number, 3, &mut out));
            }
            _ => {
                // A rule broken inside a field that may be a part or an entry.
                let count = self.random.below(6);
                let inner = if self.random.one_in(2) { self.fault() } else { self.random.bytes(count) };
                let number = self.random.pick(&[1, 2, 5, 8, 9]);
                self.delimited(number, &inner, &mut out);
            }
        }
        out
    }

    /// A header message of a kind.
    pub fn message(&mut self, kind: Kind, faults: usize) -> Vec<u8> {
        let fields = fields(kind);
        let mut message = match self.random.below(12) {
            0..=3 => self.rising(fields),
            4 => self.many_entries(kind),
            5 => {
                let count = self.random.between(10, 60);
                self.loose(fields, count)
            }
            _ => {
                let count = self.random.below(10);
                self.loose(fields, count)
            }
        };
        for _ in 0..faults {
            let place = self.random.between(0, message.len());
            let fault = self.fault();
            message.insert(place, fault);
        }
        message.concat()
    }

    /// A frame of a kind with such faults in its message. The attachment is often as large as the body, or nearly.
    pub fn frame(&mut self, kind: Kind, faults: usize) -> Vec<u8> {
        let mut message = self.message(kind, faults);
        let body_size = match self.random.below(8) {
            0..=2 => 0,
            3 => self.random.between(100, 400),
            _ => self.random.between(1, 16),
        };
        let mut body = self.random.bytes(body_size);
        match kind {
            Kind::Request | Kind::Response if self.random.one_in(3) => {
                let size = (body_size as u64 + self.random.below(3) as u64).saturating_sub(self.random.below(3) as u64);
                self.tag(12, 0, &mut message);
                self.varint(size, &mut message);
            }
            Kind::Init | Kind::Feedback | Kind::Close => body.clear(),
            _ => {}
        }
        let id = self.random.number32();
        self.under_a_version(frame(kind, id, &message, &body))
    }

    /// With any last two bytes of its fixed header; a third keeps its zeros.
    pub fn under_a_version(&mut self, mut frame: Vec<u8>) -> Vec<u8> {
        if !self.random.one_in(3) {
            frame[14..16].copy_from_slice(&self.random.last_two());
        }
        frame
    }
}

impl Generator<'_> {
    /// A frame of about 65,536 bytes: a message with a field that nearly fills the frame, and a body where there can be one.
    pub fn large_frame(&mut self, kind: Kind) -> Vec<u8> {
        let total = LARGEST - 2 + self.random.below(4);
        let mut message = self.message(kind, 0);
        let number = self.random.pick(&[1, 3, 5, 6, 7, 9, 13]);
        let length = total - SIZE - message.len().min(40_000) - self.random.between(5, 300);
        let content = vec![self.random.byte(); length];
        let place = self.random.pick(&[0, message.len()]);
        let mut filling = Vec::new();
        self.delimited(number, &content, &mut filling);
        message.splice(place..place, filling);
        let rest = vec![0x0B; total.saturating_sub(SIZE + message.len())];
        if matches!(kind, Kind::Request | Kind::Response | Kind::Data) {
            return self.under_a_version(frame(kind, 7, &message, &rest));
        }
        self.under_a_version(frame(kind, 7, &message, &[]))
    }
}

fn map_number(kind: Kind) -> Option<u32> {
    match kind {
        Kind::Request => Some(9),
        Kind::Response => Some(8),
        Kind::Init | Kind::Close => Some(5),
        Kind::Data | Kind::Feedback => None,
    }
}

/// A frame with these parts, of version 0. Its total and header size are what they are, however large.
pub fn frame(kind: Kind, id: u32, message: &[u8], body: &[u8]) -> Vec<u8> {
    let mut frame = vec![0x09, 0x30, u8::from(!kind.is_unary()), kind.stream_type()];
    frame.extend(((16 + message.len() + body.len()) as u32).to_be_bytes());
    frame.extend((if kind.is_unary() { message.len() as u16 } else { 0 }).to_be_bytes());
    frame.extend(id.to_be_bytes());
    frame.extend([0, 0]);
    frame.extend_from_slice(message);
    frame.extend_from_slice(body);
    frame
}

/// With this version and this last byte of its fixed header.
pub fn with_last_two(mut frame: Vec<u8>, version: u8, last: u8) -> Vec<u8> {
    frame[14..16].copy_from_slice(&[version, last]);
    frame
}

/// Writes the frame's own length as its total; a unary frame's header size is kept within it.
pub fn fit(frame: &mut [u8]) {
    if frame.len() < 16 {
        return;
    }
    let total = frame.len();
    frame[4..8].copy_from_slice(&(total as u32).to_be_bytes());
    if usize::from(u16::from_be_bytes([frame[8], frame[9]])) > total - 16 {
        frame[8..10].copy_from_slice(&((total - 16) as u16).to_be_bytes());
    }
}

/// Changes, drops or adds a few bytes; sometimes the total fits again afterwards.
pub fn damage(random: &mut Random, bytes: &mut Vec<u8>) {
    for _ in 0..random.between(1, 3) {
        let place = random.below(bytes.len() + 1);
        match random.below(8) {
            0 if place < bytes.len() => bytes[place] ^= 1 << random.below(8),
            1 if place < bytes.len() => bytes[place] = random.byte(),
            2 if place < bytes.len() => bytes[place] = bytes[place].wrapping_add(random.pick(&[1, 255])),
            3 => bytes.truncate(place),
            4 if place < bytes.len() => {
                bytes.remove(place);
            }
            5 => bytes.insert(place, random.byte()),
            6 => bytes.extend(vec![0; random.below(4)]),
            7 if bytes.len() > 16 => {
                let place = random.between(16, bytes.len() - 1);
                bytes[place] = random.pick(&[0, 1, 0x7F, 0x80, 0xFF]);
            }
            _ => {}
        }
    }
    if random.one_in(2) {
        fit(bytes);
    }
}
