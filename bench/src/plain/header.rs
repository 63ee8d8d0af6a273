//! The fixed header.

use super::Error;

/// The length of a fixed header.
pub const SIZE: usize = 16;

/// The largest frame.
pub const LARGEST: usize = 65_536;

/// The largest ceiling of a connection.
pub const MAX_CEILING: u32 = LARGEST as u32;

/// How many bytes a frame has at most under a ceiling, which may be out of range.
#[inline]
pub fn most_bytes(ceiling: u32) -> Result<usize, Error> {
    let most = ceiling as usize;
    if (SIZE..=LARGEST).contains(&most) {
        Ok(most)
    } else {
        Err(41)
    }
}

#[derive(Clone, Copy, PartialEq, Eq)]
pub enum Kind {
    Unary,
    Init,
    Data,
    Feedback,
    Close,
}

/// A good fixed header.
pub struct FixedHeader {
    pub kind: Kind,
    pub total: usize,
    pub header_size: usize,
    pub id: u32,
    pub version: u8,
}

impl FixedHeader {
    /// What a header says of a frame that has at most so many bytes.
    #[inline]
    pub fn parse(h: &[u8; SIZE], most: usize) -> Result<FixedHeader, Error> {
        let total = u32::from_be_bytes([h[4], h[5], h[6], h[7]]) as usize;
        let header_size = u16::from_be_bytes([h[8], h[9]]) as usize;
        if h[0] != 0x09 || h[1] != 0x30 {
            return Err(3);
        }
        let kind = match (h[2], h[3]) {
            (0, _) => Kind::Unary,
            (1, 1) => Kind::Init,
            (1, 2) => Kind::Data,
            (1, 3) => Kind::Feedback,
            (1, 4) => Kind::Close,
            (1, _) => return Err(5),
            _ => return Err(4),
        };
        if !(SIZE..=most).contains(&total) {
            return Err(6);
        }
        if header_size > if kind == Kind::Unary { total - SIZE } else { 0 } {
            return Err(7);
        }
        let id = u32::from_be_bytes([h[10], h[11], h[12], h[13]]);
        Ok(FixedHeader { kind, total, header_size, id, version: h[14] })
    }
}

/// The error code of a header under a ceiling, 0 for a good one.
#[inline]
pub fn check(bytes: &[u8], ceiling: u32) -> Error {
    match (most_bytes(ceiling), bytes.try_into()) {
        (Err(code), _) => code,
        (Ok(most), Ok(header)) => FixedHeader::parse(header, most).err().unwrap_or(0),
        (Ok(_), Err(_)) => 9,
    }
}
