//! Cutting a stream into frames. A call answers with an error code, as the library does: `taken` receives how many bytes of the
//! piece it took, and `size` the size of the frame that is whole now, 0 where there is none.

use super::header::{most_bytes, FixedHeader, LARGEST, SIZE};
use super::Error;

/// A call on a state, `held` and `error`, a buffer and a ceiling that the caller lends: they are checked first, as the library
/// does.
#[inline]
pub fn deframe(
    held: &mut usize,
    error: &mut Error,
    buffer: &mut [u8],
    ceiling: u32,
    piece: &[u8],
    taken: &mut usize,
    size: &mut usize,
) -> Error {
    *taken = 0;
    *size = 0;
    let most = match most_bytes(ceiling) {
        Ok(most) => most,
        Err(code) => return code,
    };
    match buffer.get_mut(..most) {
        None => 1,
        Some(buffer) if !known(*held, *error, buffer) => 2,
        Some(buffer) => advance(held, error, buffer, piece, taken, size),
    }
}

/// Whether a state is known with a buffer as long as the ceiling.
#[inline]
fn known(held: usize, error: Error, buffer: &[u8]) -> bool {
    if held < SIZE {
        return error == 0;
    }
    match FixedHeader::parse(buffer.first_chunk().unwrap(), buffer.len()) {
        Ok(header) => error == 0 && header.total > held,
        Err(code) => error == code && held == SIZE,
    }
}

/// A deframer whose state and buffer nobody else writes, and whose ceiling is in range: it has nothing to check.
pub struct Deframer {
    held: usize,
    error: Error,
    most: usize,
    buffer: Box<Buffer>,
}

/// The largest frame's bytes, from the start of a page: the time of a copy depends on where its ends lie, so all contenders'
/// outputs lie alike.
#[repr(align(4096))]
pub struct Buffer(pub [u8; LARGEST]);

impl Buffer {
    pub fn page() -> Box<Buffer> {
        Box::new(Buffer([0; LARGEST]))
    }
}

impl Deframer {
    pub fn new(ceiling: u32) -> Result<Deframer, Error> {
        Ok(Deframer { held: 0, error: 0, most: most_bytes(ceiling)?, buffer: Buffer::page() })
    }

    #[inline(never)]
    pub fn push(&mut self, piece: &[u8], taken: &mut usize, size: &mut usize) -> Error {
        *taken = 0;
        *size = 0;
        advance(&mut self.held, &mut self.error, &mut self.buffer.0[..self.most], piece, taken, size)
    }

    /// The frame that the last call made whole.
    pub fn frame(&self, size: usize) -> &[u8] {
        &self.buffer.0[..size]
    }
}

/// The call on a state that is known, where nothing is taken yet, with a buffer as long as the ceiling. It is inlined in both of
/// its callers, as it would be in one.
#[inline(always)]
fn advance(
    held: &mut usize,
    error: &mut Error,
    buffer: &mut [u8],
    piece: &[u8],
    taken: &mut usize,
    size: &mut usize,
) -> Error {
    if *error != 0 {
        return *error;
    }
    if *held < SIZE {
        *taken = piece.len().min(SIZE - *held);
        append(held, buffer, &piece[..*taken]);
        if *held < SIZE {
            return 0;
        }
    }
    let total = match FixedHeader::parse(buffer.first_chunk().unwrap(), buffer.len()) {
        Ok(header) => header.total,
        Err(code) => {
            *error = code;
            return code;
        }
    };
    let content = (piece.len() - *taken).min(total - *held);
    append(held, buffer, &piece[*taken..*taken + content]);
    *taken += content;
    if *held == total {
        *held = 0;
        *size = total;
    }
    0
}

#[inline]
fn append(held: &mut usize, buffer: &mut [u8], bytes: &[u8]) {
    buffer[*held..*held + bytes.len()].copy_from_slice(bytes);
    *held += bytes.len();
}
