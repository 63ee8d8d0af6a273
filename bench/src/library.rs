//! The library's readers and writers, through its C interface (include/bekurapi.h).

#![allow(clippy::undocumented_unsafe_blocks, reason = "one comment below is for every call")]

use crate::plain::messages::{REQUEST, RESPONSE};
use crate::plain::Error;
use bekurapi_sys as ffi;

/// The record of a kind as numbers, and how many they are.
pub use bekurapi_sys::Numbers;
pub const RECORD_NUMBERS: usize = 25;

/// Where the parts, the fields and the version are in them.
pub const PARTS: usize = 2;
pub const FIELDS: usize = 8;
pub const VERSION: usize = 24;

// SAFETY, for every call below: each pointer is that of a slice or reference that lives through the call, with the slice's
// length beside it, and the library keeps none of them.

/// The reader and the writer of a kind of plain Rust's.
#[inline]
fn entries(kind: u32) -> (ffi::Reader, ffi::Writer) {
    match kind {
        REQUEST => (ffi::trpc_read_request, ffi::trpc_write_request),
        RESPONSE => (ffi::trpc_read_response, ffi::trpc_write_response),
        _ => unreachable!("plain Rust has two kinds"),
    }
}

#[inline]
pub fn read(kind: u32, frame: &[u8], ceiling: u32, rows: &mut [u32], record: &mut Numbers) -> Error {
    let (read, _) = entries(kind);
    unsafe { read(frame.as_ptr(), frame.len(), ceiling, rows.as_mut_ptr(), rows.len(), record) }
}

#[inline]
pub fn write(
    kind: u32,
    record: &Numbers,
    source: &[u8],
    rows: &[u32],
    body: &[u8],
    out: &mut [u8],
    ceiling: u32,
) -> Result<usize, Error> {
    let (_, write) = entries(kind);
    let mut size = 0;
    let error = unsafe {
        write(
            record,
            source.as_ptr(),
            source.len(),
            rows.as_ptr(),
            rows.len(),
            body.as_ptr(),
            body.len(),
            out.as_mut_ptr(),
            out.len(),
            ceiling,
            &mut size,
        )
    };
    if error == 0 {
        Ok(size)
    } else {
        Err(error)
    }
}
