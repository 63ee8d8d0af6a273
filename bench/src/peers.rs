//! The peers that are no Rust: protobuf C++ and nanopb (bench/peers). Each reads and writes whole unary frames.

#![allow(clippy::undocumented_unsafe_blocks, reason = "one comment below is for every call")]

/// A peer's message object, a request or a response by the kind's number.
#[cfg(any(protobuf, nanopb))]
#[derive(Clone, Copy)]
pub struct Message {
    kind: u32,
    object: *mut std::ffi::c_void,
}

// SAFETY, for every call below: each pointer is that of a slice that lives through the call, with the slice's length beside
// it, or of an object that the peer made for this kind and that is never freed.

#[cfg(protobuf)]
pub mod protobuf {
    use super::Message;
    use crate::library::Numbers;
    use crate::plain::messages::Record;
    use std::ffi::c_void;

    extern "C" {
        fn protobuf_new(kind: u32) -> *mut c_void;
        fn protobuf_read(kind: u32, message: *mut c_void, frame: *const u8, len: usize) -> u64;
        fn protobuf_read_fresh(kind: u32, frame: *const u8, len: usize) -> u64;
        fn protobuf_write(
            kind: u32,
            message: *const c_void,
            id: u32,
            version: u8,
            body: *const u8,
            body_len: usize,
            out: *mut u8,
            out_len: usize,
        ) -> usize;
        fn protobuf_write_fresh(
            kind: u32,
            record: *const u32,
            source: *const u8,
            rows: *const u32,
            body: *const u8,
            body_len: usize,
            out: *mut u8,
            out_len: usize,
        ) -> usize;
    }

    pub fn new(kind: u32) -> Message {
        Message { kind, object: unsafe { protobuf_new(kind) } }
    }

    #[inline]
    pub fn read(message: Message, frame: &[u8]) -> u64 {
        unsafe { protobuf_read(message.kind, message.object, frame.as_ptr(), frame.len()) }
    }

    #[inline]
    pub fn read_fresh(kind: u32, frame: &[u8]) -> u64 {
        unsafe { protobuf_read_fresh(kind, frame.as_ptr(), frame.len()) }
    }

    /// The message with the id and the version of a record.
    #[inline]
    pub fn write<M>(message: Message, record: &Record<M>, body: &[u8], out: &mut [u8]) -> usize {
        let Record { id, header_version, .. } = *record;
        unsafe {
            protobuf_write(
                message.kind,
                message.object,
                id,
                header_version,
                body.as_ptr(),
                body.len(),
                out.as_mut_ptr(),
                out.len(),
            )
        }
    }

    /// The record's places lie in the source, and its rows are there.
    #[inline]
    pub fn write_fresh(kind: u32, record: &Numbers, source: &[u8], rows: &[u32], body: &[u8], out: &mut [u8]) -> usize {
        assert!(rows.len() >= 4 * record[1] as usize);
        unsafe {
            protobuf_write_fresh(
                kind,
                record.as_ptr(),
                source.as_ptr(),
                rows.as_ptr(),
                body.as_ptr(),
                body.len(),
                out.as_mut_ptr(),
                out.len(),
            )
        }
    }
}

#[cfg(nanopb)]
pub mod nanopb {
    use super::Message;
    use crate::plain::messages::Record;
    use std::ffi::c_void;

    extern "C" {
        fn nanopb_new(kind: u32) -> *mut c_void;
        fn nanopb_read(kind: u32, message: *mut c_void, frame: *const u8, len: usize) -> u64;
        fn nanopb_write(
            kind: u32,
            message: *const c_void,
            id: u32,
            version: u8,
            body: *const u8,
            body_len: usize,
            out: *mut u8,
            out_len: usize,
        ) -> usize;
    }

    pub fn new(kind: u32) -> Message {
        Message { kind, object: unsafe { nanopb_new(kind) } }
    }

    #[inline]
    pub fn read(message: Message, frame: &[u8]) -> u64 {
        unsafe { nanopb_read(message.kind, message.object, frame.as_ptr(), frame.len()) }
    }

    /// The message with the id and the version of a record.
    #[inline]
    pub fn write<M>(message: Message, record: &Record<M>, body: &[u8], out: &mut [u8]) -> usize {
        let Record { id, header_version, .. } = *record;
        unsafe {
            nanopb_write(
                message.kind,
                message.object,
                id,
                header_version,
                body.as_ptr(),
                body.len(),
                out.as_mut_ptr(),
                out.len(),
            )
        }
    }
}
