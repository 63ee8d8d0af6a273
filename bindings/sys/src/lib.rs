//! The functions of include/bekurapi.h, which says what each promises. docs/PROTOCOL.md has all error numbers in one
//! table. No function keeps a pointer, and none keeps state beside what is lent. A pointer with a length may be null
//! where the length is 0. This is the one place in Rust that declares them. Only the tests check the declarations.

#![deny(missing_docs)]

/// `struct trpc_job`.
#[repr(C)]
#[derive(Clone, Copy, Debug, Default, PartialEq, Eq, Hash)]
pub struct Job {
    /// The connection that the request came on.
    pub connection: u32,
    /// The request id of the frame's fixed header.
    pub request: u32,
    /// In ms; 0 is no deadline.
    pub timeout: u32,
    /// 0 in a job that was added and in a place that was freed; moves with its job, and is never looked at.
    pub zero: u32,
    /// In ms; at most 2^62.
    pub arrival: u64,
}

/// `struct trpc_queue`: the first `count` jobs wait, in order of acceptance.
#[repr(C)]
#[derive(Clone, Copy)]
pub struct Queue {
    /// The jobs; what is past the count is none.
    pub jobs: [Job; 64],
    /// How many wait.
    pub count: usize,
}

// As C lays them out, without a byte that is no member's.
const _: () = assert!(size_of::<Job>() == 4 * 4 + 8 && size_of::<Queue>() == 64 * 24 + 8);

/// The record of a kind: the 25 numbers of its struct, in their order. The last has `header_version` in its low byte; its
/// other three bytes are 0 where it is read, and not looked at where it is written.
pub type Numbers = [u32; 25];

/// A reader: frame and length, ceiling, rows and length, record.
pub type Reader = unsafe extern "C" fn(*const u8, usize, u32, *mut u32, usize, *mut Numbers) -> u32;

/// A writer: record, source and length, rows and length, body and length, output and length, ceiling, size.
#[rustfmt::skip]
pub type Writer = unsafe extern "C" fn(
    *const Numbers, *const u8, usize, *const u32, usize, *const u8, usize, *mut u8, usize, u32, *mut usize,
) -> u32;

/// Declares readers, each a [`Reader`].
macro_rules! readers {
    ($($(#[$doc:meta])* $name:ident)*) => { extern "C" { $(
        $(#[$doc])*
        pub fn $name(
            frame: *const u8,
            frame_len: usize,
            ceiling: u32,
            rows: *mut u32,
            rows_len: usize,
            record: *mut Numbers,
        ) -> u32;
    )* } };
}

/// Declares writers, each a [`Writer`].
macro_rules! writers {
    ($($(#[$doc:meta])* $name:ident)*) => { extern "C" { $(
        $(#[$doc])*
        pub fn $name(
            record: *const Numbers,
            source: *const u8,
            source_len: usize,
            rows: *const u32,
            rows_len: usize,
            body: *const u8,
            body_len: usize,
            out: *mut u8,
            out_len: usize,
            ceiling: u32,
            size: *mut usize,
        ) -> u32;
    )* } };
}

readers! {
    /// Reads a frame as a request, `struct trpc_request`.
    trpc_read_request
    /// Reads a frame as a response, `struct trpc_response`.
    trpc_read_response
    /// Reads an Init frame, `struct trpc_init`.
    trpc_read_init
    /// Reads a Data frame, `struct trpc_data`.
    trpc_read_data
    /// Reads a Feedback frame, `struct trpc_feedback`.
    trpc_read_feedback
    /// Reads a Close frame, `struct trpc_close`.
    trpc_read_close
}

writers! {
    /// Writes the frame of a request, `struct trpc_request`.
    trpc_write_request
    /// Writes the frame of a response, `struct trpc_response`.
    trpc_write_response
    /// Writes an Init frame, `struct trpc_init`.
    trpc_write_init
    /// Writes a Data frame, `struct trpc_data`.
    trpc_write_data
    /// Writes a Feedback frame, `struct trpc_feedback`.
    trpc_write_feedback
    /// Writes a Close frame, `struct trpc_close`.
    trpc_write_close
}

extern "C" {
    /// Checks a fixed header.
    pub fn trpc_header_check(bytes: *const u8, len: usize, ceiling: u32) -> u32;

    /// Reads a fixed header.
    pub fn trpc_header_parse(
        bytes: *const u8,
        len: usize,
        ceiling: u32,
        frame_type: *mut u32,
        total: *mut usize,
        header_size: *mut usize,
        id: *mut u32,
        header_version: *mut u8,
    ) -> u32;

    /// One call of the deframer.
    pub fn trpc_deframe(
        held: *mut usize,
        error: *mut u32,
        buffer: *mut u8,
        buffer_len: usize,
        ceiling: u32,
        piece: *const u8,
        piece_len: usize,
        taken: *mut usize,
        size: *mut usize,
    ) -> u32;

    /// The end of the stream.
    pub fn trpc_finish(
        held: usize,
        error: u32,
        buffer: *const u8,
        buffer_len: usize,
        ceiling: u32,
        short_by: *mut usize,
    ) -> u32;

    /// Makes the queue one in which nothing waits.
    pub fn trpc_queue_init(queue: *mut Queue);

    /// Puts a job after those that wait.
    pub fn trpc_queue_add(queue: *mut Queue, connection: u32, request: u32, timeout: u32, arrival: u64) -> u32;

    /// Removes the job that is due first.
    pub fn trpc_queue_take(queue: *mut Queue, removed: *mut Job) -> u32;

    /// Removes the job of a pair.
    pub fn trpc_queue_cancel(queue: *mut Queue, connection: u32, request: u32, removed: *mut Job) -> u32;
}
