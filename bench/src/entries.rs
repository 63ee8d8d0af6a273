//! The short calls, by whoever answers them: the library, or plain Rust with the signatures of the C interface
//! (include/bekurapi.h). Each is a pointer that the same code calls, so that a call costs all of them the same.

#![allow(clippy::undocumented_unsafe_blocks, reason = "one comment below is for every call")]

use crate::plain::queue::{Job, Queue};
use crate::plain::Error;
use bekurapi_sys as ffi;

// SAFETY, for every call below: each pointer is that of a slice or reference that lives through the call, with the slice's
// length beside it, and no entry keeps any of them. Plain Rust's jobs and queues are laid out as C's are.

/// The check of a fixed header.
#[derive(Clone, Copy)]
pub struct HeaderCheck(unsafe extern "C" fn(*const u8, usize, u32) -> Error);

impl HeaderCheck {
    pub const LIBRARY: HeaderCheck = HeaderCheck(ffi::trpc_header_check);
    pub const RUST: HeaderCheck = HeaderCheck(rust::header_check);

    #[inline]
    pub fn call(self, bytes: &[u8], ceiling: u32) -> Error {
        unsafe { self.0(bytes.as_ptr(), bytes.len(), ceiling) }
    }
}

/// A call of the deframer on a state and a buffer that are lent.
#[derive(Clone, Copy)]
#[rustfmt::skip]
pub struct Deframe(
    unsafe extern "C" fn(*mut usize, *mut Error, *mut u8, usize, u32, *const u8, usize, *mut usize, *mut usize) -> Error,
);

impl Deframe {
    pub const LIBRARY: Deframe = Deframe(ffi::trpc_deframe);
    pub const RUST: Deframe = Deframe(rust::deframe);

    #[allow(clippy::too_many_arguments, reason = "the signature is the library's")]
    #[inline]
    pub fn call(
        self,
        held: &mut usize,
        error: &mut Error,
        buffer: &mut [u8],
        ceiling: u32,
        piece: &[u8],
        taken: &mut usize,
        size: &mut usize,
    ) -> Error {
        let (room, len) = (buffer.as_mut_ptr(), buffer.len());
        unsafe { self.0(held, error, room, len, ceiling, piece.as_ptr(), piece.len(), taken, size) }
    }
}

/// The calls on a queue.
#[derive(Clone, Copy)]
pub struct QueueCalls {
    add: unsafe extern "C" fn(*mut ffi::Queue, u32, u32, u32, u64) -> Error,
    take: unsafe extern "C" fn(*mut ffi::Queue, *mut ffi::Job) -> Error,
    cancel: unsafe extern "C" fn(*mut ffi::Queue, u32, u32, *mut ffi::Job) -> Error,
}

impl QueueCalls {
    pub const LIBRARY: QueueCalls =
        QueueCalls { add: ffi::trpc_queue_add, take: ffi::trpc_queue_take, cancel: ffi::trpc_queue_cancel };
    pub const RUST: QueueCalls =
        QueueCalls { add: rust::queue_add, take: rust::queue_take, cancel: rust::queue_cancel };
    pub const RUST_OWN: QueueCalls =
        QueueCalls { add: rust::own_queue_add, take: rust::own_queue_take, cancel: rust::own_queue_cancel };

    #[inline]
    pub fn add(self, queue: &mut Queue, job: &Job) -> Error {
        unsafe { (self.add)(lent(queue), job.connection, job.request, job.timeout, job.arrival) }
    }

    #[inline]
    pub fn take(self, queue: &mut Queue, removed: &mut Job) -> Error {
        unsafe { (self.take)(lent(queue), lent(removed)) }
    }

    #[inline]
    pub fn cancel(self, queue: &mut Queue, connection: u32, request: u32, removed: &mut Job) -> Error {
        unsafe { (self.cancel)(lent(queue), connection, request, lent(removed)) }
    }
}

/// A job or a queue of plain Rust's as the interface's struct of the same layout.
#[inline]
fn lent<T, U>(value: &mut T) -> *mut U {
    const { assert!(size_of::<T>() == size_of::<U>() && align_of::<T>() == align_of::<U>()) };
    std::ptr::from_mut(value).cast()
}

/// Plain Rust under the signatures of the C interface.
mod rust {
    #![allow(unsafe_op_in_unsafe_fn, reason = "what they ask of a caller is what the library's ask")]

    use super::ffi;
    use crate::plain::queue::{Job, OwnQueue, Queue};
    use crate::plain::{deframer, header, Error};
    use std::slice::{from_raw_parts, from_raw_parts_mut};

    pub unsafe extern "C" fn header_check(bytes: *const u8, len: usize, ceiling: u32) -> Error {
        header::check(from_raw_parts(bytes, len), ceiling)
    }

    #[allow(clippy::too_many_arguments, reason = "the signature is the library's")]
    pub unsafe extern "C" fn deframe(
        held: *mut usize,
        error: *mut Error,
        buffer: *mut u8,
        buffer_len: usize,
        ceiling: u32,
        piece: *const u8,
        piece_len: usize,
        taken: *mut usize,
        size: *mut usize,
    ) -> Error {
        let (buffer, piece) = (from_raw_parts_mut(buffer, buffer_len), from_raw_parts(piece, piece_len));
        deframer::deframe(&mut *held, &mut *error, buffer, ceiling, piece, &mut *taken, &mut *size)
    }

    #[inline]
    unsafe fn removed(answer: Result<Job, Error>, to: *mut ffi::Job) -> Error {
        let (job, error) = match answer {
            Ok(job) => (job, 0),
            Err(error) => (Job::default(), error),
        };
        *to.cast::<Job>() = job;
        error
    }

    /// The calls on a type of queue.
    macro_rules! queue_calls {
        ($queue:ident $add:ident $take:ident $cancel:ident) => {
            pub unsafe extern "C" fn $add(
                queue: *mut ffi::Queue,
                connection: u32,
                request: u32,
                timeout: u32,
                arrival: u64,
            ) -> Error {
                let job = Job { connection, request, timeout, zero: 0, arrival };
                (*queue.cast::<$queue>()).add(job).err().unwrap_or(0)
            }

            pub unsafe extern "C" fn $take(queue: *mut ffi::Queue, to: *mut ffi::Job) -> Error {
                removed((*queue.cast::<$queue>()).take(), to)
            }

            pub unsafe extern "C" fn $cancel(
                queue: *mut ffi::Queue,
                connection: u32,
                request: u32,
                to: *mut ffi::Job,
            ) -> Error {
                removed((*queue.cast::<$queue>()).cancel(connection, request), to)
            }
        };
    }

    queue_calls! { Queue queue_add queue_take queue_cancel }
    queue_calls! { OwnQueue own_queue_add own_queue_take own_queue_cancel }
}
