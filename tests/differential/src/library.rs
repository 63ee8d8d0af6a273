//! The library under test, through its C interface (include/bekurapi.h): safe functions over its declarations.

#![allow(clippy::undocumented_unsafe_blocks, reason = "one comment below is for every call")]

use crate::difference::Difference;
use crate::reference::deframer::State;
use crate::reference::interface::{Deframed, Finished, Numbers, Parsed, Removed, Written};
use crate::reference::messages::Kind;
use crate::reference::queue::{Job, Queue};
use crate::reference::RETIRED;
use std::cell::RefCell;
use std::fmt::Display;

#[cfg(not(feature = "library"))]
use crate::stand_in as c;
#[cfg(feature = "library")]
use bekurapi_sys as c;

/// What is where the library has to put an answer, so that one which it leaves out is seen.
const NO_ANSWER: usize = 0x5555_5555_5555;
const NO_NUMBER: u32 = 0x5555_5555;
const NO_JOB: Job = Job { connection: 1, request: 2, timeout: 3, zero: 5, arrival: 4 };

thread_local! {
    static RETIRED_GIVEN: RefCell<Option<Difference>> = const { RefCell::new(None) };
}

/// Every error code that the library gives goes through here.
pub fn given(by: &dyn Display, code: u32) -> u32 {
    if RETIRED.contains(&code) {
        let what = format!("a retired number, given by {by}");
        RETIRED_GIVEN.set(Some(Difference { what, expected: "never given".to_string(), actual: code.to_string() }));
    }
    code
}

/// The last retired number that the library gave, if it gave one since this was asked before.
pub fn retired_given() -> Option<Difference> {
    RETIRED_GIVEN.take()
}

// SAFETY, for every function below: each pointer is that of a slice or reference that lives through the call, with the slice's
// length beside it, and the library keeps none of them. The reference's jobs and queues are laid out as C's are.

pub fn header_check(bytes: &[u8], ceiling: u32) -> u32 {
    let error = unsafe { c::trpc_header_check(bytes.as_ptr(), bytes.len(), ceiling) };
    given(&"trpc_header_check", error)
}

pub fn header_parse(bytes: &[u8], ceiling: u32) -> Parsed {
    let (mut frame_type, mut id, mut version) = (NO_NUMBER, NO_NUMBER, NO_NUMBER as u8);
    let (mut total, mut header_size) = (NO_ANSWER, NO_ANSWER);
    let error = unsafe {
        c::trpc_header_parse(
            bytes.as_ptr(),
            bytes.len(),
            ceiling,
            &mut frame_type,
            &mut total,
            &mut header_size,
            &mut id,
            &mut version,
        )
    };
    Parsed { error: given(&"trpc_header_parse", error), frame_type, total, header_size, id, version }
}

pub fn deframe(state: State, buffer: &mut [u8], ceiling: u32, piece: &[u8]) -> Deframed {
    let State { mut held, error: mut state_error } = state;
    let (mut taken, mut size) = (NO_ANSWER, NO_ANSWER);
    let error = unsafe {
        c::trpc_deframe(
            &mut held,
            &mut state_error,
            buffer.as_mut_ptr(),
            buffer.len(),
            ceiling,
            piece.as_ptr(),
            piece.len(),
            &mut taken,
            &mut size,
        )
    };
    // What the caller has in the state is not given by the library, if it stays there.
    if state_error != state.error {
        given(&"trpc_deframe, in its state", state_error);
    }
    Deframed { error: given(&"trpc_deframe", error), next: State { held, error: state_error }, taken, size }
}

pub fn finish(state: State, buffer: &[u8], ceiling: u32) -> Finished {
    let mut short_by = NO_ANSWER;
    let State { held, error } = state;
    let error = unsafe { c::trpc_finish(held, error, buffer.as_ptr(), buffer.len(), ceiling, &mut short_by) };
    Finished { error: given(&"trpc_finish", error), short_by }
}

fn reader(kind: Kind) -> c::Reader {
    match kind {
        Kind::Request => c::trpc_read_request,
        Kind::Response => c::trpc_read_response,
        Kind::Init => c::trpc_read_init,
        Kind::Data => c::trpc_read_data,
        Kind::Feedback => c::trpc_read_feedback,
        Kind::Close => c::trpc_read_close,
    }
}

fn writer(kind: Kind) -> c::Writer {
    match kind {
        Kind::Request => c::trpc_write_request,
        Kind::Response => c::trpc_write_response,
        Kind::Init => c::trpc_write_init,
        Kind::Data => c::trpc_write_data,
        Kind::Feedback => c::trpc_write_feedback,
        Kind::Close => c::trpc_write_close,
    }
}

pub fn read(kind: Kind, frame: &[u8], ceiling: u32, rows: &mut [u32], record: &mut Numbers) -> u32 {
    let read = reader(kind);
    let error = unsafe { read(frame.as_ptr(), frame.len(), ceiling, rows.as_mut_ptr(), rows.len(), record) };
    given(&format_args!("the reader of {kind:?}"), error)
}

pub fn write(
    kind: Kind,
    record: &Numbers,
    source: &[u8],
    rows: &[u32],
    body: &[u8],
    out: &mut [u8],
    ceiling: u32,
) -> Written {
    let mut size = NO_ANSWER;
    let write = writer(kind);
    let error = unsafe {
        write(
            record,
            source.as_ptr(),
            source.len(),
            rows.as_ptr(),
            rows.len(),
            body.as_ptr(),
            body.len(),
            out.as_mut_ptr(),
            out.len(),
            ceiling,
            &mut size,
        )
    };
    Written { error: given(&format_args!("the writer of {kind:?}"), error), size }
}

/// A value of the reference as the interface's struct of the same layout.
fn lent<T, U>(value: &mut T) -> *mut U {
    const { assert!(size_of::<T>() == size_of::<U>() && align_of::<T>() == align_of::<U>()) };
    std::ptr::from_mut(value).cast()
}

pub fn queue_init(queue: &mut Queue) {
    unsafe { c::trpc_queue_init(lent(queue)) }
}

pub fn queue_add(queue: &mut Queue, connection: u32, request: u32, timeout: u32, arrival: u64) -> u32 {
    let error = unsafe { c::trpc_queue_add(lent(queue), connection, request, timeout, arrival) };
    given(&"trpc_queue_add", error)
}

pub fn queue_take(queue: &mut Queue) -> Removed {
    let mut job = NO_JOB;
    let error = unsafe { c::trpc_queue_take(lent(queue), lent(&mut job)) };
    Removed { error: given(&"trpc_queue_take", error), job }
}

pub fn queue_cancel(queue: &mut Queue, connection: u32, request: u32) -> Removed {
    let mut job = NO_JOB;
    let error = unsafe { c::trpc_queue_cancel(lent(queue), connection, request, lent(&mut job)) };
    Removed { error: given(&"trpc_queue_cancel", error), job }
}
