//! Without the feature `library`: the reference under the library's own signatures, and faults that can be put into it
//! (`--fault NAME`), to see that each is found and how small the shrinker makes its input. Those with the ceiling are in
//! `ceilings`.

#![allow(
    clippy::too_many_arguments,
    unsafe_op_in_unsafe_fn,
    reason = "the signatures are the library's, and so is what they ask of a caller"
)]

use crate::reference::deframer::State;
use crate::reference::header;
use crate::reference::interface::{self, Deframed, Finished, Numbers, Written, FIRST_FIELD, VERSION};
use crate::reference::messages::Kind;
use crate::reference::queue::{Job, Queue};
use crate::reference::writer::header_message;
use crate::reference::RETIRED;
use std::slice::{from_raw_parts, from_raw_parts_mut};
use std::sync::atomic::{AtomicU32, Ordering};
use std::sync::OnceLock;

mod ceilings;

pub static FAULT: OnceLock<String> = OnceLock::new();

/// Each fault, and a family whose inputs show it.
pub const FAULTS: [(&str, &str); 127] = [
    ("header-size-of-total", "header"),
    ("id-of-16-bits", "header"),
    ("taken-one-less", "every two cuts"),
    ("held-forgotten", "every split"),
    ("byte-behind-the-frame", "every split"),
    ("last-byte-of-two-parts", "ends of frames"),
    ("next-frame-taken", "several frames"),
    ("timeout-of-seven-bits", "short messages"),
    ("close-read-as-feedback", "short messages"),
    ("last-number-kept", "messages"),
    ("first-value-kept", "messages"),
    ("written-past-the-frame", "records"),
    ("minus-one-in-five-bytes", "records"),
    ("written-past-at-a-bound", "outputs"),
    ("most-rows-refused", "rows"),
    ("keys-by-last-bytes", "keys"),
    ("far-keys-not-compared", "keys"),
    ("due-in-32-bits", "queue calls"),
    ("zero-as-it-was", "queues"),
    ("retired-number-of-check", "header"),
    ("retired-number-of-parse", "header"),
    ("retired-number-of-deframe", "states"),
    ("retired-number-of-finish", "states"),
    ("retired-number-of-read", "damaged frames"),
    ("retired-number-of-write", "largest frames"),
    ("retired-number-of-a-long-message", "largest frames"),
    ("retired-number-of-add", "queue calls"),
    ("retired-number-of-take", "queue calls"),
    ("retired-number-of-cancel", "queue calls"),
    ("retired-number-in-state", "streams"),
    ("retired-number-of-a-version", "header"),
    ("retired-number-of-a-last-byte", "last two bytes"),
    ("retired-number-repeated", "standing versions"),
    ("retired-number-at-the-end", "standing versions"),
    ("state-of-8-goes-on", "standing versions"),
    ("frame-of-a-version-not-known", "states"),
    ("parsed-version-of-byte-16", "header"),
    ("parsed-version-of-a-refusal", "last two bytes"),
    ("version-of-byte-16", "messages"),
    ("version-never-read", "last two bytes"),
    ("version-of-seven-bits", "last two bytes"),
    ("version-of-the-message", "messages"),
    ("version-of-the-frame-before", "every two cuts"),
    ("byte-15-of-the-frame-before", "every two cuts"),
    ("version-of-a-refusal", "damaged frames"),
    ("byte-16-beside-the-version", "messages"),
    ("version-written-to-byte-16", "round trips"),
    ("version-never-written", "written versions"),
    ("version-written-is-the-message's", "written versions"),
    ("version-above-255-as-255", "records"),
    ("byte-16-written-as-read", "written again"),
    ("ceiling-ignored-by-check", "header"),
    ("15-accepted-by-check", "bad ceilings"),
    ("65537-accepted-by-check", "header"),
    ("ceiling-of-24-bits-by-check", "bad ceilings"),
    ("ceiling-above-31-bits-accepted-by-check", "last two bytes"),
    ("ceiling-of-whole-16s-by-check", "header"),
    ("total-below-the-ceiling-by-check", "equal sizes"),
    ("41-after-9-by-check", "bad ceilings"),
    ("ceiling-ignored-by-parse", "least ceiling"),
    ("15-accepted-by-parse", "header"),
    ("65537-accepted-by-parse", "bad ceilings"),
    ("total-below-the-ceiling-by-parse", "header"),
    ("41-after-9-by-parse", "header"),
    ("outputs-left-with-41-by-parse", "last two bytes"),
    ("total-told-with-6-by-parse", "equal sizes"),
    ("ceiling-ignored-by-deframe", "streams"),
    ("ceiling-ignored-in-the-piece-by-deframe", "every split"),
    ("15-accepted-by-deframe", "standing versions"),
    ("65537-accepted-by-deframe", "states"),
    ("ceiling-of-24-bits-by-deframe", "bad ceilings"),
    ("ceiling-of-whole-16s-by-deframe", "streams"),
    ("total-below-the-ceiling-by-deframe", "ends of frames"),
    ("41-after-1-by-deframe", "bad ceilings"),
    ("41-after-2-by-deframe", "states"),
    ("41-after-a-held-refusal-by-deframe", "bad ceilings"),
    ("state-fresh-after-41-by-deframe", "switched ceilings"),
    ("41-in-the-state-by-deframe", "several frames"),
    ("taken-with-41-by-deframe", "every two cuts"),
    ("buffer-touched-with-41-by-deframe", "bad ceilings"),
    ("65536-asked-of-the-buffer-by-deframe", "round trips"),
    ("state-judged-at-65536-by-deframe", "switched ceilings"),
    ("16-held-judged-at-65536-by-deframe", "switched ceilings"),
    ("refusal-not-judged-again-by-deframe", "switched ceilings"),
    ("ceiling-of-the-call-before-by-deframe", "switched ceilings"),
    ("total-against-the-buffer-by-deframe", "equal sizes"),
    ("byte-past-the-ceiling-by-deframe", "equal sizes"),
    ("ceiling-ignored-by-finish", "every two cuts"),
    ("15-accepted-by-finish", "bad ceilings"),
    ("65537-accepted-by-finish", "states"),
    ("total-below-the-ceiling-by-finish", "equal sizes"),
    ("41-after-1-by-finish", "bad ceilings"),
    ("41-after-2-by-finish", "bad ceilings"),
    ("41-after-a-held-refusal-by-finish", "states"),
    ("held-told-with-41-by-finish", "states"),
    ("65536-asked-of-the-buffer-by-finish", "least ceiling"),
    ("refusal-not-judged-again-by-finish", "switched ceilings"),
    ("total-against-the-buffer-by-finish", "ends of frames"),
    ("ceiling-ignored-by-read", "short messages"),
    ("ceiling-ignored-in-close-by-read", "messages"),
    ("15-accepted-by-read", "random bytes"),
    ("65537-accepted-by-read", "damaged frames"),
    ("ceiling-of-24-bits-by-read", "bad ceilings"),
    ("total-below-the-ceiling-by-read", "several frames"),
    ("total-against-the-frame-by-read", "equal sizes"),
    ("41-after-16-by-read", "lent slices"),
    ("41-after-a-short-frame-by-read", "bad ceilings"),
    ("rows-cleared-with-41-by-read", "messages"),
    ("record-left-with-41-by-read", "last two bytes"),
    ("9-over-the-ceiling-by-read", "damaged frames"),
    ("19-at-65536-by-write", "long frames"),
    ("ceiling-ignored-in-close-by-write", "records"),
    ("15-accepted-by-write", "least ceiling"),
    ("65537-accepted-by-write", "largest frames"),
    ("ceiling-of-24-bits-by-write", "bad ceilings"),
    ("ceiling-of-whole-16s-by-write", "round trips"),
    ("total-below-the-ceiling-by-write", "written again"),
    ("19-from-a-bound-by-write", "outputs"),
    ("41-after-18-by-write", "keys"),
    ("41-after-all-grounds-by-write", "grounds"),
    ("41-after-27-by-write", "written versions"),
    ("27-before-19-by-write", "records"),
    ("ceiling-asked-of-the-output-by-write", "written versions"),
    ("output-touched-with-41-by-write", "rows"),
    ("output-touched-with-19-by-write", "round trips"),
    ("size-told-with-19-by-write", "rows"),
    ("body-not-counted-by-write", "round trips"),
];

fn fault(name: &str) -> bool {
    let Some(planted) = FAULT.get() else {
        return false;
    };
    debug_assert!(FAULTS.iter().any(|(fault, _)| *fault == name));
    planted == name
}

/// What an entry returns of its error code: with its fault of this name, a retired number in place of any other.
fn returned(code: u32, name: &str) -> u32 {
    if code != 0 && fault(name) {
        RETIRED[code as usize % RETIRED.len()]
    } else {
        code
    }
}

pub unsafe fn trpc_header_check(bytes: *const u8, len: usize, ceiling: u32) -> u32 {
    let bytes = from_raw_parts(bytes, len);
    let code = ceilings::header_check(bytes, ceiling);
    if fault("header-size-of-total") && code == 7 {
        let fixed = header::first(bytes);
        if fixed.data_type == header::UNARY && fixed.header_size <= fixed.total {
            return 0;
        }
    }
    // The rule of document 01, or a half of it: bytes 15 and 16 are 0.
    if code == 0
        && (fault("retired-number-of-a-version") && bytes[14] != 0
            || fault("retired-number-of-a-last-byte") && bytes[15] != 0)
    {
        return 8;
    }
    returned(code, "retired-number-of-check")
}

pub unsafe fn trpc_header_parse(
    bytes: *const u8,
    len: usize,
    ceiling: u32,
    frame_type: *mut u32,
    total: *mut usize,
    header_size: *mut usize,
    id: *mut u32,
    header_version: *mut u8,
) -> u32 {
    let bytes = from_raw_parts(bytes, len);
    let Some(answer) = ceilings::header_parse(bytes, ceiling) else {
        return 41;
    };
    *frame_type = answer.frame_type;
    *total = answer.total;
    *header_size = answer.header_size;
    *id = if fault("id-of-16-bits") { answer.id & 0xFFFF } else { answer.id };
    *header_version = match answer.error {
        0 if fault("parsed-version-of-byte-16") => bytes[15],
        6 if fault("parsed-version-of-a-refusal") => bytes[14],
        _ => answer.version,
    };
    returned(answer.error, "retired-number-of-parse")
}

/// Whether the state is one that held 8 by document 01's rule: 16 bytes that are good but for the last two.
fn held_8(state: State, buffer: &[u8], ceiling: u32) -> bool {
    let judged = header::in_range(ceiling) && buffer.len() >= ceiling as usize;
    let good = || header::first(buffer).error(ceiling) == 0 && buffer[14..header::SIZE] != [0, 0];
    judged && state == State { held: header::SIZE, error: 8 } && good()
}

pub unsafe fn trpc_deframe(
    held: *mut usize,
    error: *mut u32,
    buffer: *mut u8,
    buffer_len: usize,
    ceiling: u32,
    piece: *const u8,
    piece_len: usize,
    taken: *mut usize,
    size: *mut usize,
) -> u32 {
    let state = State { held: *held, error: *error };
    let buffer = from_raw_parts_mut(buffer, buffer_len);
    let byte_15 = buffer.get(14).copied();
    let piece = from_raw_parts(piece, piece_len);
    let mut answer = ceilings::deframe(state, buffer, ceiling, piece);
    if fault("retired-number-repeated") && held_8(state, buffer, ceiling) {
        answer.error = 8;
    }
    if fault("state-of-8-goes-on") && held_8(state, buffer, ceiling) {
        answer = interface::deframe(State { error: 0, ..state }, buffer, ceiling, piece);
    }
    if fault("frame-of-a-version-not-known") && state.held > header::SIZE && answer.error == 0 && byte_15 != Some(0) {
        answer = Deframed { error: 2, next: state, taken: 0, size: 0 };
    }
    if fault("byte-15-of-the-frame-before") && state.held == 14 && answer.taken > 0 {
        buffer[14] = byte_15.unwrap();
    }
    if fault("taken-one-less") && state.held > 0 && answer.size > 20 {
        answer.taken -= 1;
    }
    if fault("held-forgotten") && state.held == 15 && answer.next.held > 15 && answer.error == 0 {
        answer.next.held -= 1;
    }
    if fault("byte-behind-the-frame") && answer.size > 17 && answer.size < buffer_len {
        buffer[answer.size] ^= 0xFF;
    }
    if fault("last-byte-of-two-parts") && answer.size == 8_192 && state.held == 17 {
        buffer[answer.size - 1] ^= 0xFF;
    }
    if fault("next-frame-taken") && answer.size == 4_097 && answer.taken + header::SIZE == piece_len {
        answer.taken = piece_len;
    }
    if fault("retired-number-in-state") && answer.error > 2 {
        answer.next.error = RETIRED[answer.error as usize % RETIRED.len()];
    }
    *held = answer.next.held;
    *error = answer.next.error;
    *taken = answer.taken;
    *size = answer.size;
    returned(answer.error, "retired-number-of-deframe")
}

pub unsafe fn trpc_finish(
    held: usize,
    error: u32,
    buffer: *const u8,
    buffer_len: usize,
    ceiling: u32,
    short_by: *mut usize,
) -> u32 {
    let (state, buffer) = (State { held, error }, from_raw_parts(buffer, buffer_len));
    let mut end = ceilings::finish(state, buffer, ceiling);
    if fault("retired-number-at-the-end") && held_8(state, buffer, ceiling) {
        end = Finished { error: 8, short_by: 0 };
    }
    *short_by = end.short_by;
    returned(end.error, "retired-number-of-finish")
}

pub type Reader = unsafe fn(*const u8, usize, u32, *mut u32, usize, *mut Numbers) -> u32;

#[rustfmt::skip]
pub type Writer = unsafe fn(
    *const Numbers, *const u8, usize, *const u32, usize, *const u8, usize, *mut u8, usize, u32, *mut usize,
) -> u32;

/// The version of the frame that was read last.
static READ_LAST: AtomicU32 = AtomicU32::new(0);

/// Puts another number where the version is, by its fault.
fn mistake_version(kind: Kind, frame: &[u8], code: u32, record: &mut Numbers) {
    let version = &mut record[VERSION];
    let before = READ_LAST.swap(*version, Ordering::Relaxed);
    if code != 0 {
        if fault("version-of-a-refusal") && code != 16 && code != 41 && frame.len() > 14 {
            *version = frame[14].into();
        }
        return;
    }
    if fault("version-of-byte-16") {
        *version = frame[15].into();
    }
    if fault("version-never-read") {
        *version = 0;
    }
    if fault("version-of-seven-bits") {
        *version &= 0x7F;
    }
    if fault("version-of-the-frame-before") {
        *version = before;
    }
    if fault("byte-16-beside-the-version") {
        *version |= u32::from(frame[15]) << 8;
    }
    if fault("version-of-the-message") && kind.is_unary() {
        record[VERSION] = record[FIRST_FIELD];
    }
}

fn read(kind: Kind, frame: &[u8], ceiling: u32, rows: &mut [u32], record: &mut Numbers) -> u32 {
    let last = rows.get(255).copied();
    let code = ceilings::read(kind, frame, ceiling, rows, record);
    mistake_version(kind, frame, code, record);
    if fault("timeout-of-seven-bits") && kind == Kind::Request {
        record[11] &= 0x7F;
    }
    if fault("close-read-as-feedback") && kind == Kind::Close && code == 0 {
        record[9..VERSION].fill(0);
    }
    if fault("last-number-kept") && code == 13 {
        rows[255] = last.unwrap();
    }
    if fault("first-value-kept") && code == 0 && record[1] == 3 {
        rows[2] = 0;
    }
    returned(code, "retired-number-of-read")
}

/// Whether this is true of the keys of two rows that are at least so far apart.
fn two_keys(record: &Numbers, source: &[u8], rows: &[u32], apart: usize, is: impl Fn(&[u8], &[u8]) -> bool) -> bool {
    let key = |row: &[u32]| source.get(row[0] as usize..row[0] as usize + row[1] as usize).unwrap_or(&[]);
    let keys: Vec<&[u8]> = rows.chunks_exact(4).take(record[1] as usize).map(key).collect();
    (apart..keys.len()).any(|later| keys[..=later - apart].iter().any(|earlier| is(earlier, keys[later])))
}

/// Writes other last two bytes of the fixed header, by their fault.
fn miswrite_version(kind: Kind, record: &Numbers, source: &[u8], out: &mut [u8]) {
    let last_two = &mut out[14..header::SIZE];
    if fault("version-written-to-byte-16") {
        last_two.swap(0, 1);
    }
    if fault("version-never-written") {
        last_two[0] = 0;
    }
    if fault("version-written-is-the-message's") && kind.is_unary() {
        last_two[0] = record[FIRST_FIELD] as u8;
    }
    if fault("version-above-255-as-255") {
        last_two[0] = record[VERSION].min(255) as u8;
    }
    // The source of a record that was read is its frame.
    if fault("byte-16-written-as-read") && source.len() >= header::SIZE && source[..2] == [0x09, 0x30] {
        last_two[1] = source[15];
    }
}

fn write(
    kind: Kind,
    record: &Numbers,
    source: &[u8],
    rows: &[u32],
    body: &[u8],
    out: &mut [u8],
    ceiling: u32,
) -> Written {
    let mut answer = ceilings::write(kind, record, source, rows, body, out, ceiling);
    if answer.error == 0 {
        miswrite_version(kind, record, source, out);
    }
    if fault("written-past-the-frame") && answer.size > 40 && answer.size < out.len() {
        out[answer.size] ^= 0xFF;
    }
    if fault("written-past-at-a-bound") && kind == Kind::Request && answer.size > 0 && out.len() == answer.size + 66 {
        out[answer.size] ^= 0xFF;
    }
    if fault("most-rows-refused") && kind == Kind::Close && answer.size > 0 && record[1] == 64 {
        answer = Written { error: 19, size: 0 };
    }
    let one_byte_apart =
        |one: &[u8], other: &[u8]| one.len() == other.len() && one.len() > 15 && one[1..] == other[1..];
    if fault("keys-by-last-bytes") && answer.error == 0 && two_keys(record, source, rows, 1, one_byte_apart) {
        answer = Written { error: 18, size: 0 };
    }
    let equal = |one: &[u8], other: &[u8]| one == other;
    if fault("far-keys-not-compared") && answer.error == 18 && two_keys(record, source, rows, 48, equal) {
        answer.error = 27;
    }
    if fault("minus-one-in-five-bytes") && kind == Kind::Response && answer.size > 0 && record[12] > i32::MAX as u32 {
        answer.size -= 5;
    }
    if fault("retired-number-of-a-long-message") && answer.error == 19 {
        let message = header_message(&interface::input(kind, record, source, rows, body));
        if message.len() > 65_535 && header::SIZE + message.len() + body.len() <= out.len() {
            answer.error = 20;
        }
    }
    answer
}

macro_rules! readers {
    ($($name:ident $kind:ident)*) => { $(
        pub unsafe fn $name(
            frame: *const u8,
            frame_len: usize,
            ceiling: u32,
            rows: *mut u32,
            rows_len: usize,
            record: *mut Numbers,
        ) -> u32 {
            let (frame, rows) = (from_raw_parts(frame, frame_len), from_raw_parts_mut(rows, rows_len));
            read(Kind::$kind, frame, ceiling, rows, &mut *record)
        }
    )* };
}

macro_rules! writers {
    ($($name:ident $kind:ident)*) => { $(
        pub unsafe fn $name(
            record: *const Numbers,
            source: *const u8,
            source_len: usize,
            rows: *const u32,
            rows_len: usize,
            body: *const u8,
            body_len: usize,
            out: *mut u8,
            out_len: usize,
            ceiling: u32,
            size: *mut usize,
        ) -> u32 {
            let (source, rows) = (from_raw_parts(source, source_len), from_raw_parts(rows, rows_len));
            let (body, out) = (from_raw_parts(body, body_len), from_raw_parts_mut(out, out_len));
            let answer = write(Kind::$kind, &*record, source, rows, body, out, ceiling);
            *size = answer.size;
            returned(answer.error, "retired-number-of-write")
        }
    )* };
}

readers! {
    trpc_read_request Request
    trpc_read_response Response
    trpc_read_init Init
    trpc_read_data Data
    trpc_read_feedback Feedback
    trpc_read_close Close
}

writers! {
    trpc_write_request Request
    trpc_write_response Response
    trpc_write_init Init
    trpc_write_data Data
    trpc_write_feedback Feedback
    trpc_write_close Close
}

pub unsafe fn trpc_queue_init(queue: *mut Queue) {
    interface::queue_init(&mut *queue);
}

pub unsafe fn trpc_queue_add(queue: *mut Queue, connection: u32, request: u32, timeout: u32, arrival: u64) -> u32 {
    let queue = &mut *queue;
    let place = queue.count;
    let before = queue.jobs.get(place).map(|job| job.zero);
    let error = interface::queue_add(queue, connection, request, timeout, arrival);
    if fault("zero-as-it-was") && error == 0 {
        queue.jobs[place].zero = before.unwrap();
    }
    returned(error, "retired-number-of-add")
}

pub unsafe fn trpc_queue_take(queue: *mut Queue, removed: *mut Job) -> u32 {
    let queue = &mut *queue;
    let due = |job: &Job| (job.arrival as u32).wrapping_add(job.timeout);
    let narrow =
        queue.jobs[..queue.count.min(64)].iter().filter(|job| job.timeout != 0).min_by_key(|job| due(job)).copied();
    let answer = match narrow {
        Some(job) if fault("due-in-32-bits") => interface::queue_cancel(queue, job.connection, job.request),
        _ => interface::queue_take(queue),
    };
    *removed = answer.job;
    returned(answer.error, "retired-number-of-take")
}

pub unsafe fn trpc_queue_cancel(queue: *mut Queue, connection: u32, request: u32, removed: *mut Job) -> u32 {
    let answer = interface::queue_cancel(&mut *queue, connection, request);
    *removed = answer.job;
    returned(answer.error, "retired-number-of-cancel")
}
