//! The reference's entries that take a ceiling, and faults of each with it. A fault has its entry behind its name: `NAME-by-ENTRY`.

use super::FAULT;
use crate::reference::deframer::State;
use crate::reference::header::{in_range, HIGHEST_CEILING, LARGEST, LOWEST_CEILING, SIZE};
use crate::reference::interface::{self, Deframed, Finished, Numbers, Parsed, Written};
use crate::reference::messages::{Kind, ROW_NUMBERS};
use std::sync::atomic::{AtomicU32, Ordering};

/// The fault of this entry, if it has one.
fn planted(entry: &str) -> Option<&'static str> {
    FAULT.get()?.strip_suffix(entry)?.strip_suffix("-by-")
}

/// The ceiling that an entry with this fault takes its own for: one in the range for one that is not.
fn accepted(fault: &str, ceiling: u32) -> u32 {
    match fault {
        "15-accepted" if ceiling == LOWEST_CEILING - 1 => LOWEST_CEILING,
        "65537-accepted" if ceiling == HIGHEST_CEILING + 1 => HIGHEST_CEILING,
        "ceiling-of-24-bits" => ceiling & 0xFF_FFFF,
        "ceiling-above-31-bits-accepted" if ceiling > i32::MAX as u32 => HIGHEST_CEILING,
        _ => ceiling,
    }
}

/// The ceiling by which an entry with this fault judges at one in the range.
fn judging(fault: &str, ceiling: u32) -> u32 {
    match fault {
        "ceiling-ignored" | "19-at-65536" => HIGHEST_CEILING,
        "ceiling-of-whole-16s" => ceiling.next_multiple_of(16),
        "total-below-the-ceiling" => ceiling.max(LOWEST_CEILING + 1) - 1,
        _ => ceiling,
    }
}

/// The ceiling that an entry with this fault goes by.
fn gone_by(fault: &str, ceiling: u32) -> u32 {
    match accepted(fault, ceiling) {
        ceiling if in_range(ceiling) => judging(fault, ceiling),
        ceiling => ceiling,
    }
}

/// Changes the first byte, if there is one.
fn touch(bytes: &mut [u8]) {
    bytes.iter_mut().take(1).for_each(|byte| *byte ^= 0xFF);
}

pub fn header_check(bytes: &[u8], ceiling: u32) -> u32 {
    match planted("check") {
        Some("41-after-9") if bytes.len() != SIZE => 9,
        Some(fault) => interface::header_check(bytes, gone_by(fault, ceiling)),
        None => interface::header_check(bytes, ceiling),
    }
}

/// Nothing where the outputs are left as they were, with 41.
pub fn header_parse(bytes: &[u8], ceiling: u32) -> Option<Parsed> {
    Some(match planted("parse") {
        Some("41-after-9") if bytes.len() != SIZE => Parsed { error: 9, ..Parsed::default() },
        Some("outputs-left-with-41") if !in_range(ceiling) => return None,
        Some("total-told-with-6") if in_range(ceiling) => {
            let told = interface::header_parse(bytes, HIGHEST_CEILING);
            Parsed { error: interface::header_check(bytes, ceiling), ..told }
        }
        Some(fault) => interface::header_parse(bytes, gone_by(fault, ceiling)),
        None => interface::header_parse(bytes, ceiling),
    })
}

/// Bytes as the start of a buffer that is long enough for every ceiling.
fn long(buffer: &[u8]) -> Vec<u8> {
    let mut long = buffer.to_vec();
    long.resize(LARGEST.max(buffer.len()), 0);
    long
}

/// What the deframer or the end with this fault answers before it looks at the state and the piece.
fn misused(fault: &str, state: State, buffer: &[u8], ceiling: u32) -> Option<u32> {
    let known = || interface::finish(state, &long(buffer), HIGHEST_CEILING).error != 2;
    if !in_range(ceiling) {
        return Some(match fault {
            "41-after-1" if buffer.len() < ceiling as usize => 1,
            "41-after-2" if !known() => 2,
            "41-after-a-held-refusal" if (3..=7).contains(&state.error) => state.error,
            _ => 41,
        });
    }
    let asked = if fault == "65536-asked-of-the-buffer" { LARGEST } else { ceiling as usize };
    if buffer.len() < asked {
        return Some(1);
    }
    (fault == "refusal-not-judged-again" && state == State { held: SIZE, error: 6 }).then_some(6)
}

/// The ceiling of the call of the deframer before, but for those out of the range.
static BEFORE: AtomicU32 = AtomicU32::new(HIGHEST_CEILING);

/// The ceiling by which an entry with this fault judges what is held.
fn judging_held(fault: &str, state: State, buffer: &[u8], ceiling: u32, before: u32) -> u32 {
    match fault {
        "state-judged-at-65536" => HIGHEST_CEILING,
        "16-held-judged-at-65536" if state.held == SIZE => HIGHEST_CEILING,
        "ceiling-of-the-call-before" => before,
        "total-against-the-buffer" => buffer.len().min(LARGEST) as u32,
        _ => judging(fault, ceiling),
    }
}

/// The ceiling by which the deframer with this fault judges a header that the piece makes whole.
fn judging_piece(fault: &str, buffer: &[u8], ceiling: u32, before: u32) -> u32 {
    match fault {
        "ceiling-ignored-in-the-piece" => HIGHEST_CEILING,
        "ceiling-of-the-call-before" => before,
        "total-against-the-buffer" => buffer.len().min(LARGEST) as u32,
        _ => judging(fault, ceiling),
    }
}

pub fn deframe(state: State, buffer: &mut [u8], ceiling: u32, piece: &[u8]) -> Deframed {
    let Some(fault) = planted("deframe") else {
        return interface::deframe(state, buffer, ceiling, piece);
    };
    let ceiling = accepted(fault, ceiling);
    let before = if in_range(ceiling) { BEFORE.swap(ceiling, Ordering::Relaxed) } else { ceiling };
    let mut refused = Deframed { error: 0, next: state, taken: 0, size: 0 };
    if let Some(error) = misused(fault, state, buffer, ceiling) {
        refused.error = error;
        match (fault, error) {
            ("state-fresh-after-41", 41) => refused.next = State::default(),
            ("41-in-the-state", 41) => refused.next.error = 41,
            ("taken-with-41", 41) => refused.taken = piece.len(),
            ("buffer-touched-with-41", 41) => touch(buffer),
            _ => {}
        }
        return refused;
    }
    let mut whole = long(buffer);
    let held_by = judging_held(fault, state, buffer, ceiling, before);
    refused.error = interface::finish(state, &whole, held_by).error;
    if refused.error != 0 {
        return refused;
    }
    let by = if state.held < SIZE { judging_piece(fault, buffer, ceiling, before) } else { held_by };
    let answer = interface::deframe(state, &mut whole, by, piece);
    buffer.copy_from_slice(&whole[..buffer.len()]);
    let past = ceiling as usize;
    if fault == "byte-past-the-ceiling" && answer.size == past && past < LARGEST.min(buffer.len()) {
        buffer[past] = 0;
    }
    answer
}

pub fn finish(state: State, buffer: &[u8], ceiling: u32) -> Finished {
    let Some(fault) = planted("finish") else {
        return interface::finish(state, buffer, ceiling);
    };
    let ceiling = accepted(fault, ceiling);
    match misused(fault, state, buffer, ceiling) {
        Some(41) if fault == "held-told-with-41" => Finished { error: 41, short_by: state.held },
        Some(error) => Finished { error, short_by: 0 },
        None => interface::finish(state, &long(buffer), judging_held(fault, state, buffer, ceiling, ceiling)),
    }
}

pub fn read(kind: Kind, frame: &[u8], ceiling: u32, rows: &mut [u32], record: &mut Numbers) -> u32 {
    let Some(fault) = planted("read") else {
        return interface::read(kind, frame, ceiling, rows, record);
    };
    let before = *record;
    let by = match fault {
        "total-against-the-frame" if in_range(ceiling) => frame.len().clamp(SIZE, LARGEST) as u32,
        "ceiling-ignored-in-close" if kind == Kind::Close && in_range(ceiling) => HIGHEST_CEILING,
        _ => gone_by(fault, ceiling),
    };
    let code = interface::read(kind, frame, by, rows, record);
    match (fault, code) {
        ("41-after-16", 41) if rows.len() < ROW_NUMBERS => return 16,
        ("41-after-a-short-frame", 41) if frame.len() < SIZE => return 9,
        ("rows-cleared-with-41", 41) => rows.iter_mut().take(ROW_NUMBERS).for_each(|number| *number = 0),
        ("record-left-with-41", 41) => *record = before,
        ("9-over-the-ceiling", 6) if frame.len() > ceiling as usize => return 9,
        _ => {}
    }
    code
}

pub fn write(
    kind: Kind,
    record: &Numbers,
    source: &[u8],
    rows: &[u32],
    body: &[u8],
    out: &mut [u8],
    ceiling: u32,
) -> Written {
    let right = |ceiling, out: &mut [u8]| interface::write(kind, record, source, rows, body, out, ceiling);
    let Some(fault) = planted("write") else {
        return right(ceiling, out);
    };
    let refused = |error| Written { error, size: 0 };
    // The answer at the highest ceiling, with room for every frame.
    let highest = right(HIGHEST_CEILING, &mut vec![0; LARGEST]);
    let over = in_range(ceiling) && highest.size > ceiling as usize;
    match fault {
        "41-after-18" if highest.error == 18 => refused(18),
        "41-after-all-grounds" if matches!(highest.error, 15 | 17 | 18) => highest,
        "41-after-27" if highest.size > out.len() && !in_range(ceiling) => refused(27),
        "27-before-19" if highest.size > out.len() && over => refused(27),
        "ceiling-asked-of-the-output" if highest.error == 0 && !over && out.len() < ceiling as usize => refused(27),
        // A bound of the frame's size is taken for the size.
        "19-from-a-bound" if kind == Kind::Close && highest.size > 0 && ceiling as usize == highest.size + 66 => {
            refused(19)
        }
        "body-not-counted" if over && highest.size - body.len() <= ceiling as usize => right(HIGHEST_CEILING, out),
        "ceiling-ignored-in-close" if kind == Kind::Close && over => right(HIGHEST_CEILING, out),
        "size-told-with-19" if over => Written { error: 19, size: highest.size },
        "output-touched-with-19" if over => {
            touch(out);
            refused(19)
        }
        "output-touched-with-41" if !in_range(ceiling) => {
            touch(out);
            refused(41)
        }
        fault => right(gone_by(fault, ceiling), out),
    }
}
