//! The reference itself: document 01's checked examples at 65,536, document 02's last two bytes of the fixed header and its
//! ceilings, and the frames that protoc wrote (crates/test_records, crates/test_writes).

use super::deframer::{deframe, finish, uncut, Answer, End, State};
use super::header::{self, HIGHEST_CEILING, LARGEST};
use super::interface::{self, read, write, Numbers, Parsed, Written, FIRST_FIELD, RECORD_NUMBERS, VERSION};
use super::messages::Kind;
use super::queue::{Job, Queue};
use super::{IN_USE, RETIRED};
use crate::generate::frame;

fn judge(bytes: &[u8]) -> u32 {
    header::judge(bytes, HIGHEST_CEILING)
}

/// The error code and the record of a frame.
fn record(kind: Kind, frame: &[u8]) -> (u32, Numbers) {
    let mut record = [9; RECORD_NUMBERS];
    let error = read(kind, frame, HIGHEST_CEILING, &mut [9; 256], &mut record);
    (error, record)
}

fn message(kind: Kind, message: &[u8], body: &[u8]) -> (u32, Numbers) {
    record(kind, &frame(kind, 7, message, body))
}

const ID_7: [u8; 16] = [0x09, 0x30, 0, 0, 0, 0, 0, 0x10, 0, 0, 0, 0, 0, 7, 0, 0];

fn with(changes: &[(usize, u8)]) -> [u8; 16] {
    let mut header = ID_7;
    for (place, byte) in changes {
        header[*place] = *byte;
    }
    header
}

#[test]
fn headers() {
    assert_eq!(uncut(&[], HIGHEST_CEILING), (vec![], End::Clean));
    assert_eq!(judge(&ID_7), 0);
    assert_eq!(record(Kind::Request, &ID_7), (0, std::array::from_fn(|place| if place == 0 { 7 } else { 0 })));
    assert_eq!(judge(&with(&[(7, 15)])), 6);
    assert_eq!(judge(&with(&[(5, 1), (7, 0)])), 0);
    assert_eq!(judge(&with(&[(5, 1), (7, 1)])), 6);
    assert_eq!(judge(&with(&[(0, 0x30), (1, 0x09)])), 3);
    assert_eq!([0, 4, 5].map(|stream_type| judge(&with(&[(2, 1), (3, stream_type)]))), [5, 0, 5]);
    assert_eq!([4, 5].map(|header_size| judge(&with(&[(7, 20), (9, header_size)]))), [0, 7]);
    assert_eq!(judge(&with(&[(2, 1), (3, 2), (7, 20), (9, 1)])), 7);
}

/// "byte 15 the protocol version and only byte 16 reserved"
#[test]
fn last_two_bytes() {
    for (byte_15, byte_16) in [(1, 0), (0, 0xFF), (1, 0xFF), (0xFF, 1)] {
        let header = with(&[(14, byte_15), (15, byte_16)]);
        assert_eq!(judge(&header), 0);
        assert_eq!(interface::header_parse(&header, HIGHEST_CEILING).version, byte_15);
        let (error, record) = record(Kind::Request, &header);
        assert_eq!((error, record[0], record[VERSION]), (0, 7, byte_15.into()));
        // "the writer writes the version given and 0 in byte 16"
        let mut out = [0xA5; 16];
        assert_eq!(write(Kind::Request, &record, &header, &[], &[], &mut out, HIGHEST_CEILING).size, 16);
        assert_eq!(out, with(&[(14, byte_15)]));
    }
    // "A refused record .. is all zero"
    let refused = with(&[(7, 15), (14, 1)]);
    assert_eq!(interface::header_parse(&refused, HIGHEST_CEILING).version, 0);
    assert_eq!(record(Kind::Request, &refused), (6, [0; RECORD_NUMBERS]));
    // A frame of 24 bytes and version 1: "a state that holds 8 is not known"; one that holds 20 of its bytes is.
    let mut buffer = vec![0; LARGEST];
    buffer[..16].copy_from_slice(&with(&[(7, 24), (14, 1)]));
    assert_eq!(finish(State { held: 20, error: 0 }, &buffer, HIGHEST_CEILING), End::Short(20));
    let state = State { held: 16, error: 8 };
    assert_eq!(finish(state, &buffer, HIGHEST_CEILING), End::Refused(2));
    let step = deframe(state, &mut buffer, HIGHEST_CEILING, &[1]);
    assert_eq!((step.answer, step.next, step.taken), (Answer::Refused(2), state, 0));
}

#[test]
fn messages() {
    assert_eq!(message(Kind::Feedback, &[0x08, 0xAC, 0x02], &[]).1[8], 300);
    assert_eq!(message(Kind::Request, &[0x20, 0x88, 0x27], &[]).1[11], 5_000);
    assert_eq!(message(Kind::Request, &[0x20, 0x05, 0x20, 0x07], &[]).1[11], 7);
    let nine_ff = |last| [&[0x20][..], &[0xFF; 9], &[last]].concat();
    assert_eq!(message(Kind::Response, &nine_ff(1), &[]).1[11] as i32, -1);
    assert_eq!(message(Kind::Request, &nine_ff(2), &[]).0, 10);
    let attached = message(Kind::Response, &[0x60, 0x05], &[1; 5]).1;
    assert_eq!((attached[18], &attached[6..8]), (5, &[18, 5][..]));
    assert_eq!(message(Kind::Response, &[0x60, 0x05], &[1; 4]).0, 15);
    assert_eq!(message(Kind::Response, &[0x58, 0x05], &[]), message(Kind::Response, &[0x58, 0x00], &[]));
    assert_eq!(message(Kind::Request, &[0x7B, 0x7C], &[]).0, 0);
    assert_eq!(message(Kind::Request, &[0x7B, 0x84, 0x01], &[]).0, 11);
}

#[test]
fn listing() {
    let bytes = [frame(Kind::Feedback, 5, &[0x08, 0xAC, 0x02], &[]), vec![0x09]].concat();
    let (frames, end) = uncut(&bytes, HIGHEST_CEILING);
    assert_eq!((frames.len(), frames[0].len(), end), (1, 19, End::Short(1)));
    // "a stream of that one byte must end short"
    let mut buffer = vec![0; LARGEST];
    let step = deframe(State::default(), &mut buffer, HIGHEST_CEILING, &[0x30]);
    assert_eq!((step.answer, step.taken), (Answer::More, 1));
    assert_eq!(finish(step.next, &buffer, HIGHEST_CEILING), End::Short(1));
}

/// "The header judge is now told a ceiling, from 16 to 65,536"; "41 ceiling outside the range, before all others"
#[test]
fn ceilings() {
    let of_size = |size: u32| {
        let mut header = ID_7;
        header[4..8].copy_from_slice(&size.to_be_bytes());
        header
    };
    for (ceiling, total, error) in [
        (15, 16, 41),
        (16, 15, 6),
        (16, 16, 0),
        (16, 17, 6),
        (4_096, 4_096, 0),
        (4_096, 4_097, 6),
        (65_535, 65_536, 6),
        (65_536, 65_536, 0),
        (65_536, 65_537, 6),
        (65_537, 65_537, 41),
    ] {
        assert_eq!(header::judge(&of_size(total), ceiling), error, "{ceiling} {total}");
    }
    for ceiling in [0, 15, 65_537, u32::MAX] {
        assert_eq!(header::judge(&[], ceiling), 41);
        assert_eq!(interface::header_parse(&ID_7, ceiling), Parsed { error: 41, ..Parsed::default() });
        // "with the state as given and nothing taken"
        let state = State { held: 99, error: 8 };
        let step = deframe(state, &mut [], ceiling, &ID_7);
        assert_eq!((step.answer, step.next, step.taken), (Answer::Refused(41), state, 0));
        assert_eq!(finish(state, &[], ceiling), End::Refused(41));
        let (mut rows, mut record) = ([9; 255], [9; RECORD_NUMBERS]);
        assert_eq!(read(Kind::Request, &[], ceiling, &mut rows, &mut record), 41);
        assert_eq!((rows, record), ([9; 255], [0; RECORD_NUMBERS]));
        record[1] = 65;
        let mut out = [9; 3];
        let written = write(Kind::Feedback, &record, &[], &[], &[1], &mut out, ceiling);
        assert_eq!((written, out), (Written { error: 41, size: 0 }, [9; 3]));
    }
}

/// "A sensor line should never send more than 4,096 bytes, and its buffer should be that small."
#[test]
fn sensor_line() {
    let largest = frame(Kind::Data, 7, &[], &[1; 4_080]);
    let mut buffer = vec![0xA5; 4_097];
    let step = deframe(State::default(), &mut buffer[..4_096], 4_096, &largest);
    assert_eq!((step.answer, step.taken, buffer[4_096]), (Answer::Frame(4_096), 4_096, 0xA5));
    assert_eq!(buffer[..4_096], largest);
    assert_eq!(deframe(State::default(), &mut buffer[..4_095], 4_096, &largest).answer, Answer::Refused(1));
    assert_eq!(read(Kind::Data, &largest, 4_096, &mut [9; 256], &mut [9; RECORD_NUMBERS]), 0);
    // 6 where the total is over the ceiling, 9 where it is not and the length is another
    let longer = frame(Kind::Data, 7, &[], &[1; 4_081]);
    assert_eq!(read(Kind::Data, &longer, 4_096, &mut [9; 256], &mut [9; RECORD_NUMBERS]), 6);
    let longer = [&largest[..], &[1]].concat();
    assert_eq!(read(Kind::Data, &longer, 4_096, &mut [9; 256], &mut [9; RECORD_NUMBERS]), 9);
    // The output need only hold the frame, and 19 is before 27.
    let record = [0; RECORD_NUMBERS];
    let mut write = |body: usize, out: usize| {
        let answer = write(Kind::Data, &record, &[], &[], &vec![1; body], &mut buffer[..out], 4_096);
        (answer.error, answer.size)
    };
    assert_eq!([write(4_080, 4_096), write(4_080, 4_095)], [(0, 4_096), (27, 0)]);
    assert_eq!([write(4_081, 4_097), write(4_081, 0)], [(19, 0), (19, 0)]);
    assert_eq!(write(4, 20), (0, 20));
}

/// A state is known by the judge at the ceiling of the call.
#[test]
fn another_ceiling() {
    let bytes = frame(Kind::Data, 7, &[], &[1; 4_984]);
    let mut buffer = vec![0; LARGEST];
    let held = deframe(State::default(), &mut buffer, HIGHEST_CEILING, &bytes[..20]).next;
    assert_eq!(finish(held, &buffer, 5_000), End::Short(20));
    assert_eq!(finish(held, &buffer, 4_999), End::Refused(2));
    assert_eq!(deframe(held, &mut buffer, 4_999, &bytes[20..]).answer, Answer::Refused(2));
    assert_eq!(deframe(held, &mut buffer, 5_000, &bytes[20..]).answer, Answer::Frame(5_000));
    let refused = deframe(State::default(), &mut buffer, 4_999, &bytes);
    assert_eq!((refused.answer, refused.taken), (Answer::Refused(6), 16));
    assert_eq!(refused.next, State { held: 16, error: 6 });
    assert_eq!(finish(refused.next, &buffer, 16), End::Refused(6));
    assert_eq!(finish(refused.next, &buffer, 5_000), End::Refused(2));
    assert_eq!((uncut(&bytes, 4_999).1, uncut(&bytes, 5_000).1), (End::Refused(6), End::Clean));
}

#[test]
fn numbers() {
    assert!(IN_USE.is_sorted() && IN_USE.iter().all(|number| !RETIRED.contains(number)));
}

#[test]
fn due_times() {
    let mut queue = Queue::default();
    for (request, timeout) in [(1, 0), (2, 4_000_000_000), (3, 600_000)] {
        queue.add(Job { connection: 1, request, timeout, zero: 0, arrival: 0 }).unwrap();
    }
    let taken: Vec<u32> = std::iter::from_fn(|| queue.take().ok()).map(|job| job.timeout).collect();
    assert_eq!(taken, [600_000, 4_000_000_000, 0]);
    assert_eq!(queue.take(), Err(23));
}

// ---- The frames of crates/test_records: those that protoc wrote, with the values that it was given, and damaged ones. -------

const RECORDS: &str = concat!(env!("CARGO_MANIFEST_DIR"), "/../../crates/test_records");
const WRITES: &str = concat!(env!("CARGO_MANIFEST_DIR"), "/../../crates/test_writes");

enum Prints {
    Number,
    Signed,
    Bytes,
    Mark,
}
use Prints::{Bytes, Mark, Number, Signed};

#[rustfmt::skip]
fn names(kind: Kind) -> (&'static str, Vec<(&'static str, Prints)>) {
    match kind {
        Kind::Request => (
            "request",
            vec![
                ("version", Number), ("call_type", Number), ("request_id", Number), ("timeout", Number), ("caller", Bytes),
                ("callee", Bytes), ("func", Bytes), ("message_type", Number), ("content_type", Number),
                ("content_encoding", Number), ("attachment_size", Number),
            ],
        ),
        Kind::Response => (
            "response",
            vec![
                ("version", Number), ("call_type", Number), ("request_id", Number), ("ret", Signed), ("func_ret", Signed),
                ("error_msg", Bytes), ("message_type", Number), ("content_type", Number), ("content_encoding", Number),
                ("attachment_size", Number),
            ],
        ),
        Kind::Init => (
            "init",
            vec![
                ("request_meta", Mark), ("request_meta.caller", Bytes), ("request_meta.callee", Bytes),
                ("request_meta.func", Bytes), ("request_meta.message_type", Number), ("response_meta", Mark),
                ("response_meta.ret", Signed), ("response_meta.error_msg", Bytes), ("init_window_size", Number),
                ("content_type", Number), ("content_encoding", Number),
            ],
        ),
        Kind::Data => ("data", vec![]),
        Kind::Feedback => ("feedback", vec![("window_size_increment", Number)]),
        Kind::Close => (
            "close",
            vec![("close_type", Signed), ("ret", Signed), ("msg", Bytes), ("message_type", Number), ("func_ret", Signed)],
        ),
    }
}

fn hex(frame: &[u8], start: u32, length: u32) -> String {
    frame[start as usize..][..length as usize].iter().map(|byte| format!("{byte:02x}")).collect()
}

/// What crates/test_records prints of a frame.
fn printed(kind: Kind, frame: &[u8], lent: usize) -> String {
    let before: Vec<u32> = (0..lent as u32).map(|place| 1 << 31 | place).collect();
    let (mut rows, mut n) = (before.clone(), [9; RECORD_NUMBERS]);
    let error = read(kind, frame, HIGHEST_CEILING, &mut rows, &mut n);
    let mut lines = Vec::new();
    for (name, part) in [("header", 2), ("body", 4), ("attachment", 6)] {
        lines.push(format!("{name} {} {}", n[part + 1], hex(frame, n[part], n[part + 1])));
    }
    let row_numbers = 4 * n[1] as usize;
    if error != 0 {
        lines.push(format!("refused {error}"));
    } else {
        let (name, fields) = names(kind);
        lines.push(format!("{name} {}", n[0]));
        lines.push(format!("header_version {}", n[VERSION]));
        let mut numbers = n[FIRST_FIELD..VERSION].iter().copied();
        let mut next = || numbers.next().unwrap();
        for (name, prints) in fields {
            lines.push(match prints {
                Number => format!("{name} {}", next()),
                Signed => format!("{name} {}", next() as i32),
                Mark => format!("{name} {}", if next() == 1 { "present" } else { "absent" }),
                Bytes => {
                    let (start, length) = (next(), next());
                    format!("{name} {start} {length} {}", hex(frame, start, length))
                }
            });
        }
        lines.push(format!("rows {}", n[1]));
        for row in rows[..row_numbers].chunks(4) {
            let [key, value] =
                [&row[..2], &row[2..]].map(|span| format!("{} {} {}", span[0], span[1], hex(frame, span[0], span[1])));
            lines.push(format!("row {key} {value}"));
        }
    }
    let zeros = rows[row_numbers..].iter().filter(|number| **number == 0).count();
    let kept = rows.iter().zip(&before).filter(|(after, before)| after == before).count();
    lines.push(format!("numbers {row_numbers} zeros {zeros} kept {kept}"));
    lines.join("\n") + "\n"
}

/// The cases of crates/test_records: label, kind, row numbers lent, frame.
fn cases() -> Vec<(String, Kind, usize, Vec<u8>)> {
    let input = std::fs::read(format!("{RECORDS}/stdin")).unwrap();
    let mut rest = input.as_slice();
    let mut cases = Vec::new();
    while !rest.is_empty() {
        let sizes = take(&mut rest, 8);
        let label = String::from_utf8(take(&mut rest, sizes[0].into()).to_vec()).unwrap();
        let frame = take(&mut rest, u32::from_be_bytes(sizes[4..8].try_into().unwrap()) as usize);
        let lent = usize::from(u16::from_be_bytes([sizes[2], sizes[3]]));
        cases.push((label, Kind::ALL[usize::from(sizes[1])], lent, frame.to_vec()));
    }
    cases
}

fn take<'a>(rest: &mut &'a [u8], count: usize) -> &'a [u8] {
    let (taken, behind) = rest.split_at(count);
    *rest = behind;
    taken
}

fn take_numbers(rest: &mut &[u8], count: usize) -> Vec<u32> {
    take(rest, 4 * count).chunks(4).map(|bytes| u32::from_be_bytes(bytes.try_into().unwrap())).collect()
}

/// Bytes that are repeated up to a length.
fn take_repeated(rest: &mut &[u8], given: u32, length: u32) -> Vec<u8> {
    take(rest, given as usize).iter().copied().cycle().take(length as usize).collect()
}

#[test]
fn frames_of_protoc() {
    let expected = std::fs::read_to_string(format!("{RECORDS}/stdout")).unwrap();
    let mut expected = expected.split("# ").skip(1);
    for (label, kind, lent, frame) in cases() {
        assert_eq!(format!("{label}\n{}", printed(kind, &frame, lent)), expected.next().unwrap(), "{label}");
    }
    assert_eq!(expected.next(), None);
}

/// What the reference has read of protoc's frames, it writes again, and as protoc wrote them but for those with zeros, repeated
/// or unknown fields, or with a last byte of the fixed header that is not 0.
#[test]
fn frames_of_protoc_written_again() {
    let (mut whole, mut equal) = (0, 0);
    for (label, kind, _, frame) in cases() {
        let (mut rows, mut n) = ([9; 256], [9; RECORD_NUMBERS]);
        if read(kind, &frame, HIGHEST_CEILING, &mut rows, &mut n) != 0 {
            continue;
        }
        let mut out = vec![0; LARGEST];
        let body = &frame[n[4] as usize..][..n[5] as usize];
        let written = write(kind, &n, &frame, &rows, body, &mut out, HIGHEST_CEILING);
        assert_eq!(written.error, 0, "{label}");
        whole += 1;
        equal += usize::from(out[..written.size] == frame);
    }
    assert_eq!((whole, equal), (686, 254));
}

/// The calls of crates/test_writes. Before the fields are ten numbers and the version.
#[test]
fn writes_of_protoc() {
    let input = std::fs::read(format!("{WRITES}/stdin")).unwrap();
    let expected = std::fs::read_to_string(format!("{WRITES}/stdout")).unwrap();
    let mut expected = expected.split("# ").skip(1);
    let mut rest = input.as_slice();
    while !rest.is_empty() {
        let head = take_numbers(&mut rest, 11);
        let fields = take_numbers(&mut rest, 16);
        let label = String::from_utf8(take(&mut rest, head[0] as usize).to_vec()).unwrap();
        let rows = take_numbers(&mut rest, head[1] as usize);
        let source = take_repeated(&mut rest, head[5], head[2]);
        let body = take_repeated(&mut rest, head[6], head[3]);
        let mut record = [0; RECORD_NUMBERS];
        record[..2].copy_from_slice(&head[8..10]);
        record[FIRST_FIELD..VERSION].copy_from_slice(&fields);
        record[VERSION] = head[10];
        let mut out = vec![0xA5; head[4] as usize];
        let kind = Kind::ALL[head[7] as usize];
        let written = write(kind, &record, &source, &rows, &body, &mut out, HIGHEST_CEILING);
        let answer = match written.error {
            0 => format!("frame {} {}", written.size, hex(&out, 0, written.size as u32)),
            error => format!("refused {error}"),
        };
        let kept = out[written.size..].iter().filter(|byte| **byte == 0xA5).count();
        assert_eq!(format!("{label}\n{answer}\nkept {kept}\n"), expected.next().unwrap(), "{label}");
    }
    assert_eq!(expected.next(), None);
}
