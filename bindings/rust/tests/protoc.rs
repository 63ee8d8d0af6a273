//! The frames of crates/test_records, whose headers `protoc --encode` wrote or that are damaged: what the bindings read is what the
//! file `stdout` there says that protoc was given, and what they write of it reads the same.

use std::fmt::Write;
use std::path::Path;

use bekurapi::{read, to_vec, Close, Error, Init, Kind, Message, Record, Request, Response, TransInfo, HEADER_SIZE};

const KINDS: [Kind; 6] = [Kind::Request, Kind::Response, Kind::Init, Kind::Data, Kind::Feedback, Kind::Close];

fn records_file(name: &str) -> Vec<u8> {
    let path = Path::new(env!("CARGO_MANIFEST_DIR")).join("../../crates/test_records").join(name);
    std::fs::read(&path).unwrap_or_else(|error| panic!("{}: {error}", path.display()))
}

/// A frame of the file `stdin`: the length of its label, its kind, how many row numbers are lent and its size are before it.
struct Case {
    label: Vec<u8>,
    kind: Kind,
    lent: u16,
    frame: Vec<u8>,
}

fn cases() -> Vec<Case> {
    let file = records_file("stdin");
    let mut rest = &file[..];
    let mut cases = Vec::new();
    while let [length, kind, lent_high, lent_low, s0, s1, s2, s3, behind @ ..] = rest {
        let (label, behind) = behind.split_at(usize::from(*length));
        let (frame, behind) = behind.split_at(u32::from_be_bytes([*s0, *s1, *s2, *s3]) as usize);
        cases.push(Case {
            label: label.to_vec(),
            kind: KINDS[usize::from(*kind)],
            lent: u16::from_be_bytes([*lent_high, *lent_low]),
            frame: frame.to_vec(),
        });
        rest = behind;
    }
    cases
}

/// The text of each case in the file `stdout`, without the lines on the row numbers, which the bindings keep to themselves.
fn expected() -> Vec<String> {
    let text = String::from_utf8(records_file("stdout")).unwrap();
    let mut cases: Vec<String> = Vec::new();
    for line in text.lines().filter(|line| !line.starts_with("numbers ")) {
        match cases.last_mut() {
            Some(case) if !line.starts_with("# ") => writeln!(case, "{line}").unwrap(),
            _ => cases.push(format!("{line}\n")),
        }
    }
    cases
}

/// Prints as the program `records` does.
struct Printer<'a> {
    frame: &'a [u8],
    text: String,
}

impl Printer<'_> {
    fn number(&mut self, name: &str, number: impl Into<i64>) {
        writeln!(self.text, "{name} {}", number.into()).unwrap();
    }

    fn hex(&mut self, bytes: &[u8]) {
        for byte in bytes {
            write!(self.text, "{byte:02x}").unwrap();
        }
    }

    fn part(&mut self, name: &str, bytes: &[u8]) {
        write!(self.text, "{name} {} ", bytes.len()).unwrap();
        self.hex(bytes);
        self.text.push('\n');
    }

    /// The start of bytes is counted from the frame's first; an empty part has 0.
    fn span(&mut self, bytes: &[u8]) {
        let offset = (bytes.as_ptr() as usize).wrapping_sub(self.frame.as_ptr() as usize);
        let start = if bytes.is_empty() { 0 } else { offset };
        write!(self.text, " {start} {} ", bytes.len()).unwrap();
        self.hex(bytes);
    }

    fn bytes(&mut self, name: &str, bytes: &[u8]) {
        self.text.push_str(name);
        self.span(bytes);
        self.text.push('\n');
    }

    fn mark(&mut self, name: &str, present: bool) {
        writeln!(self.text, "{name} {}", if present { "present" } else { "absent" }).unwrap();
    }

    fn rows(&mut self, info: &TransInfo) {
        self.number("rows", info.len() as u32);
        for (key, value) in info {
            self.text.push_str("row");
            self.span(key);
            self.span(value);
            self.text.push('\n');
        }
    }

    fn request(&mut self, id: u32, request: &Request) {
        self.number("request", id);
        self.number("header_version", request.header_version);
        self.number("version", request.version);
        self.number("call_type", request.call_type);
        self.number("request_id", request.request_id);
        self.number("timeout", request.timeout);
        self.bytes("caller", request.caller);
        self.bytes("callee", request.callee);
        self.bytes("func", request.func);
        self.number("message_type", request.message_type);
        self.number("content_type", request.content_type);
        self.number("content_encoding", request.content_encoding);
        self.number("attachment_size", request.attachment_size);
        self.rows(&request.trans_info);
    }

    fn response(&mut self, id: u32, response: &Response) {
        self.number("response", id);
        self.number("header_version", response.header_version);
        self.number("version", response.version);
        self.number("call_type", response.call_type);
        self.number("request_id", response.request_id);
        self.number("ret", response.ret);
        self.number("func_ret", response.func_ret);
        self.bytes("error_msg", response.error_msg);
        self.number("message_type", response.message_type);
        self.number("content_type", response.content_type);
        self.number("content_encoding", response.content_encoding);
        self.number("attachment_size", response.attachment_size);
        self.rows(&response.trans_info);
    }

    fn init(&mut self, id: u32, init: &Init) {
        self.number("init", id);
        self.number("header_version", init.header_version);
        let meta = init.request_meta.clone().unwrap_or_default();
        self.mark("request_meta", init.request_meta.is_some());
        self.bytes("request_meta.caller", meta.caller);
        self.bytes("request_meta.callee", meta.callee);
        self.bytes("request_meta.func", meta.func);
        self.number("request_meta.message_type", meta.message_type);
        let answer = init.response_meta.clone().unwrap_or_default();
        self.mark("response_meta", init.response_meta.is_some());
        self.number("response_meta.ret", answer.ret);
        self.bytes("response_meta.error_msg", answer.error_msg);
        self.number("init_window_size", init.init_window_size);
        self.number("content_type", init.content_type);
        self.number("content_encoding", init.content_encoding);
        self.rows(&meta.trans_info);
    }

    fn close(&mut self, id: u32, close: &Close) {
        self.number("close", id);
        self.number("header_version", close.header_version);
        self.number("close_type", close.close_type);
        self.number("ret", close.ret);
        self.bytes("msg", close.msg);
        self.number("message_type", close.message_type);
        self.number("func_ret", close.func_ret);
        self.rows(&close.trans_info);
    }

    fn record(&mut self, id: u32, record: &Record) {
        match record {
            Record::Request(request) => self.request(id, request),
            Record::Response(response) => self.response(id, response),
            Record::Init(init) => self.init(id, init),
            Record::Data(data) => {
                self.number("data", id);
                self.number("header_version", data.header_version);
                self.rows(&TransInfo::new());
            }
            Record::Feedback(feedback) => {
                self.number("feedback", id);
                self.number("header_version", feedback.header_version);
                self.number("window_size_increment", feedback.window_size_increment);
                self.rows(&TransInfo::new());
            }
            Record::Close(close) => self.close(id, close),
        }
    }
}

fn printed(case: &Case, reading: &Result<Message, Error>) -> String {
    let text = format!("# {}\n", String::from_utf8_lossy(&case.label));
    let mut printer = Printer { frame: &case.frame, text };
    let parts = reading.as_ref().map_or([&[][..]; 3], |message| [message.header, message.body, message.attachment]);
    for (name, part) in ["header", "body", "attachment"].into_iter().zip(parts) {
        printer.part(name, part);
    }
    match reading {
        Ok(message) => printer.record(message.id, &message.record),
        Err(error) => printer.number("refused", error.number()),
    }
    printer.text
}

#[test]
fn frames_around_protoc_headers() {
    let (cases, expected) = (cases(), expected());
    assert_eq!(cases.len(), expected.len());
    let mut whole = 0;
    // The bindings always lend row numbers enough.
    for (case, expected) in cases.iter().zip(expected).filter(|(case, _)| case.lent >= 256) {
        let reading = read(case.kind, &case.frame);
        assert_eq!(printed(case, &reading), expected);
        if let Ok(message) = reading {
            whole += 1;
            let frame = to_vec(message.id, &message.record, message.body).unwrap();
            let again = read(case.kind, &frame).unwrap();
            assert_eq!((again.id, again.record), (message.id, message.record));
            assert_eq!((again.body, again.attachment), (message.body, message.attachment));
        }
    }
    assert!(whole > 600);
}

/// Under other last two bytes of its fixed header a frame reads the same but for its version, and is refused the same. Bytes 15
/// and 16 take each value; which two come together depends on the frame.
#[test]
fn frames_under_other_versions() {
    for (number, case) in cases().iter().enumerate().filter(|(_, case)| case.frame.len() >= HEADER_SIZE) {
        let mut frame = case.frame.clone();
        let expected = read(case.kind, &case.frame);
        for version in (number as u8 % 16..=255).step_by(16) {
            frame[14] = version;
            frame[15] = (number as u8).wrapping_mul(31) ^ version;
            match (&expected, read(case.kind, &frame)) {
                (Ok(expected), Ok(message)) => {
                    assert_eq!(message.record.header_version(), version);
                    let again = to_vec(message.id, &message.record, message.body).unwrap();
                    assert_eq!(again[14..HEADER_SIZE], [version, 0]);
                    let mut as_before = to_vec(expected.id, &expected.record, expected.body).unwrap();
                    as_before[14] = version;
                    assert!(again == as_before);
                }
                (expected, answer) => assert_eq!(answer.map(|_| ()), expected.clone().map(|_| ())),
            }
        }
    }
}
