//! Writing and reading: each kind, the borders, and each error that the bindings let through.

use bekurapi::{
    read, to_vec, write, Close, Data, Error, Feedback, Init, Kind, Record, Request, RequestMeta, Response,
    ResponseMeta, TransInfo, MAX_FRAME,
};

const KINDS: [Kind; 6] = [Kind::Request, Kind::Response, Kind::Init, Kind::Data, Kind::Feedback, Kind::Close];

/// Every field with a value of its own, numbers as large as they get and an empty value among the rows.
fn full_records() -> Vec<Record<'static>> {
    let info = || TransInfo::from([("cell", "4"), ("", "key is empty"), ("value is empty", "")]);
    vec![
        Record::Request(Request {
            header_version: 2,
            version: 1,
            call_type: u32::MAX,
            request_id: 3,
            timeout: 4_000_000_000,
            caller: b"caller",
            callee: b"callee, longer",
            func: b"/cell.Robot/Pick",
            message_type: 8,
            trans_info: info(),
            content_type: 10,
            content_encoding: 11,
            attachment_size: 4,
        }),
        Record::Response(Response {
            header_version: 0x80,
            version: 1,
            call_type: 2,
            request_id: u32::MAX,
            ret: -1,
            func_ret: i32::MIN,
            error_msg: b"gripper open",
            message_type: 7,
            trans_info: info(),
            content_type: 9,
            content_encoding: 10,
            attachment_size: 12,
        }),
        Record::Init(Init {
            header_version: 1,
            request_meta: Some(RequestMeta {
                caller: b"vision",
                callee: b"camera",
                func: b"/cell.Camera/Watch",
                message_type: 4,
                trans_info: info(),
            }),
            response_meta: Some(ResponseMeta { ret: -7, error_msg: b"dark" }),
            init_window_size: 65_536,
            content_type: 4,
            content_encoding: 5,
        }),
        Record::Data(Data { header_version: 0xff }),
        Record::Feedback(Feedback { header_version: 9, window_size_increment: u32::MAX }),
        Record::Close(Close {
            header_version: 0x7f,
            close_type: -1,
            ret: i32::MAX,
            msg: b"camera lost",
            message_type: 4,
            trans_info: info(),
            func_ret: -6,
        }),
    ]
}

fn empty_records() -> Vec<Record<'static>> {
    vec![
        Record::Request(Request::default()),
        Record::Response(Response::default()),
        Record::Init(Init::default()),
        Record::Data(Data::default()),
        Record::Feedback(Feedback::default()),
        Record::Close(Close::default()),
    ]
}

fn may_have_body(record: &Record) -> bool {
    matches!(record.kind(), Kind::Request | Kind::Response | Kind::Data)
}

/// A body where the kind may have one.
fn body_of(record: &Record) -> &'static [u8] {
    if may_have_body(record) {
        b"twelve bytes and some more"
    } else {
        b""
    }
}

#[test]
fn what_is_written_reads_as_it_was() {
    for record in [full_records(), empty_records()].concat() {
        let body = body_of(&record);
        let frame = to_vec(0x0102_0304, &record, body).unwrap();
        let message = read(record.kind(), &frame).unwrap();
        assert_eq!(message.id, 0x0102_0304);
        assert_eq!(message.record, record);
        assert_eq!(message.body, body);
        assert_eq!(frame.len(), 16 + message.header.len() + body.len());
    }
}

/// The record with this protocol version.
fn with_version(mut record: Record, version: u8) -> Record {
    let place = match &mut record {
        Record::Request(request) => &mut request.header_version,
        Record::Response(response) => &mut response.header_version,
        Record::Init(init) => &mut init.header_version,
        Record::Data(data) => &mut data.header_version,
        Record::Feedback(feedback) => &mut feedback.header_version,
        Record::Close(close) => &mut close.header_version,
    };
    *place = version;
    record
}

/// The version is byte 15, and nothing else of the frame changes with it; byte 16 is 0.
#[test]
fn every_version_of_every_kind() {
    for record in [full_records(), empty_records()].concat() {
        let body = body_of(&record);
        let zero = to_vec(7, &with_version(record.clone(), 0), body).unwrap();
        for version in 0..=255 {
            let record = with_version(record.clone(), version);
            assert_eq!(record.header_version(), version);
            let frame = to_vec(7, &record, body).unwrap();
            assert_eq!((&frame[..14], &frame[14..16], &frame[16..]), (&zero[..14], &[version, 0][..], &zero[16..]));
            assert_eq!(read(record.kind(), &frame).unwrap().record, record);
        }
    }
}

/// A record has no place for byte 16: whatever it is, the frame reads the same, and it is written as 0.
#[test]
fn the_last_byte_of_the_header_is_not_kept() {
    for record in full_records() {
        let frame = to_vec(7, &record, body_of(&record)).unwrap();
        for last in 0..=255 {
            let mut other = frame.clone();
            other[15] = last;
            let message = read(record.kind(), &other).unwrap();
            assert_eq!(message.record, record);
            assert_eq!(to_vec(message.id, &message.record, message.body).unwrap(), frame);
        }
    }
}

#[test]
fn only_one_meta_part() {
    let asks = Init { request_meta: Some(RequestMeta::default()), ..Init::default() };
    let answers = Init { response_meta: Some(ResponseMeta::default()), ..Init::default() };
    for (init, header) in [(asks, [0x0a, 0]), (answers, [0x12, 0])] {
        let frame = to_vec(1, &Record::Init(init.clone()), b"").unwrap();
        let message = read(Kind::Init, &frame).unwrap();
        assert_eq!(message.header, header);
        assert_eq!(message.record, Record::Init(init));
    }
}

#[test]
fn attachments_are_the_end_of_the_body() {
    let frame = to_vec(1, &full_records()[0], b"body and tail").unwrap();
    let message = read(Kind::Request, &frame).unwrap();
    assert_eq!(message.attachment, b"tail");
    assert_eq!(message.attachment.as_ptr_range().end, message.body.as_ptr_range().end);
}

#[test]
fn a_frame_reads_only_as_its_own_kind() {
    for record in full_records() {
        let frame = to_vec(1, &record, body_of(&record)).unwrap();
        let unary = |kind| matches!(kind, Kind::Request | Kind::Response);
        for kind in KINDS {
            // A unary frame doesn't say whether it is a request or a response.
            if kind != record.kind() && !(unary(kind) && unary(record.kind())) {
                assert_eq!(read(kind, &frame), Err(Error::LengthOrKind));
            }
        }
    }
}

#[test]
fn a_cut_frame_is_refused() {
    for record in full_records() {
        let frame = to_vec(1, &record, body_of(&record)).unwrap();
        for len in 0..frame.len() {
            assert_eq!(read(record.kind(), &frame[..len]), Err(Error::LengthOrKind));
        }
    }
}

/// A unary frame around a header message and a body.
fn unary(header: &[u8], body: &[u8]) -> Vec<u8> {
    let total = (16 + header.len() + body.len()) as u32;
    let mut frame = vec![0x09, 0x30, 0, 0];
    frame.extend(total.to_be_bytes());
    frame.extend((header.len() as u16).to_be_bytes());
    frame.extend([0, 0, 0, 7, 0, 0]);
    frame.extend(header);
    frame.extend(body);
    frame
}

#[test]
fn errors_of_the_reader() {
    let nine_ff = [0xff; 9];
    let groups = [[0x7b; 33], [0x7c; 33]].concat();
    let cases: [(&[u8], Error); 8] = [
        (&[&[0x20][..], &nine_ff, &[0x02]].concat(), Error::Varint),
        (&[0x20], Error::Varint),
        (&[0x07], Error::Tag),
        (&[0x7b, 0x84, 0x01], Error::Tag),
        (&[0x2a, 1], Error::PastEnd),
        (&groups, Error::GroupDepth),
        (&[0x4a, 0].repeat(65), Error::MapEntries),
        (&[0x60, 5], Error::Attachment),
    ];
    for (header, error) in cases {
        assert_eq!(read(Kind::Request, &unary(header, b"four")), Err(error));
    }
    let mut frame = unary(&[], b"");
    frame[0] = 0x30;
    assert_eq!(read(Kind::Request, &frame), Err(Error::Magic));
}

#[test]
fn checked_examples() {
    let request = |header: &[u8]| match read(Kind::Request, &unary(header, b"")).unwrap().record {
        Record::Request(request) => (request.timeout, request.attachment_size),
        _ => unreachable!(),
    };
    assert_eq!(request(&[]), (0, 0));
    assert_eq!(request(&[0x20, 0x88, 0x27]), (5_000, 0));
    assert_eq!(request(&[0x20, 5, 0x20, 7]), (7, 0));
    assert_eq!(request(&[0x7b, 0x7c]), (0, 0));
    let minus_one = [&[0x20][..], &[0xff; 9], &[0x01]].concat();
    let frame = unary(&minus_one, b"");
    let response = Response { ret: -1, ..Response::default() };
    assert_eq!(read(Kind::Response, &frame).unwrap().record, Record::Response(response.clone()));
    assert_eq!(to_vec(7, &Record::Response(response), b""), Ok(frame));
    assert_eq!(read(Kind::Response, &unary(&[0x60, 5], b"5body")).unwrap().attachment, b"5body");
    assert_eq!(read(Kind::Response, &unary(&[0x58, 5], b"5body")).unwrap().attachment, b"");
}

#[test]
fn a_key_that_comes_again_keeps_its_place() {
    let entry = |key: u8, value: u8| [0x4a, 6, 0x0a, 1, key, 0x12, 1, value];
    let header = [entry(b'a', b'1'), entry(b'b', b'2'), entry(b'a', b'3')].concat();
    let frame = unary(&header, b"");
    let Record::Request(request) = read(Kind::Request, &frame).unwrap().record else { unreachable!() };
    assert_eq!(request.trans_info, TransInfo::from([("a", "3"), ("b", "2")]));
}

#[test]
fn up_to_64_rows() {
    let keys: Vec<String> = (0..65).map(|number| number.to_string()).collect();
    let info = |count| keys[..count].iter().map(|key| (key, key)).collect();
    let request = |count| Record::Request(Request { trans_info: info(count), ..Request::default() });
    let frame = to_vec(1, &request(64), b"").unwrap();
    assert_eq!(read(Kind::Request, &frame).unwrap().record, request(64));
    assert_eq!(to_vec(1, &request(65), b""), Err(Error::Rows));
}

#[test]
fn equal_keys_are_refused() {
    let info = TransInfo::from([("cell", "4"), ("cell", "5")]);
    let close = Close { trans_info: info, ..Close::default() };
    assert_eq!(to_vec(1, &Record::Close(close), b""), Err(Error::Rows));
}

#[test]
fn bodies_that_are_refused() {
    for record in empty_records() {
        let body = to_vec(1, &record, b"body");
        if may_have_body(&record) {
            assert!(body.is_ok());
        } else {
            assert_eq!(body, Err(Error::Attachment));
        }
    }
    let response = Response { attachment_size: 5, ..Response::default() };
    assert_eq!(to_vec(1, &Record::Response(response), b"four"), Err(Error::Attachment));
}

/// The longest message.
const MOST: usize = MAX_FRAME - 16;

/// Records whose message is of so many bytes, over 20,000: by a byte field, by one in each part of Init, and by a row. A tag with
/// its length, of the content and of what is around it, takes four bytes then, and a row's key three.
fn with_message(size: usize, content: &[u8]) -> Vec<Record<'_>> {
    let bytes = |around: usize| &content[..size - around];
    let row = |around: usize| TransInfo::from([(&b"k"[..], bytes(3 + around))]);
    let asks = |meta| Record::Init(Init { request_meta: Some(meta), ..Init::default() });
    let answers = |meta| Record::Init(Init { response_meta: Some(meta), ..Init::default() });
    vec![
        Record::Request(Request { func: bytes(4), ..Request::default() }),
        Record::Response(Response { error_msg: bytes(4), ..Response::default() }),
        asks(RequestMeta { func: bytes(8), ..RequestMeta::default() }),
        answers(ResponseMeta { error_msg: bytes(8), ..ResponseMeta::default() }),
        Record::Close(Close { msg: bytes(4), ..Close::default() }),
        Record::Request(Request { trans_info: row(8), ..Request::default() }),
        Record::Response(Response { trans_info: row(8), ..Response::default() }),
        asks(RequestMeta { trans_info: row(12), ..RequestMeta::default() }),
        Record::Close(Close { trans_info: row(8), ..Close::default() }),
    ]
}

#[test]
fn messages_up_to_the_longest() {
    let content = vec![b'f'; MAX_FRAME];
    for record in with_message(MOST, &content) {
        let frame = to_vec(1, &record, b"").unwrap();
        assert_eq!(frame.len(), MAX_FRAME);
        let message = read(record.kind(), &frame).unwrap();
        assert_eq!(message.header.len(), MOST);
        assert_eq!((message.record, message.body), (record, &b""[..]));
    }
    // Here there is room for the frame. The largest of the messages has a size that bytes 9-10 cannot hold.
    let mut out = vec![0xee; 2 * MAX_FRAME];
    for record in [MOST + 1, 65_535, 65_536].into_iter().flat_map(|size| with_message(size, &content)) {
        assert_eq!(to_vec(1, &record, b""), Err(Error::FrameSize));
        assert_eq!(write(1, &record, b"", &mut out), Err(Error::FrameSize));
    }
    assert!(out.iter().all(|&byte| byte == 0xee));
}

/// By a message and a body, and by a body only.
#[test]
fn frames_up_to_the_largest() {
    let content = vec![b'f'; MAX_FRAME];
    let check = |record: Record, size: usize| {
        let body = &content[..MOST - size];
        let frame = to_vec(1, &record, body).unwrap();
        assert_eq!(frame.len(), MAX_FRAME);
        let message = read(record.kind(), &frame).unwrap();
        assert_eq!((message.header.len(), message.body), (size, body));
        assert_eq!(to_vec(1, &record, &content[..MOST - size + 1]), Err(Error::FrameSize));
    };
    for size in [MOST, MOST - 1, 40_000] {
        with_message(size, &content).into_iter().filter(may_have_body).for_each(|record| check(record, size));
    }
    empty_records().into_iter().filter(may_have_body).for_each(|record| check(record, 0));
}

/// An entry with no value reads as one with an empty value, which is written in two bytes more.
#[test]
fn what_was_read_may_be_too_long_to_write() {
    let entry = [0x4a, 3, 0x0a, 1, b'k'];
    let body = vec![b'b'; MAX_FRAME - 16 - entry.len()];
    for (body, written) in [(&body[..], Err(Error::FrameSize)), (&body[2..], Ok(MAX_FRAME))] {
        let frame = unary(&entry, body);
        let message = read(Kind::Request, &frame).unwrap();
        assert_eq!(to_vec(message.id, &message.record, message.body).map(|frame| frame.len()), written);
    }
}

/// Starts of so many source bytes have no 32-bit number: none of them is copied, and 18 and 15 come before 19 all the same.
#[test]
fn more_than_4_gib() {
    let long = vec![0; 1 << 26];
    let keys: Vec<String> = (0..65).map(|number| number.to_string()).collect();
    let written = |keys: &[String], attachment_size, body| {
        let trans_info = keys.iter().map(|key| (key, &long)).collect();
        let request = Record::Request(Request { trans_info, attachment_size, ..Request::default() });
        let error = to_vec(1, &request, body).unwrap_err();
        assert_eq!(write(1, &request, body, &mut []), Err(error));
        error
    };
    let equal = [&keys[..63], &keys[..1]].concat();
    assert_eq!(written(&keys, 9, b"four"), Error::Rows);
    assert_eq!(written(&equal, 9, b"four"), Error::Rows);
    assert_eq!(written(&keys[..64], 5, b"four"), Error::Attachment);
    assert_eq!(written(&keys[..64], 4, b"four"), Error::FrameSize);
    let trans_info = keys[..64].iter().map(|key| (key, &long)).collect();
    let close = Record::Close(Close { trans_info, ..Close::default() });
    assert_eq!(to_vec(1, &close, b"four"), Err(Error::Attachment));
    assert_eq!(to_vec(1, &close, b""), Err(Error::FrameSize));
}

#[test]
fn outputs_of_every_size() {
    for record in [full_records(), empty_records()].concat() {
        let body = body_of(&record);
        let frame = to_vec(1, &record, body).unwrap();
        for len in 0..frame.len() + 8 {
            let mut out = vec![0xee; len];
            let written = write(1, &record, body, &mut out);
            if len < frame.len() {
                assert_eq!(written, Err(Error::OutputTooShort));
                assert!(out.iter().all(|&byte| byte == 0xee));
            } else {
                assert_eq!(written, Ok(frame.len()));
                assert_eq!(out[..frame.len()], frame);
                assert!(out[frame.len()..].iter().all(|&byte| byte == 0xee));
            }
        }
    }
}

/// The frame is as large as its fields make it: the room that `to_vec` sets aside is enough.
#[test]
fn fields_that_take_most_room() {
    let text = [b'x'; 127];
    let keys: Vec<Vec<u8>> = (0..64).map(|number| [vec![number], text.to_vec()].concat()).collect();
    let close = Close {
        header_version: 0xff,
        close_type: -1,
        ret: -1,
        msg: &text,
        message_type: u32::MAX,
        trans_info: keys.iter().map(|key| (key, key)).collect(),
        func_ret: -1,
    };
    let frame = to_vec(u32::MAX, &Record::Close(close.clone()), b"").unwrap();
    assert_eq!(read(Kind::Close, &frame).unwrap().record, Record::Close(close));
}
