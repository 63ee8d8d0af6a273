//! Ceilings: every function at those around the range and around a frame's size, the smallest one, and streams under one.

use bekurapi::{
    header_check, header_check_within, parse_header, parse_header_within, read, read_within, to_vec, to_vec_within,
    write, write_within, Ceiling, Close, Data, Deframer, End, Error, Feedback, Init, Kind, Progress, Record, Request,
    RequestMeta, Response, HEADER_SIZE, MAX_FRAME,
};

fn ceiling(bytes: usize) -> Ceiling {
    Ceiling::new(bytes as u32).unwrap()
}

/// Records whose frames have 16 bytes.
fn empty_records() -> [Record<'static>; 6] {
    [
        Record::Request(Request::default()),
        Record::Response(Response::default()),
        Record::Init(Init::default()),
        Record::Data(Data::default()),
        Record::Feedback(Feedback::default()),
        Record::Close(Close::default()),
    ]
}

/// Records of every kind with some content, and a body where there may be one.
fn records(content: &[u8]) -> [(Record<'_>, &[u8]); 6] {
    let meta = RequestMeta { func: content, ..RequestMeta::default() };
    [
        (Record::Request(Request { func: content, ..Request::default() }), b"body"),
        (Record::Response(Response { error_msg: content, ..Response::default() }), b""),
        (Record::Init(Init { request_meta: Some(meta), ..Init::default() }), b""),
        (Record::Data(Data::default()), content),
        (Record::Feedback(Feedback { window_size_increment: 300, ..Feedback::default() }), b""),
        (Record::Close(Close { msg: content, ..Close::default() }), b""),
    ]
}

#[test]
fn the_range() {
    for bytes in [16, 17, 4_095, 4_096, 65_535, 65_536] {
        assert_eq!(Ceiling::new(bytes).map(Ceiling::get), Some(bytes));
    }
    for bytes in [0, 1, 15, 65_537, u32::MAX] {
        assert_eq!(Ceiling::new(bytes), None);
    }
    assert_eq!((Ceiling::MIN.get(), Ceiling::MAX.get()), (16, 65_536));
    assert_eq!(Ceiling::default(), Ceiling::MAX);
    assert!(Ceiling::MIN < ceiling(17) && ceiling(65_535) < Ceiling::MAX);
}

/// A frame and a ceiling at which it is one byte too large: nothing takes it, nor is it written.
fn is_over(record: &Record, body: &[u8], frame: &[u8], less: Ceiling) {
    assert_eq!(header_check_within(&frame[..HEADER_SIZE], less), Err(Error::Total));
    assert_eq!(parse_header_within(&frame[..HEADER_SIZE], less), Err(Error::Total));
    assert_eq!(read_within(record.kind(), frame, less), Err(Error::Total));
    assert_eq!(to_vec_within(7, record, body, less), Err(Error::FrameSize));
    for room in [0, frame.len(), MAX_FRAME] {
        let mut out = vec![0xee; room];
        assert_eq!(write_within(7, record, body, &mut out, less), Err(Error::FrameSize));
        assert!(out.iter().all(|&byte| byte == 0xee));
    }
    let mut deframer = Deframer::with_ceiling(less);
    assert_eq!(deframer.push(frame), Progress { taken: 16, frame: Err(Error::Total) });
    assert_eq!(deframer.held(), &frame[..16]);
    assert_eq!(deframer.push(frame), Progress { taken: 0, frame: Err(Error::Total) });
    assert_eq!(deframer.finish(), Err(Error::Total));
}

/// A frame and a ceiling that it is not over: every answer is as with the largest ceiling.
fn is_within(record: &Record, body: &[u8], frame: &[u8], ceiling: Ceiling) {
    assert_eq!(header_check_within(&frame[..HEADER_SIZE], ceiling), header_check(&frame[..HEADER_SIZE]));
    assert_eq!(parse_header_within(&frame[..HEADER_SIZE], ceiling), parse_header(&frame[..HEADER_SIZE]));
    assert_eq!(read_within(record.kind(), frame, ceiling), read(record.kind(), frame));
    assert_eq!(to_vec_within(7, record, body, ceiling), Ok(frame.to_vec()));
    for room in [frame.len() - 1, frame.len(), frame.len() + 8] {
        let (mut out, mut same) = (vec![0xee; room], vec![0xee; room]);
        let written = write_within(7, record, body, &mut out, ceiling);
        assert_eq!(written, if room < frame.len() { Err(Error::OutputTooShort) } else { Ok(frame.len()) });
        assert_eq!((written, out), (write(7, record, body, &mut same), same));
    }
    let mut deframer = Deframer::with_ceiling(ceiling);
    assert_eq!(deframer.ceiling(), ceiling);
    assert_eq!(deframer.push(frame), Progress { taken: frame.len(), frame: Ok(Some(frame)) });
    assert_eq!(deframer.finish(), Ok(End::Clean));
}

/// One byte less than the frame, exactly as many, one more. The second is the case where total, ceiling and buffer are equal.
#[test]
fn around_every_frame() {
    for size in [1, 100, 4_000, 4_100, 65_000] {
        let content = vec![b'c'; size];
        for (record, body) in records(&content) {
            let frame = to_vec(7, &record, body).unwrap();
            assert_eq!(read(record.kind(), &frame).unwrap().record, record);
            is_over(&record, body, &frame, ceiling(frame.len() - 1));
            is_within(&record, body, &frame, ceiling(frame.len()));
            is_within(&record, body, &frame, ceiling(frame.len() + 1));
            is_within(&record, body, &frame, Ceiling::MAX);
        }
    }
}

#[test]
fn around_4_096_and_the_largest() {
    let content = vec![0; MAX_FRAME];
    let data = Record::Data(Data::default());
    for size in [4_095, 4_096, 4_097, MAX_FRAME - 1, MAX_FRAME] {
        let body = &content[..size - HEADER_SIZE];
        let frame = to_vec(7, &data, body).unwrap();
        assert_eq!(frame.len(), size);
        for most in [4_095, 4_096, 4_097, MAX_FRAME - 1, MAX_FRAME] {
            if size <= most {
                is_within(&data, body, &frame, ceiling(most));
            } else {
                is_over(&data, body, &frame, ceiling(most));
            }
        }
    }
}

#[test]
fn the_smallest_takes_empty_frames_only() {
    for record in empty_records() {
        let frame = to_vec(7, &record, b"").unwrap();
        assert_eq!(frame.len(), HEADER_SIZE);
        is_within(&record, b"", &frame, Ceiling::MIN);
    }
    for (record, body) in records(b"c") {
        let frame = to_vec(7, &record, body).unwrap();
        is_over(&record, body, &frame, Ceiling::MIN);
    }
    for record in [Record::Request(Request::default()), Record::Data(Data::default())] {
        is_over(&record, b"1", &to_vec(7, &record, b"1").unwrap(), Ceiling::MIN);
    }
    let frames: Vec<_> = empty_records().iter().map(|record| to_vec(7, record, b"").unwrap()).collect();
    let stream = frames.concat();
    for size in 1..=stream.len() {
        assert_eq!(deframed(Ceiling::MIN, stream.chunks(size)), (frames.clone(), Ok(End::Clean)));
    }
}

/// The order of the other errors stays: 9 before the total, the total before the length and the fields.
#[test]
fn a_total_over_the_ceiling_in_the_order() {
    let mut frame = to_vec(7, &Record::Request(Request { timeout: 5_000, ..Request::default() }), b"body").unwrap();
    let less = ceiling(frame.len() - 1);
    assert_eq!(header_check_within(&frame, less), Err(Error::LengthOrKind));
    assert_eq!(read_within(Kind::Request, &frame[..15], less), Err(Error::LengthOrKind));
    assert_eq!(read_within(Kind::Request, &frame[..20], less), Err(Error::Total));
    assert_eq!(read_within(Kind::Request, &frame[..20], ceiling(frame.len())), Err(Error::LengthOrKind));
    assert_eq!(read_within(Kind::Close, &frame, less), Err(Error::Total));
    frame[16] = 0x07; // a bad tag
    assert_eq!(read_within(Kind::Request, &frame, less), Err(Error::Total));
    assert_eq!(read_within(Kind::Request, &frame, ceiling(frame.len())), Err(Error::Tag));
    frame[9] = 0xff; // a header size over the total
    assert_eq!(read_within(Kind::Request, &frame, less), Err(Error::Total));
    assert_eq!(read_within(Kind::Request, &frame, ceiling(frame.len())), Err(Error::HeaderSize));
    frame[2] = 2;
    assert_eq!(read_within(Kind::Request, &frame, less), Err(Error::DataType));
}

/// A record that is refused on another ground is refused on that one, however small the ceiling is.
#[test]
fn a_frame_over_the_ceiling_in_the_order() {
    let request = Record::Request(Request { attachment_size: 5, ..Request::default() });
    assert_eq!(to_vec_within(7, &request, b"four", Ceiling::MIN), Err(Error::Attachment));
    assert_eq!(to_vec_within(7, &request, b"five!", Ceiling::MIN), Err(Error::FrameSize));
    assert_eq!(write_within(7, &request, b"five!", &mut [], Ceiling::MIN), Err(Error::FrameSize));
    assert_eq!(write_within(7, &request, b"five!", &mut [], ceiling(23)), Err(Error::OutputTooShort));
}

/// The frames of a stream in pieces, under a ceiling, and how it ended.
fn deframed<'a>(ceiling: Ceiling, pieces: impl IntoIterator<Item = &'a [u8]>) -> (Vec<Vec<u8>>, Result<End, Error>) {
    let mut deframer = Deframer::with_ceiling(ceiling);
    let mut frames = Vec::new();
    for mut piece in pieces {
        while let Ok(Some(frame)) = deframer.next_frame(&mut piece) {
            frames.push(frame.to_vec());
        }
    }
    let end = deframer.finish();
    (frames, end)
}

/// Frames of 16, 20 and 19 bytes, the largest as large as the ceiling, and then one that is a byte larger or that is not.
#[test]
fn every_pair_of_cuts() {
    let line = ceiling(20);
    let data = |body: &[u8]| to_vec(9, &Record::Data(Data::default()), body).unwrap();
    let frames = vec![data(b""), data(b"four"), data(b"one")];
    let [larger, good] = [data(b"five!"), data(b"four")].map(|last| [frames.concat(), last].concat());
    for second in 0..=larger.len() {
        for first in 0..=second {
            let pieces = [&larger[..first], &larger[first..second], &larger[second..]];
            assert_eq!(deframed(line, pieces), (frames.clone(), Err(Error::Total)));
        }
    }
    for size in 1..=good.len() {
        assert_eq!(deframed(line, good.chunks(size)), ([&frames[..], &[data(b"four")]].concat(), Ok(End::Clean)));
    }
}

/// A deframer that begins anew, or is cloned, has the ceiling that it had.
#[test]
fn the_ceiling_stays() {
    let data = to_vec(9, &Record::Data(Data::default()), b"five!").unwrap();
    let mut deframer = Deframer::with_ceiling(ceiling(20));
    assert_eq!(deframer.push(&data).frame, Err(Error::Total));
    deframer.reset();
    assert_eq!(deframer.clone().push(&data).frame, Err(Error::Total));
    assert_eq!(deframer.push(&data).frame, Err(Error::Total));
    assert_eq!((deframer.ceiling(), Deframer::new().ceiling()), (ceiling(20), Ceiling::MAX));
}
