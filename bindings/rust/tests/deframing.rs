//! The deframer: every way to cut a short stream, damaged headers, every protocol version, the largest frame.

use bekurapi::{
    header_check, parse_header, read, to_vec, Close, Data, Deframer, End, Error, Feedback, FixedHeader, FrameType,
    Init, Kind, Progress, Record, Request, Response, HEADER_SIZE, MAX_FRAME,
};

/// A Feedback frame of 19 bytes, a request of 16 and a Data frame of 20.
fn frames() -> [Vec<u8>; 3] {
    [
        to_vec(5, &Record::Feedback(Feedback { window_size_increment: 300, ..Feedback::default() }), b"").unwrap(),
        to_vec(7, &Record::Request(Request::default()), b"").unwrap(),
        to_vec(9, &Record::Data(Data::default()), b"data").unwrap(),
    ]
}

/// The frames of a stream in pieces, and how it ended.
fn deframed<'a>(pieces: impl IntoIterator<Item = &'a [u8]>) -> (Vec<Vec<u8>>, Result<End, Error>) {
    let mut deframer = Deframer::new();
    let mut frames = Vec::new();
    for mut piece in pieces {
        loop {
            match deframer.next_frame(&mut piece) {
                Ok(Some(frame)) => frames.push(frame.to_vec()),
                Ok(None) => break assert!(piece.is_empty()),
                Err(error) => {
                    assert_eq!(deframer.finish(), Err(error));
                    return (frames, Err(error));
                }
            }
        }
    }
    let end = deframer.finish();
    (frames, end)
}

#[test]
fn pieces_of_every_size() {
    let stream = frames().concat();
    for size in 1..=stream.len() {
        assert_eq!(deframed(stream.chunks(size)), (frames().to_vec(), Ok(End::Clean)));
    }
}

#[test]
fn every_pair_of_cuts() {
    let stream = frames().concat();
    for second in 0..=stream.len() {
        for first in 0..=second {
            let pieces = [&stream[..first], &stream[first..second], &stream[second..]];
            assert_eq!(deframed(pieces), (frames().to_vec(), Ok(End::Clean)));
        }
    }
}

#[test]
fn every_end() {
    let stream = frames().concat();
    let ends = [0, 19, 35, 55];
    for len in 0..=stream.len() {
        let whole = ends.iter().filter(|&&end| end != 0 && end <= len).count();
        let held = len - ends[whole];
        let end = if held == 0 { End::Clean } else { End::Short(held) };
        assert_eq!(deframed([&stream[..len]]), (frames()[..whole].to_vec(), Ok(end)));
    }
}

#[test]
fn every_refused_header() {
    // Place and value of a byte of a Feedback frame that is changed, and the error.
    let changes = [
        (0, 0x30, Error::Magic),
        (2, 2, Error::DataType),
        (3, 5, Error::StreamType),
        (7, 15, Error::Total),
        (9, 1, Error::HeaderSize),
    ];
    for (place, value, error) in changes {
        let mut bad = frames()[0].clone();
        bad[place] = value;
        assert_eq!(header_check(&bad[..16]), Err(error));
        assert_eq!(parse_header(&bad[..16]), Err(error));
        let stream = [frames()[1].clone(), bad].concat();
        for size in 1..=stream.len() {
            assert_eq!(deframed(stream.chunks(size)), (vec![frames()[1].clone()], Err(error)));
        }
    }
}

#[test]
fn a_refused_header_is_not_judged_sooner_and_stays() {
    let mut deframer = Deframer::new();
    assert_eq!(deframer.push(&[0x30; 15]), Progress { taken: 15, frame: Ok(None) });
    assert_eq!(deframer.finish(), Ok(End::Short(15)));
    let mut piece = &[0x30; 4][..];
    assert_eq!(deframer.next_frame(&mut piece), Err(Error::Magic));
    assert_eq!(piece.len(), 3);
    for piece in [&[0x09; 40][..], &[]] {
        assert_eq!(deframer.push(piece), Progress { taken: 0, frame: Err(Error::Magic) });
    }
    assert_eq!(deframer.held(), [0x30; 16]);
    deframer.reset();
    assert_eq!(deframer.push(&frames()[0]).frame, Ok(Some(&frames()[0][..])));
}

#[test]
fn a_refused_push_says_what_it_took() {
    for held in 0..16 {
        let mut deframer = Deframer::new();
        assert_eq!(deframer.push(&[0x30; 15][..held]), Progress { taken: held, frame: Ok(None) });
        assert_eq!(deframer.push(&[0x30; 40]), Progress { taken: 16 - held, frame: Err(Error::Magic) });
    }
}

#[test]
fn largest_frame() {
    let body = vec![0xa5; MAX_FRAME - 16];
    let frame = to_vec(1, &Record::Data(Data::default()), &body).unwrap();
    let stream = [&frame[..], &frame[..]].concat();
    assert_eq!(deframed(stream.chunks(4_093)), (vec![frame.clone(), frame], Ok(End::Clean)));
}

#[test]
fn header_lengths() {
    let header = &frames()[1][..];
    assert_eq!(header_check(header), Ok(()));
    for len in (0..16).chain(17..40) {
        assert_eq!(header_check(&vec![0x09; len]), Err(Error::LengthOrKind));
        assert_eq!(parse_header(&vec![0x09; len]), Err(Error::LengthOrKind));
    }
}

#[test]
fn what_headers_say() {
    let records = [
        (Record::Request(Request { header_version: 0x80, timeout: 5_000, ..Request::default() }), FrameType::Unary, 3),
        (Record::Response(Response::default()), FrameType::Unary, 0),
        (Record::Init(Init { content_type: 2, ..Init::default() }), FrameType::Init, 0),
        (Record::Data(Data { header_version: 0xff }), FrameType::Data, 0),
        (Record::Feedback(Feedback { header_version: 1, window_size_increment: 300 }), FrameType::Feedback, 0),
        (Record::Close(Close::default()), FrameType::Close, 0),
    ];
    for (record, frame_type, header_size) in records {
        let frame = to_vec(0xa1b2_c3d4, &record, b"").unwrap();
        let version = record.header_version();
        let header = FixedHeader { frame_type, total: frame.len(), header_size, id: 0xa1b2_c3d4, version };
        assert_eq!(parse_header(&frame[..HEADER_SIZE]), Ok(header));
        assert!(frame_type.kind().is_none_or(|kind| kind == record.kind()));
    }
}

#[test]
fn every_version_and_every_last_byte_is_good() {
    for record in [Record::Request(Request::default()), Record::Data(Data::default())] {
        let mut header = to_vec(7, &record, b"").unwrap();
        for version in 0..=255 {
            for last in 0..=255 {
                header[14..].copy_from_slice(&[version, last]);
                assert_eq!(header_check(&header), Ok(()));
                assert_eq!(parse_header(&header).unwrap().version, version);
                assert_eq!(read(record.kind(), &header).unwrap().record.header_version(), version);
            }
        }
    }
}

/// Frames of a gateway, each of another version and with another byte 16: their kinds and versions, and the stream. The requests
/// have a third number as their message's own version.
fn versioned() -> (Vec<(Kind, u8)>, Vec<u8>) {
    let frames = [
        (Record::Request(Request { header_version: 1, version: 2, ..Request::default() }), 0xff),
        (Record::Data(Data { header_version: 0xff }), 0),
        (Record::Request(Request { header_version: 0, version: 3, ..Request::default() }), 1),
        (Record::Feedback(Feedback { header_version: 2, window_size_increment: 300 }), 8),
        (Record::Request(Request { header_version: 0x80, version: 0xff, ..Request::default() }), 0x80),
        (Record::Close(Close { header_version: 7, ..Close::default() }), 7),
    ];
    let mut stream = Vec::new();
    for (record, last) in &frames {
        let start = stream.len();
        stream.extend(to_vec(4, record, b"").unwrap());
        stream[start + 15] = *last;
    }
    (frames.map(|(record, _)| (record.kind(), record.header_version())).to_vec(), stream)
}

/// The version of a frame is its own, not that of the frame before, nor the message's, however the stream is cut.
#[test]
fn versions_under_every_pair_of_cuts() {
    let (given, stream) = versioned();
    for second in 0..=stream.len() {
        for first in 0..=second {
            let (frames, end) = deframed([&stream[..first], &stream[first..second], &stream[second..]]);
            assert_eq!((frames.concat() == stream, end), (true, Ok(End::Clean)));
            assert_eq!(frames.len(), given.len());
            for (frame, (kind, version)) in frames.iter().zip(&given) {
                assert_eq!(parse_header(&frame[..HEADER_SIZE]).unwrap().version, *version);
                assert_eq!(read(*kind, frame).unwrap().record.header_version(), *version);
            }
        }
    }
}
