use std::fmt;

use crate::ceiling::Ceiling;
use crate::error::{checked, Error};
use crate::record::Kind;
use bekurapi_sys as ffi;

/// How many bytes a fixed header has.
///
/// ```
/// use bekurapi::{header_check, to_vec, Data, Record, HEADER_SIZE};
///
/// let frame = to_vec(7, &Record::Data(Data::default()), b"camera picture").unwrap();
/// assert!(header_check(&frame[..HEADER_SIZE]).is_ok());
/// ```
pub const HEADER_SIZE: usize = 16;

/// How many bytes a frame has at most, its fixed header included.
///
/// ```
/// use bekurapi::{to_vec, Data, Error, Record, HEADER_SIZE, MAX_FRAME};
///
/// let data = Record::Data(Data::default());
/// let picture = vec![0; MAX_FRAME - HEADER_SIZE];
/// assert_eq!(to_vec(7, &data, &picture).unwrap().len(), MAX_FRAME);
/// assert_eq!(to_vec(7, &data, &vec![0; picture.len() + 1]), Err(Error::FrameSize));
/// ```
pub const MAX_FRAME: usize = 65_536;

/// Checks a fixed header: exactly 16 bytes that begin a frame. What follows them is not looked at.
///
/// The errors are [`Error::LengthOrKind`] where there are not 16 bytes, and else the first of [`Error::Magic`],
/// [`Error::DataType`], [`Error::StreamType`], [`Error::Total`] and [`Error::HeaderSize`] that holds. Every protocol version,
/// byte 15, is good, and byte 16 is reserved and not looked at.
///
/// ```
/// use bekurapi::{header_check, Error};
///
/// // A unary frame of 16 bytes with the request id 7.
/// let mut header = [0x09, 0x30, 0, 0, 0, 0, 0, 16, 0, 0, 0, 0, 0, 7, 0, 0];
/// assert_eq!(header_check(&header), Ok(()));
///
/// header[7] = 15;
/// assert_eq!(header_check(&header), Err(Error::Total));
/// ```
pub fn header_check(bytes: &[u8]) -> Result<(), Error> {
    header_check_within(bytes, Ceiling::MAX)
}

/// As [`header_check`], for a connection with a ceiling: [`Error::Total`] is a total that is not 16 to the ceiling.
///
/// ```
/// use bekurapi::{header_check, header_check_within, Ceiling, Error};
///
/// // A unary frame of 5,000 bytes with the request id 7.
/// let header = [0x09, 0x30, 0, 0, 0, 0, 0x13, 0x88, 0, 0, 0, 0, 0, 7, 0, 0];
/// assert_eq!(header_check(&header), Ok(()));
/// assert_eq!(header_check_within(&header, Ceiling::new(5_000).unwrap()), Ok(()));
/// assert_eq!(header_check_within(&header, Ceiling::new(4_999).unwrap()), Err(Error::Total));
/// ```
pub fn header_check_within(bytes: &[u8], ceiling: Ceiling) -> Result<(), Error> {
    // SAFETY: the pointer and the length are those of a slice, which the function only reads.
    checked(unsafe { ffi::trpc_header_check(bytes.as_ptr(), bytes.len(), ceiling.get()) })
}

/// What a fixed header says a frame is.
///
/// ```
/// use bekurapi::{FrameType, Kind};
///
/// assert_eq!(FrameType::Feedback.kind(), Some(Kind::Feedback));
/// assert_eq!(FrameType::Unary.to_string(), "unary");
/// ```
#[derive(Clone, Copy, Debug, PartialEq, Eq, Hash)]
pub enum FrameType {
    /// A request or a response: the frame does not say which.
    Unary,
    /// The first frame of a stream.
    Init,
    /// A body.
    Data,
    /// A window update.
    Feedback,
    /// The end of a stream, or of one direction of it.
    Close,
}

impl FrameType {
    /// The type of the C interface's number.
    fn from_number(number: u32) -> FrameType {
        match number {
            0 => FrameType::Unary,
            1 => FrameType::Init,
            2 => FrameType::Data,
            3 => FrameType::Feedback,
            4 => FrameType::Close,
            _ => unreachable!("the library has five frame types"),
        }
    }

    /// The kind to read such a frame as; nothing for a unary frame, of which the caller knows whether it is a request or a
    /// response.
    ///
    /// ```
    /// use bekurapi::FrameType;
    ///
    /// assert_eq!(FrameType::Unary.kind(), None);
    /// ```
    pub fn kind(self) -> Option<Kind> {
        match self {
            FrameType::Unary => None,
            FrameType::Init => Some(Kind::Init),
            FrameType::Data => Some(Kind::Data),
            FrameType::Feedback => Some(Kind::Feedback),
            FrameType::Close => Some(Kind::Close),
        }
    }
}

/// The word of the program `listing`.
impl fmt::Display for FrameType {
    fn fmt(&self, f: &mut fmt::Formatter<'_>) -> fmt::Result {
        f.pad(match self {
            FrameType::Unary => "unary",
            FrameType::Init => "init",
            FrameType::Data => "data",
            FrameType::Feedback => "feedback",
            FrameType::Close => "close",
        })
    }
}

/// What a good fixed header says.
///
/// ```
/// use bekurapi::{parse_header, FixedHeader, FrameType};
///
/// let header = parse_header(b"\x09\x30\x01\x03\0\0\0\x13\0\0\0\0\0\x05\x01\0").unwrap();
/// assert_eq!(header, FixedHeader { frame_type: FrameType::Feedback, total: 19, header_size: 0, id: 5, version: 1 });
/// ```
#[derive(Clone, Copy, Debug, PartialEq, Eq, Hash)]
pub struct FixedHeader {
    /// Unary, or the type of a stream frame.
    pub frame_type: FrameType,
    /// The frame's size, its fixed header included.
    pub total: usize,
    /// The size of a unary frame's header message; 0 for a stream frame.
    pub header_size: usize,
    /// The request id or stream id: the one to answer with.
    pub id: u32,
    /// The protocol version, byte 15.
    pub version: u8,
}

/// Reads a fixed header: exactly 16 bytes that begin a frame. It says which kind to read a stream frame as.
///
/// The errors are those of [`header_check`].
///
/// ```
/// use bekurapi::{parse_header, read, to_vec, Feedback, Kind, Record, HEADER_SIZE};
///
/// let feedback = Record::Feedback(Feedback { header_version: 1, window_size_increment: 300 });
/// let frame = to_vec(5, &feedback, b"")?;
/// let header = parse_header(&frame[..HEADER_SIZE])?;
/// assert_eq!((header.id, header.version), (5, 1));
/// let kind = header.frame_type.kind().unwrap_or(Kind::Request); // a client of ours sends no responses
/// assert_eq!(read(kind, &frame)?.record, feedback);
/// # Ok::<(), bekurapi::Error>(())
/// ```
pub fn parse_header(bytes: &[u8]) -> Result<FixedHeader, Error> {
    parse_header_within(bytes, Ceiling::MAX)
}

/// As [`parse_header`], for a connection with a ceiling. The errors are those of [`header_check_within`].
///
/// ```
/// use bekurapi::{parse_header_within, Ceiling, Error};
///
/// let header = b"\x09\x30\x01\x03\0\0\0\x13\0\0\0\0\0\x05\x01\0";
/// assert_eq!(parse_header_within(header, Ceiling::new(19).unwrap()).unwrap().total, 19);
/// assert_eq!(parse_header_within(header, Ceiling::new(18).unwrap()), Err(Error::Total));
/// ```
pub fn parse_header_within(bytes: &[u8], ceiling: Ceiling) -> Result<FixedHeader, Error> {
    let (mut frame_type, mut total, mut header_size, mut id, mut version) = (0, 0, 0, 0, 0);
    // SAFETY: the pointer and the length are those of a slice, which the function only reads; the numbers are locals that
    // only it writes.
    let code = unsafe {
        ffi::trpc_header_parse(
            bytes.as_ptr(),
            bytes.len(),
            ceiling.get(),
            &mut frame_type,
            &mut total,
            &mut header_size,
            &mut id,
            &mut version,
        )
    };
    checked(code)?;
    Ok(FixedHeader { frame_type: FrameType::from_number(frame_type), total, header_size, id, version })
}
