use crate::ceiling::Ceiling;
use crate::error::{checked, Error};
use crate::numbers::{Numbers, RECORD_NUMBERS, ROW_NUMBERS};
use crate::record::{Kind, Record};
use bekurapi_sys as ffi;

/// A frame that was read. All bytes are parts of the frame, so a message is kept by keeping its frame.
///
/// ```
/// use bekurapi::{read, to_vec, Kind, Message, Record, Request};
///
/// let request = Request { attachment_size: 3, ..Request::default() };
/// let frame = to_vec(7, &Record::Request(request), b"crate 12 + 3D")?;
/// let Message { id, header, body, attachment, .. } = read(Kind::Request, &frame)?;
/// assert_eq!(id, 7);
/// assert_eq!(header, [0x60, 3]);
/// assert_eq!(body, b"crate 12 + 3D");
/// assert_eq!(attachment, b" 3D");
/// # Ok::<(), bekurapi::Error>(())
/// ```
#[derive(Clone, Debug, PartialEq, Eq)]
pub struct Message<'a> {
    /// The request id or stream id of the fixed header: the one to answer with.
    pub id: u32,
    /// The protocol version and the fields, by the kind that was asked for.
    pub record: Record<'a>,
    /// The bytes of the header message; of an Init, Feedback or Close frame, its message. Empty in a Data frame.
    pub header: &'a [u8],
    /// The bytes of the body, the attachment included. Empty in Init, Feedback and Close frames.
    pub body: &'a [u8],
    /// The last bytes of the body, as many as the header's `attachment_size`.
    pub attachment: &'a [u8],
}

/// Reads a whole frame as a kind. Every protocol version is read; the fixed header's last byte is not looked at.
///
/// The errors, in this order: [`Error::LengthOrKind`] where there are fewer than 16 bytes; those of a fixed header, from
/// [`Error::Magic`] on; [`Error::LengthOrKind`] again, where the length isn't the total or the frame is of another kind; then by
/// the fields from left to right, [`Error::Varint`], [`Error::Tag`], [`Error::GroupDepth`], [`Error::PastEnd`] and
/// [`Error::MapEntries`]; last [`Error::Attachment`].
///
/// ```
/// use bekurapi::{read, Error, Feedback, Kind, Record};
///
/// let mut frame = *b"\x09\x30\x01\x03\0\0\0\x13\0\0\0\0\0\x05\0\0\x08\xac\x02";
/// let message = read(Kind::Feedback, &frame)?;
/// assert_eq!(message.id, 5);
/// assert_eq!(message.record, Record::Feedback(Feedback { header_version: 0, window_size_increment: 300 }));
///
/// frame[18] = 0x82; // the varint goes on past the end
/// assert_eq!(read(Kind::Feedback, &frame), Err(Error::Varint));
/// # Ok::<(), bekurapi::Error>(())
/// ```
pub fn read(kind: Kind, frame: &[u8]) -> Result<Message<'_>, Error> {
    read_within(kind, frame, Ceiling::MAX)
}

/// As [`read`], for a connection with a ceiling: a frame whose total is over it has [`Error::Total`]. A frame that
/// a [`Deframer`](crate::Deframer) with a smaller ceiling than [`Ceiling::MAX`] gave reads the same with plain [`read`].
///
/// ```
/// use bekurapi::{read_within, Ceiling, Error, Kind};
///
/// let frame = *b"\x09\x30\x01\x03\0\0\0\x13\0\0\0\0\0\x05\0\0\x08\xac\x02";
/// assert_eq!(read_within(Kind::Feedback, &frame, Ceiling::new(19).unwrap())?.id, 5);
/// assert_eq!(read_within(Kind::Feedback, &frame, Ceiling::new(18).unwrap()), Err(Error::Total));
/// # Ok::<(), Error>(())
/// ```
pub fn read_within(kind: Kind, frame: &[u8], ceiling: Ceiling) -> Result<Message<'_>, Error> {
    let mut rows = [0; ROW_NUMBERS];
    let mut record = [0; RECORD_NUMBERS];
    let read = reader(kind);
    // SAFETY: each pointer with a length is a slice's or an array's, and a record has 25 numbers. The frame is only read; the
    // arrays are locals that only the function writes.
    let code = unsafe { read(frame.as_ptr(), frame.len(), ceiling.get(), rows.as_mut_ptr(), rows.len(), &mut record) };
    checked(code)?;
    let mut numbers = Numbers::new(frame, record, rows);
    Ok(Message {
        id: numbers.id(),
        record: numbers.record(kind),
        header: numbers.header(),
        body: numbers.body(),
        attachment: numbers.attachment(),
    })
}

/// The library's reader of a kind.
fn reader(kind: Kind) -> ffi::Reader {
    match kind {
        Kind::Request => ffi::trpc_read_request,
        Kind::Response => ffi::trpc_read_response,
        Kind::Init => ffi::trpc_read_init,
        Kind::Data => ffi::trpc_read_data,
        Kind::Feedback => ffi::trpc_read_feedback,
        Kind::Close => ffi::trpc_read_close,
    }
}
