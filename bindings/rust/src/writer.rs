use crate::ceiling::Ceiling;
use crate::error::{checked, Error};
use crate::header::HEADER_SIZE;
use crate::numbers::Source;
use crate::record::{Kind, Record};
use bekurapi_sys as ffi;

/// How many pairs of a map can be written.
const MOST_ROWS: usize = 64;

/// Writes the frame of a record with its id and body to the start of `out`, and returns the frame's size. Bytes of `out` past
/// the frame stay as they were, and after an error all of them do. Byte 15 is the record's protocol version, byte 16 is 0.
///
/// The errors, in this order: [`Error::Rows`] where the map has over 64 pairs or equal keys; [`Error::Attachment`] where it is
/// larger than the body, or where Init, Feedback or Close have a body; [`Error::FrameSize`]; [`Error::OutputTooShort`].
///
/// What was read can be handed to the writer. It may be refused with [`Error::FrameSize`]: the frame written may be longer than
/// the one read. No other error is ruled out yet.
///
/// ```
/// use bekurapi::{write, Error, Feedback, Record};
///
/// let feedback = Record::Feedback(Feedback { header_version: 1, window_size_increment: 300 });
/// let mut out = [0xee; 20];
/// assert_eq!(write(5, &feedback, b"", &mut out), Ok(19));
/// assert_eq!(out, *b"\x09\x30\x01\x03\0\0\0\x13\0\0\0\0\0\x05\x01\0\x08\xac\x02\xee");
///
/// assert_eq!(write(5, &feedback, b"", &mut out[..18]), Err(Error::OutputTooShort));
/// ```
pub fn write(id: u32, record: &Record<'_>, body: &[u8], out: &mut [u8]) -> Result<usize, Error> {
    write_within(id, record, body, out, Ceiling::MAX)
}

/// As [`write()`], for a connection with a ceiling: a frame over it has [`Error::FrameSize`]. The output need only hold the
/// frame.
///
/// ```
/// use bekurapi::{write_within, Ceiling, Error, Feedback, Record};
///
/// let feedback = Record::Feedback(Feedback { header_version: 1, window_size_increment: 300 });
/// let mut out = [0; 19];
/// assert_eq!(write_within(5, &feedback, b"", &mut out, Ceiling::MAX), Ok(19));
/// assert_eq!(write_within(5, &feedback, b"", &mut out, Ceiling::new(18).unwrap()), Err(Error::FrameSize));
/// ```
pub fn write_within(
    id: u32,
    record: &Record<'_>,
    body: &[u8],
    out: &mut [u8],
    ceiling: Ceiling,
) -> Result<usize, Error> {
    write_source(record, &Source::new(id, record), body, out, ceiling)
}

/// The frame of a record with its id and body. The errors are those of [`write()`], without [`Error::OutputTooShort`].
///
/// ```
/// use bekurapi::{to_vec, Error, Record, Request};
///
/// let frame = to_vec(7, &Record::Request(Request::default()), b"")?;
/// assert_eq!(frame, [0x09, 0x30, 0, 0, 0, 0, 0, 16, 0, 0, 0, 0, 0, 7, 0, 0]);
///
/// let request = Request { attachment_size: 9, ..Request::default() };
/// assert_eq!(to_vec(7, &Record::Request(request), b"crate 12"), Err(Error::Attachment));
/// # Ok::<(), bekurapi::Error>(())
/// ```
pub fn to_vec(id: u32, record: &Record<'_>, body: &[u8]) -> Result<Vec<u8>, Error> {
    to_vec_within(id, record, body, Ceiling::MAX)
}

/// As [`to_vec`], for a connection with a ceiling. The errors are those of [`write_within`], without
/// [`Error::OutputTooShort`].
///
/// ```
/// use bekurapi::{to_vec_within, Ceiling, Data, Error, Record};
///
/// let data = Record::Data(Data::default());
/// let sensor = Ceiling::new(20).unwrap();
/// assert_eq!(to_vec_within(9, &data, b"21.5", sensor).unwrap().len(), 20);
/// assert_eq!(to_vec_within(9, &data, b"21.53", sensor), Err(Error::FrameSize));
/// ```
pub fn to_vec_within(id: u32, record: &Record<'_>, body: &[u8], ceiling: Ceiling) -> Result<Vec<u8>, Error> {
    let source = Source::new(id, record);
    let mut out = vec![0; most_bytes(&source, body, ceiling)];
    let size = write_source(record, &source, body, &mut out, ceiling)?;
    out.truncate(size);
    Ok(out)
}

/// No frame of the source and body has more bytes: there are at most 16 fields, a row is three more, and what is written of
/// a field beside source bytes is a tag of one byte and a varint. Nor is a frame over the ceiling written.
fn most_bytes(source: &Source, body: &[u8], ceiling: Ceiling) -> usize {
    const FIELD: usize = 1 + 10;
    let rows = source.rows.len() / 4;
    let fields = rows.saturating_mul(3).saturating_add(16).saturating_mul(FIELD);
    let bytes = source.len().saturating_add(body.len());
    fields.saturating_add(bytes).saturating_add(HEADER_SIZE).min(ceiling.get() as usize)
}

fn write_source(
    record: &Record<'_>,
    source: &Source,
    body: &[u8],
    out: &mut [u8],
    ceiling: Ceiling,
) -> Result<usize, Error> {
    if u32::try_from(source.len()).is_err() {
        return Err(error_of_too_long(record, body));
    }
    let bytes = source.bytes();
    let mut size = 0;
    let write = writer(record.kind());
    // SAFETY: each pointer with a length is a slice's, and a record has 25 numbers. All but the output are only read; it is
    // borrowed exclusively and so overlaps none of them. `size` is a local that only the function writes.
    let code = unsafe {
        write(
            &source.record,
            bytes.as_ptr(),
            bytes.len(),
            source.rows.as_ptr(),
            source.rows.len(),
            body.as_ptr(),
            body.len(),
            out.as_mut_ptr(),
            out.len(),
            ceiling.get(),
            &mut size,
        )
    };
    checked(code)?;
    Ok(size)
}

/// The library's writer of a kind.
fn writer(kind: Kind) -> ffi::Writer {
    match kind {
        Kind::Request => ffi::trpc_write_request,
        Kind::Response => ffi::trpc_write_response,
        Kind::Init => ffi::trpc_write_init,
        Kind::Data => ffi::trpc_write_data,
        Kind::Feedback => ffi::trpc_write_feedback,
        Kind::Close => ffi::trpc_write_close,
    }
}

/// The error of a record whose frame is over every ceiling, in the library's order. It serves where byte fields have over 4 GiB
/// in all: their starts have no 32-bit number, so the library can't be asked.
fn error_of_too_long(record: &Record<'_>, body: &[u8]) -> Error {
    let (info, attachment_size, takes_body) = match record {
        Record::Request(request) => (Some(&request.trans_info), request.attachment_size, true),
        Record::Response(response) => (Some(&response.trans_info), response.attachment_size, true),
        Record::Init(init) => (init.request_meta.as_ref().map(|meta| &meta.trans_info), 0, false),
        Record::Data(_) => (None, 0, true),
        Record::Feedback(_) => (None, 0, false),
        Record::Close(close) => (Some(&close.trans_info), 0, false),
    };
    if info.is_some_and(|info| info.len() > MOST_ROWS || info.has_equal_keys()) {
        return Error::Rows;
    }
    if attachment_size as usize > body.len() || (!takes_body && !body.is_empty()) {
        return Error::Attachment;
    }
    Error::FrameSize
}

#[cfg(test)]
mod tests {
    use super::*;
    use crate::header::MAX_FRAME;
    use crate::record::{Close, Init, Request, RequestMeta, Response};
    use crate::trans_info::TransInfo;

    /// Maps that can be written, that have equal keys, and that have too many pairs.
    fn maps(keys: &[String]) -> [TransInfo<'_>; 4] {
        let map = |count: usize| keys[..count].iter().map(|key| (key, key)).collect();
        [TransInfo::new(), map(64), map(65), TransInfo::from([("a", "1"), ("b", "2"), ("a", "3")])]
    }

    fn long_records<'a>(long: &'a [u8], trans_info: TransInfo<'a>, attachment_size: u32) -> Vec<Record<'a>> {
        let info = || trans_info.clone();
        let meta = RequestMeta { func: long, trans_info: info(), ..RequestMeta::default() };
        vec![
            Record::Request(Request { func: long, trans_info: info(), attachment_size, ..Request::default() }),
            Record::Response(Response { error_msg: long, trans_info: info(), attachment_size, ..Response::default() }),
            Record::Init(Init { request_meta: Some(meta), ..Init::default() }),
            Record::Close(Close { msg: long, trans_info: info(), ..Close::default() }),
        ]
    }

    /// On records that are too long, and not so long that the library can't be asked, it answers the same.
    #[test]
    fn too_long_as_the_library_says() {
        let long = vec![b'l'; MAX_FRAME];
        let keys: Vec<String> = (0..65).map(|number| number.to_string()).collect();
        let mut counts = [0; 3];
        for map in maps(&keys) {
            for attachment_size in [0, 4, 5, u32::MAX] {
                for record in long_records(&long, map.clone(), attachment_size) {
                    for body in [&b""[..], b"four"] {
                        let error = error_of_too_long(&record, body);
                        assert_eq!(to_vec(1, &record, body), Err(error));
                        counts[[Error::Rows, Error::Attachment, Error::FrameSize]
                            .iter()
                            .position(|&e| e == error)
                            .unwrap()] += 1;
                    }
                }
            }
        }
        assert!(counts.iter().all(|&count| count >= 8));
    }
}
