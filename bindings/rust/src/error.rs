use std::fmt;

/// An error. docs/PROTOCOL.md, "Errors", has all of them in one table: the ground of each, its place in the order,
/// what it leaves and what to do about it. [`Error::number`] and [`Error::words`] give the number and the words.
///
/// ```
/// use bekurapi::Error;
///
/// let error = bekurapi::header_check(b"GET / HTTP/1.1\r\n").unwrap_err();
/// assert_eq!(error, Error::Magic);
/// assert_eq!(error.number(), 3);
/// assert_eq!(error.to_string(), "error 3: magic");
/// ```
///
/// Some numbers cannot come through these bindings, whose types rule out their grounds: [`Error::BufferTooSmall`],
/// [`Error::UnknownState`], [`Error::RowSlice`], [`Error::Span`] and [`Error::QueueInvalid`]. [`Error::BadCeiling`] comes only
/// where a [`Ceiling`](crate::Ceiling) is made of a number.
#[derive(Clone, Copy, Debug, PartialEq, Eq, Hash)]
#[non_exhaustive]
#[repr(u32)]
pub enum Error {
    /// Deframer, end: the buffer is shorter than the ceiling.
    BufferTooSmall = 1,
    /// Deframer, end: the state is not known.
    UnknownState = 2,
    /// Header: magic. Bytes 1-2 are not 09 30.
    Magic = 3,
    /// Header: data type. Byte 3 is neither 0 (unary) nor 1 (stream).
    DataType = 4,
    /// Header: stream type. Byte 4 of a stream frame is not 1 to 4.
    StreamType = 5,
    /// Header: total. Bytes 5-8 are not 16 to the ceiling.
    Total = 6,
    /// Header: header size. Bytes 9-10 are more than the total less 16 (unary), or not 0 (stream).
    HeaderSize = 7,
    /// Reader: the length isn't the total, or it is the wrong kind of frame. Header check: there are not 16 bytes.
    LengthOrKind = 9,
    /// Reader: a varint is bad or cut off.
    Varint = 10,
    /// Reader: a tag is bad, or a group's end is stray or of another number.
    Tag = 11,
    /// Reader: a length, fixed value or open group passes the end of its part.
    PastEnd = 12,
    /// Reader: the 33rd nested group.
    GroupDepth = 13,
    /// Reader: the 65th map entry, repeats counted.
    MapEntries = 14,
    /// Reader, writer: the attachment is larger than the body. Writer: a body with Init, Feedback or Close.
    Attachment = 15,
    /// Reader: under 256 row numbers are lent.
    RowSlice = 16,
    /// Writer: a start plus length passes the end of the source bytes.
    Span = 17,
    /// Writer: over 64 rows, or equal keys.
    Rows = 18,
    /// Writer: the frame is over the ceiling.
    FrameSize = 19,
    /// Add: 64 jobs wait.
    QueueFull = 21,
    /// Add: the arrival is above 2^62.
    Arrival = 22,
    /// Take: nothing waits.
    QueueEmpty = 23,
    /// Queue: the count is over 64, a waiting pair is there twice, or a waiting arrival is above 2^62.
    QueueInvalid = 24,
    /// Add: that pair waits already.
    Duplicate = 25,
    /// Cancel: that pair doesn't wait.
    Absent = 26,
    /// Writer: the output is shorter than the frame.
    OutputTooShort = 27,
    /// Header, deframer, end, reader, writer: the ceiling is not 16 to 65,536.
    BadCeiling = 41,
}

impl Error {
    /// All errors, by rising number.
    ///
    /// ```
    /// use bekurapi::Error;
    ///
    /// assert!(Error::ALL.iter().all(|&error| Error::from_number(error.number()) == Some(error)));
    /// ```
    pub const ALL: [Error; 26] = [
        Error::BufferTooSmall,
        Error::UnknownState,
        Error::Magic,
        Error::DataType,
        Error::StreamType,
        Error::Total,
        Error::HeaderSize,
        Error::LengthOrKind,
        Error::Varint,
        Error::Tag,
        Error::PastEnd,
        Error::GroupDepth,
        Error::MapEntries,
        Error::Attachment,
        Error::RowSlice,
        Error::Span,
        Error::Rows,
        Error::FrameSize,
        Error::QueueFull,
        Error::Arrival,
        Error::QueueEmpty,
        Error::QueueInvalid,
        Error::Duplicate,
        Error::Absent,
        Error::OutputTooShort,
        Error::BadCeiling,
    ];

    /// Numbers that once were an error's and are never used again. 8 was a fixed header whose bytes 15-16 are not both 0, 20 a
    /// header message over 65,535 bytes.
    ///
    /// ```
    /// use bekurapi::Error;
    ///
    /// assert!(Error::RETIRED.iter().all(|&number| Error::from_number(number).is_none()));
    /// ```
    pub const RETIRED: [u32; 2] = [8, 20];

    /// The number of the error, as in docs/PROTOCOL.md.
    ///
    /// ```
    /// assert_eq!(bekurapi::Error::Varint.number(), 10);
    /// ```
    pub const fn number(self) -> u32 {
        self as u32
    }

    /// The error with a number. 0 is none, and so is every other number that [`Error::ALL`] does not have.
    ///
    /// ```
    /// use bekurapi::Error;
    ///
    /// assert_eq!(Error::from_number(27), Some(Error::OutputTooShort));
    /// assert_eq!(Error::from_number(0), None);
    /// ```
    pub fn from_number(number: u32) -> Option<Error> {
        Error::ALL.into_iter().find(|error| error.number() == number)
    }

    /// The words for the error.
    ///
    /// ```
    /// assert_eq!(bekurapi::Error::QueueEmpty.words(), "nothing waits");
    /// ```
    pub const fn words(self) -> &'static str {
        match self {
            Error::BufferTooSmall => "buffer shorter than the ceiling",
            Error::UnknownState => "state not known",
            Error::Magic => "magic",
            Error::DataType => "data type",
            Error::StreamType => "stream type",
            Error::Total => "total",
            Error::HeaderSize => "header size",
            Error::LengthOrKind => "length isn't the total (judge: not 16); or the wrong kind of frame",
            Error::Varint => "varint bad or cut off",
            Error::Tag => "tag bad; group end stray or of another number",
            Error::PastEnd => "a length, fixed value or open group passes the end of its part",
            Error::GroupDepth => "33rd nested group",
            Error::MapEntries => "65th map entry, repeats counted",
            Error::Attachment => "attachment larger than body; writer: a body with Init, Feedback or Close",
            Error::RowSlice => "row slice under 256 numbers",
            Error::Span => "a start plus length past the end of the source bytes, empty fields too",
            Error::Rows => {
                "over 64 rows, rows with Feedback or Data, row slice too short for them, equal keys, \
                 or a meta part marked absent and not all zero, empty and rowless"
            }
            Error::FrameSize => "frame over the ceiling",
            Error::QueueFull => "64 jobs wait",
            Error::Arrival => "arrival above 2^62",
            Error::QueueEmpty => "nothing waits",
            Error::QueueInvalid => "count over 64, a waiting pair twice, or a waiting arrival above 2^62",
            Error::Duplicate => "that pair waits already",
            Error::Absent => "that pair doesn't wait",
            Error::OutputTooShort => "output shorter than the frame",
            Error::BadCeiling => "ceiling outside 16 to 65,536",
        }
    }
}

impl fmt::Display for Error {
    fn fmt(&self, f: &mut fmt::Formatter<'_>) -> fmt::Result {
        write!(f, "error {}: {}", self.number(), self.words())
    }
}

impl std::error::Error for Error {}

/// What a function of the library returned: 0, or an error's number.
pub(crate) fn checked(code: u32) -> Result<(), Error> {
    match Error::from_number(code) {
        Some(error) => Err(error),
        // The library's contracts give no other number.
        None => {
            assert_eq!(code, 0, "no error has this number");
            Ok(())
        }
    }
}

#[cfg(test)]
mod tests {
    use super::*;

    #[test]
    fn numbers_rise_from_1_to_27_without_the_retired_and_then_is_41() {
        let used = (1..=27).filter(|number| !Error::RETIRED.contains(number)).chain([41]);
        assert!(Error::ALL.iter().map(|error| error.number()).eq(used));
    }

    #[test]
    fn zero_is_no_error() {
        assert_eq!(checked(0), Ok(()));
        assert_eq!(checked(5), Err(Error::StreamType));
    }

    #[test]
    #[should_panic(expected = "no error has this number")]
    fn unknown_number() {
        let _ = checked(28);
    }

    #[test]
    #[should_panic(expected = "no error has this number")]
    fn retired_8() {
        let _ = checked(8);
    }

    #[test]
    #[should_panic(expected = "no error has this number")]
    fn retired_20() {
        let _ = checked(20);
    }
}
