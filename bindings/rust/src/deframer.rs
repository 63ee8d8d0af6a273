use std::fmt;

use crate::ceiling::Ceiling;
use crate::error::{checked, Error};
use bekurapi_sys as ffi;

/// Cuts a stream that arrives in pieces into frames. It owns the buffer in which frames are put together, which has as many
/// bytes as the ceiling: 65,536, or those of [`Deframer::with_ceiling`].
///
/// However the stream is cut into pieces, the frames, the error and the end are those of the whole stream.
///
/// ```
/// use bekurapi::{to_vec, Deframer, End, Feedback, Record};
///
/// let feedback = Record::Feedback(Feedback { window_size_increment: 300, ..Feedback::default() });
/// let mut stream = to_vec(5, &feedback, b"").unwrap();
/// stream.push(0x09);
///
/// let mut deframer = Deframer::new();
/// let mut sizes = Vec::new();
/// for mut piece in stream.chunks(7) {
///     while let Some(frame) = deframer.next_frame(&mut piece).unwrap() {
///         sizes.push(frame.len());
///     }
/// }
/// assert_eq!(sizes, [19]);
/// assert_eq!(deframer.finish(), Ok(End::Short(1)));
/// ```
#[derive(Clone)]
pub struct Deframer {
    held: usize,
    error: u32,
    ceiling: Ceiling,
    buffer: Box<[u8]>,
}

/// What a call of [`Deframer::push`] did.
///
/// ```
/// use bekurapi::{Deframer, Progress};
///
/// let mut deframer = Deframer::new();
/// let Progress { taken, frame } = deframer.push(&[0x09, 0x30]);
/// assert_eq!((taken, frame), (2, Ok(None)));
/// ```
#[derive(Clone, Copy, Debug, PartialEq, Eq)]
#[must_use = "there may be a frame, an error, or bytes that were not taken"]
pub struct Progress<'d> {
    /// How many bytes of the piece were taken, where a header is refused too.
    pub taken: usize,
    /// The whole frame; nothing where more is needed, and the piece is used up then; or the error of a header.
    pub frame: Result<Option<&'d [u8]>, Error>,
}

/// How a stream ended.
///
/// ```
/// use bekurapi::{Deframer, End};
///
/// assert_eq!(Deframer::new().finish(), Ok(End::Clean));
/// ```
#[derive(Clone, Copy, Debug, PartialEq, Eq)]
pub enum End {
    /// After a whole frame, or before the first.
    Clean,
    /// Inside a frame, of which so many bytes had come.
    Short(usize),
}

impl Deframer {
    /// A deframer for a new stream.
    ///
    /// ```
    /// assert!(bekurapi::Deframer::new().held().is_empty());
    /// ```
    pub fn new() -> Deframer {
        Deframer::with_ceiling(Ceiling::MAX)
    }

    /// A deframer for a new stream of a connection with a ceiling. A header whose total is over it has [`Error::Total`].
    ///
    /// ```
    /// use bekurapi::{to_vec, Ceiling, Data, Deframer, Error, Progress, Record};
    ///
    /// let mut deframer = Deframer::with_ceiling(Ceiling::new(4_096).unwrap());
    /// let frame = to_vec(9, &Record::Data(Data::default()), &[0; 5_000]).unwrap();
    /// assert_eq!(deframer.push(&frame), Progress { taken: 16, frame: Err(Error::Total) });
    /// ```
    pub fn with_ceiling(ceiling: Ceiling) -> Deframer {
        Deframer { held: 0, error: 0, ceiling, buffer: vec![0; ceiling.get() as usize].into_boxed_slice() }
    }

    /// The ceiling of the connection.
    ///
    /// ```
    /// use bekurapi::{Ceiling, Deframer};
    ///
    /// assert_eq!(Deframer::new().ceiling(), Ceiling::MAX);
    /// ```
    pub fn ceiling(&self) -> Ceiling {
        self.ceiling
    }

    /// Takes bytes from a piece until a frame is whole, a header is refused or the piece ends. What was not taken is to be
    /// pushed again; [`Deframer::next_frame`] sees to that.
    ///
    /// A header is judged when its 16th byte arrives. Its errors are those of
    /// [`header_check_within`](crate::header_check_within) with this deframer's ceiling, from [`Error::Magic`] on, and they are
    /// the stream's end: each later call gives the same error and takes nothing.
    ///
    /// ```
    /// use bekurapi::{to_vec, Data, Deframer, Record};
    ///
    /// let one = to_vec(7, &Record::Data(Data::default()), b"one").unwrap();
    /// let two = to_vec(7, &Record::Data(Data::default()), b"two").unwrap();
    /// let piece = [&one[..], &two[..]].concat();
    ///
    /// let mut deframer = Deframer::new();
    /// let progress = deframer.push(&piece);
    /// assert_eq!(progress.frame, Ok(Some(&one[..])));
    /// let taken = progress.taken;
    /// assert_eq!(deframer.push(&piece[taken..]).frame, Ok(Some(&two[..])));
    /// ```
    pub fn push(&mut self, piece: &[u8]) -> Progress<'_> {
        let mut taken = 0;
        let mut size = 0;
        // SAFETY: each pointer with a length is a slice's; the buffer is borrowed exclusively and so does not overlap the
        // piece. The numbers are fields and locals of their own that only the function writes.
        let code = unsafe {
            ffi::trpc_deframe(
                &mut self.held,
                &mut self.error,
                self.buffer.as_mut_ptr(),
                self.buffer.len(),
                self.ceiling.get(),
                piece.as_ptr(),
                piece.len(),
                &mut taken,
                &mut size,
            )
        };
        let frame = if size == 0 { None } else { Some(&self.buffer[..size]) };
        Progress { taken, frame: checked(code).map(|()| frame) }
    }

    /// The next whole frame of a piece, which is cut down to the bytes after those taken; nothing where the piece is used up.
    /// Call it until then, as in the example of [`Deframer`].
    ///
    /// After an error the piece begins after the header that was refused.
    ///
    /// ```
    /// use bekurapi::{Deframer, Error};
    ///
    /// let mut deframer = Deframer::new();
    /// let mut piece = &b"GET / HTTP/1.1\r\nHost: cell"[..];
    /// assert_eq!(deframer.next_frame(&mut piece), Err(Error::Magic));
    /// assert_eq!(piece, b"Host: cell");
    /// assert_eq!(deframer.held(), b"GET / HTTP/1.1\r\n");
    /// ```
    pub fn next_frame(&mut self, piece: &mut &[u8]) -> Result<Option<&[u8]>, Error> {
        let Progress { taken, frame } = self.push(piece);
        *piece = &piece[taken..];
        frame
    }

    /// How the stream ended, if it ends here; or the error that a call has given.
    ///
    /// ```
    /// use bekurapi::{Deframer, End, Error, Progress};
    ///
    /// let mut deframer = Deframer::new();
    /// assert_eq!(deframer.push(&[0x30]).taken, 1);
    /// assert_eq!(deframer.finish(), Ok(End::Short(1)));
    ///
    /// assert_eq!(deframer.push(&[0; 20]), Progress { taken: 15, frame: Err(Error::Magic) });
    /// assert_eq!(deframer.finish(), Err(Error::Magic));
    /// ```
    pub fn finish(&self) -> Result<End, Error> {
        let mut short_by = 0;
        // SAFETY: the pointer and the length are those of the buffer, which the function only reads; `short_by` is a local
        // that only it writes.
        let code = unsafe {
            ffi::trpc_finish(
                self.held,
                self.error,
                self.buffer.as_ptr(),
                self.buffer.len(),
                self.ceiling.get(),
                &mut short_by,
            )
        };
        checked(code)?;
        Ok(if short_by == 0 { End::Clean } else { End::Short(short_by) })
    }

    /// The bytes held: the beginning of a frame that is not whole yet, or the header that was refused.
    ///
    /// ```
    /// let mut deframer = bekurapi::Deframer::new();
    /// assert_eq!(deframer.push(&[0x09, 0x30, 0]).taken, 3);
    /// assert_eq!(deframer.held(), [0x09, 0x30, 0]);
    /// ```
    pub fn held(&self) -> &[u8] {
        &self.buffer[..self.held]
    }

    /// Makes the deframer one for a new stream. The buffer is kept, and so is the ceiling.
    ///
    /// ```
    /// use bekurapi::{Deframer, End};
    ///
    /// let mut deframer = Deframer::new();
    /// assert_eq!(deframer.push(&[0x09]).taken, 1);
    /// deframer.reset();
    /// assert_eq!(deframer.finish(), Ok(End::Clean));
    /// ```
    pub fn reset(&mut self) {
        self.held = 0;
        self.error = 0;
    }
}

impl Default for Deframer {
    fn default() -> Self {
        Deframer::new()
    }
}

impl fmt::Debug for Deframer {
    fn fmt(&self, f: &mut fmt::Formatter<'_>) -> fmt::Result {
        let Deframer { held, error, ceiling, .. } = self;
        let mut shown = f.debug_struct("Deframer");
        shown.field("held", held).field("error", error).field("ceiling", ceiling).finish_non_exhaustive()
    }
}

#[cfg(test)]
mod tests {
    use super::*;

    /// The first 16 bytes of a Data frame of 24, of protocol version 1.
    const HEADER: [u8; 16] = [0x09, 0x30, 1, 2, 0, 0, 0, 24, 0, 0, 0, 0, 0, 7, 1, 0];

    /// A deframer in a state, whether a call can leave it or not, over a buffer that begins with these bytes.
    fn in_state(held: usize, error: u32, start: &[u8; 16]) -> Deframer {
        let mut deframer = Deframer { held, error, ..Deframer::new() };
        deframer.buffer[..16].copy_from_slice(start);
        deframer
    }

    /// It is refused, and stays as it is: the state as given, nothing taken, no byte of the buffer changed.
    fn is_not_known(mut deframer: Deframer) {
        let before = deframer.clone();
        let unknown = Progress { taken: 0, frame: Err(Error::UnknownState) };
        for piece in [&[0x09; 40][..], &[]] {
            assert_eq!(deframer.finish(), Err(Error::UnknownState));
            assert_eq!(deframer.push(piece), unknown);
            assert_eq!((deframer.held, deframer.error), (before.held, before.error));
            assert!(deframer.buffer == before.buffer);
        }
    }

    /// A state is judged by the ceiling of the call. Inside a frame of 24 bytes it is known from 24 on, and after the refusal of
    /// that total below 24.
    #[test]
    fn a_state_under_another_ceiling() {
        for bytes in [16, 20, 23, 24, 25, 65_536] {
            let ceiling = Ceiling::new(bytes).unwrap();
            let inside = Deframer { ceiling, ..in_state(20, 0, &HEADER) };
            let refused = Deframer { ceiling, ..in_state(16, Error::Total.number(), &HEADER) };
            if bytes < 24 {
                assert_eq!(refused.finish(), Err(Error::Total));
                is_not_known(inside);
            } else {
                assert_eq!(inside.finish(), Ok(End::Short(20)));
                is_not_known(refused);
            }
        }
    }

    /// The buffer has as many bytes as the ceiling. In a longer one those past the ceiling stay as they are.
    #[test]
    fn bytes_past_the_ceiling_are_untouched() {
        for total in [24u8, 25, 255] {
            let ceiling = Ceiling::new(total.into()).unwrap();
            let room = usize::from(total);
            assert_eq!(Deframer::with_ceiling(ceiling).buffer.len(), room);
            let mut header = HEADER;
            header[7] = total;
            let stream = [&header[..], &vec![0x77; room - 16]].concat().repeat(3);
            for size in 1..=stream.len() {
                let buffer = vec![0xee; room + 64].into_boxed_slice();
                let mut deframer = Deframer { buffer, ..Deframer::with_ceiling(ceiling) };
                let mut frames = 0;
                for mut piece in stream.chunks(size) {
                    while let Some(frame) = deframer.next_frame(&mut piece).unwrap() {
                        assert_eq!(frame, &stream[..room]);
                        frames += 1;
                    }
                }
                assert_eq!((frames, deframer.finish()), (3, Ok(End::Clean)));
                assert!(deframer.buffer[room..].iter().all(|&byte| byte == 0xee));
            }
        }
    }

    /// 8 was the refusal of bytes 15 and 16: whatever they are, no state holds it.
    #[test]
    fn a_state_with_a_retired_number_is_not_known() {
        for error in Error::RETIRED {
            for (place, value) in [(14, 0), (14, 1), (14, 0xff), (15, 1), (15, 0xff), (0, 0x30)] {
                let mut header = HEADER;
                header[place] = value;
                for held in [0, 15, 16, 17, 20] {
                    is_not_known(in_state(held, error, &header));
                }
            }
        }
    }

    /// Inside a frame of any version, and with any last byte, the deframer goes on.
    #[test]
    fn a_state_inside_a_frame_of_any_version_is_known() {
        for place in [14, 15] {
            for value in 0..=255 {
                let mut header = HEADER;
                header[place] = value;
                let mut deframer = in_state(20, 0, &header);
                assert_eq!(deframer.finish(), Ok(End::Short(20)));
                let Progress { taken, frame } = deframer.push(&[0x77; 9]);
                assert_eq!((taken, frame.unwrap().unwrap().len()), (4, 24));
                assert_eq!(deframer.finish(), Ok(End::Clean));
            }
        }
    }
}
