use crate::error::Error;
use crate::header::{HEADER_SIZE, MAX_FRAME};

/// The ceiling of a connection: the most bytes that a frame of it has, its fixed header included. It is 16 to 65,536.
///
/// [`Deframer::with_ceiling`](crate::Deframer::with_ceiling) and the functions whose names end in `_within` take one. Those
/// without it have [`Ceiling::MAX`].
///
/// ```
/// use bekurapi::{read_within, to_vec, to_vec_within, Ceiling, Data, Deframer, Error, Kind, Record};
///
/// let sensor = Ceiling::new(4_096).unwrap();
/// let data = Record::Data(Data::default());
/// let mut deframer = Deframer::with_ceiling(sensor); // its buffer has 4,096 bytes
///
/// let frame = to_vec_within(9, &data, &[0; 4_080], sensor)?;
/// let received = deframer.push(&frame).frame?.unwrap();
/// assert_eq!(read_within(Kind::Data, received, sensor)?.body, [0; 4_080]);
///
/// // One byte more is neither written nor taken.
/// assert_eq!(to_vec_within(9, &data, &[0; 4_081], sensor), Err(Error::FrameSize));
/// assert_eq!(deframer.push(&to_vec(9, &data, &[0; 4_081])?).frame, Err(Error::Total));
/// # Ok::<(), Error>(())
/// ```
#[derive(Clone, Copy, Debug, PartialEq, Eq, PartialOrd, Ord, Hash)]
pub struct Ceiling(u32);

impl Ceiling {
    /// The smallest: a frame is a fixed header and nothing more.
    ///
    /// ```
    /// use bekurapi::{to_vec_within, Ceiling, Close, Record};
    ///
    /// let close = Record::Close(Close::default());
    /// assert_eq!(to_vec_within(5, &close, b"", Ceiling::MIN).unwrap().len(), 16);
    /// ```
    pub const MIN: Ceiling = Ceiling(HEADER_SIZE as u32);

    /// The largest: [`MAX_FRAME`].
    ///
    /// ```
    /// assert_eq!(bekurapi::Ceiling::MAX.get() as usize, bekurapi::MAX_FRAME);
    /// ```
    pub const MAX: Ceiling = Ceiling(MAX_FRAME as u32);

    /// The ceiling of so many bytes; nothing where they are not 16 to 65,536.
    ///
    /// ```
    /// use bekurapi::Ceiling;
    ///
    /// assert_eq!(Ceiling::new(16), Some(Ceiling::MIN));
    /// assert_eq!(Ceiling::new(65_537), None);
    /// ```
    pub const fn new(bytes: u32) -> Option<Ceiling> {
        if Ceiling::MIN.0 <= bytes && bytes <= Ceiling::MAX.0 {
            Some(Ceiling(bytes))
        } else {
            None
        }
    }

    /// How many bytes it is.
    ///
    /// ```
    /// assert_eq!(bekurapi::Ceiling::new(4_096).unwrap().get(), 4_096);
    /// ```
    pub const fn get(self) -> u32 {
        self.0
    }
}

/// As [`Ceiling::new`]; bytes that are not 16 to 65,536 have [`Error::BadCeiling`].
///
/// ```
/// use bekurapi::{Ceiling, Error};
///
/// assert_eq!(Ceiling::try_from(4_096), Ok(Ceiling::new(4_096).unwrap()));
/// assert_eq!(Ceiling::try_from(15), Err(Error::BadCeiling));
/// assert_eq!(Ceiling::try_from(65_537), Err(Error::BadCeiling));
/// ```
impl TryFrom<u32> for Ceiling {
    type Error = Error;

    fn try_from(bytes: u32) -> Result<Self, Error> {
        Ceiling::new(bytes).ok_or(Error::BadCeiling)
    }
}

/// [`Ceiling::MAX`].
impl Default for Ceiling {
    fn default() -> Self {
        Ceiling::MAX
    }
}
