/// The map of a message: keys and values, in order of first appearance.
///
/// It is collected from pairs of anything that is bytes, so also from the strings that a map owns. No more than 64 pairs can
/// be written, and no key twice: [`Error::Rows`](crate::Error::Rows).
///
/// ```
/// use std::collections::BTreeMap;
///
/// use bekurapi::{read, to_vec, Kind, Record, Request, TransInfo};
///
/// let owned = BTreeMap::from([("cell".to_string(), b"4".to_vec()), ("trace".to_string(), vec![0xff, 0x00])]);
/// let request = Request { trans_info: owned.iter().collect(), ..Request::default() };
/// let frame = to_vec(7, &Record::Request(request), b"")?;
///
/// let message = read(Kind::Request, &frame)?;
/// let Record::Request(request) = &message.record else { unreachable!() };
/// for (key, value) in &request.trans_info {
///     println!("{} has {} bytes", String::from_utf8_lossy(key), value.len());
/// }
/// assert_eq!(request.trans_info, TransInfo::from([("cell", &b"4"[..]), ("trace", &[0xff, 0x00])]));
/// # Ok::<(), bekurapi::Error>(())
/// ```
#[derive(Clone, Debug, Default, PartialEq, Eq)]
pub struct TransInfo<'a> {
    pairs: Vec<(&'a [u8], &'a [u8])>,
}

impl<'a> TransInfo<'a> {
    /// A map with no pairs.
    ///
    /// ```
    /// assert!(bekurapi::TransInfo::new().is_empty());
    /// ```
    pub fn new() -> TransInfo<'a> {
        TransInfo::default()
    }

    /// How many pairs there are.
    ///
    /// ```
    /// assert_eq!(bekurapi::TransInfo::from([("cell", "4"), ("shift", "night")]).len(), 2);
    /// ```
    pub fn len(&self) -> usize {
        self.pairs.len()
    }

    /// Whether there are no pairs.
    ///
    /// ```
    /// assert!(!bekurapi::TransInfo::from([("cell", "4")]).is_empty());
    /// ```
    pub fn is_empty(&self) -> bool {
        self.pairs.is_empty()
    }

    /// The value of a key.
    ///
    /// ```
    /// let info = bekurapi::TransInfo::from([("cell", "4")]);
    /// assert_eq!(info.get("cell"), Some(&b"4"[..]));
    /// assert_eq!(info.get("shift"), None);
    /// ```
    pub fn get(&self, key: impl AsRef<[u8]>) -> Option<&'a [u8]> {
        self.iter().find(|(known, _)| *known == key.as_ref()).map(|(_, value)| value)
    }

    /// Whether a key comes twice.
    pub(crate) fn has_equal_keys(&self) -> bool {
        let key = |place: usize| self.pairs[place].0;
        (0..self.pairs.len()).any(|later| (0..later).any(|earlier| key(earlier) == key(later)))
    }

    /// The pairs of key and value, in their order.
    ///
    /// ```
    /// let info = bekurapi::TransInfo::from([("cell", "4"), ("shift", "night")]);
    /// assert!(info.iter().map(|(key, _)| key).eq([&b"cell"[..], b"shift"]));
    /// ```
    pub fn iter(&self) -> impl ExactSizeIterator<Item = (&'a [u8], &'a [u8])> + '_ {
        self.pairs.iter().copied()
    }
}

impl<'a, K, V> FromIterator<(&'a K, &'a V)> for TransInfo<'a>
where
    K: AsRef<[u8]> + ?Sized,
    V: AsRef<[u8]> + ?Sized,
{
    fn from_iter<I: IntoIterator<Item = (&'a K, &'a V)>>(pairs: I) -> Self {
        TransInfo { pairs: pairs.into_iter().map(|(key, value)| (key.as_ref(), value.as_ref())).collect() }
    }
}

impl<'a, K, V, const N: usize> From<[(&'a K, &'a V); N]> for TransInfo<'a>
where
    K: AsRef<[u8]> + ?Sized,
    V: AsRef<[u8]> + ?Sized,
{
    fn from(pairs: [(&'a K, &'a V); N]) -> Self {
        pairs.into_iter().collect()
    }
}

impl<'a> IntoIterator for TransInfo<'a> {
    type Item = (&'a [u8], &'a [u8]);
    type IntoIter = std::vec::IntoIter<Self::Item>;

    fn into_iter(self) -> Self::IntoIter {
        self.pairs.into_iter()
    }
}

impl<'a, 'i> IntoIterator for &'i TransInfo<'a> {
    type Item = (&'a [u8], &'a [u8]);
    type IntoIter = std::iter::Copied<std::slice::Iter<'i, (&'a [u8], &'a [u8])>>;

    fn into_iter(self) -> Self::IntoIter {
        self.pairs.iter().copied()
    }
}
