//! Makes an input on which library and reference differ smaller, while they go on differing.

use crate::difference::Difference;
use crate::library;
use crate::run::Tally;
use std::ops::Range;
use std::time::{Duration, Instant};

/// An input: what both are given, compared in every answer and everything lent.
pub trait Case: Clone {
    /// Runs both. The tally counts the error codes answered and the ceilings passed.
    fn compare(&self, tally: &mut Tally) -> Result<(), Difference>;

    /// Inputs that are smaller in some way, those that are much smaller first.
    fn smaller(&self) -> Box<dyn Iterator<Item = Self> + '_>;

    /// The whole input, for a reader who wants to try it.
    fn show(&self) -> String;
}

/// What an input shows: a retired number that the library gave, or else the first thing in which it and the reference differ.
pub fn compared<C: Case>(case: &C, tally: &mut Tally) -> Result<(), Difference> {
    let result = case.compare(tally);
    match library::retired_given() {
        Some(difference) => Err(difference),
        None => result,
    }
}

const LIMIT: Duration = Duration::from_secs(60);

/// The smallest input found from this one, and its difference.
pub fn shrink<C: Case>(case: &C, difference: Difference) -> (C, Difference) {
    let deadline = Instant::now() + LIMIT;
    let mut smallest = (case.clone(), difference);
    loop {
        let next = smallest.0.smaller().take_while(|_| Instant::now() < deadline).find_map(|candidate| {
            let difference = compared(&candidate, &mut Tally::default()).err()?;
            Some((candidate, difference))
        });
        match next {
            Some(next) => smallest = next,
            None => return smallest,
        }
    }
}

/// Ranges of so many places: all, each half, each quarter, down to each single place.
pub fn ranges(count: usize) -> impl Iterator<Item = Range<usize>> {
    let sizes = std::iter::successors(Some(count), |size| Some(size / 2)).take_while(|size| *size > 0);
    sizes.flat_map(move |size| (0..count).step_by(size).map(move |from| from..(from + size).min(count)))
}

pub fn without<T: Clone>(items: &[T], range: &Range<usize>) -> Vec<T> {
    [&items[..range.start], &items[range.end..]].concat()
}

/// With fewer items.
pub fn fewer<T: Clone>(items: &[T]) -> impl Iterator<Item = Vec<T>> + '_ {
    ranges(items.len()).map(|range| without(items, &range))
}

/// With some bytes zero, or one byte halved.
pub fn lower(bytes: &[u8]) -> impl Iterator<Item = Vec<u8>> + '_ {
    let zero = ranges(bytes.len()).filter(|range| bytes[range.clone()].iter().any(|byte| *byte != 0)).map(|range| {
        let mut zero = bytes.to_vec();
        zero[range].fill(0);
        zero
    });
    let halved = (0..bytes.len().min(256)).filter(|place| bytes[*place] > 1).map(|place| {
        let mut halved = bytes.to_vec();
        halved[place] /= 2;
        halved
    });
    zero.chain(halved)
}

/// Smaller numbers than this one: 0, a half, three quarters and so on, down to one less.
pub fn less(number: u64) -> impl Iterator<Item = u64> {
    std::iter::successors(Some(number), |step| Some(step / 2))
        .take_while(|step| *step > 0)
        .map(move |step| number - step)
}

/// With one of the numbers less.
pub fn each_less(numbers: &[u32]) -> impl Iterator<Item = Vec<u32>> + '_ {
    (0..numbers.len()).flat_map(move |place| {
        less(numbers[place].into()).map(move |number| {
            let mut lower = numbers.to_vec();
            lower[place] = number as u32;
            lower
        })
    })
}

/// A field of a message that is being made smaller: the place of its bytes, and of their content if it has one.
struct Field {
    whole: Range<usize>,
    content: Option<Range<usize>>,
}

/// The varint at a place and the place after it.
fn varint(bytes: &[u8], at: usize) -> Option<(usize, usize)> {
    let length = bytes[at..].iter().take(10).position(|byte| *byte < 0x80)? + 1;
    let groups = bytes[at..at + length].iter().rev();
    let value = groups.fold(0usize, |value, byte| value << 7 | usize::from(byte & 0x7F));
    Some((value, at + length))
}

fn field(bytes: &[u8], at: usize) -> Option<Field> {
    let (tag, behind) = varint(bytes, at)?;
    let mut content = None;
    let end = match tag % 8 {
        0 => varint(bytes, behind)?.1,
        1 => behind + 8,
        2 => {
            let (length, start) = varint(bytes, behind)?;
            let end = start.checked_add(length)?;
            content = Some(start..end);
            end
        }
        3 => group_end(bytes, behind)?,
        5 => behind + 4,
        _ => behind,
    };
    (end <= bytes.len()).then_some(Field { whole: at..end, content })
}

/// The place after the group whose first tag ends here.
fn group_end(bytes: &[u8], mut at: usize) -> Option<usize> {
    let mut open = 1;
    while open > 0 {
        let (tag, behind) = varint(bytes, at)?;
        at = match tag % 8 {
            3 | 4 => behind,
            _ => field(bytes, at)?.whole.end,
        };
        open = match tag % 8 {
            3 => open + 1,
            4 => open - 1,
            _ => open,
        };
    }
    Some(at)
}

/// Smaller messages: without some fields, and with a smaller content of one, whose length fits again.
pub fn smaller_messages(message: &[u8]) -> Vec<Vec<u8>> {
    let mut fields = Vec::new();
    let mut at = 0;
    while at < message.len() {
        let next = field(message, at).unwrap_or(Field { whole: at..message.len(), content: None });
        at = next.whole.end;
        fields.push(next);
    }
    let mut all: Vec<Vec<u8>> = ranges(fields.len())
        .map(|range| without(message, &(fields[range.start].whole.start..fields[range.end - 1].whole.end)))
        .collect();
    for Field { whole, content } in &fields {
        let Some(content) = content.as_ref().filter(|content| !content.is_empty()) else {
            continue;
        };
        let tag_end = varint(message, whole.start).map_or(whole.start, |(_, behind)| behind);
        let inner = &message[content.clone()];
        let as_message = smaller_messages(inner);
        for smaller in as_message.into_iter().chain(fewer(inner)) {
            let mut length = smaller.len();
            let mut put = message[..tag_end].to_vec();
            while length >= 0x80 {
                put.push(length as u8 | 0x80);
                length >>= 7;
            }
            put.push(length as u8);
            all.push([&put, &smaller[..], &message[whole.end..]].concat());
        }
    }
    all
}

#[cfg(test)]
mod tests {
    use super::*;
    use crate::reference::RETIRED;

    /// An input to which library and reference answer the same, with this error code.
    #[derive(Clone)]
    struct Answered(u32);

    impl Case for Answered {
        fn compare(&self, _: &mut Tally) -> Result<(), Difference> {
            library::given(&"an entry", self.0);
            Ok(())
        }

        fn smaller(&self) -> Box<dyn Iterator<Item = Answered> + '_> {
            Box::new(less(self.0.into()).map(|code| Answered(code as u32)))
        }

        fn show(&self) -> String {
            self.0.to_string()
        }
    }

    #[test]
    fn a_retired_number_is_a_difference() {
        let differs = |code: &u32| compared(&Answered(*code), &mut Tally::default()).is_err();
        assert!((0..100).filter(differs).eq(RETIRED));
    }
}
