//! What a comparison of the library with the reference found.

use std::fmt::{Debug, Display};

#[derive(Debug)]
pub struct Difference {
    pub what: String,
    pub expected: String,
    pub actual: String,
}

pub fn same<T: PartialEq + Debug>(what: &dyn Display, expected: &T, actual: &T) -> Result<(), Difference> {
    if expected == actual {
        return Ok(());
    }
    Err(Difference { what: what.to_string(), expected: format!("{expected:?}"), actual: format!("{actual:?}") })
}

/// Shows the places from the first difference on, in hex.
pub fn same_slices<T: PartialEq + Debug>(what: &str, expected: &[T], actual: &[T]) -> Result<(), Difference> {
    if expected == actual {
        return Ok(());
    }
    let from = expected.iter().zip(actual).take_while(|(left, right)| left == right).count();
    let show = |items: &[T]| format!("{:X?}", &items[from..items.len().min(from + 24)]);
    Err(Difference {
        what: format!("{what}, from place {from} on (in hex)"),
        expected: show(expected),
        actual: show(actual),
    })
}

pub fn hex(bytes: &[u8]) -> String {
    if bytes.is_empty() {
        return "(none)".to_string();
    }
    bytes.iter().map(|byte| format!("{byte:02X}")).collect::<Vec<_>>().join(" ")
}
