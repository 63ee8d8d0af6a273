//! The judge of a fixed header, and what a good one says: every length from 0 to 40, good headers with some bytes changed, and
//! any bytes.

use crate::ceilings::{plainer, Limited};
use crate::difference::{hex, same, Difference};
use crate::lent::Lent;
use crate::library;
use crate::random::Random;
use crate::reference::header::{first, HIGHEST_CEILING, SIZE};
use crate::reference::interface;
use crate::run::{Family, Tally};
use crate::shrink::{fewer, lower, Case};

#[derive(Clone)]
pub struct Header {
    pub bytes: Vec<u8>,
    pub ceiling: u32,
}

impl Header {
    pub fn plain(bytes: &[u8]) -> Header {
        Header { bytes: bytes.to_vec(), ceiling: HIGHEST_CEILING }
    }
}

impl Case for Header {
    fn compare(&self, tally: &mut Tally) -> Result<(), Difference> {
        let Header { bytes, ceiling } = self;
        let lent = Lent::new(bytes, 0x09);
        let expected = interface::header_check(bytes, *ceiling);
        tally.count(expected);
        tally.count_ceiling(*ceiling);
        same(&"the error code", &expected, &library::header_check(lent.get(), *ceiling))?;
        let expected = interface::header_parse(bytes, *ceiling);
        same(&"what it says", &expected, &library::header_parse(lent.get(), *ceiling))?;
        lent.holds("the header", bytes)
    }

    fn smaller(&self) -> Box<dyn Iterator<Item = Header> + '_> {
        let headers = fewer(&self.bytes).chain(lower(&self.bytes)).map(|bytes| Header { bytes, ..self.clone() });
        Box::new(headers.chain(plainer(self.ceiling).map(|ceiling| Header { ceiling, ..self.clone() })))
    }

    fn show(&self) -> String {
        format!("header, {} bytes: {}\nat ceiling {}", self.bytes.len(), hex(&self.bytes), self.ceiling)
    }
}

impl Limited for Header {
    fn sizes(&self) -> Vec<usize> {
        if self.bytes.len() < SIZE {
            return Vec::new();
        }
        vec![first(&self.bytes).total]
    }

    fn at(&self, ceiling: u32, _: &mut Random) -> Header {
        Header { ceiling, ..self.clone() }
    }
}

pub fn headers(family: &mut Family) {
    for length in 0..=40 {
        for _ in 0..20 {
            let mut bytes = header(&mut family.random).to_vec();
            bytes.extend(family.random.bytes(24));
            bytes.truncate(length);
            family.check_limited(&Header::plain(&bytes));
        }
    }
    for _ in 820..family.inputs {
        let header = header(&mut family.random);
        family.check_limited(&Header::plain(&header));
    }
}

/// A header: good, or with a few bytes changed, or any bytes.
pub fn header(random: &mut Random) -> [u8; 16] {
    let mut bytes = [0; 16];
    let unary = random.one_in(2);
    let total = match random.below(6) {
        0 => random.pick(&[0, 15, 16, 17, 65_535, 65_536, 65_537, u32::MAX]),
        1 => random.u32(),
        _ => random.between(16, 300) as u32,
    };
    let header_size = match random.below(4) {
        _ if !unary && !random.one_in(8) => 0,
        0 => random.u32() as u16,
        1 => total.wrapping_sub(16) as u16,
        2 => total.wrapping_sub(16).wrapping_add(random.pick(&[1, u32::MAX])) as u16,
        _ => random.below(total.clamp(17, 65_536) as usize - 16) as u16,
    };
    bytes[0..2].copy_from_slice(&[0x09, 0x30]);
    bytes[2] = u8::from(!unary);
    bytes[3] = if unary { random.below(6) as u8 } else { random.between(1, 4) as u8 };
    bytes[4..8].copy_from_slice(&total.to_be_bytes());
    bytes[8..10].copy_from_slice(&header_size.to_be_bytes());
    bytes[10..14].copy_from_slice(&random.u32().to_be_bytes());
    if random.one_in(2) {
        bytes[14..].copy_from_slice(&random.last_two());
    }
    for _ in 0..random.pick(&[0, 0, 0, 1, 1, 2, 3]) {
        let value = random.byte();
        bytes[random.below(16)] = random.pick(&[0, 1, 2, 4, 5, value]);
    }
    if random.one_in(64) {
        bytes.copy_from_slice(&random.bytes(16));
    }
    bytes
}
