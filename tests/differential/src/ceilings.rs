//! The ceilings at which an input is tried beside 65,536, which is that of most.

use crate::random::Random;
use crate::reference::header::{in_range, HIGHEST_CEILING, LARGEST, LOWEST_CEILING};
use crate::shrink::{less, Case};

/// The ends of the range and those beside them, the sensor line's 4,096 and the one below, and the ends of 32 bits.
pub const CEILINGS: [u32; 9] = [0, 15, 16, 17, 4_095, 4_096, 65_536, 65_537, u32::MAX];

/// An input to entries that take a ceiling.
pub trait Limited: Case {
    /// The sizes in it that a ceiling decides about.
    fn sizes(&self) -> Vec<usize>;

    /// The same at another ceiling. A slice that has to be so long, or may be, is that or about that.
    fn at(&self, ceiling: u32, random: &mut Random) -> Self;
}

/// A ceiling: one of those above, one at these sizes or next to them, or any.
pub fn ceiling(random: &mut Random, sizes: &[usize]) -> u32 {
    match random.below(8) {
        0..=2 => random.pick(&CEILINGS),
        3 => random.between(LARGEST / 8, LARGEST) as u32 >> random.below(10),
        4 => out_of_range(random),
        _ if sizes.is_empty() => random.pick(&CEILINGS),
        _ => {
            let size = random.pick(sizes);
            random.pick(&near(size))
        }
    }
}

/// A ceiling out of the range; some have one that is within it in their low bits.
pub fn out_of_range(random: &mut Random) -> u32 {
    let within = random.between(16, LARGEST) as u32;
    let above = within | 1 << random.between(17, 31);
    let any = random.u32();
    let picked = random.pick(&[0, 1, 15, 65_537, 65_538, 65_552, 1 << 31, u32::MAX, above, above, any]);
    if in_range(picked) {
        u32::MAX - picked
    } else {
        picked
    }
}

/// The ceilings at a size and next to it.
pub fn near(size: usize) -> [u32; 3] {
    let size = size as u32;
    [size.wrapping_sub(1), size, size.wrapping_add(1)]
}

/// A length for a slice at a ceiling, about as long as that, or the length that it had.
pub fn length(random: &mut Random, ceiling: u32, own: usize) -> usize {
    // At a ceiling out of the range no length is needed.
    let ceiling = ceiling.min(HIGHEST_CEILING + 1) as usize;
    random.pick(&[ceiling.saturating_sub(1), ceiling, ceiling, ceiling, ceiling + 1, own])
}

/// Ceilings that are plainer than this one: 65,536, and then lower ones.
pub fn plainer(ceiling: u32) -> impl Iterator<Item = u32> {
    let other = (ceiling != HIGHEST_CEILING).then_some(ceiling);
    let lower = other.into_iter().flat_map(|ceiling| less(ceiling.into())).map(|ceiling| ceiling as u32);
    other.map(|_| HIGHEST_CEILING).into_iter().chain(lower)
}

/// The ceiling after so much was taken from what was compared with it. Stays in the range, and 65,536 stays what it is.
pub fn lowered(ceiling: u32, before: usize, after: usize) -> Option<u32> {
    let lower = ceiling.checked_sub(before.checked_sub(after)? as u32)?;
    (ceiling < HIGHEST_CEILING && lower < ceiling && lower >= LOWEST_CEILING).then_some(lower)
}
