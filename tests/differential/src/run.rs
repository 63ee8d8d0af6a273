//! A run: so many inputs of each family, one line for each, and at the first difference the smallest input found.

use crate::ceilings::{ceiling, near, Limited, CEILINGS};
use crate::difference::Difference;
use crate::random::Random;
use crate::reference::IN_USE;
use crate::shrink::{compared, shrink, Case};
use std::process::exit;
use std::time::Instant;

/// How often each error code was answered, and how often each of the ceilings that are always tried was passed.
pub struct Tally {
    codes: [u64; Tally::CODES],
    ceilings: [u64; CEILINGS.len()],
}

impl Default for Tally {
    fn default() -> Tally {
        Tally { codes: [0; Tally::CODES], ceilings: [0; CEILINGS.len()] }
    }
}

impl Tally {
    const CODES: usize = IN_USE[IN_USE.len() - 1] as usize + 1;

    pub fn count(&mut self, code: u32) {
        if let Some(count) = self.codes.get_mut(code as usize) {
            *count += 1;
        }
    }

    pub fn count_ceiling(&mut self, ceiling: u32) {
        if let Some(place) = CEILINGS.iter().position(|tried| *tried == ceiling) {
            self.ceilings[place] += 1;
        }
    }

    /// Adds the error codes of another.
    pub fn add(&mut self, other: &Tally) {
        for (count, more) in self.codes.iter_mut().zip(other.codes) {
            *count += more;
        }
    }

    /// The refusals that are in use and that were not answered.
    pub fn missing(&self) -> Vec<u32> {
        IN_USE.into_iter().filter(|code| self.codes[*code as usize] == 0).collect()
    }

    /// The ceilings that are always tried, and that were not passed.
    pub fn missing_ceilings(&self) -> Vec<u32> {
        let counted = CEILINGS.into_iter().zip(self.ceilings);
        counted.filter(|(_, count)| *count == 0).map(|(ceiling, _)| ceiling).collect()
    }

    fn line(&self) -> String {
        let codes = self.codes.iter().enumerate().filter(|(_, count)| **count > 0);
        codes.map(|(code, count)| format!("{code}:{count}")).collect::<Vec<_>>().join(" ")
    }
}

/// One input in so many is tried at another ceiling as well.
const AGAIN: usize = 8;

/// One family in a run.
pub struct Family {
    pub name: &'static str,
    pub inputs: u64,
    pub random: Random,
    /// Of its own, so that the other ceilings change nothing of what is tried at 65,536.
    ceilings: Random,
    pub seed: u64,
    pub tally: Tally,
    done: u64,
    started: Instant,
}

impl Family {
    pub fn new(name: &'static str, inputs: u64, seed: u64) -> Family {
        let own = name.bytes().fold(seed, |seed, byte| Random::new(seed ^ u64::from(byte)).u64());
        Family {
            name,
            inputs,
            random: Random::new(own),
            ceilings: Random::new(!own),
            seed,
            tally: Tally::default(),
            done: 0,
            started: Instant::now(),
        }
    }

    /// Compares one input; a difference ends the program.
    pub fn check<C: Case>(&mut self, case: &C) {
        self.done += 1;
        if let Err(difference) = compared(case, &mut self.tally) {
            self.report(case, difference);
        }
    }

    /// Compares one input, and one in so many at another ceiling too.
    pub fn check_limited<C: Limited>(&mut self, case: &C) {
        self.check(case);
        if self.ceilings.one_in(AGAIN) {
            let ceiling = ceiling(&mut self.ceilings, &case.sizes());
            let again = case.at(ceiling, &mut self.ceilings);
            self.check(&again);
        }
    }

    /// Compares one input, and at every ceiling that is always tried, and at its own sizes and next to them.
    pub fn check_at_each<C: Limited>(&mut self, case: &C) {
        self.check(case);
        for ceiling in CEILINGS.into_iter().chain(case.sizes().into_iter().flat_map(near)) {
            let again = case.at(ceiling, &mut self.ceilings);
            self.check(&again);
        }
    }

    fn report<C: Case>(&self, case: &C, difference: Difference) -> ! {
        println!("{}: input {} differs in {}; making it smaller", self.name, self.done, difference.what);
        let (case, difference) = shrink(case, difference);
        println!("seed {:#x}, family {}, the smallest input found:", self.seed, self.name);
        println!("{}", case.show());
        println!("differs in {}", difference.what);
        println!("reference: {}", difference.expected);
        println!("library:   {}", difference.actual);
        exit(1);
    }

    /// Prints the family's line and gives its count.
    pub fn finished(&self) -> u64 {
        let seconds = self.started.elapsed().as_secs_f64();
        println!("{:18} {:>10} inputs {:>7.1} s  answers {}", self.name, self.done, seconds, self.tally.line());
        self.done
    }
}
