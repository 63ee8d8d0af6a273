//! Best of N rounds, in which all contenders run in turn; and passes for callgrind to count.

use std::hint::black_box;
use std::time::{Duration, Instant};

/// Somebody who does a job.
pub struct Contender {
    pub name: &'static str,
    /// Does the job once over all inputs and sums up what was found, which is the same for all contenders.
    pass: Box<dyn FnMut() -> u64>,
    passes: u32,
    times: Vec<f64>,
}

/// A job.
pub struct Case {
    pub group: &'static str,
    pub name: String,
    /// How many operations a pass has, and how many bytes go through, where that is to be reported.
    pub operations: usize,
    pub bytes: usize,
    pub contenders: Vec<Contender>,
}

impl Case {
    pub fn new(group: &'static str, name: impl Into<String>, operations: usize) -> Case {
        Case { group, name: name.into(), operations, bytes: 0, contenders: Vec::new() }
    }

    pub fn bytes(mut self, bytes: usize) -> Case {
        self.bytes = bytes;
        self
    }

    pub fn with(mut self, name: &'static str, pass: impl FnMut() -> u64 + 'static) -> Case {
        self.contenders.push(Contender { name, pass: Box::new(pass), passes: 1, times: Vec::new() });
        self
    }

    /// The nanoseconds of an operation in the best round.
    pub fn best(&self, contender: &Contender) -> f64 {
        contender.times[0] / self.operations as f64
    }

    /// The nanoseconds of an operation in the middle round.
    pub fn median(&self, contender: &Contender) -> f64 {
        contender.times[contender.times.len() / 2] / self.operations as f64
    }
}

impl Contender {
    /// So many passes. `bench/instructions` gives callgrind the name of this function.
    #[inline(never)]
    fn run(&mut self, passes: u32) {
        for _ in 0..passes {
            black_box((self.pass)());
        }
    }

    /// The time of so many passes. One comes before them, so that nobody pays for inputs that are not in the caches yet.
    fn time(&mut self, passes: u32) -> Duration {
        self.run(1);
        let start = Instant::now();
        self.run(passes);
        start.elapsed()
    }

    /// Finds how many passes take as long as a sample has to.
    fn calibrate(&mut self, sample: Duration) {
        while self.time(self.passes) < sample {
            self.passes *= 2;
        }
    }

    fn round(&mut self) {
        let nanoseconds = self.time(self.passes).as_nanos() as f64;
        self.times.push(nanoseconds / f64::from(self.passes));
    }
}

/// All contenders of a case have to find the same.
fn agree(case: &mut Case) {
    let found: Vec<u64> = case.contenders.iter_mut().map(|contender| (contender.pass)()).collect();
    for (contender, sum) in case.contenders.iter().zip(&found) {
        assert_eq!(*sum, found[0], "{}: {} finds something else", case.name, contender.name);
    }
}

/// Measures all cases; afterwards the times of each contender are in rising order.
pub fn measure(cases: &mut [Case], rounds: u32, sample: Duration) {
    cases.iter_mut().for_each(agree);
    let mut contenders: Vec<&mut Contender> = cases.iter_mut().flat_map(|case| &mut case.contenders).collect();
    for contender in &mut contenders {
        contender.calibrate(sample);
    }
    for _ in 0..rounds {
        contenders.iter_mut().for_each(|contender| contender.round());
    }
    for contender in contenders {
        contender.times.sort_by(f64::total_cmp);
    }
}

/// For callgrind: passes of the contenders of these names, in two runs each, of which the second is to be counted. `each` gets
/// every one after its runs.
pub fn count(cases: &mut [Case], names: &[&str], passes: u32, each: impl Fn(&Case, &Contender)) {
    for case in cases {
        agree(case);
        for index in 0..case.contenders.len() {
            let contender = &mut case.contenders[index];
            if names.contains(&contender.name) {
                contender.run(passes);
                contender.run(passes);
                each(case, &case.contenders[index]);
            }
        }
    }
}
