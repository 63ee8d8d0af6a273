//! Measures all cases and writes a line for each contender: group, case, contender, nanoseconds of an operation in the best
//! round and in the middle one, bytes of an operation (0 where they don't matter), separated by tabs.
//!
//!     measure ROUNDS MILLISECONDS
//!
//! For `bench/instructions`: does so many passes of the library and of plain Rust under callgrind, and writes a line for
//! each: group, case, contender, operations.
//!
//!     measure --count PASSES

use bench::{agreement, cases, timing};
use std::time::Duration;

fn number(word: Option<String>) -> u32 {
    let number = word.and_then(|word| word.parse().ok());
    number.expect("usage: measure ROUNDS MILLISECONDS, measure --count PASSES")
}

fn measure(rounds: u32, sample: Duration) {
    agreement::check();
    let mut cases = cases::all();
    timing::measure(&mut cases, rounds, sample);
    for case in &cases {
        for contender in &case.contenders {
            println!(
                "{}\t{}\t{}\t{:.3}\t{:.3}\t{:.1}",
                case.group,
                case.name,
                contender.name,
                case.best(contender),
                case.median(contender),
                case.bytes as f64 / case.operations as f64,
            );
        }
    }
}

fn count(passes: u32) {
    timing::count(&mut cases::all(), &[cases::OURS, cases::RUST], passes, |case, contender| {
        println!("{}\t{}\t{}\t{}", case.group, case.name, contender.name, case.operations * passes as usize);
    });
}

fn main() {
    let mut words = std::env::args().skip(1).peekable();
    if words.next_if(|word| word == "--count").is_some() {
        count(number(words.next()));
    } else {
        let rounds = number(words.next());
        measure(rounds, Duration::from_millis(number(words.next()).into()));
    }
}
