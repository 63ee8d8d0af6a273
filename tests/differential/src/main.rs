//! The library through its C interface against the reference, which is written from documents 01 and 02 only.
//!
//!     differential [--inputs N] [--long] [--seed N] [--family NAME]
//!
//! Every answer and every lent byte, number and struct is compared after each call, and no retired number may be given. Most inputs
//! are at the ceiling 65,536; some of each family are tried at other ceilings as well, in the range and out of it. A run of
//! 2,000,000 inputs or more fails where a family, but for the queue's, has not tried each of nine ceilings. Prints the seed, one
//! line for each family with its count and how often each error code was answered, and the total; at the first difference the
//! smallest input found, with both answers, and exits with 1. `--long` is 100,000,000 inputs. A run with the same arguments is
//! the same run.

mod ceilings;
mod difference;
mod families;
mod generate;
mod lent;
mod library;
mod random;
mod reference;
mod run;
mod shrink;
#[cfg(not(feature = "library"))]
mod stand_in;

use run::{Family, Tally};
use std::process::exit;
use std::time::Instant;

const SEED: u64 = 0x6265_6B75_7261_7069;
const INPUTS: u64 = 2_000_000;
const LONG: u64 = 100_000_000;

struct Arguments {
    inputs: u64,
    seed: u64,
    family: Option<String>,
}

fn usage() -> ! {
    eprintln!("usage: differential [--inputs N] [--long] [--seed N] [--family NAME]");
    #[cfg(not(feature = "library"))]
    eprintln!("       [--fault NAME], one of {}", stand_in::FAULTS.map(|(fault, _)| fault).join(", "));
    exit(2);
}

fn number(text: Option<String>) -> u64 {
    let text = text.unwrap_or_else(|| usage()).replace('_', "");
    let parsed = match text.strip_prefix("0x") {
        Some(hex) => u64::from_str_radix(hex, 16),
        None => text.parse(),
    };
    parsed.unwrap_or_else(|_| usage())
}

fn arguments() -> Arguments {
    let mut arguments = Arguments { inputs: INPUTS, seed: SEED, family: None };
    let mut words = std::env::args().skip(1);
    while let Some(word) = words.next() {
        match word.as_str() {
            "--inputs" => arguments.inputs = number(words.next()),
            "--long" => arguments.inputs = LONG,
            "--seed" => arguments.seed = number(words.next()),
            "--family" => {
                let name = words.next().filter(|name| families::ALL.iter().any(|family| family.0 == name));
                arguments.family = Some(name.unwrap_or_else(|| usage()));
            }
            #[cfg(not(feature = "library"))]
            "--fault" => {
                let name = words.next().filter(|name| stand_in::FAULTS.iter().any(|(fault, _)| fault == name));
                stand_in::FAULT.set(name.unwrap_or_else(|| usage())).unwrap();
            }
            _ => usage(),
        }
    }
    arguments
}

fn main() {
    let Arguments { inputs, seed, family: only } = arguments();
    println!("differential: seed {seed:#x}, {inputs} inputs and the sets that are tried whole");
    let started = Instant::now();
    let mut answered = Tally::default();
    let mut total = 0;
    for (name, share, run) in families::ALL {
        if only.as_ref().is_some_and(|only| only != name) {
            continue;
        }
        let mut family = Family::new(name, inputs / 1000 * share, seed);
        run(&mut family);
        total += family.finished();
        answered.add(&family.tally);
        let missing = family.tally.missing_ceilings();
        if inputs >= INPUTS && !families::WITHOUT_CEILING.contains(name) && !missing.is_empty() {
            println!("differential: no input of this family was at the ceilings {missing:?}");
            exit(1);
        }
    }
    if only.is_none() && !answered.missing().is_empty() {
        println!("differential: no input was answered with {:?}", answered.missing());
        exit(1);
    }
    let seconds = started.elapsed().as_secs_f64();
    println!("differential: {total} inputs, no difference, in {seconds:.1} s");
}
