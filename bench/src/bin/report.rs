//! Makes the report of a run: reads the lines of `measure` on standard input, the facts of the run (NAME: VALUE) from the file
//! FACTS and the table of `bench/instructions` from the file INSTRUCTIONS, prints a table, and writes docs/BENCHMARKS.md and
//! docs/benchmarks.svg.
//!
//!     report FACTS [INSTRUCTIONS]

use bench::report::{chart, markdown, table, Case, Instructions};
use std::io::{self, Read};
use std::{env, fs};

fn main() -> io::Result<()> {
    let facts = fs::read_to_string(env::args().nth(1).expect("usage: report FACTS [INSTRUCTIONS]"))?;
    let instructions = env::args().nth(2).map(fs::read_to_string).transpose()?.unwrap_or_default();
    let mut lines = String::new();
    io::stdin().read_to_string(&mut lines)?;
    let cases = Case::all(&lines);
    print!("{facts}{}", table(&cases));
    fs::write("docs/BENCHMARKS.md", markdown(&facts, &cases, &Instructions::all(&instructions)))?;
    fs::write("docs/benchmarks.svg", chart(&cases))
}
