//! The program `listing` against a reading of the stream that is written here on its own.
//!
//!     listing-test PROGRAM
//!
//! Every stream goes to a run of the program through a pipe in packet mode, so that each of its reads gets one piece of the
//! size chosen here, and what it prints has to be equal to the byte. Prints the seed and one line with what was tried; at the
//! first difference the stream in hex, the sizes of its pieces, and both outputs.

mod behaviour;
mod reading;
mod run;
mod streams;

use std::process::exit;
use std::sync::atomic::{AtomicUsize, Ordering};
use std::time::Duration;
use streams::Case;

const SEED: u64 = 0x6265_6b75_7261_7069;
const WORKERS: usize = 4;
const LIMIT: Duration = Duration::from_secs(600);

fn hex(bytes: &[u8]) -> String {
    bytes.iter().map(|byte| format!("{byte:02X} ")).collect()
}

fn check(program: &str, case: &Case) {
    let expected = reading::listing(&case.stream);
    let actual = run::listing(program, &case.stream, &case.pieces);
    if actual.stdout != expected || !actual.stderr.is_empty() {
        eprintln!("listing-test: {}: the output differs", case.what);
        eprintln!("stream, {} bytes: {}", case.stream.len(), hex(&case.stream));
        eprintln!("pieces: {:?}", case.pieces);
        eprintln!("expected:\n{}", String::from_utf8_lossy(&expected));
        eprintln!("actual:\n{}", String::from_utf8_lossy(&actual.stdout));
        eprintln!("standard error:\n{}", String::from_utf8_lossy(&actual.stderr));
        exit(1);
    }
}

fn main() {
    let Some(program) = std::env::args().nth(1) else {
        eprintln!("usage: listing-test PROGRAM");
        exit(2);
    };
    println!("listing-test: seed {SEED:#x}");
    std::thread::spawn(|| {
        std::thread::sleep(LIMIT);
        eprintln!("listing-test: not done after {LIMIT:?}: the program waits for what does not come");
        exit(1);
    });
    behaviour::check(&program);
    let cases = streams::all(SEED);
    let next = AtomicUsize::new(0);
    std::thread::scope(|scope| {
        for _ in 0..WORKERS {
            scope.spawn(|| {
                while let Some(case) = cases.get(next.fetch_add(1, Ordering::Relaxed)) {
                    check(&program, case);
                }
            });
        }
    });
    println!("listing-test: {} streams listed as expected: {}", cases.len(), streams::summary(&cases));
}
