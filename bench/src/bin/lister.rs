//! The job of `listing` in straightforward Rust, to compare speeds with: a reader with a buffer of 64 KiB, a Vec for the
//! frame, a buffered writer for the lines.

use bench::plain::header::{FixedHeader, Kind, LARGEST, SIZE};
use std::io::{self, BufReader, BufWriter, Read, Write};

/// Reads until the buffer is full or the input ends, and returns how many bytes came.
fn read_full(input: &mut impl Read, buffer: &mut [u8]) -> io::Result<usize> {
    let mut count = 0;
    while count < buffer.len() {
        match input.read(&mut buffer[count..])? {
            0 => break,
            n => count += n,
        }
    }
    Ok(count)
}

fn name(kind: Kind) -> &'static str {
    match kind {
        Kind::Unary => "unary",
        Kind::Init => "init",
        Kind::Data => "data",
        Kind::Feedback => "feedback",
        Kind::Close => "close",
    }
}

fn main() -> io::Result<()> {
    let mut input = BufReader::with_capacity(65_536, io::stdin().lock());
    let mut out = BufWriter::with_capacity(65_536, io::stdout().lock());
    let mut frame = Vec::new();
    let mut number = 0u64;
    loop {
        let mut bytes = [0; SIZE];
        let count = read_full(&mut input, &mut bytes)?;
        if count == 0 {
            writeln!(out, "end clean")?;
            break;
        }
        if count < SIZE {
            writeln!(out, "end short {count}")?;
            break;
        }
        let header = match FixedHeader::parse(&bytes, LARGEST) {
            Ok(header) => header,
            Err(code) => {
                writeln!(out, "end refused {code}")?;
                break;
            }
        };
        frame.clear();
        frame.extend_from_slice(&bytes);
        frame.resize(header.total, 0);
        let count = SIZE + read_full(&mut input, &mut frame[SIZE..])?;
        if count < header.total {
            writeln!(out, "end short {count}")?;
            break;
        }
        number += 1;
        writeln!(out, "{number} {} {} {}", name(header.kind), header.id, header.total)?;
    }
    out.flush()
}
