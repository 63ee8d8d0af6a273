//! What the program does besides its output on a whole stream: lines come as frames are cut, its memory does not grow with
//! the input, and an error of a read or a write ends it with a message.

use std::fs::{read_to_string, File};
use std::io::{BufRead, BufReader, Read, Write};
use std::process::{Child, Command, Stdio};

/// A frame whose version is its id.
fn frame(id: u8, total: usize) -> Vec<u8> {
    let mut frame = vec![0; total];
    frame[..2].copy_from_slice(&[0x09, 0x30]);
    frame[4..8].copy_from_slice(&(total as u32).to_be_bytes());
    frame[13] = id;
    frame[14] = id;
    frame
}

fn spawn(program: &str) -> Child {
    Command::new(program).stdin(Stdio::piped()).stdout(Stdio::piped()).spawn().expect("the program starts")
}

/// Each line is there before the next frame is sent.
fn lines_come_as_frames_are_cut(program: &str) {
    let mut child = spawn(program);
    let mut input = child.stdin.take().unwrap();
    let mut output = BufReader::new(child.stdout.take().unwrap());
    let mut line = String::new();
    for id in 1..=5 {
        let frame = frame(id, 40);
        input.write_all(&frame[..39]).unwrap();
        input.write_all(&frame[39..]).unwrap();
        line.clear();
        output.read_line(&mut line).unwrap();
        assert_eq!(line, format!("{id} unary {id} 40\n"));
    }
    drop(input);
    line.clear();
    output.read_to_string(&mut line).unwrap();
    assert_eq!(line, "end clean\n");
    child.wait().unwrap();
}

/// A refused header ends the listing though the input goes on.
fn a_refused_header_is_the_end(program: &str) {
    let mut child = spawn(program);
    let mut input = child.stdin.take().unwrap();
    input.write_all(&[0x30; 16]).unwrap();
    let mut output = String::new();
    child.stdout.take().unwrap().read_to_string(&mut output).unwrap();
    assert_eq!(output, "end refused 3\n");
    child.wait().unwrap();
    drop(input);
}

/// The most memory that the process had, in KiB.
fn peak(child: &Child) -> u64 {
    let status = read_to_string(format!("/proc/{}/status", child.id())).unwrap();
    let line = status.lines().find(|line| line.starts_with("VmHWM:")).unwrap();
    line.split_whitespace().nth(1).unwrap().parse().unwrap()
}

fn memory_is_constant(program: &str) {
    let mut child = spawn(program);
    let mut input = child.stdin.take().unwrap();
    let output = child.stdout.take().unwrap();
    let lines = std::thread::spawn(move || BufReader::new(output).lines().count());
    let largest = frame(1, 65_536);
    let mut feed = |frames: usize| (0..frames).for_each(|_| input.write_all(&largest).unwrap());
    feed(64);
    let early = peak(&child);
    feed(2_048);
    let late = peak(&child);
    drop(input);
    assert_eq!(lines.join().unwrap(), 64 + 2_048 + 1);
    child.wait().unwrap();
    assert!(late <= early + 64, "memory grew from {early} to {late} KiB");
}

fn errors_of(program: &str, input: &str, output: Stdio) -> (String, String) {
    let run = Command::new(program)
        .stdin(File::open(input).unwrap())
        .stdout(output)
        .stderr(Stdio::piped())
        .spawn()
        .and_then(Child::wait_with_output)
        .unwrap();
    (String::from_utf8(run.stdout).unwrap(), String::from_utf8(run.stderr).unwrap())
}

fn errors_are_reported(program: &str) {
    let (output, message) = errors_of(program, "/", Stdio::piped());
    assert_eq!((output.as_str(), message.as_str()), ("", "listing: standard input: Is a directory\n"));
    let full = File::options().write(true).open("/dev/full").unwrap();
    let (_, message) = errors_of(program, "/dev/null", Stdio::from(full));
    assert_eq!(message, "listing: standard output: No space left on device\n");
}

pub fn check(program: &str) {
    lines_come_as_frames_are_cut(program);
    a_refused_header_is_the_end(program);
    memory_is_constant(program);
    errors_are_reported(program);
    println!("listing-test: lines come at once, memory stays, errors are reported");
}
