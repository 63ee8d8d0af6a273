//! A run of the program with its standard input at a pipe in packet mode.

use std::fs::File;
use std::io::{ErrorKind, Read, Write};
use std::os::fd::FromRawFd;
use std::process::{Command, Stdio};

#[cfg(not(all(target_os = "linux", target_arch = "x86_64")))]
compile_error!("the flags of pipe2 below are those of Linux on x86-64");

const O_DIRECT: i32 = 0o40000;
const O_CLOEXEC: i32 = 0o2000000;

extern "C" {
    fn pipe2(ends: *mut i32, flags: i32) -> i32;
}

/// The reading and the writing end of a new pipe, in which a read gets what one write put in, and no more (pipe(2),
/// O_DIRECT). A write of more than 4,096 bytes counts as several of up to 4,096.
pub fn packet_pipe() -> (File, File) {
    let mut ends = [0; 2];
    // SAFETY: pipe2 writes two descriptors to the two places, and nothing else owns them.
    unsafe {
        assert_eq!(pipe2(ends.as_mut_ptr(), O_DIRECT | O_CLOEXEC), 0, "no pipe");
        (File::from_raw_fd(ends[0]), File::from_raw_fd(ends[1]))
    }
}

/// Writes the stream in pieces of these sizes, in turn and from the first again. The program may stop reading before the
/// stream ends.
fn feed(mut pipe: File, stream: &[u8], pieces: &[usize]) {
    let mut rest = stream;
    for size in pieces.iter().cycle() {
        if rest.is_empty() {
            break;
        }
        let (piece, more) = rest.split_at(rest.len().min(*size));
        match pipe.write_all(piece) {
            Err(error) if error.kind() == ErrorKind::BrokenPipe => break,
            other => other.expect("the pipe takes the piece"),
        }
        rest = more;
    }
}

pub struct Output {
    pub stdout: Vec<u8>,
    pub stderr: Vec<u8>,
}

pub fn listing(program: &str, stream: &[u8], pieces: &[usize]) -> Output {
    let (input, feeder) = packet_pipe();
    let mut child = Command::new(program)
        .stdin(input)
        .stdout(Stdio::piped())
        .stderr(Stdio::piped())
        .spawn()
        .expect("the program starts");
    let mut stdout = Vec::new();
    let mut stderr = Vec::new();
    std::thread::scope(|scope| {
        scope.spawn(|| feed(feeder, stream, pieces));
        child.stdout.take().unwrap().read_to_end(&mut stdout).expect("its output is read");
        child.stderr.take().unwrap().read_to_end(&mut stderr).expect("its errors are read");
    });
    let status = child.wait().expect("it ends");
    assert!(status.success(), "{program}: {status}");
    Output { stdout, stderr }
}
