//! Runs another program on an input and waits for its output, but not for ever.

use std::io::{self, Read, Write};
use std::net::Shutdown;
use std::os::fd::OwnedFd;
use std::os::unix::net::UnixDatagram;
use std::path::Path;
use std::process::{Child, Command, ExitStatus, Stdio};
use std::sync::mpsc::{self, RecvTimeoutError};
use std::thread;
use std::time::{Duration, Instant};

const PATIENCE: Duration = Duration::from_secs(60);
/// More pieces may not fit the socket.
pub const MAX_PIECES: usize = 100;

pub enum Fault {
    Missing(String),
    Died(String),
    Hung,
}

/// What a program printed: its text on standard output, and its words on standard error.
#[derive(PartialEq, Eq, Default)]
pub struct Printed {
    pub text: Vec<u8>,
    pub words: Vec<u8>,
}

/// A piece of the input, and how many bytes of text must be there before the next piece is sent.
pub struct Step {
    pub piece: Vec<u8>,
    pub text_size: usize,
}

/// All that the program prints, if it ends well. The input comes through a pipe.
pub fn run(program: &Path, words: &[&str], input: Vec<u8>) -> Result<Printed, Fault> {
    let mut child = start(program, words, Stdio::piped())?;
    if let Some(mut stdin) = child.stdin.take() {
        // A full pipe would stop both sides if this thread wrote. A program may end before it has read all.
        thread::spawn(move || drop(stdin.write_all(&input)));
    }
    printed_by(child)
}

/// The same where each piece is what one read returns: a datagram is never joined with another one, nor cut.
pub fn run_in_reads(program: &Path, pieces: &[&[u8]]) -> Result<Printed, Fault> {
    let stdin = filled_socket(pieces).map_err(|error| Fault::Missing(error.to_string()))?;
    printed_by(start(program, &[], stdin.into())?)
}

/// A socket from which the pieces are read, and then the end.
fn filled_socket(pieces: &[&[u8]]) -> io::Result<OwnedFd> {
    assert!(pieces.len() <= MAX_PIECES && pieces.iter().all(|piece| !piece.is_empty()));
    let (sender, receiver) = UnixDatagram::pair()?;
    for piece in pieces {
        sender.send(piece)?;
    }
    // What is already sent can still be read.
    receiver.shutdown(Shutdown::Read)?;
    Ok(receiver.into())
}

/// Sends each piece only when the text for all pieces before it is there. The input is left open where `is_left_open`,
/// and the program must end all the same.
pub fn converse(program: &Path, steps: &[Step], is_left_open: bool) -> Result<Vec<u8>, Fault> {
    let deadline = Instant::now() + PATIENCE;
    let mut child = start(program, &[], Stdio::piped())?;
    let chunks = chunks_of(&mut child);
    let mut stdin = child.stdin.take();
    let mut text = Vec::new();
    for step in steps {
        // A program that does not read any more prints too little.
        let _ = stdin.as_mut().map(|stdin| stdin.write_all(&step.piece));
        while text.len() < step.text_size {
            match chunks.recv_timeout(deadline.saturating_duration_since(Instant::now())) {
                Ok(chunk) => text.extend(chunk),
                Err(RecvTimeoutError::Disconnected) => break,
                Err(RecvTimeoutError::Timeout) => return Err(kill(child)),
            }
        }
    }
    if !is_left_open {
        stdin = None;
    }
    while let Ok(chunk) = chunks.recv_timeout(deadline.saturating_duration_since(Instant::now())) {
        text.extend(chunk);
    }
    let ended = ended_well(child, deadline);
    drop(stdin);
    ended.map(|()| text)
}

fn start(program: &Path, words: &[&str], stdin: Stdio) -> Result<Child, Fault> {
    let mut command = Command::new(program);
    command.args(words).stdin(stdin).stdout(Stdio::piped()).stderr(Stdio::piped());
    command.spawn().map_err(|error| Fault::Missing(error.to_string()))
}

fn printed_by(mut child: Child) -> Result<Printed, Fault> {
    let deadline = Instant::now() + PATIENCE;
    let (sender, receiver) = mpsc::channel();
    if let (Some(mut stdout), Some(mut stderr)) = (child.stdout.take(), child.stderr.take()) {
        thread::spawn(move || {
            let mut printed = Printed::default();
            let _ = stdout.read_to_end(&mut printed.text);
            let _ = stderr.read_to_end(&mut printed.words);
            sender.send(printed)
        });
    }
    match receiver.recv_timeout(PATIENCE) {
        Ok(printed) => ended_well(child, deadline).map(|()| printed),
        Err(_) => Err(kill(child)),
    }
}

/// Each part of the text as soon as it is there.
fn chunks_of(child: &mut Child) -> mpsc::Receiver<Vec<u8>> {
    let (sender, receiver) = mpsc::channel();
    if let Some(mut stdout) = child.stdout.take() {
        thread::spawn(move || {
            let mut bytes = [0; 4_096];
            while let Ok(size @ 1..) = stdout.read(&mut bytes) {
                if sender.send(bytes[..size].to_vec()).is_err() {
                    return;
                }
            }
        });
    }
    receiver
}

fn ended_well(mut child: Child, deadline: Instant) -> Result<(), Fault> {
    match wait(&mut child, deadline) {
        Some(status) if status.success() => Ok(()),
        Some(status) => Err(Fault::Died(status.to_string())),
        None => Err(kill(child)),
    }
}

/// Its pipes close with it, and the threads end.
fn kill(mut child: Child) -> Fault {
    let _ = child.kill();
    let _ = child.wait();
    Fault::Hung
}

/// Most programs end as soon as their output does.
fn wait(child: &mut Child, deadline: Instant) -> Option<ExitStatus> {
    let mut pause = Duration::from_micros(20);
    while Instant::now() < deadline {
        if let Ok(Some(status)) = child.try_wait() {
            return Some(status);
        }
        thread::sleep(pause);
        pause = (2 * pause).min(Duration::from_millis(50));
    }
    None
}
