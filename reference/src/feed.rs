//! Runs a bench program on a script: whole, or fed through its pipe piece by piece.

use std::io::{Error, Read, Result, Write};
use std::os::fd::AsRawFd;
use std::os::raw::{c_int, c_ulong};
use std::process::{Child, ChildStdin, Command, Stdio};
use std::sync::mpsc::channel;
use std::thread;
use std::time::{Duration, Instant};

/// A program that has not taken a piece by then, or not ended after the last, is stopped.
const PATIENCE: Duration = Duration::from_secs(20);

/// A program's output, line by line, and whether it came to its end.
pub struct Output {
    pub lines: Vec<Vec<u8>>,
    pub ended: bool,
}

impl Output {
    pub fn new(text: &[u8], ended: bool) -> Output {
        let lines = text.split_inclusive(|&byte| byte == b'\n');
        Output {
            lines: lines.map(<[u8]>::to_vec).collect(),
            ended,
        }
    }

    /// A line for the eye: it may be missing or lack its line feed.
    pub fn show(&self, place: usize) -> String {
        match self.lines.get(place) {
            Some(line) => match line.strip_suffix(b"\n") {
                Some(line) => String::from_utf8_lossy(line).into_owned(),
                None => format!("{} (no line feed)", String::from_utf8_lossy(line)),
            },
            None if self.ended => "(no line)".to_string(),
            None => "(no line, and the program failed)".to_string(),
        }
    }
}

/// A fresh process of the program, with the script on its standard input, all of it at
/// once or in pieces of these lengths.
pub fn run_program(program: &str, script: &[u8], pieces: Option<&[usize]>) -> Result<Output> {
    let mut child = Command::new(program)
        .stdin(Stdio::piped())
        .stdout(Stdio::piped())
        .spawn()?;
    let (input, output) = (child.stdin.take(), child.stdout.take());
    let (sender, receiver) = channel();
    thread::scope(|scope| {
        scope.spawn(move || {
            let mut text = Vec::new();
            let read = output.map_or(Ok(0), |mut output| output.read_to_end(&mut text));
            sender.send(read.map(|_| text))
        });
        if let Some(mut input) = input {
            // A program that stops reading shows in its output.
            let _ = match pieces {
                None => input.write_all(script),
                Some(pieces) => feed(&mut child, &mut input, script, pieces),
            };
        }
        let text = receiver.recv_timeout(PATIENCE).or_else(|_| {
            child.kill()?;
            receiver.recv().map_err(Error::other)
        })?;
        let ended = child.wait()?.success();
        Ok(Output::new(&text?, ended))
    })
}

/// Writes a piece when the program has taken the one before it, so that each piece
/// takes a read of its own.
fn feed(child: &mut Child, input: &mut ChildStdin, script: &[u8], pieces: &[usize]) -> Result<()> {
    let mut rest = script;
    for &length in pieces {
        let (piece, later) = rest.split_at(length);
        input.write_all(piece)?;
        wait_until_taken(child, input)?;
        rest = later;
    }
    Ok(())
}

fn wait_until_taken(child: &mut Child, input: &ChildStdin) -> Result<()> {
    let start = Instant::now();
    let mut looks: u32 = 0;
    while waiting(input)? > 0 {
        thread::yield_now();
        looks = looks.wrapping_add(1);
        if !looks.is_multiple_of(1024) {
            continue;
        }
        if child.try_wait()?.is_some() {
            return Err(Error::other("the program has ended"));
        }
        if start.elapsed() > PATIENCE {
            child.kill()?;
        }
    }
    Ok(())
}

/// The bytes in the pipe that nobody has read.
fn waiting(pipe: &impl AsRawFd) -> Result<c_int> {
    extern "C" {
        fn ioctl(descriptor: c_int, request: c_ulong, ...) -> c_int;
    }
    const FIONREAD: c_ulong = 0x541B;
    let mut count: c_int = 0;
    // The pipe is open for the call, which writes one int.
    match unsafe { ioctl(pipe.as_raw_fd(), FIONREAD, &mut count as *mut c_int) } {
        0 => Ok(count),
        _ => Err(Error::last_os_error()),
    }
}
