//! The rack's bench program: the lines of the bench and U, T and L.

use std::io::{Read, Result, Write};

use super::{search, step, Rack, Report, MOST_TAGS};
use crate::bench::{answer_lines, read_frame, read_hex, read_line, write_hex};
use crate::bench::{LONGEST_FRAME, LONGEST_LINE};
use crate::model::{Answer, Refusal, Signal};
use crate::tag::{Tag, MEMORY_SIZE, REPLY_SIZE};

/// What a line asks for.
#[derive(Clone, Copy)]
pub enum Line<'a> {
    /// U: a fresh tag with this UID.
    Add([u8; 8]),
    /// T: the tag that later lines are for.
    Name(u8),
    Signal(Signal<'a>),
    /// L: the search with this frame.
    Search(&'a [u8]),
}

/// 0 to 255, without leading zeros.
fn read_number(text: &[u8]) -> Option<u8> {
    let text = std::str::from_utf8(text).ok()?;
    let number: u8 = text.parse().ok()?;
    (number.to_string() == text).then_some(number)
}

fn read_uid(text: &[u8]) -> Option<[u8; 8]> {
    let mut uid = [0; 8];
    match read_hex(text, &mut uid) {
        Some(8) => Some(uid),
        _ => None,
    }
}

/// None for a bad line.
pub fn read<'a>(line: &[u8], frame: &'a mut [u8; LONGEST_FRAME]) -> Option<Line<'a>> {
    match line {
        [b'U', b'\t', text @ ..] => read_uid(text).map(Line::Add),
        [b'T', b'\t', text @ ..] => read_number(text).map(Line::Name),
        [b'L', b'\t', text @ ..] => read_frame(text, frame).map(Line::Search),
        _ => read_line(line, frame).map(Line::Signal),
    }
}

/// The rack on the bench with all that is lent to it.
pub struct RackBench {
    pub tags: Vec<Tag>,
    memory: Vec<u8>,
    reply: [u8; REPLY_SIZE],
    /// The tag that lines are for.
    pub to: u8,
    /// A good line came that added no tag: no more are added.
    complete: bool,
    /// What the last line's signal came to.
    pub report: Option<Report>,
}

impl RackBench {
    /// Empty.
    pub fn new() -> RackBench {
        RackBench {
            tags: Vec::new(),
            memory: Vec::new(),
            reply: [0; REPLY_SIZE],
            to: 0,
            complete: false,
            report: None,
        }
    }

    fn rack(&mut self) -> Rack<'_> {
        Rack {
            tags: &mut self.tags,
            memory: &mut self.memory,
            reply: &mut self.reply,
        }
    }

    /// The answer to one line, without its number; none is an over-long line.
    pub fn answer(&mut self, line: Option<&[u8]>, output: &mut impl Write) -> Result<()> {
        self.report = None;
        let mut frame = [0; LONGEST_FRAME];
        let line = line.and_then(|line| read(line, &mut frame));
        let Some(line) = line.filter(|line| self.takes(line)) else {
            return output.write_all(b"?");
        };
        self.complete = !matches!(line, Line::Add(_));
        match line {
            Line::Add(uid) => {
                self.tags.push(Tag::fresh(uid));
                self.memory.resize(MEMORY_SIZE * self.tags.len(), 0);
                output.write_all(b"-")
            }
            Line::Name(tag) => {
                self.to = tag;
                output.write_all(b"-")
            }
            Line::Signal(signal) => self.answer_signal(signal, output),
            Line::Search(frame) => match search(&mut self.rack(), frame) {
                Ok(Some(slot)) => write!(output, "{slot}"),
                Ok(None) => output.write_all(b"-"),
                Err(refusal) => refused(refusal, output),
            },
        }
    }

    /// Tags are added "only before the first good line of another kind and at most 16 times".
    fn takes(&self, line: &Line) -> bool {
        !matches!(line, Line::Add(_)) || (!self.complete && self.tags.len() < MOST_TAGS)
    }

    fn answer_signal(&mut self, signal: Signal, output: &mut impl Write) -> Result<()> {
        let to = usize::from(self.to);
        let report = match step(&mut self.rack(), to, signal) {
            Ok(report) => report,
            Err(refusal) => return refused(refusal, output),
        };
        match report.answer {
            Answer::None | Answer::Silence => output.write_all(b"-")?,
            Answer::Ack => output.write_all(b"A")?,
            Answer::NoAck => output.write_all(b"N")?,
            Answer::Byte(byte) => write_hex(output, &[byte])?,
            Answer::Reply(length) => {
                write_hex(output, &self.reply[..length - 2])?;
                let numbers: Vec<String> = report.answered().map(|tag| tag.to_string()).collect();
                write!(output, "\t{}", numbers.join(","))?;
            }
        }
        self.report = Some(report);
        Ok(())
    }
}

impl Default for RackBench {
    fn default() -> RackBench {
        RackBench::new()
    }
}

fn refused(refusal: Refusal, output: &mut impl Write) -> Result<()> {
    write!(output, "!{}", refusal as u8)
}

/// The whole program.
pub fn run<W: Write>(input: impl Read, output: W) -> Result<()> {
    let mut bench = RackBench::new();
    answer_lines::<LONGEST_LINE, W>(input, output, |line, output| bench.answer(line, output))
}
