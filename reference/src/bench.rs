//! 01's bench program: one signal a line, one answer a line.

use std::io::{BufWriter, Read, Result, Write};

use crate::crc::crc_bytes;
use crate::explain::{explain, Rule};
use crate::model::{self, Answer, Signal};
use crate::tag::{Tag, MEMORY_SIZE, REPLY_SIZE};

pub const UID: [u8; 8] = [0x01, 0x02, 0x03, 0x04, 0x05, 0x24, 0x02, 0xE0];
pub const LONGEST_LINE: usize = 1200;
/// The longest R line's bytes and its CRC.
pub const LONGEST_FRAME: usize = (LONGEST_LINE - 2) / 2 + 2;

/// Hands each line's bytes, or none for one over `N` bytes, to `each`. The line feed
/// is no part of the line; a last line without one counts if it has a byte (D38).
pub fn each_line<const N: usize>(
    mut input: impl Read,
    mut each: impl FnMut(Option<&[u8]>) -> Result<()>,
) -> Result<()> {
    let mut chunk = [0; 1 << 14];
    let mut line = [0; N];
    let mut length = 0; // may pass N, the bytes past it are not kept
    loop {
        let taken = input.read(&mut chunk)?;
        if taken == 0 {
            break;
        }
        for &byte in &chunk[..taken] {
            if byte == b'\n' {
                each(line.get(..length))?;
                length = 0;
            } else {
                if length < N {
                    line[length] = byte;
                }
                length = length.saturating_add(1);
            }
        }
    }
    if length > 0 {
        each(line.get(..length))?;
    }
    Ok(())
}

/// The value of one upper-case hex digit.
fn digit(character: u8) -> Option<u8> {
    match character {
        b'0'..=b'9' => Some(character - b'0'),
        b'A'..=b'F' => Some(character - b'A' + 10),
        _ => None,
    }
}

/// Upper-case hex into `bytes`: how many there are, none if it is no hex or does not fit.
pub fn read_hex(text: &[u8], bytes: &mut [u8]) -> Option<usize> {
    if !text.len().is_multiple_of(2) || text.len() / 2 > bytes.len() {
        return None;
    }
    for (byte, pair) in bytes.iter_mut().zip(text.chunks_exact(2)) {
        *byte = digit(pair[0])? << 4 | digit(pair[1])?;
    }
    Some(text.len() / 2)
}

/// Upper-case hex out.
pub fn write_hex(output: &mut impl Write, bytes: &[u8]) -> Result<()> {
    const DIGITS: &[u8; 16] = b"0123456789ABCDEF";
    for &byte in bytes {
        let high = DIGITS[usize::from(byte >> 4)];
        let low = DIGITS[usize::from(byte & 0x0F)];
        output.write_all(&[high, low])?;
    }
    Ok(())
}

/// 0 or 1.
pub fn read_level(text: &[u8]) -> Option<u16> {
    match text {
        b"0" => Some(0),
        b"1" => Some(1),
        _ => None,
    }
}

/// One byte in two hex digits.
pub fn read_byte(text: &[u8]) -> Option<u16> {
    let mut byte = [0];
    match read_hex(text, &mut byte) {
        Some(1) => Some(u16::from(byte[0])),
        _ => None,
    }
}

/// A frame of a byte or more, with its CRC put behind it.
pub fn read_frame<'a>(text: &[u8], frame: &'a mut [u8; LONGEST_FRAME]) -> Option<&'a [u8]> {
    let length = read_hex(text, &mut frame[..LONGEST_FRAME - 2])?;
    if length == 0 {
        return None;
    }
    let check = crc_bytes(&frame[..length]);
    frame[length..length + 2].copy_from_slice(&check);
    Some(&frame[..length + 2])
}

/// The signal a line names; none for a bad line.
pub fn read_line<'a>(line: &[u8], frame: &'a mut [u8; LONGEST_FRAME]) -> Option<Signal<'a>> {
    let plain = |code, value| {
        Some(Signal {
            code,
            value,
            frame: &[],
        })
    };
    match line {
        [b'V', b'\t', text @ ..] => plain(model::VCC, read_level(text)?),
        [b'F', b'\t', text @ ..] => plain(model::FIELD, read_level(text)?),
        b"S" => plain(model::START, 0),
        [b'B', b'\t', text @ ..] => plain(model::SEND, read_byte(text)?),
        [b'G', b'\t', text @ ..] => plain(model::FETCH, read_level(text)?),
        b"P" => plain(model::STOP, 0),
        b"D" => plain(model::PROGRAMMING_END, 0),
        b"E" => plain(model::END_OF_FRAME, 0),
        [b'R', b'\t', text @ ..] => {
            let frame = read_frame(text, frame)?;
            Some(Signal {
                code: model::FRAME,
                value: 0,
                frame,
            })
        }
        _ => None,
    }
}

/// The tag on the bench with all that is lent to it.
pub struct Bench {
    pub tag: Tag,
    memory: [u8; MEMORY_SIZE],
    reply: [u8; REPLY_SIZE],
    frame: [u8; LONGEST_FRAME],
}

impl Bench {
    /// Fresh, with the bench's UID.
    pub fn fresh() -> Bench {
        Bench {
            tag: Tag::fresh(UID),
            memory: [0; MEMORY_SIZE],
            reply: [0; REPLY_SIZE],
            frame: [0; LONGEST_FRAME],
        }
    }

    /// The answer to one line, without its number; none is an over-long line.
    pub fn answer(&mut self, line: Option<&[u8]>, output: &mut impl Write) -> Result<()> {
        let Some(signal) = line.and_then(|line| read_line(line, &mut self.frame)) else {
            return output.write_all(b"?");
        };
        match model::step(&mut self.tag, &mut self.memory, &mut self.reply, signal) {
            Ok(Answer::None | Answer::Silence) => output.write_all(b"-"),
            Ok(Answer::Ack) => output.write_all(b"A"),
            Ok(Answer::NoAck) => output.write_all(b"N"),
            Ok(Answer::Byte(byte)) => write_hex(output, &[byte]),
            Ok(Answer::Reply(length)) => write_hex(output, &self.reply[..length - 2]),
            // No refusal can come up from a fresh tag and the lines above.
            Err(_) => output.write_all(b"?"),
        }
    }

    /// The same with the name of the rule that gave it behind a NoAck, an error or silence; the rule.
    pub fn explain(
        &mut self,
        line: Option<&[u8]>,
        output: &mut impl Write,
    ) -> Result<Option<Rule>> {
        let signal = line.and_then(|line| read_line(line, &mut self.frame));
        // The tag is asked before the line acts on it.
        let rule = signal.and_then(|signal| explain(&self.tag, &self.memory, signal));
        self.answer(line, output)?;
        if let Some(rule) = rule {
            write!(output, "\t{}", rule.name())?;
        }
        Ok(rule)
    }
}

/// Writes what `answer` writes for each line, behind the line's number.
pub fn answer_lines<const N: usize, W: Write>(
    input: impl Read,
    output: W,
    mut answer: impl FnMut(Option<&[u8]>, &mut BufWriter<W>) -> Result<()>,
) -> Result<()> {
    let mut output = BufWriter::new(output);
    let mut number: u64 = 0;
    each_line::<N>(input, |line| {
        number += 1;
        write!(output, "{number}\t")?;
        answer(line, &mut output)?;
        output.write_all(b"\n")
    })?;
    output.flush()
}

/// The whole program: signals in, answers out.
pub fn run<W: Write>(input: impl Read, output: W) -> Result<()> {
    let mut bench = Bench::fresh();
    answer_lines::<LONGEST_LINE, W>(input, output, |line, output| bench.answer(line, output))
}

/// The program that explains: 02, Ask 3. `each` gets the rules that are named.
pub fn run_explaining<W: Write>(
    input: impl Read,
    output: W,
    mut each: impl FnMut(Rule),
) -> Result<()> {
    let mut bench = Bench::fresh();
    answer_lines::<LONGEST_LINE, W>(input, output, |line, output| {
        bench.explain(line, output)?.into_iter().for_each(&mut each);
        Ok(())
    })
}
