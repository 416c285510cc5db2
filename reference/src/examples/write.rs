//! Whether a write is allowed. W: a data byte by the wire; B, C and P: a block, a register and a password by radio.
//! N: the fresh tag, and all memory 0. A line that begins with # is a remark, and its own answer.

use std::io::{Read, Result, Write};

use super::{set_state, store, with_bytes, Text};
use crate::bench::UID;
use crate::state;
use crate::tag::*;
use crate::verdict::{judge, DataByte, Question};

/// What the questions are about.
pub struct Judged {
    pub tag: Tag,
    pub memory: [u8; MEMORY_SIZE],
}

impl Judged {
    pub fn fresh() -> Judged {
        Judged {
            tag: Tag::fresh(UID),
            memory: [0; MEMORY_SIZE],
        }
    }

    /// The answer to a line; none to a bad one.
    pub fn answer(&mut self, line: &[u8]) -> Option<Text> {
        match line {
            [b'#', ..] => Some(line.to_vec()),
            b"N" => {
                *self = Judged::fresh();
                Some(b"-".to_vec())
            }
            [letter, b'\t', text @ ..] => with_bytes(text, |bytes| self.given(*letter, bytes)),
            _ => None,
        }
    }

    fn given(&mut self, letter: u8, bytes: &[u8]) -> Option<Text> {
        match letter {
            b'M' => store(&mut self.memory, bytes)?,
            b'T' => set_state(&mut self.tag, bytes)?,
            _ => {
                let question = question(letter, bytes)?;
                let verdict = judge(&self.tag, &self.memory, question);
                return Some(verdict.to_string().into_bytes());
            }
        }
        Some(b"-".to_vec())
    }
}

/// What a line of this letter asks. Numbers of two bytes have their high byte first.
pub fn question(letter: u8, bytes: &[u8]) -> Option<Question> {
    match (letter, bytes) {
        (b'W', &[spoiled, space, high, low, k_high, k_low, byte]) => {
            Some(Question::Byte(DataByte {
                spoiled: state::flag(spoiled)?,
                space: state::space(space)?,
                first: u16::from_be_bytes([high, low]),
                k: u16::from_be_bytes([k_high, k_low]),
                byte,
            }))
        }
        (b'B', &[high, low]) => Some(Question::Block(u16::from_be_bytes([high, low]))),
        (b'C', &[pointer, byte]) => Some(Question::Register { pointer, byte }),
        (b'P', &[number]) => Some(Question::Password(number)),
        _ => None,
    }
}

/// The line that asks it.
pub fn line(question: Question) -> String {
    match question {
        Question::Byte(asked) => {
            let (spoiled, space) = (u8::from(asked.spoiled), state::space_byte(asked.space));
            let DataByte { first, k, byte, .. } = asked;
            format!("W\t{spoiled:02X}{space:02X}{first:04X}{k:04X}{byte:02X}")
        }
        Question::Block(block) => format!("B\t{block:04X}"),
        Question::Register { pointer, byte } => format!("C\t{pointer:02X}{byte:02X}"),
        Question::Password(number) => format!("P\t{number:02X}"),
    }
}

pub fn run(input: impl Read, output: impl Write) -> Result<()> {
    let mut judged = Judged::fresh();
    super::run(input, output, |line| judged.answer(line))
}
