//! The entry points. C: a call, its code, its value (two bytes) and the frame. N: the fresh tag. Z: the state.
//! J, O: the length of the memory and of the reply buffer that calls hand in. E: the CRCs of all memory and of all reply
//! bytes.

use std::io::{Read, Result, Write};

use super::{hex, set_state, store, with_bytes, Text};
use crate::bench::UID;
use crate::crc::crc;
use crate::model::{self, Answer, Refusal, Signal};
use crate::state;
use crate::tag::*;

// More than a call needs of each, so that a call can hand in too much.
const MEMORY: usize = 1100;
const REPLY: usize = 700;

struct Entry {
    tag: Tag,
    memory: [u8; MEMORY],
    reply: [u8; REPLY],
    // How much of each a call hands in.
    memory_lent: usize,
    reply_lent: usize,
}

impl Entry {
    fn new() -> Entry {
        Entry {
            tag: Tag::fresh(UID),
            memory: [0; MEMORY],
            reply: [0; REPLY],
            memory_lent: MEMORY_SIZE,
            reply_lent: REPLY_SIZE,
        }
    }

    fn answer(&mut self, line: &[u8]) -> Option<Text> {
        match line {
            b"N" => Some(self.fresh()),
            b"Z" => Some(hex(&state::encode(&self.tag))),
            b"E" => {
                let crcs = [crc(&self.memory), crc(&self.reply)];
                Some(hex(crcs.map(u16::to_be_bytes).as_flattened()))
            }
            [b'C', b'\t', text @ ..] => with_bytes(text, |bytes| self.call(bytes)),
            [letter, b'\t', text @ ..] => {
                with_bytes(text, |bytes| self.set(*letter, bytes))?;
                Some(b"-".to_vec())
            }
            _ => None,
        }
    }

    fn set(&mut self, letter: u8, bytes: &[u8]) -> Option<()> {
        match letter {
            b'J' => self.memory_lent = length(bytes, MEMORY)?,
            b'O' => self.reply_lent = length(bytes, REPLY)?,
            b'M' => store(&mut self.memory, bytes)?,
            b'T' => set_state(&mut self.tag, bytes)?,
            _ => return None,
        }
        Some(())
    }

    fn call(&mut self, bytes: &[u8]) -> Option<Text> {
        let [code, high, low, frame @ ..] = bytes else {
            return None;
        };
        let signal = Signal {
            code: code.wrapping_sub(1), // these codes count from 1
            value: u16::from_be_bytes([*high, *low]),
            frame,
        };
        let memory = &mut self.memory[..self.memory_lent];
        let reply = &mut self.reply[..self.reply_lent];
        let answer = model::step(&mut self.tag, memory, reply, signal);
        Some(match answer {
            Err(refusal) => refused(refusal),
            Ok(Answer::None) => b"-".to_vec(),
            Ok(Answer::Ack) => b"A".to_vec(),
            Ok(Answer::NoAck) => b"N".to_vec(),
            Ok(Answer::Silence) => b".".to_vec(),
            Ok(Answer::Byte(byte)) => hex(&[byte]),
            Ok(Answer::Reply(length)) => hex(&self.reply[..length]),
        })
    }

    fn fresh(&mut self) -> Text {
        if self.memory_lent != MEMORY_SIZE {
            return refused(Refusal::Memory);
        }
        self.memory[..MEMORY_SIZE].fill(0);
        self.tag = Tag::fresh(UID);
        b"-".to_vec()
    }
}

fn refused(refusal: Refusal) -> Text {
    format!("!{}", refusal as u8).into_bytes()
}

/// A length of two bytes, high first.
fn length(bytes: &[u8], most: usize) -> Option<usize> {
    let length = usize::from(u16::from_be_bytes(bytes.try_into().ok()?));
    (length <= most).then_some(length)
}

pub fn run(input: impl Read, output: impl Write) -> Result<()> {
    let mut entry = Entry::new();
    super::run(input, output, |line| entry.answer(line))
}
