//! Several tags on one bench: 02, Ask 4.

pub mod bench;
pub mod calls;
pub mod faults;
#[cfg(feature = "library")]
pub mod library;
pub mod met;
pub mod script;

use crate::crc::crc;
use crate::inventory::{Inventory, LAST_SLOT};
use crate::model::{self, Answer, Refusal, Signal};
use crate::tag::*;

/// 02: "1 to 16 tags".
pub const MOST_TAGS: usize = 16;

/// Tags with what is lent to them: their memories end to end, and one reply buffer.
pub struct Rack<'a> {
    pub tags: &'a mut [Tag],
    pub memory: &'a mut [u8],
    pub reply: &'a mut [u8],
}

/// What a call gave.
#[derive(Clone, PartialEq, Eq, Debug)]
pub struct Report {
    /// The named tag's; to a frame or an end-of-frame the reply in the buffer.
    pub answer: Answer,
    /// The tags with a reply, rising, and its length.
    pub replies: Vec<(usize, usize)>,
}

impl Report {
    pub fn answered(&self) -> impl Iterator<Item = usize> + '_ {
        self.replies.iter().map(|&(tag, _)| tag)
    }
}

/// 02: "Frames, ends-of-frame and field go to all, every other signal to one named tag".
pub fn goes_to_all(code: u8) -> bool {
    matches!(code, model::FRAME | model::END_OF_FRAME | model::FIELD)
}

/// One signal. A refusal leaves every tag and every lent byte as they were.
pub fn step(rack: &mut Rack, to: usize, signal: Signal) -> Result<Report, Refusal> {
    judge_buffers(rack.tags.len(), rack.memory, rack.reply)?;
    model::judge_signal(signal)?;
    judge_tags(rack)?;
    judge_name(rack, to, signal)?;
    judge_uids(rack)?;
    Ok(act(rack, to, signal))
}

/// The first slot in which two tags answer, if there is one. It sends the frame and, "if well-formed
/// for sixteen slots, CRC right, ends-of-frame".
pub fn search(rack: &mut Rack, frame: &[u8]) -> Result<Option<u8>, Refusal> {
    judge_buffers(rack.tags.len(), rack.memory, rack.reply)?;
    judge_tags(rack)?;
    judge_uids(rack)?;
    let last = if asks_sixteen(frame) { LAST_SLOT } else { 0 };
    for slot in 0..=last {
        let code = match slot {
            0 => model::FRAME,
            _ => model::END_OF_FRAME,
        };
        let value = 0;
        let report = act(rack, 0, Signal { code, value, frame });
        if report.replies.len() > 1 {
            return Ok(Some(slot));
        }
    }
    Ok(None)
}

fn asks_sixteen(frame: &[u8]) -> bool {
    let (body, check) = frame.split_at(frame.len().saturating_sub(2));
    let request = Inventory::read(body);
    check == crc(body).to_le_bytes() && request.is_some_and(|request| request.sixteen_slots)
}

/// Refusals 1, for all tags, and 2.
pub fn judge_buffers(tags: usize, memory: &[u8], reply: &[u8]) -> Result<(), Refusal> {
    if Some(memory.len()) != tags.checked_mul(MEMORY_SIZE) {
        return Err(Refusal::Memory);
    }
    model::judge_reply(reply)
}

/// Refusals 4, for all tags, and 5.
fn judge_tags(rack: &Rack) -> Result<(), Refusal> {
    let mut memories = rack.memory.chunks_exact(MEMORY_SIZE);
    let mut tags = rack.tags.iter().zip(&mut memories);
    if !tags.all(|(tag, memory)| model::in_range(tag, memory)) {
        return Err(Refusal::Range);
    }
    match rack.tags.len() {
        1..=MOST_TAGS => Ok(()),
        _ => Err(Refusal::RackSize),
    }
}

/// Refusal 6; the number is "else unread".
fn judge_name(rack: &Rack, to: usize, signal: Signal) -> Result<(), Refusal> {
    if goes_to_all(signal.code) || to < rack.tags.len() {
        Ok(())
    } else {
        Err(Refusal::NoSuchTag)
    }
}

/// Refusal 7.
fn judge_uids(rack: &Rack) -> Result<(), Refusal> {
    let equal = |(place, tag): (usize, &Tag)| {
        let mut later = rack.tags[place + 1..].iter();
        later.any(|other| other.uid == tag.uid)
    };
    if rack.tags.iter().enumerate().any(equal) {
        return Err(Refusal::EqualUids);
    }
    Ok(())
}

fn act(rack: &mut Rack, to: usize, signal: Signal) -> Report {
    if goes_to_all(signal.code) {
        return act_on_all(rack, signal);
    }
    let memory = &mut rack.memory[memory_of(to)];
    Report {
        answer: model::act(&mut rack.tags[to], memory, rack.reply, signal),
        replies: Vec::new(),
    }
}

/// Where the memory of a tag lies.
fn memory_of(tag: usize) -> std::ops::Range<usize> {
    MEMORY_SIZE * tag..MEMORY_SIZE * (tag + 1)
}

/// 02: "the reply buffer holds the lowest-numbered one's reply". Each tag is lent a copy of it.
fn act_on_all(rack: &mut Rack, signal: Signal) -> Report {
    let before = rack.reply.to_vec();
    let mut report = Report {
        answer: match signal.code {
            model::FIELD => Answer::None,
            _ => Answer::Silence,
        },
        replies: Vec::new(),
    };
    for (place, tag) in rack.tags.iter_mut().enumerate() {
        let mut reply = before.clone();
        let answer = model::act(tag, &mut rack.memory[memory_of(place)], &mut reply, signal);
        if let Answer::Reply(length) = answer {
            if report.replies.is_empty() {
                rack.reply.copy_from_slice(&reply);
                report.answer = answer;
            }
            report.replies.push((place, length));
        }
    }
    report
}
