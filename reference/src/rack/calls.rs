//! The library's calls for a rack, over the tags' states end to end.

use super::{judge_buffers, search, step, Rack};
use crate::model::{self, Refusal};
use crate::state::{self, number, REFUSED_STATE_LENGTH, STATE_SIZE};
use crate::tag::Tag;

/// What the search answers: this if it finds no slot, else the slot over the other.
pub const NO_SLOT: u32 = 0x100;
pub const SLOT: u32 = 0x400;

/// What a rack call is lent and may change.
pub struct Lent<'a> {
    pub states: &'a mut [u8],
    pub memory: &'a mut [u8],
    pub reply: &'a mut [u8],
}

fn refused(refusal: Refusal) -> u32 {
    number(Err(refusal))
}

/// The tags that bytes stand for, or the number of a refusal: their length is judged right before
/// their ranges.
fn tags_of(states: &[u8], tags: usize) -> Result<Vec<Tag>, u32> {
    if Some(states.len()) != tags.checked_mul(STATE_SIZE) {
        return Err(REFUSED_STATE_LENGTH);
    }
    let decode = |bytes: &[u8]| bytes.try_into().ok().and_then(state::decode);
    let tags: Option<Vec<Tag>> = states.chunks_exact(STATE_SIZE).map(decode).collect();
    tags.ok_or(refused(Refusal::Range))
}

fn store(states: &mut [u8], tags: &[Tag]) {
    for (bytes, tag) in states.chunks_exact_mut(STATE_SIZE).zip(tags) {
        bytes.copy_from_slice(&state::encode(tag));
    }
}

/// One signal: the answer's number, and a bit for each tag that answered.
pub fn rack_step(
    lent: Lent,
    tags: u32,
    to: u32,
    (code, value, frame): (u32, u32, &[u8]),
) -> (u32, u32) {
    let (count, to) = (tags as usize, to as usize);
    let signal = state::signal(code, value, frame);
    let judged = judge_buffers(count, lent.memory, lent.reply);
    if let Err(refusal) = judged.and_then(|()| model::judge_signal(signal)) {
        return (refused(refusal), 0);
    }
    let mut tags = match tags_of(lent.states, count) {
        Ok(tags) => tags,
        Err(refusal) => return (refusal, 0),
    };
    let mut rack = Rack {
        tags: &mut tags,
        memory: lent.memory,
        reply: lent.reply,
    };
    let report = match step(&mut rack, to, signal) {
        Ok(report) => report,
        Err(refusal) => return (refused(refusal), 0),
    };
    store(lent.states, &tags);
    let bits = report.answered().fold(0, |bits, tag| bits | 1 << tag);
    (number(Ok(report.answer)), bits)
}

/// The installer's search.
pub fn rack_search(lent: Lent, tags: u32, frame: &[u8]) -> u32 {
    let count = tags as usize;
    if let Err(refusal) = judge_buffers(count, lent.memory, lent.reply) {
        return refused(refusal);
    }
    let mut tags = match tags_of(lent.states, count) {
        Ok(tags) => tags,
        Err(refusal) => return refusal,
    };
    let mut rack = Rack {
        tags: &mut tags,
        memory: lent.memory,
        reply: lent.reply,
    };
    let found = match search(&mut rack, frame) {
        Ok(found) => found,
        Err(refusal) => return refused(refusal),
    };
    store(lent.states, &tags);
    found.map_or(NO_SLOT, |slot| SLOT + u32::from(slot))
}
