//! Rack calls that a caller gets wrong in one way or in several at once.

use super::calls;
use super::script::uids;
use super::MOST_TAGS;
use crate::dice::Dice;
use crate::faults::{break_state, change_state, unknown_code};
use crate::model::Refusal;
use crate::state::{self, at, REFUSED_STATE_LENGTH, STATE_SIZE};
use crate::tag::{Tag, MEMORY_SIZE, REPLY_SIZE};

/// What a call is lent and may change.
#[derive(Clone, PartialEq)]
pub struct Lent {
    pub states: Vec<u8>,
    pub memory: Vec<u8>,
    pub reply: Vec<u8>,
}

impl Lent {
    /// Fresh tags.
    pub fn fresh(uids: &[[u8; 8]]) -> Lent {
        let states = uids.iter().map(|&uid| state::encode(&Tag::fresh(uid)));
        Lent {
            states: states.collect::<Vec<_>>().concat(),
            memory: vec![0; MEMORY_SIZE * uids.len()],
            reply: vec![0xEE; REPLY_SIZE],
        }
    }

    pub fn slices(&mut self) -> calls::Lent<'_> {
        calls::Lent {
            states: &mut self.states,
            memory: &mut self.memory,
            reply: &mut self.reply,
        }
    }

    fn count(&self) -> usize {
        self.states.len() / STATE_SIZE
    }

    /// One more tag, with a UID that another has or has not.
    fn push(&mut self, uid: [u8; 8]) {
        self.states.extend(state::encode(&Tag::fresh(uid)));
        self.memory.extend([0; MEMORY_SIZE]);
    }

    fn uid(&self, tag: usize) -> [u8; 8] {
        let mut uid = [0; 8];
        let place = STATE_SIZE * tag + at::UID;
        uid.copy_from_slice(&self.states[place..place + 8]);
        uid
    }

    /// The states of the tags, if they are some.
    pub fn tags(&self) -> Option<Vec<Tag>> {
        let decode = |bytes: &[u8]| bytes.try_into().ok().and_then(state::decode);
        self.states.chunks(STATE_SIZE).map(decode).collect()
    }
}

/// What else a call hands in; of a search the tags and the frame alone.
#[derive(Clone)]
pub struct Call {
    pub search: bool,
    pub tags: u32,
    pub to: u32,
    pub code: u32,
    pub value: u32,
    pub frame: Vec<u8>,
}

/// The reference's answer, and the tags that replied.
pub fn call(lent: &mut Lent, call: &Call) -> (u32, u32) {
    let signal = (call.code, call.value, &call.frame[..]);
    match call.search {
        true => (calls::rack_search(lent.slices(), call.tags, &call.frame), 0),
        false => calls::rack_step(lent.slices(), call.tags, call.to, signal),
    }
}

/// What makes a call refused.
#[derive(Clone, Copy, PartialEq, Eq, PartialOrd, Ord, Debug)]
pub enum Fault {
    Memory,
    Reply,
    Signal,
    StateLength,
    State,
    Size,
    Name,
    Uids,
}

/// The faults of a step and of a search, in the order in which they are judged.
pub const OF_STEP: [Fault; 8] = [
    Fault::Memory,
    Fault::Reply,
    Fault::Signal,
    Fault::StateLength,
    Fault::State,
    Fault::Size,
    Fault::Name,
    Fault::Uids,
];
pub const OF_SEARCH: [Fault; 6] = [
    Fault::Memory,
    Fault::Reply,
    Fault::StateLength,
    Fault::State,
    Fault::Size,
    Fault::Uids,
];

impl Fault {
    /// The refusal that it is answered with if no other comes first.
    pub fn number(self) -> u32 {
        match self {
            Fault::Memory => Refusal::Memory as u32,
            Fault::Reply => Refusal::ReplyBuffer as u32,
            Fault::Signal => Refusal::Signal as u32,
            Fault::StateLength => REFUSED_STATE_LENGTH,
            Fault::State => Refusal::Range as u32,
            Fault::Size => Refusal::RackSize as u32,
            Fault::Name => Refusal::NoSuchTag as u32,
            Fault::Uids => Refusal::EqualUids as u32,
        }
    }
}

/// Makes faults in a call that is right. What is judged first is made last: a length is changed when the bytes are.
pub fn make_all(dice: &mut Dice, faults: &[Fault], lent: &mut Lent, call: &mut Call) {
    // An empty rack has no state to break and no two UIDs.
    let empty = !faults.contains(&Fault::State) && !faults.contains(&Fault::Uids);
    for &fault in faults.iter().rev() {
        match fault {
            Fault::Size if empty && dice.one_in(2) => {
                (lent.states, lent.memory, call.tags) = (Vec::new(), Vec::new(), 0);
            }
            Fault::Size => crowd(dice, lent, call),
            fault => make(dice, fault, lent, call),
        }
    }
}

/// More tags than a rack holds.
fn crowd(dice: &mut Dice, lent: &mut Lent, call: &mut Call) {
    let count = dice.pick(&[MOST_TAGS + 1, MOST_TAGS + 1, 20, 32]);
    let mut others = uids(dice, 2 * count).into_iter();
    while lent.count() < count {
        let other = others.next().unwrap_or([0; 8]);
        if (0..lent.count()).all(|tag| lent.uid(tag) != other) {
            lent.push(other);
        }
    }
    call.tags = count as u32;
}

fn make(dice: &mut Dice, fault: Fault, lent: &mut Lent, call: &mut Call) {
    let count = call.tags as usize;
    let tag = dice.below(count);
    match fault {
        Fault::Memory => resize(dice, &mut lent.memory, MEMORY_SIZE, count),
        Fault::Reply => lent.reply.truncate(dice.pick(&[0, 1, REPLY_SIZE - 1])),
        Fault::Signal if dice.one_in(2) => call.code = unknown_code(dice),
        Fault::Signal => call.value = dice.pick(&[256, 257, 65536, 65537, u32::MAX]),
        Fault::StateLength => resize(dice, &mut lent.states, STATE_SIZE, count),
        Fault::State => {
            let place = STATE_SIZE * tag;
            break_state(dice, &mut lent.states[place..place + STATE_SIZE]);
        }
        Fault::Size => {}
        Fault::Name => {
            (call.code, call.value) = (dice.pick(&[1, 3, 4, 5, 6, 7]), 0);
            let low = dice.below(MOST_TAGS) as u32;
            call.to = dice.pick(&[33, 255, 256 + low, 65536 + low, u32::MAX]);
        }
        Fault::Uids => {
            if count == 1 {
                lent.push(lent.uid(0));
                call.tags += 1;
                return;
            }
            let other = (tag + 1 + dice.below(count - 1)) % count;
            let place = STATE_SIZE * other + at::UID;
            let uid = lent.uid(tag);
            lent.states[place..place + 8].copy_from_slice(&uid);
        }
    }
}

/// Another length: a byte less or more, a tag's less or more, or none.
fn resize(dice: &mut Dice, bytes: &mut Vec<u8>, each: usize, count: usize) {
    let right = each * count;
    let less = right.saturating_sub(1);
    let length = dice.pick(&[less, right + 1, less + 1 - each.min(right), right + each]);
    let length = if length == right { right + 1 } else { length };
    bytes.resize(length, 0x33);
}

/// Those of the faults that a number's bits name.
pub fn chosen(faults: &[Fault], bits: usize) -> Vec<Fault> {
    let named = |&(place, _): &(usize, &Fault)| bits >> place & 1 != 0;
    let chosen = faults.iter().enumerate().filter(named);
    chosen.map(|(_, &fault)| fault).collect()
}

/// Something that the caller hands in, changed; it may still be right.
pub fn change(dice: &mut Dice, lent: &mut Lent, call: &mut Call) {
    let count = lent.count();
    match dice.below(12) {
        0 => resize(dice, &mut lent.states, STATE_SIZE, count),
        1 => resize(dice, &mut lent.memory, MEMORY_SIZE, count),
        2 => lent.reply.resize(dice.pick(&[0, 642, 644, 700]), 0x33),
        3 => call.code = unknown_code(dice),
        4 => call.value = dice.pick(&[1, 2, 255, 256, 65536, u32::MAX]),
        5 => call.to = dice.pick(&[count as u32, count as u32 - 1, 0, 16, 255, u32::MAX]),
        6 => call.tags = other_count(dice, call.tags),
        7 => fit(dice, lent, call),
        8 => copy_uid(dice, lent),
        _ => {
            let place = STATE_SIZE * dice.below(count);
            change_state(dice, &mut lent.states[place..place + STATE_SIZE]);
        }
    }
}

/// Next to the right one, far from it, or right in its low bits alone: 400000h memories are 2 to the power 32 bytes.
fn other_count(dice: &mut Dice, tags: u32) -> u32 {
    let low = dice.pick(&[0x100, 0x1_0000, 0x40_0000, 0x8000_0000]);
    dice.pick(&[0, 1, tags - 1, tags + 1, 17, low + tags, u32::MAX])
}

/// Fewer tags, and buffers that fit.
fn fit(dice: &mut Dice, lent: &mut Lent, call: &mut Call) {
    let count = dice.below(lent.count() + 1);
    lent.states.truncate(STATE_SIZE * count);
    lent.memory.truncate(MEMORY_SIZE * count);
    call.tags = count as u32;
}

/// A tag gets the UID of another, or a UID like it.
fn copy_uid(dice: &mut Dice, lent: &mut Lent) {
    let (from, to) = (dice.below(lent.count()), dice.below(lent.count()));
    let mut uid = lent.uid(from);
    if dice.one_in(2) {
        uid[dice.below(8)] ^= 1 << dice.below(8);
    }
    let place = STATE_SIZE * to + at::UID;
    lent.states[place..place + 8].copy_from_slice(&uid);
}
