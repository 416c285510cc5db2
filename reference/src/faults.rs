//! Calls that a caller gets wrong in one way or in several at once.

use crate::crc::crc_bytes;
use crate::dice::Dice;
use crate::model::{self, Refusal};
use crate::state::{at, REFUSED_STATE_LENGTH, REFUSED_UID_LENGTH, STATE_SIZE};
use crate::tag::{MEMORY_SIZE, PAGE_PLACE, REPLY_SIZE};

/// What a call is lent and may change.
#[derive(Clone, PartialEq)]
pub struct Lent {
    pub state: Vec<u8>,
    pub memory: Vec<u8>,
    pub reply: Vec<u8>,
}

/// What else a call hands in.
#[derive(Clone)]
pub struct Call {
    pub code: u32,
    pub value: u32,
    pub frame: Vec<u8>,
}

/// What makes a call refused.
#[derive(Clone, Copy, PartialEq, Eq, PartialOrd, Ord, Debug)]
pub enum Fault {
    Memory,
    Reply,
    Signal,
    StateLength,
    State,
    Uid,
}

/// The faults of a step and of a fresh tag, in the order in which they are judged.
pub const OF_STEP: [Fault; 5] = [
    Fault::Memory,
    Fault::Reply,
    Fault::Signal,
    Fault::StateLength,
    Fault::State,
];
pub const OF_FRESH: [Fault; 3] = [Fault::Memory, Fault::StateLength, Fault::Uid];

impl Fault {
    /// The refusal that it is answered with if no other comes first.
    pub fn number(self) -> u32 {
        match self {
            Fault::Memory => Refusal::Memory as u32,
            Fault::Reply => Refusal::ReplyBuffer as u32,
            Fault::Signal => Refusal::Signal as u32,
            Fault::StateLength => REFUSED_STATE_LENGTH,
            Fault::State => Refusal::Range as u32,
            Fault::Uid => REFUSED_UID_LENGTH,
        }
    }
}

/// Those of the faults that a number's bits name.
pub fn chosen(faults: &[Fault], bits: usize) -> Vec<Fault> {
    let named = |&(place, _): &(usize, &Fault)| bits >> place & 1 != 0;
    let chosen = faults.iter().enumerate().filter(named);
    chosen.map(|(_, &fault)| fault).collect()
}

/// Two faults of a step or more.
pub fn several(dice: &mut Dice) -> Vec<Fault> {
    loop {
        let faults = chosen(&OF_STEP, dice.below(1 << OF_STEP.len()));
        if faults.len() > 1 {
            return faults;
        }
    }
}

/// A length next to the right one, or far from it.
pub fn other_length(dice: &mut Dice, right: usize) -> usize {
    dice.pick(&[0, 1, right - 1, right + 1, 2 * right])
}

fn resize(dice: &mut Dice, bytes: &mut Vec<u8>, right: usize) {
    let length = other_length(dice, right);
    bytes.resize(length, 0x33);
}

/// Makes the fault in a call.
pub fn make(dice: &mut Dice, fault: Fault, lent: &mut Lent, call: &mut Call) {
    match fault {
        Fault::Memory => resize(dice, &mut lent.memory, MEMORY_SIZE),
        Fault::Reply => {
            let length = dice.pick(&[0, 1, REPLY_SIZE - 1]);
            lent.reply.resize(length, 0x33);
        }
        Fault::Signal if dice.one_in(2) => call.code = unknown_code(dice),
        Fault::Signal => call.value = dice.pick(&[256, 257, 65536, 65537, u32::MAX]),
        Fault::StateLength => resize(dice, &mut lent.state, STATE_SIZE),
        Fault::State => break_state(dice, &mut lent.state),
        Fault::Uid => {} // no part of a step
    }
}

/// No signal has it, not even by its low byte alone.
pub fn unknown_code(dice: &mut Dice) -> u32 {
    let last = u32::from(model::LAST) + 1;
    let known = 1 + dice.below(last as usize) as u32;
    dice.pick(&[
        0,
        last + 1,
        last + 2,
        255,
        256 + known,
        0x8000_0000 + known,
        u32::MAX,
    ])
}

/// Bytes that are no state, or one that breaks a range whatever else it holds.
pub fn break_state(dice: &mut Dice, state: &mut [u8]) {
    let (place, least) = dice.pick(&[
        (at::FIELD, 2),
        (at::RADIO_STATE, 3),
        (at::RADIO_SESSION, 5),
        (at::SLOT_COUNT, 16),
        (at::VCC, 2),
        (at::BUS, 6),
        (at::SPACE, 2),
        (at::LAST_FETCHED, 2),
        (at::KEPT_RF_MNGT_DYN, 4), // undefined bits, or not used
        (at::RFA1SS, 0x10),
        (at::ENDA1 + 4, 0x10), // ENDA3
        (at::LOCK_CFG, 2),
        (at::MB_EN, 2),
        (at::MESSAGE_LENGTH + 1, 2), // its high byte
    ]);
    let over = dice.below(256 - least as usize) as u8;
    if let Some(byte) = state.get_mut(place) {
        *byte = least + dice.pick(&[0, 0, over]);
    }
}

/// Something that the caller hands in, changed; it may still be right.
pub fn change(dice: &mut Dice, lent: &mut Lent, call: &mut Call) {
    match dice.below(10) {
        0 => resize(dice, &mut lent.state, STATE_SIZE),
        1 => resize(dice, &mut lent.memory, MEMORY_SIZE),
        2 => resize(dice, &mut lent.reply, REPLY_SIZE),
        3 => call.code = unknown_code(dice),
        4 => call.value = dice.pick(&[1, 2, 255, 256, 257, 65536, 65537, u32::MAX]),
        5 => {
            let place = PAGE_PLACE + dice.below(20);
            lent.memory[place] = dice.byte();
        }
        6 | 7 => change_frame(dice, &mut call.frame),
        _ => {
            for _ in 0..=dice.below(2) {
                change_state(dice, &mut lent.state);
            }
        }
    }
}

/// Another length or byte, the CRC's two among them; at times the CRC is made right again.
fn change_frame(dice: &mut Dice, frame: &mut Vec<u8>) {
    let place = dice.below(frame.len());
    match dice.below(6) {
        0 => frame.truncate(dice.below(6)),
        1 => frame.resize(dice.pick(&[269, 270, 271, 300]), 0x33),
        2 => frame.push(dice.byte()),
        3 => frame.rotate_left(place),
        _ => {
            if let Some(byte) = frame.get_mut(place) {
                *byte ^= 1 << dice.below(8);
            }
        }
    }
    let body = frame.len().saturating_sub(2);
    if frame.len() >= 2 && dice.one_in(3) {
        let check = crc_bytes(&frame[..body]);
        frame[body..].copy_from_slice(&check);
    }
}

/// What a state's kept RF_MNGT_Dyn is, by the rule of docs/LIBRARY.md.
#[derive(Clone, Copy, PartialEq, Eq, PartialOrd, Ord, Debug)]
pub enum Kept {
    /// With a transfer open, its two bits alone.
    InRange,
    /// With a transfer open, other bits set.
    Undefined,
    /// With none open, and not 0.
    Unused,
    /// With none open.
    Zero,
}

pub fn kept(state: &[u8]) -> Kept {
    let open = match state[at::BUS] {
        0 => false,
        1 => state[at::TRANSFER_OPEN] == 1,
        _ => true,
    };
    match (open, state[at::KEPT_RF_MNGT_DYN]) {
        (true, 0..=3) => Kept::InRange,
        (true, _) => Kept::Undefined,
        (false, 0) => Kept::Zero,
        (false, _) => Kept::Unused,
    }
}

/// What a state's count of ends-of-frame is, by 02's Ask 4.
#[derive(Clone, Copy, PartialEq, Eq, PartialOrd, Ord, Debug)]
pub enum Count {
    Zero,
    /// 1 to 15, in the field and not Quiet.
    InRange,
    /// 1 to 15.
    OutOfField,
    /// 1 to 15, in the field.
    Quiet,
    Above15,
}

pub fn count(state: &[u8]) -> Count {
    match (
        state[at::SLOT_COUNT],
        state[at::FIELD],
        state[at::RADIO_STATE],
    ) {
        (0, ..) => Count::Zero,
        (16.., ..) => Count::Above15,
        (_, 0, _) => Count::OutOfField,
        (_, _, 1) => Count::Quiet,
        _ => Count::InRange,
    }
}

pub fn change_state(dice: &mut Dice, state: &mut [u8]) {
    let any = dice.below(STATE_SIZE);
    let often = dice.pick(&[at::KEPT_RF_MNGT_DYN, at::SLOT_COUNT]);
    let place = dice.pick(&[often, any, any, any, any, any]);
    let (now, any) = (state[place], dice.byte());
    let small = dice.below(7) as u8;
    let beside = [now.wrapping_add(1), now.wrapping_sub(1), now ^ 1];
    let edge = [0x0F, 0x10, 0xFF, small, any];
    state[place] = dice.pick(&[&beside[..], &edge[..]].concat());
}
