//! One call of the model: refusals, ranges, and the signal itself.

use crate::explain::{self, Rule};
use crate::inventory::LAST_SLOT;
use crate::tag::*;
use crate::{radio, wire};

// Signal codes, in 01's order.
pub const VCC: u8 = 0;
pub const FIELD: u8 = 1;
pub const START: u8 = 2;
pub const SEND: u8 = 3;
pub const FETCH: u8 = 4;
pub const STOP: u8 = 5;
pub const PROGRAMMING_END: u8 = 6;
pub const FRAME: u8 = 7;
// 02, Ask 4.
pub const END_OF_FRAME: u8 = 8;
pub const LAST: u8 = END_OF_FRAME;

/// One signal as it is handed in; `frame` counts for the radio frame only.
#[derive(Clone, Copy, Debug)]
pub struct Signal<'a> {
    pub code: u8,
    pub value: u16,
    pub frame: &'a [u8],
}

#[derive(Clone, Copy, PartialEq, Eq, Debug)]
pub enum Answer {
    None,
    Ack,
    NoAck,
    Byte(u8),
    Silence,
    /// The reply's length in the lent buffer, CRC included.
    Reply(usize),
}

/// 01's four refusals, and a rack's.
#[derive(Clone, Copy, PartialEq, Eq, Debug)]
pub enum Refusal {
    Memory = 1,
    ReplyBuffer = 2,
    Signal = 3,
    Range = 4,
    RackSize = 5,
    NoSuchTag = 6,
    EqualUids = 7,
}

/// One signal. A refusal leaves the tag and every lent byte as they were.
pub fn step(
    tag: &mut Tag,
    memory: &mut [u8],
    reply: &mut [u8],
    signal: Signal,
) -> Result<Answer, Refusal> {
    judge(tag, memory, reply, signal)?;
    Ok(act(tag, memory, reply, signal))
}

/// The rule that gives the NoAck, error or silence of that step; none if it answers otherwise.
pub fn explain(
    tag: &Tag,
    memory: &[u8],
    reply: &[u8],
    signal: Signal,
) -> Result<Option<Rule>, Refusal> {
    judge(tag, memory, reply, signal)?;
    let memory = memory.try_into().map_err(|_| Refusal::Memory)?;
    Ok(explain::explain(tag, memory, signal))
}

/// The refusals, in order.
fn judge(tag: &Tag, memory: &[u8], reply: &[u8], signal: Signal) -> Result<(), Refusal> {
    judge_call(memory, reply, signal)?;
    if in_range(tag, memory) {
        Ok(())
    } else {
        Err(Refusal::Range)
    }
}

/// The refusals that do not look at the tag: 1 to 3.
pub fn judge_call(memory: &[u8], reply: &[u8], signal: Signal) -> Result<(), Refusal> {
    if memory.len() != MEMORY_SIZE {
        return Err(Refusal::Memory);
    }
    judge_reply(reply)?;
    judge_signal(signal)
}

/// Refusal 2.
pub fn judge_reply(reply: &[u8]) -> Result<(), Refusal> {
    if reply.len() < REPLY_SIZE {
        return Err(Refusal::ReplyBuffer);
    }
    Ok(())
}

/// Refusal 3.
pub fn judge_signal(signal: Signal) -> Result<(), Refusal> {
    if value_in_range(signal.code, signal.value) {
        Ok(())
    } else {
        Err(Refusal::Signal)
    }
}

/// A level or Ack is 0 or 1, a byte at most FFh, all others have value 0 (D2).
fn value_in_range(code: u8, value: u16) -> bool {
    match code {
        VCC | FIELD | FETCH => value <= 1,
        SEND => value <= 0xFF,
        START | STOP | PROGRAMMING_END | FRAME | END_OF_FRAME => value == 0,
        _ => false,
    }
}

/// A signal that is not refused.
pub fn act(tag: &mut Tag, memory: &mut [u8], reply: &mut [u8], signal: Signal) -> Answer {
    let on = signal.value == 1;
    match signal.code {
        VCC => wire::vcc(tag, on),
        FIELD => radio::field(tag, on),
        START => wire::start(tag, memory),
        SEND if wire::send(tag, memory, signal.value as u8) => return Answer::Ack,
        SEND => return Answer::NoAck,
        FETCH => return Answer::Byte(wire::fetch(tag, memory, on)),
        STOP => wire::stop(tag, memory),
        PROGRAMMING_END => wire::programming_end(tag),
        END_OF_FRAME => return by_radio(radio::end_of_frame(tag, reply)),
        _ => return by_radio(radio::frame(tag, memory, reply, signal.frame)),
    }
    Answer::None
}

fn by_radio(reply: Option<usize>) -> Answer {
    reply.map_or(Answer::Silence, Answer::Reply)
}

/// 01, Ranges: all of them.
pub fn in_range(tag: &Tag, memory: &[u8]) -> bool {
    tag.radio_session <= 4 && slot_count_in_range(tag) && wire_in_range(tag, memory)
}

/// 02, Ask 4: "0 to 15, 0 when Quiet or out of the field".
fn slot_count_in_range(tag: &Tag) -> bool {
    let waits = tag.field && tag.radio_state != RadioState::Quiet;
    tag.slot_count <= if waits { LAST_SLOT } else { 0 }
}

/// 01, Ranges: those of registers, mailbox, supplies and bus.
pub fn wire_in_range(tag: &Tag, memory: &[u8]) -> bool {
    ends_in_range(&tag.registers.enda)
        && defined_bits_only(tag)
        && mailbox_in_range(&tag.mailbox)
        && supply_in_range(tag)
        && transfer_in_range(tag)
        && !(tag.programming && tag.bus.transfer_open())
        && page_in_range(tag, memory)
}

/// 01: "Ends rise; two are equal only at 0Fh".
fn ends_in_range(enda: &[u8; 3]) -> bool {
    let rise = |low: u8, high: u8| low < high || (low == LAST_END && high == LAST_END);
    enda[2] <= LAST_END && rise(enda[0], enda[1]) && rise(enda[1], enda[2])
}

/// 01: "undefined register bits 0".
fn defined_bits_only(tag: &Tag) -> bool {
    let registers = &tag.registers;
    registers.rf_mngt & !defined_bits(RF_MNGT) == 0
        && tag.rf_mngt_dyn & !defined_bits(RF_MNGT) == 0
        && tag.kept_rf_mngt_dyn & !defined_bits(RF_MNGT) == 0
        && registers
            .rfass
            .iter()
            .all(|rfass| rfass & !defined_bits(RFA1SS) == 0)
        && registers.lock_ccfile & !defined_bits(LOCK_CCFILE) == 0
        && registers.mb_mode & !defined_bits(MB_MODE) == 0
        && registers.lock_cfg & !defined_bits(LOCK_CFG) == 0
        && tag.mailbox.control & !(MB_EN | HOST_PUT | RF_PUT | HOST_CURRENT | RF_CURRENT) == 0
}

/// 01: at most one CURRENT; a PUT only with its CURRENT; a CURRENT exactly when
/// length is over 0; length over 0 only with MB_EN; length at most 256.
fn mailbox_in_range(mailbox: &Mailbox) -> bool {
    let set = |bit: u8| mailbox.control & bit != 0;
    !(set(HOST_CURRENT) && set(RF_CURRENT))
        && (!set(HOST_PUT) || set(HOST_CURRENT))
        && (!set(RF_PUT) || set(RF_CURRENT))
        && set(HOST_CURRENT | RF_CURRENT) == (mailbox.length > 0)
        && (mailbox.length == 0 || mailbox.enabled())
        && mailbox.length <= 256
}

/// 01: "MB_EN, I2C session, programming and any bus activity only with VCC".
fn supply_in_range(tag: &Tag) -> bool {
    tag.vcc
        || (!tag.mailbox.enabled() && !tag.i2c_session && !tag.programming && tag.bus == Bus::Idle)
}

/// 01: "with no transfer open, whatever else the state keeps of a transfer or leg is 0".
fn transfer_in_range(tag: &Tag) -> bool {
    tag.bus.transfer_open() || tag.kept_rf_mngt_dyn == 0
}

/// 01: "page bytes 0 to 256 .. each one that would be Acked there".
/// The leg's first address is the counter less the page bytes (D3).
fn page_in_range(tag: &Tag, memory: &[u8]) -> bool {
    let Bus::Data { space, count, .. } = tag.bus else {
        return true;
    };
    if usize::from(count) > PAGE_SIZE {
        return false;
    }
    let first = tag.counter.wrapping_sub(count);
    let page = &memory[PAGE_PLACE..PAGE_PLACE + usize::from(count)];
    (0..page.len()).all(|k| wire::data_acked(tag, space, first, &page[..k], page[k]))
}
