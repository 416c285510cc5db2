//! The tag's state as 87 bytes, by the table of docs/LIBRARY.md, and the library's calls over them.

use crate::explain::Rule;
use crate::model::{self, Answer, Refusal, Signal};
use crate::tag::*;

pub const STATE_SIZE: usize = 87;

// Refusals beside 01's four.
pub const REFUSED_STATE_LENGTH: u32 = 13;
pub const REFUSED_UID_LENGTH: u32 = 14;

/// The places of the state's bytes. A number of two bytes has its low byte first.
pub mod at {
    pub const FIELD: usize = 0;
    pub const RADIO_STATE: usize = 1;
    pub const RADIO_SESSION: usize = 2;
    pub const SLOT_COUNT: usize = 3;
    pub const VCC: usize = 4;
    pub const I2C_SESSION: usize = 5;
    pub const PROGRAMMING: usize = 6;
    pub const COUNTER: usize = 7;
    pub const BUS: usize = 9;
    pub const SPACE: usize = 10;
    /// With the bus started.
    pub const TRANSFER_OPEN: usize = 11;
    pub const LAST_FETCHED: usize = 12;
    /// The last byte of the bus.
    pub const KEPT_RF_MNGT_DYN: usize = 16;
    pub const RF_MNGT: usize = 17;
    pub const RF_MNGT_DYN: usize = 18;
    /// RFAiSS and ENDAi take turns.
    pub const RFA1SS: usize = 19;
    pub const ENDA1: usize = 20;
    pub const I2CSS: usize = 26;
    pub const LOCK_CCFILE: usize = 27;
    pub const MB_MODE: usize = 28;
    pub const LOCK_CFG: usize = 29;
    pub const DSFID: usize = 30;
    pub const AFI: usize = 31;
    /// The five flags of MB_CTRL_Dyn, from MB_EN on.
    pub const MB_EN: usize = 32;
    pub const MESSAGE_LENGTH: usize = 37;
    pub const I2C_PASSWORD: usize = 39;
    /// Passwords 0 to 3, eight bytes each.
    pub const PASSWORD_0: usize = 47;
    pub const UID: usize = 79;
}

// Numbers of the bus.
const IDLE: u8 = 0;
const STARTED: u8 = 1;
const READ_LEG: u8 = 2;
const ADDRESS_HIGH: u8 = 3;
const ADDRESS_LOW: u8 = 4;
const DATA: u8 = 5;

/// From the place of the bus on: its number, its space, two flags, the high address byte, the page bytes, and
/// RF_MNGT_Dyn as kept for an open transfer.
type BusBytes = [u8; 8];

pub fn space_byte(space: Space) -> u8 {
    u8::from(space == Space::System)
}

fn encode_bus(bus: Bus, kept: u8) -> BusBytes {
    match bus {
        Bus::Idle => [IDLE, 0, 0, 0, 0, 0, 0, kept],
        Bus::Started { open } => [STARTED, 0, open.into(), 0, 0, 0, 0, kept],
        Bus::Read { space, over, last } => [
            READ_LEG,
            space_byte(space),
            over.into(),
            last.into(),
            0,
            0,
            0,
            kept,
        ],
        Bus::AddressHigh { space } => [ADDRESS_HIGH, space_byte(space), 0, 0, 0, 0, 0, kept],
        Bus::AddressLow { space, high } => [ADDRESS_LOW, space_byte(space), 0, 0, high, 0, 0, kept],
        Bus::Data {
            space,
            count,
            spoiled,
        } => {
            let [low, high] = count.to_le_bytes();
            let space = space_byte(space);
            [DATA, space, spoiled.into(), 0, 0, low, high, kept]
        }
    }
}

pub fn flag(byte: u8) -> Option<bool> {
    match byte {
        0 => Some(false),
        1 => Some(true),
        _ => None,
    }
}

pub fn space(byte: u8) -> Option<Space> {
    match byte {
        0 => Some(Space::User),
        1 => Some(Space::System),
        _ => None,
    }
}

/// The bus that bytes stand for, and RF_MNGT_Dyn as it is kept; a byte that the bus does not use must be 0.
fn decode_bus(bytes: BusBytes) -> Option<(Bus, u8)> {
    let [number, space, first, last, high, low_count, high_count, kept] = bytes;
    let (first, last, space) = (flag(first)?, flag(last)?, self::space(space)?);
    let bus = match number {
        IDLE => Bus::Idle,
        STARTED => Bus::Started { open: first },
        READ_LEG => Bus::Read {
            space,
            over: first,
            last,
        },
        ADDRESS_HIGH => Bus::AddressHigh { space },
        ADDRESS_LOW => Bus::AddressLow { space, high },
        DATA => Bus::Data {
            space,
            count: u16::from_le_bytes([low_count, high_count]),
            spoiled: first,
        },
        _ => return None,
    };
    let used = bus.transfer_open() || kept == 0;
    (used && encode_bus(bus, kept) == bytes).then_some((bus, kept))
}

/// The bytes of a value that starts at a place.
fn run<const N: usize>(bytes: &[u8; STATE_SIZE], place: usize) -> [u8; N] {
    let mut taken = [0; N];
    taken.copy_from_slice(&bytes[place..place + N]);
    taken
}

/// The bits of MB_CTRL_Dyn in the order of their places.
const CONTROL_BITS: [u8; 5] = [MB_EN, HOST_PUT, RF_PUT, HOST_CURRENT, RF_CURRENT];

fn put(bytes: &mut [u8; STATE_SIZE], place: usize, value: &[u8]) {
    bytes[place..place + value.len()].copy_from_slice(value);
}

fn radio_state_byte(state: RadioState) -> u8 {
    match state {
        RadioState::Ready => 0,
        RadioState::Quiet => 1,
        RadioState::Selected => 2,
    }
}

/// The state's bytes, place by place.
pub fn encode(tag: &Tag) -> [u8; STATE_SIZE] {
    let mut bytes = [0; STATE_SIZE];
    let mut put = |place: usize, value: &[u8]| put(&mut bytes, place, value);
    put(at::FIELD, &[tag.field.into()]);
    put(at::RADIO_STATE, &[radio_state_byte(tag.radio_state)]);
    put(at::RADIO_SESSION, &[tag.radio_session]);
    put(at::SLOT_COUNT, &[tag.slot_count]);
    put(at::VCC, &[tag.vcc.into()]);
    put(at::I2C_SESSION, &[tag.i2c_session.into()]);
    put(at::PROGRAMMING, &[tag.programming.into()]);
    put(at::COUNTER, &tag.counter.to_le_bytes());
    put(at::BUS, &encode_bus(tag.bus, tag.kept_rf_mngt_dyn));
    put(at::RF_MNGT_DYN, &[tag.rf_mngt_dyn]);
    let set = |bit| u8::from(tag.mailbox.control & bit != 0);
    put(at::MB_EN, &CONTROL_BITS.map(set));
    put(at::MESSAGE_LENGTH, &tag.mailbox.length.to_le_bytes());
    put(at::I2C_PASSWORD, &tag.i2c_password);
    put(at::PASSWORD_0, tag.radio_passwords.as_flattened());
    put(at::UID, &tag.uid);
    encode_registers(&tag.registers, &mut bytes);
    bytes
}

fn encode_registers(r: &Registers, bytes: &mut [u8; STATE_SIZE]) {
    let mut put = |place: usize, value: u8| put(bytes, place, &[value]);
    put(at::RF_MNGT, r.rf_mngt);
    for (area, &rfass) in r.rfass.iter().enumerate() {
        put(at::RFA1SS + 2 * area, rfass);
    }
    for (end, &enda) in r.enda.iter().enumerate() {
        put(at::ENDA1 + 2 * end, enda);
    }
    put(at::I2CSS, r.i2css);
    put(at::LOCK_CCFILE, r.lock_ccfile);
    put(at::MB_MODE, r.mb_mode);
    put(at::LOCK_CFG, r.lock_cfg);
    put(at::DSFID, r.dsfid);
    put(at::AFI, r.afi);
}

/// The registers, whatever their bytes: ranges are judged later.
fn decode_registers(bytes: &[u8; STATE_SIZE]) -> Registers {
    let byte = |place: usize| bytes[place];
    Registers {
        rf_mngt: byte(at::RF_MNGT),
        rfass: [0, 1, 2, 3].map(|area| byte(at::RFA1SS + 2 * area)),
        enda: [0, 1, 2].map(|end| byte(at::ENDA1 + 2 * end)),
        i2css: byte(at::I2CSS),
        lock_ccfile: byte(at::LOCK_CCFILE),
        mb_mode: byte(at::MB_MODE),
        lock_cfg: byte(at::LOCK_CFG),
        dsfid: byte(at::DSFID),
        afi: byte(at::AFI),
    }
}

fn radio_state(byte: u8) -> Option<RadioState> {
    match byte {
        0 => Some(RadioState::Ready),
        1 => Some(RadioState::Quiet),
        2 => Some(RadioState::Selected),
        _ => None,
    }
}

/// The tag that bytes stand for, if they stand for one.
pub fn decode(bytes: &[u8; STATE_SIZE]) -> Option<Tag> {
    let byte = |place: usize| bytes[place];
    let flag_at = |place: usize| flag(bytes[place]);
    let word = |place: usize| u16::from_le_bytes([bytes[place], bytes[place + 1]]);
    let mut control = 0;
    for (place, bit) in CONTROL_BITS.iter().enumerate() {
        if flag_at(at::MB_EN + place)? {
            control |= bit;
        }
    }
    let (bus, kept_rf_mngt_dyn) = decode_bus(run(bytes, at::BUS))?;
    Some(Tag {
        uid: run(bytes, at::UID),
        vcc: flag_at(at::VCC)?,
        field: flag_at(at::FIELD)?,
        registers: decode_registers(bytes),
        rf_mngt_dyn: byte(at::RF_MNGT_DYN),
        mailbox: Mailbox {
            control,
            length: word(at::MESSAGE_LENGTH),
        },
        i2c_password: run(bytes, at::I2C_PASSWORD),
        i2c_session: flag_at(at::I2C_SESSION)?,
        programming: flag_at(at::PROGRAMMING)?,
        counter: word(at::COUNTER),
        bus,
        kept_rf_mngt_dyn,
        radio_state: radio_state(byte(at::RADIO_STATE))?,
        radio_session: byte(at::RADIO_SESSION),
        slot_count: byte(at::SLOT_COUNT),
        radio_passwords: [0, 1, 2, 3].map(|n| run(bytes, at::PASSWORD_0 + 8 * n)),
    })
}

/// The library's number of an answer.
pub fn number(answer: Result<Answer, Refusal>) -> u32 {
    match answer {
        Err(refusal) => refusal as u32,
        Ok(Answer::None) => 0x100,
        Ok(Answer::Ack) => 0x101,
        Ok(Answer::NoAck) => 0x102,
        Ok(Answer::Silence) => 0x103,
        Ok(Answer::Byte(byte)) => 0x200 + u32::from(byte),
        Ok(Answer::Reply(length)) => 0x1000 + length as u32,
    }
}

/// The signal of the library's code and value: its codes count from 1. A number too large for
/// the model becomes one that it refuses.
pub fn signal(code: u32, value: u32, frame: &[u8]) -> Signal<'_> {
    Signal {
        code: u8::try_from(code.wrapping_sub(1)).unwrap_or(u8::MAX),
        value: u16::try_from(value).unwrap_or(u16::MAX),
        frame,
    }
}

/// The tag of a call, or the number of a refusal. 1 to 3 need no state; the state's length is
/// judged right before the first refusal that reads it.
fn tag_of(state: &[u8], memory: &[u8], reply: &[u8], signal: Signal) -> Result<Tag, u32> {
    if let Err(refusal) = model::judge_call(memory, reply, signal) {
        return Err(number(Err(refusal)));
    }
    let Ok(bytes) = <&[u8; STATE_SIZE]>::try_from(state) else {
        return Err(REFUSED_STATE_LENGTH);
    };
    decode(bytes).ok_or(number(Err(Refusal::Range)))
}

/// One call over the state's bytes.
pub fn step(
    state: &mut [u8],
    memory: &mut [u8],
    reply: &mut [u8],
    code: u32,
    value: u32,
    frame: &[u8],
) -> u32 {
    let signal = signal(code, value, frame);
    let mut tag = match tag_of(state, memory, reply, signal) {
        Ok(tag) => tag,
        Err(refusal) => return refusal,
    };
    let answer = model::step(&mut tag, memory, reply, signal);
    if answer.is_ok() {
        state.copy_from_slice(&encode(&tag));
    }
    number(answer)
}

/// The rule that gives that call's NoAck, error or silence: its number over 0x100, or 0x100 alone.
pub fn explain(
    state: &[u8],
    memory: &[u8],
    reply: &[u8],
    code: u32,
    value: u32,
    frame: &[u8],
) -> u32 {
    let signal = signal(code, value, frame);
    let tag = match tag_of(state, memory, reply, signal) {
        Ok(tag) => tag,
        Err(refusal) => return refusal,
    };
    match model::explain(&tag, memory, reply, signal) {
        Ok(rule) => 0x100 + rule.map_or(0, Rule::number),
        Err(refusal) => number(Err(refusal)),
    }
}

/// The fresh tag's bytes; the memory is cleared. 01's refusal 1 comes first here too.
pub fn fresh(uid: &[u8], memory: &mut [u8], state: &mut [u8]) -> u32 {
    if memory.len() != MEMORY_SIZE {
        return number(Err(Refusal::Memory));
    }
    let Ok(bytes) = <&mut [u8; STATE_SIZE]>::try_from(state) else {
        return REFUSED_STATE_LENGTH;
    };
    let Ok(uid) = <[u8; 8]>::try_from(uid) else {
        return REFUSED_UID_LENGTH;
    };
    memory.fill(0);
    *bytes = encode(&Tag::fresh(uid));
    number(Ok(Answer::None))
}
