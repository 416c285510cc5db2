//! The wire side: supply, Start, bytes sent and fetched, Stop, programming end.

use crate::tag::*;

pub const USER_WRITE: u8 = 0xA6;
pub const USER_READ: u8 = 0xA7;
pub const SYSTEM_WRITE: u8 = 0xAE;
pub const SYSTEM_READ: u8 = 0xAF;

pub const PASSWORD_LEG: usize = 17;
pub const CODE_PLACE: usize = 8;
pub const CODE_PRESENT: u8 = 0x09;
pub const CODE_WRITE: u8 = 0x07;

const NO_BYTE: u8 = 0xFF;

/// 01, The mailbox, last part: VCC off and VCC on; a repeated level changes nothing.
pub fn vcc(tag: &mut Tag, level: bool) {
    if tag.vcc == level {
        return;
    }
    tag.vcc = level;
    tag.rf_mngt_dyn = tag.registers.rf_mngt;
    if !level {
        tag.i2c_session = false;
        close_transfer(tag);
        tag.programming = false;
        tag.mailbox.switch_off();
        tag.counter = 0;
    }
}

/// The bus is idle, and what was kept of a transfer is gone.
fn close_transfer(tag: &mut Tag) {
    tag.bus = Bus::Idle;
    tag.kept_rf_mngt_dyn = 0;
}

/// 01: a Start ends the leg and drops its writes, but for those of 02, Ask 1; without VCC it
/// changes nothing.
pub fn start(tag: &mut Tag, memory: &[u8]) {
    if !tag.vcc {
        return;
    }
    end_of_read_leg(tag);
    end_of_dynamic_leg(tag, memory);
    tag.bus = Bus::Started {
        open: tag.bus.transfer_open(),
    };
}

/// 01: "Fetching the last byte of an RF message clears RF_PUT at the leg's end".
fn end_of_read_leg(tag: &mut Tag) {
    if let Bus::Read { last: true, .. } = tag.bus {
        tag.mailbox.control &= !RF_PUT;
    }
}

/// 02, Ask 1: "an unspoiled leg that wrote RF_MNGT_Dyn or MB_CTRL_Dyn now takes effect when the
/// leg ends in Start as well as in Stop".
fn end_of_dynamic_leg(tag: &mut Tag, memory: &[u8]) {
    if let Bus::Data {
        space: Space::User,
        count: 1,
        spoiled: false,
    } = tag.bus
    {
        write_dynamic(tag, tag.counter.wrapping_sub(1), memory[PAGE_PLACE]);
    }
}

/// A leg's byte to the dynamic register at `address`; elsewhere in user space there is none.
fn write_dynamic(tag: &mut Tag, address: u16, byte: u8) {
    match address {
        RF_MNGT_DYN => tag.rf_mngt_dyn = byte & defined_bits(RF_MNGT),
        MB_CTRL_DYN => tag.write_mb_ctrl(byte),
        _ => {}
    }
}

/// A byte from the host; true is an Ack.
pub fn send(tag: &mut Tag, memory: &mut [u8], byte: u8) -> bool {
    match tag.bus {
        // 01: "A send with no Start is NoAcked"; in a read leg it "moves nothing".
        Bus::Idle | Bus::Read { .. } => false,
        Bus::Started { .. } => select(tag, byte),
        Bus::AddressHigh { space } => {
            tag.bus = Bus::AddressLow { space, high: byte };
            true
        }
        Bus::AddressLow { space, high } => {
            tag.counter = u16::from_be_bytes([high, byte]);
            tag.bus = Bus::Data {
                space,
                count: 0,
                spoiled: false,
            };
            true
        }
        Bus::Data { spoiled: true, .. } => false,
        Bus::Data { space, count, .. } => data(tag, memory, space, count, byte),
    }
}

/// 01: "Another select byte, or programming under way, or no VCC: NoAck",
/// and "a select not Acked leaves the bus idle". The Acked one that opens a transfer has
/// RF_MNGT_Dyn kept.
fn select(tag: &mut Tag, byte: u8) -> bool {
    let open = tag.bus.transfer_open();
    let leg = match byte {
        USER_WRITE => Bus::AddressHigh { space: Space::User },
        SYSTEM_WRITE => Bus::AddressHigh {
            space: Space::System,
        },
        USER_READ => Bus::Read {
            space: Space::User,
            over: false,
            last: false,
        },
        SYSTEM_READ => Bus::Read {
            space: Space::System,
            over: false,
            last: false,
        },
        _ => Bus::Idle,
    };
    if leg == Bus::Idle || !tag.vcc || tag.programming {
        close_transfer(tag);
        return false;
    }
    tag.bus = leg;
    if !open {
        tag.kept_rf_mngt_dyn = tag.rf_mngt_dyn;
    }
    true
}

/// 01: "Acked data byte k of a write leg goes to page place k"; the first NoAck spoils the leg.
fn data(tag: &mut Tag, memory: &mut [u8], space: Space, count: u16, byte: u8) -> bool {
    let k = usize::from(count);
    let first = tag.counter.wrapping_sub(count);
    if data_acked(tag, space, first, &memory[PAGE_PLACE..PAGE_PLACE + k], byte) {
        memory[PAGE_PLACE + k] = byte;
        tag.counter = tag.counter.wrapping_add(1);
        tag.bus = Bus::Data {
            space,
            count: count + 1,
            spoiled: false,
        };
        true
    } else {
        tag.bus = Bus::Data {
            space,
            count,
            spoiled: true,
        };
        false
    }
}

/// Is a data byte Acked after the leg's `earlier` bytes, the first of them at `first`?
pub fn data_acked(tag: &Tag, space: Space, first: u16, earlier: &[u8], byte: u8) -> bool {
    let k = earlier.len();
    if k >= PAGE_SIZE {
        return false; // 01: "up to 256 bytes"
    }
    let address = first.wrapping_add(k as u16);
    match (space, first) {
        (Space::User, 0x0000..=0x01FF) => memory_acked(tag, first, address),
        (Space::User, RF_MNGT_DYN | MB_CTRL_DYN) => k == 0, // the next place is read only
        (Space::User, MAILBOX_FIRST) => tag.mailbox.enabled() && !tag.mailbox.put_pending(),
        (Space::User, _) => false,
        (Space::System, PASSWORD_PLACE) => password_acked(tag, k, byte),
        (Space::System, _) => system_acked(tag, first, earlier, address, byte),
    }
}

/// 01: "MB_EN is 0, the byte lies in the first byte's area, no lock, rights hold".
fn memory_acked(tag: &Tag, first: u16, address: u16) -> bool {
    if usize::from(address) >= USER_SIZE || tag.mailbox.enabled() {
        return false;
    }
    let block = usize::from(address) / 4;
    let enda = &tag.registers.enda;
    let area = area_of_block(enda, block);
    area == area_of_block(enda, usize::from(first) / 4)
        && !block_locked(&tag.registers, block)
        && may_write(tag, area)
}

/// 01: I2CSS "low bit, write needs the I2C session".
fn may_write(tag: &Tag, area: usize) -> bool {
    tag.i2c_session || tag.registers.i2css >> (2 * area) & 1 == 0
}

/// 01: I2CSS "high bit, read needs it, ignored in area 1".
fn may_read(tag: &Tag, area: usize) -> bool {
    area == 0 || tag.i2c_session || tag.registers.i2css >> (2 * area + 1) & 1 == 0
}

/// 01: "MB_EN is 0, session open, register writable, ENDA rule met with the leg's
/// earlier bytes taken as written".
fn system_acked(tag: &Tag, first: u16, earlier: &[u8], address: u16, byte: u8) -> bool {
    if tag.mailbox.enabled() || !tag.i2c_session || !is_writable(address) {
        return false;
    }
    match end_index(address) {
        Some(index) => end_accepted(&ends_as_written(tag, first, earlier), index, byte),
        None => true,
    }
}

/// The ends with the leg's earlier bytes in their places.
fn ends_as_written(tag: &Tag, first: u16, earlier: &[u8]) -> [u8; 3] {
    let mut enda = tag.registers.enda;
    for (k, &byte) in earlier.iter().enumerate() {
        if let Some(index) = end_index(first.wrapping_add(k as u16)) {
            enda[index] = byte;
        }
    }
    enda
}

/// 01: "eight, a code, eight again"; 07h "Acked only with the session open and MB_EN 0";
/// "Another code, or an 18th byte, is NoAcked".
fn password_acked(tag: &Tag, k: usize, byte: u8) -> bool {
    if k != CODE_PLACE {
        return k < PASSWORD_LEG;
    }
    match byte {
        CODE_PRESENT => true,
        CODE_WRITE => tag.i2c_session && !tag.mailbox.enabled(),
        _ => false,
    }
}

/// 01: "All of a leg's writes happen at the Stop"; the Stop "leaves the bus idle".
pub fn stop(tag: &mut Tag, memory: &mut [u8]) {
    end_of_read_leg(tag);
    if let Bus::Data {
        space,
        count,
        spoiled: false,
    } = tag.bus
    {
        if count > 0 {
            write_leg(tag, memory, space, usize::from(count));
        }
    }
    close_transfer(tag);
}

/// A leg's `count` page bytes go to their places.
fn write_leg(tag: &mut Tag, memory: &mut [u8], space: Space, count: usize) {
    let first = tag.counter.wrapping_sub(count as u16);
    let (lent, page) = memory.split_at_mut(PAGE_PLACE);
    let page = &page[..count];
    match (space, first) {
        (Space::User, RF_MNGT_DYN | MB_CTRL_DYN) => write_dynamic(tag, first, page[0]),
        (Space::User, MAILBOX_FIRST) => {
            lent[MAILBOX_PLACE..MAILBOX_PLACE + count].copy_from_slice(page);
            tag.mailbox.host_put(count as u16);
        }
        (Space::User, _) => {
            let place = usize::from(first);
            lent[place..place + count].copy_from_slice(page);
            tag.programming = true;
        }
        (Space::System, PASSWORD_PLACE) => password_leg(tag, page),
        (Space::System, _) => {
            for (k, &byte) in page.iter().enumerate() {
                tag.write_register(first + k as u16, byte);
            }
            tag.programming = true;
        }
    }
}

/// 01, Password leg: 09h presents, 07h writes, "Fewer than 17: nothing".
fn password_leg(tag: &mut Tag, page: &[u8]) {
    if page.len() != PASSWORD_LEG {
        return;
    }
    let (one, two) = (&page[..CODE_PLACE], &page[CODE_PLACE + 1..]);
    if page[CODE_PLACE] == CODE_PRESENT {
        tag.i2c_session = one == tag.i2c_password && two == tag.i2c_password;
    } else if one == two {
        tag.i2c_password.copy_from_slice(one);
        tag.programming = true;
    }
}

/// 01: a fetch "outside a read leg, or after the host's NoAck, gives FFh and moves nothing".
pub fn fetch(tag: &mut Tag, memory: &[u8], ack: bool) -> u8 {
    let Bus::Read {
        space,
        over: false,
        last,
    } = tag.bus
    else {
        return NO_BYTE;
    };
    let address = tag.counter;
    let last = last || (space == Space::User && is_last_of_rf_message(tag, address));
    tag.bus = Bus::Read {
        space,
        over: !ack,
        last,
    };
    tag.counter = address.wrapping_add(1);
    match space {
        Space::User => user_byte(tag, memory, address),
        Space::System => system_byte(tag, address),
    }
}

fn is_last_of_rf_message(tag: &Tag, address: u16) -> bool {
    let mailbox = &tag.mailbox;
    mailbox.control & RF_CURRENT != 0
        && mailbox.length > 0
        && address == MAILBOX_FIRST + (mailbox.length - 1)
}

/// 01: "FFh where unmapped, read-protected, in the mailbox past the length or with MB_EN 0".
fn user_byte(tag: &Tag, memory: &[u8], address: u16) -> u8 {
    match address {
        0x0000..=0x01FF => {
            let place = usize::from(address);
            let area = area_of_block(&tag.registers.enda, place / 4);
            if may_read(tag, area) {
                memory[place]
            } else {
                NO_BYTE
            }
        }
        RF_MNGT_DYN => tag.rf_mngt_dyn,
        I2C_SSO_DYN => u8::from(tag.i2c_session),
        MB_CTRL_DYN => tag.mailbox.control,
        MB_LEN_DYN => tag.mailbox.length_register(),
        MAILBOX_FIRST..=MAILBOX_LAST => {
            let index = address - MAILBOX_FIRST;
            let there = tag.mailbox.enabled() && index < tag.mailbox.length;
            if there {
                memory[MAILBOX_PLACE + usize::from(index)]
            } else {
                NO_BYTE
            }
        }
        _ => NO_BYTE,
    }
}

/// Registers and UID; all else is unmapped, 0900h to 0907h give FFh by 01's word.
fn system_byte(tag: &Tag, address: u16) -> u8 {
    match address {
        UID_FIRST..=UID_LAST => tag.uid[usize::from(address - UID_FIRST)],
        _ => tag.registers.get(address).unwrap_or(NO_BYTE),
    }
}

/// 01: "a programming end with nothing under way" changes nothing.
pub fn programming_end(tag: &mut Tag) {
    tag.programming = false;
}
