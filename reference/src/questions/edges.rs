//! Questions about writes, near the edges of the rules.

use crate::dice::Dice;
use crate::tag::*;
use crate::verdict::{DataByte, Question};
use crate::wire::CODE_PLACE;

/// Places in a leg, on each side of where something ends: a dynamic leg, a password's halves and its leg, the page.
const PLACES: [u16; 16] = [0, 0, 0, 1, 1, 7, 8, 9, 15, 16, 17, 18, 254, 255, 256, 257];

/// Bytes on each side of where something ends: the codes, the highest end.
const BYTES: [u8; 13] = [
    0x00, 0x01, 0x02, 0x06, 0x07, 0x08, 0x09, 0x0A, 0x0E, 0x0F, 0x10, 0x1F, 0xFF,
];

/// The places of ENDA1 to ENDA3 in the system map.
const ENDS: [u16; 3] = [ENDA1, ENDA1 + 2, ENDA1 + 4];

/// Something to be written into this tag.
pub fn question(dice: &mut Dice, tag: &Tag) -> Question {
    match dice.weighted(&[20, 6, 5, 2]) {
        0 => Question::Byte(data_byte(dice, tag)),
        1 => Question::Block(block(dice, tag)),
        2 => Question::Register {
            pointer: pointer(dice),
            byte: byte(dice, tag),
        },
        _ => Question::Password(dice.pick(&[0, 0, 1, 1, 2, 2, 3, 3, 4, 5, 0x80, 0xFF])),
    }
}

pub fn data_byte(dice: &mut Dice, tag: &Tag) -> DataByte {
    let (mut space, (first, k)) = match dice.weighted(&[7, 2, 4, 5, 2, 4, 1]) {
        0 => (Space::User, memory_place(dice, tag)),
        1 => (Space::User, dynamic_place(dice)),
        2 => (Space::User, mailbox_place(dice)),
        3 => (Space::System, register_place(dice)),
        4 => (Space::System, read_only_place(dice)),
        5 => (Space::System, password_place(dice)),
        _ => (dice.pick(&[Space::User, Space::System]), far_place(dice)),
    };
    if dice.one_in(40) {
        space = dice.pick(&[Space::User, Space::System]);
    }
    let byte = match (first, usize::from(k)) {
        (PASSWORD_PLACE, CODE_PLACE) if !dice.one_in(8) => 0x06 + dice.below(5) as u8,
        _ => byte(dice, tag),
    };
    DataByte {
        spoiled: dice.one_in(12),
        space,
        first,
        k,
        byte,
    }
}

/// Often next to an end of the tag.
fn byte(dice: &mut Dice, tag: &Tag) -> u8 {
    let end = dice.pick(&tag.registers.enda);
    match dice.below(6) {
        0 => dice.byte(),
        1 => dice.below(0x11) as u8,
        2 | 3 => end.wrapping_add(dice.pick(&[0, 1, 0xFF])),
        _ => dice.pick(&BYTES),
    }
}

/// Up to two from an edge.
fn near(dice: &mut Dice, edge: u16) -> u16 {
    (edge + dice.below(5) as u16).saturating_sub(2)
}

/// The first address of a leg that has come to an address, and how far it has come.
fn come_to(dice: &mut Dice, address: u16) -> (u16, u16) {
    let mut k = dice.pick(&PLACES);
    if k > address || dice.one_in(8) {
        k = dice.below(usize::from(address) + 1) as u16;
    }
    (address - k, k)
}

/// The locked blocks, the ends of the areas, of a page and of the memory.
fn memory_place(dice: &mut Dice, tag: &Tag) -> (u16, u16) {
    let past = 32 * (u16::from(dice.pick(&tag.registers.enda)) + 1);
    let edge = dice.pick(&[0, 4, 8, 0x0100, 0x0200, past, past, past]);
    let address = match dice.below(4) {
        0 => dice.below(USER_SIZE) as u16,
        _ => near(dice, edge),
    };
    come_to(dice, address)
}

/// 2002h to 2008h.
fn dynamic_place(dice: &mut Dice) -> (u16, u16) {
    let address = RF_MNGT_DYN - 1 + dice.below(7) as u16;
    let k = dice.pick(&[0, 0, 0, 1, 1, 2, 3, 256]);
    (address - k, k)
}

/// Both ends of the mailbox and what is between, by a leg from its first byte or another.
fn mailbox_place(dice: &mut Dice) -> (u16, u16) {
    let address = match dice.below(3) {
        0 => MAILBOX_FIRST + dice.below(PAGE_SIZE) as u16,
        1 => near(dice, MAILBOX_FIRST),
        _ => near(dice, MAILBOX_LAST + 1),
    };
    match address.checked_sub(MAILBOX_FIRST) {
        Some(k) if dice.one_in(2) => (MAILBOX_FIRST, k),
        _ => come_to(dice, address),
    }
}

/// 0002h to 0010h, the ends most of all.
fn register_place(dice: &mut Dice) -> (u16, u16) {
    let address = match dice.below(2) {
        0 => RF_MNGT - 1 + dice.below(15) as u16,
        _ => dice.pick(&ENDS),
    };
    let first = match dice.below(8) {
        0 => dice.below(usize::from(address) + 1) as u16,
        _ => address - dice.below(usize::from(address + 2 - RF_MNGT)).min(6) as u16,
    };
    (first, address - first)
}

/// 0011h to 0014h, and 0017h to 0020h.
fn read_only_place(dice: &mut Dice) -> (u16, u16) {
    let address = match dice.below(4) {
        0 => DSFID - 1 + dice.below(4) as u16,
        _ => UID_FIRST - 1 + dice.below(10) as u16,
    };
    let k = dice.pick(&[0, 0, 1, 2, 8, 9]);
    (address - k, k)
}

/// Legs from 0900h, and from 08FFh to 0911h.
fn password_place(dice: &mut Dice) -> (u16, u16) {
    let other = PASSWORD_PLACE - 1 + dice.below(19) as u16;
    let first = dice.pick(&[PASSWORD_PLACE, PASSWORD_PLACE, PASSWORD_PLACE, other]);
    let k = dice.pick(&PLACES);
    (first, dice.pick(&[k, k, CODE_PLACE as u16]))
}

/// Past FFFFh, and anywhere.
fn far_place(dice: &mut Dice) -> (u16, u16) {
    let mut any = || u16::from_be_bytes([dice.byte(), dice.byte()]);
    let (first, k) = (any(), any());
    match dice.below(4) {
        0 => (first, k),
        1 => (first, dice.pick(&PLACES)),
        _ => (0xFFF0 + dice.below(16) as u16, dice.below(0x30) as u16),
    }
}

/// The locked blocks, the ends of the areas and of the memory, and what has the low byte of a block.
fn block(dice: &mut Dice, tag: &Tag) -> u16 {
    let past = 8 * (u16::from(dice.pick(&tag.registers.enda)) + 1);
    let last = LAST_BLOCK as u16;
    match dice.below(8) {
        0 => dice.below(LAST_BLOCK + 1) as u16,
        1..=3 => near(dice, past),
        4 => near(dice, last),
        5 | 6 => dice.below(4) as u16,
        _ => dice.pick(&[0x00FF, 0x0100, 0x0101, 0x0180, 0x8000, 0xFFFF]),
    }
}

/// 02h to 11h, the ends most of all, and some far from them.
fn pointer(dice: &mut Dice) -> u8 {
    match dice.below(8) {
        0 => dice.pick(&[0x12, 0x13, 0x18, 0x1F, 0x83, 0x85, 0xFF]),
        1..=4 => dice.pick(&ENDS) as u8,
        _ => RF_MNGT as u8 - 1 + dice.below(16) as u8,
    }
}
