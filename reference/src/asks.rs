//! Seeded inventory frames, without their CRC, to a tag of a UID and an AFI: most of them ask it, some miss it by a
//! little, some are malformed.

use crate::dice::Dice;
use crate::inventory::*;
use crate::radio::{EXTENSION, INVENTORY, OPTION, RESERVED};

/// Longer than any UID: what is above it is asked for by no well-formed frame.
const MOST_MASK: usize = 32;

/// What a frame asks for; its fields are written as they are, right or not.
struct Ask {
    flags: u8,
    command: u8,
    afi: Option<u8>,
    bits: u8,
    mask: Vec<u8>,
}

impl Ask {
    fn bytes(&self) -> Vec<u8> {
        let mut bytes = vec![self.flags, self.command];
        bytes.extend(self.afi);
        bytes.push(self.bits);
        bytes.extend(&self.mask);
        bytes
    }

    fn sixteen_slots(&self) -> bool {
        self.flags & ONE_SLOT == 0
    }
}

/// Any of them.
pub fn frame(dice: &mut Dice, uid: &[u8; 8], afi: u8) -> Vec<u8> {
    let mut ask = right(dice, uid);
    if dice.one_in(4) {
        ask.flags |= AFI_FLAG;
        ask.afi = Some(other_afi(dice, afi));
    }
    if ask.bits > 0 && dice.one_in(6) {
        miss(dice, &mut ask);
    }
    if dice.one_in(5) {
        return malformed(dice, ask, uid);
    }
    ask.bytes()
}

/// One with sixteen slots that asks the tag.
pub fn waiting_frame(dice: &mut Dice, uid: &[u8; 8]) -> Vec<u8> {
    let mut ask = right(dice, uid);
    ask.flags &= !ONE_SLOT;
    ask.bits = mask_bits(dice, MOST_BITS_OF_SIXTEEN);
    ask.mask = mask(dice, uid, ask.bits);
    ask.bytes()
}

/// It asks the tag, whatever its AFI.
fn right(dice: &mut Dice, uid: &[u8; 8]) -> Ask {
    let free = dice.pick(&[2, 2, 2, 0, 1, 3]);
    let slots = dice.pick(&[0, 0, 0, ONE_SLOT, ONE_SLOT]);
    let most = if slots == 0 {
        MOST_BITS_OF_SIXTEEN
    } else {
        MOST_BITS
    };
    let bits = mask_bits(dice, most);
    Ask {
        flags: free | INVENTORY | slots,
        command: COMMAND,
        afi: None,
        bits,
        mask: mask(dice, uid, bits),
    }
}

/// None, whole bytes and nibbles, the longest, any.
fn mask_bits(dice: &mut Dice, most: u8) -> u8 {
    let any = dice.below(usize::from(most) + 1) as u8;
    dice.pick(&[0, 0, 0, 4, 8, 12, most, most - 1, any, any, any, any])
}

/// So many bits of the UID; the bits above them are any.
fn mask(dice: &mut Dice, uid: &[u8; 8], bits: u8) -> Vec<u8> {
    let mut mask = uid.to_vec();
    mask.resize(MOST_MASK, 0);
    mask.truncate(usize::from(bits).div_ceil(8));
    let any = dice.byte();
    if !bits.is_multiple_of(8) {
        let padding = 0xFF << (bits % 8);
        mask[usize::from(bits / 8)] ^= padding & dice.pick(&[0, 0xFF, any]);
    }
    mask
}

/// Another bit in the mask, its first and its last more often.
fn miss(dice: &mut Dice, ask: &mut Ask) {
    let last = usize::from(ask.bits) - 1;
    let any = dice.below(last + 1);
    let place = dice.pick(&[0, last, last, any]);
    ask.mask[place / 8] ^= 1 << (place % 8);
}

/// 00h, the family, the AFI itself, its low nibble alone, and others beside them.
pub fn other_afi(dice: &mut Dice, afi: u8) -> u8 {
    let any = dice.byte();
    let near = afi ^ 1 << dice.below(8);
    dice.pick(&[
        0x00,
        0x00,
        afi,
        afi,
        afi & 0xF0,
        afi & 0xF0,
        afi & 0x0F,
        near,
        near & 0xF0,
        near & 0x0F,
        any,
        any & 0xF0,
        any & 0x0F,
    ])
}

/// Each cause of a malformed frame, by itself.
fn malformed(dice: &mut Dice, mut ask: Ask, uid: &[u8; 8]) -> Vec<u8> {
    match dice.below(10) {
        0 => ask.flags |= dice.pick(&[EXTENSION, OPTION, RESERVED]),
        1 => ask.command = dice.pick(&[0x00, 0x02, 0x20, 0x26, 0x81, 0xA0]),
        2 | 3 => over_long_mask(dice, &mut ask, uid),
        4 => ask.flags ^= AFI_FLAG,
        5 => ask.bits = ask.bits.wrapping_add(dice.pick(&[8, 0xF8])),
        6 => ask.mask.push(dice.byte()),
        7 => {
            let mut bytes = ask.bytes();
            bytes.truncate(1 + dice.below(bytes.len()));
            return bytes;
        }
        8 => {
            let mut bytes = ask.bytes();
            bytes.pop();
            return bytes;
        }
        _ => ask.mask = vec![0; dice.below(MOST_MASK)],
    }
    ask.bytes()
}

/// 61 bits and more with sixteen slots, 65 and more with one: the mask has them all.
fn over_long_mask(dice: &mut Dice, ask: &mut Ask, uid: &[u8; 8]) {
    let over = if ask.sixteen_slots() {
        MOST_BITS_OF_SIXTEEN + 1
    } else {
        MOST_BITS + 1
    };
    let any = over + dice.below(256 - usize::from(over)) as u8;
    ask.bits = dice.pick(&[over, over, over + 1, over + 3, MOST_BITS + 1, any]);
    ask.mask = mask(dice, uid, ask.bits);
    if ask.bits > MOST_BITS && dice.one_in(2) {
        ask.mask.truncate(8);
    }
}
