//! Random tags for questions about writes.

use crate::bench::UID;
use crate::dice::Dice;
use crate::tag::*;

/// A tag within 01's ranges, with no byte in the page.
pub fn tag(dice: &mut Dice) -> Tag {
    let mut tag = Tag::fresh(UID);
    tag.vcc = !dice.one_in(8);
    tag.field = dice.one_in(2);
    tag.registers = registers(dice);
    tag.rf_mngt_dyn = dice.below(4) as u8;
    tag.radio_state = dice.pick(&[RadioState::Ready, RadioState::Quiet, RadioState::Selected]);
    tag.radio_session = dice.pick(&[0, 0, 1, 1, 2, 3, 4]);
    if tag.field && tag.radio_state != RadioState::Quiet {
        tag.slot_count = dice.below(16) as u8;
    }
    if dice.one_in(4) {
        tag.i2c_password.fill_with(|| dice.byte());
        tag.radio_passwords[dice.below(4)].fill_with(|| dice.byte());
    }
    if tag.vcc {
        power(dice, &mut tag);
    }
    tag
}

/// What only a tag with VCC has.
fn power(dice: &mut Dice, tag: &mut Tag) {
    tag.i2c_session = dice.one_in(2);
    if dice.one_in(3) {
        tag.mailbox = mailbox(dice);
    }
    tag.counter = dice.pick(&[0, 0x0005, 0x01FF, 0x2008]);
    tag.bus = bus(dice);
    if tag.bus.transfer_open() {
        tag.kept_rf_mngt_dyn = dice.below(4) as u8;
    } else {
        tag.programming = dice.one_in(4);
    }
}

fn registers(dice: &mut Dice) -> Registers {
    Registers {
        rf_mngt: dice.below(4) as u8,
        rfass: [(); 4].map(|()| dice.below(16) as u8),
        enda: ends(dice),
        i2css: dice.pick(&[0, 0, 0x55, 0xAA]) ^ dice.pick(&[0, 0x01, 0x04, 0x40]),
        lock_ccfile: dice.pick(&[0, 0, 0, 1, 2, 3]),
        mb_mode: dice.below(2) as u8,
        lock_cfg: u8::from(dice.one_in(4)),
        dsfid: dice.byte(),
        afi: dice.byte(),
    }
}

/// Ends that rise, up to three of them below 0Fh, small steps and large ones.
fn ends(dice: &mut Dice) -> [u8; 3] {
    let mut enda = [LAST_END; 3];
    let mut least = 0;
    for end in enda.iter_mut().take(dice.below(4)) {
        let room = usize::from(LAST_END - least);
        let most = dice.pick(&[1, 2, 4, room]).min(room);
        *end = least + dice.below(most) as u8;
        least = (*end + 1).min(LAST_END);
    }
    enda
}

/// MB_EN, with a message of either side or none, taken by its receiver or not.
pub fn mailbox(dice: &mut Dice) -> Mailbox {
    let control = dice.pick(&[
        0,
        HOST_CURRENT,
        HOST_CURRENT | HOST_PUT,
        RF_CURRENT,
        RF_CURRENT | RF_PUT,
    ]);
    let length = match control {
        0 => 0,
        _ => dice.pick(&[1, 2, 255, 256]),
    };
    Mailbox {
        control: MB_EN | control,
        length,
    }
}

/// Idle more often than not: no write is judged by it.
fn bus(dice: &mut Dice) -> Bus {
    let space = dice.pick(&[Space::User, Space::System]);
    let (one, two) = (dice.one_in(2), dice.one_in(2));
    match dice.below(12) {
        0 => Bus::Started { open: one },
        1 => Bus::Read {
            space,
            over: one,
            last: two,
        },
        2 => Bus::AddressHigh { space },
        3 => Bus::AddressLow { space, high: 0x20 },
        4 => Bus::Data {
            space,
            count: 0,
            spoiled: one,
        },
        _ => Bus::Idle,
    }
}

/// Takes it out of 01's ranges: the rules are read off the registers there too.
pub fn make_strange(dice: &mut Dice, tag: &mut Tag) {
    match dice.below(4) {
        0 => {
            let ends = [0, 3, 7, 0x0E, 0x0F, 0x10, 0x3F, 0xFF];
            tag.registers.enda = [(); 3].map(|()| dice.pick(&ends));
        }
        1 => tag.radio_session = dice.pick(&[5, 6, 254, 255]),
        2 => {
            let bits = MB_EN | HOST_PUT | RF_PUT | HOST_CURRENT | RF_CURRENT;
            tag.mailbox.control = dice.byte() & bits;
        }
        _ => {
            tag.vcc = false;
            tag.i2c_session = dice.one_in(2);
            tag.mailbox = mailbox(dice);
        }
    }
}
