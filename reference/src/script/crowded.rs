//! Frames and legs that several rules forbid at once.

use super::Author;
use crate::bench::UID;
use crate::radio::{ADDRESS, EXTENSION, FIRST_CUSTOM, INVENTORY, OPTION, RESERVED, SELECT_FLAG};
use crate::tag::*;
use crate::wire::{SYSTEM_WRITE, USER_WRITE};

/// 01's commands, the rows with several errors more often, and two that it does not name.
const COMMANDS: [u8; 26] = [
    0x02, 0x20, 0x21, 0x22, 0x23, 0x23, 0x24, 0x24, 0x24, 0x25, 0x25, 0x26, 0x2C, 0xA0, 0xA1, 0xA1,
    0xAA, 0xAB, 0xAC, 0xAC, 0xAD, 0xAE, 0xB1, 0xB3, 0x2B, 0xA9,
];

impl Author {
    /// A few frames; at times first a transfer or programming under way, another RF_MNGT_Dyn, or
    /// another radio state. Then, at times, a select byte.
    pub(super) fn crowded_frames(&mut self) {
        match self.dice.below(8) {
            0 => self.crowded_transfer(),
            1 => self.calmly(Author::write_and_wait),
            2 => {
                let value = self.dice.below(4) as u8;
                self.calmly(|author| author.write(USER_WRITE, RF_MNGT_DYN, &[value]));
            }
            3 => self.frame_to_own_uid(0x02),
            4 => self.frame_to_own_uid(0x25),
            _ => {}
        }
        for _ in 0..1 + self.dice.below(3) {
            match self.dice.below(12) {
                0 => self.inventory_frame(),
                1 => self.end_of_frame(),
                _ => self.crowded_frame(),
            }
        }
        if self.dice.one_in(4) {
            self.put(b"S".to_vec());
            let byte = self.dice.pick(&[0xA6, 0xA7, 0xAE, 0xA4, 0x00, 0xFF]);
            self.put(format!("B\t{byte:02X}").into_bytes());
        }
    }

    /// A transfer that has changed RF_MNGT_Dyn, but not for the frames in it.
    fn crowded_transfer(&mut self) {
        let value = self.dice.pick(&["B\t00", "B\t01", "B\t02", "B\t03"]);
        for line in ["S", "B\tA6", "B\t20", "B\t03", value, "S"] {
            self.put(line.as_bytes().to_vec());
        }
    }

    fn crowded_frame(&mut self) {
        let command = self.dice.pick(&COMMANDS);
        let flags = self.crowded_flags(command);
        let mut bytes = vec![flags, command];
        if command >= FIRST_CUSTOM && !self.dice.one_in(16) {
            bytes.push(self.dice.pick(&[2, 2, 2, 2, 2, 2, 2, 2, 3, 0xFF]));
        }
        if flags & ADDRESS != 0 {
            let other = self.dice.one_in(5);
            let uid = if other {
                self.changed_password(UID)
            } else {
                UID
            };
            bytes.extend(uid);
        }
        bytes.extend(self.crowded_parameters(command));
        match self.dice.below(24) {
            0 => bytes.truncate(1 + self.dice.below(bytes.len())),
            1 | 2 => bytes.truncate((bytes.len() - 1).max(1)),
            3 | 4 => bytes.push(0),
            5 => bytes.resize(269, 0),
            _ => {}
        }
        self.put_frame(&bytes);
    }

    /// Each fault of the flags by itself.
    fn crowded_flags(&mut self, command: u8) -> u8 {
        let state = matches!(command, 0x02 | 0x25);
        let addressed = if state { 10 } else { 5 };
        let mut flags = 0x02;
        for (flag, often) in [
            (INVENTORY, 1),
            (SELECT_FLAG, 2),
            (ADDRESS, addressed),
            (EXTENSION, 1),
            (OPTION, 2),
            (RESERVED, 1),
        ] {
            if self.dice.below(16) < often {
                flags |= flag;
            }
        }
        flags
    }

    /// Of the right number, most of them out of bounds somewhere.
    fn crowded_parameters(&mut self, command: u8) -> Vec<u8> {
        let ends = self.bench.tag.registers.enda;
        let border = 8 * self.dice.pick(&ends) + 7;
        let first = self.dice.pick(&[0, 1, border, border, 0x7F, 0x80, 0xFF]);
        let more = self.dice.pick(&[0, 1, 2, 3, 4]);
        let data = self.dice.bytes(4 * (usize::from(more) + 1));
        let pointer = self.dice.pick(&[0x03, 0x05, 0x07, 0x09, 0x0D, 0x0E, 0xFF]);
        let number = self.dice.pick(&[0, 1, 2, 3, 4, 0xFF]);
        let password = self.bench.tag.radio_passwords[usize::from(number & 3)];
        match command {
            0x20 => vec![first],
            0x21 => [&[first], &data[..4]].concat(),
            0x22 => vec![self.dice.pick(&[0, 1, 2, 0xFF])],
            0x23 | 0x2C => vec![first, more],
            0x24 => [&[first, more], &data[..]].concat(),
            0xA0 | 0xAD => vec![pointer],
            0xA1 | 0xAE => vec![pointer, self.dice.byte() & 0x1F],
            0xAA => vec![0, more],
            0xAC => vec![self.dice.pick(&[0, 0, 1, 0xFF]), more],
            0xB1 => [&[number], &data[..4], &data[..4]].concat(),
            0xB3 if self.dice.one_in(2) => [&[number], &password[..]].concat(),
            0xB3 => [&[number], &data[..4], &data[..4]].concat(),
            _ => Vec::new(),
        }
    }

    /// A leg over locked blocks, over a border, to ends and UID, or into the mailbox; mostly
    /// without the session.
    pub(super) fn crowded_leg(&mut self) {
        self.settle();
        if self.dice.one_in(3) {
            self.calmly(|author| author.write_system(I2CSS, &[0x55]));
        }
        if self.dice.one_in(3) {
            let block = self.dice.below(2) as u8;
            self.put_frame(&[0x02, 0x22, block]);
        }
        if !self.dice.one_in(3) {
            self.level(b'V', false);
            self.level(b'V', true);
        }
        let border = 32 * u16::from(self.dice.pick(&self.bench.tag.registers.enda)) + 30;
        let (select, address) = self.dice.pick(&[
            (USER_WRITE, 0),
            (USER_WRITE, 4),
            (USER_WRITE, border),
            (USER_WRITE, MAILBOX_FIRST + 1),
            (SYSTEM_WRITE, ENDA1),
            (SYSTEM_WRITE, UID_FIRST),
        ]);
        let data = self.dice.bytes(4);
        self.write(select, address, &data);
    }

    /// A full page and a byte more, which lies in another area.
    pub(super) fn crowded_page(&mut self) {
        self.settle();
        self.level(b'V', true);
        self.calmly(|author| {
            author.write(USER_WRITE, MB_CTRL_DYN, &[0]);
            author.write_system(LOCK_CCFILE, &[0]);
            for (place, end) in [(2, LAST_END), (1, LAST_END), (0, 7)] {
                author.write_system(ENDA1 + 2 * place, &[end]);
            }
            let data = author.dice.bytes(PAGE_SIZE + 1);
            author.write(USER_WRITE, 0, &data);
        });
    }
}
