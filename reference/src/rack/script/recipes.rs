//! Transfers of one tag, and frames to all.

use super::Author;
use crate::tag::*;
use crate::wire::{CODE_PRESENT, CODE_WRITE, SYSTEM_READ, SYSTEM_WRITE, USER_READ, USER_WRITE};

/// What is written into them.
const REGISTERS: [(u16, u8); 5] = [
    (MB_MODE, 1),
    (MB_MODE, 1),
    (RFA1SS, 0x05),
    (ENDA1, 0x03),
    (LOCK_CCFILE, 0),
];

impl Author {
    fn send(&mut self, byte: u8) {
        self.interrupt();
        self.put_bytes(b'B', &[byte]);
    }

    fn start(&mut self) {
        self.interrupt();
        self.put("S");
    }

    /// A write leg from its Start.
    fn leg(&mut self, select: u8, address: u16, data: &[u8]) {
        self.start();
        self.send(select);
        for byte in address.to_be_bytes() {
            self.send(byte);
        }
        for &byte in data {
            self.send(byte);
        }
    }

    /// A read leg behind one that sets the counter.
    fn read(&mut self, select: u8, address: u16, count: usize) {
        self.leg(select & !1, address, &[]);
        self.start();
        self.send(select);
        for left in (0..count).rev() {
            self.interrupt();
            self.put(format!("G\t{}", u8::from(left > 0)));
        }
    }

    /// Mostly a Stop, and the programming's end; at times the transfer stays open.
    fn finish(&mut self) {
        if self.dice.one_in(8) {
            return;
        }
        self.interrupt();
        self.put("P");
        if self.tag().programming && !self.dice.one_in(6) {
            self.put("D");
        }
    }

    fn present(&mut self, code: u8) {
        let password = self.tag().i2c_password;
        let leg = [&password[..], &[code], &password].concat();
        self.leg(SYSTEM_WRITE, PASSWORD_PLACE, &leg);
        self.finish();
    }

    /// One transfer of the named tag, or what has to come before it.
    pub(super) fn recipe(&mut self) {
        let tag = self.tag();
        let few = 1 + self.dice.below(4);
        let data = self.dice.bytes(few);
        let place = self.dice.below(USER_SIZE) as u16;
        match self.dice.below(10) {
            0 | 1 => self.leg(USER_WRITE, place, &data),
            2 => self.read(USER_READ, place, few),
            3 => {
                let first = self.dice.pick(&[RF_MNGT, DSFID, UID_FIRST]);
                self.read(SYSTEM_READ, first, few + 2);
            }
            4 if !tag.i2c_session => return self.present(CODE_PRESENT),
            4 => {
                let (address, value) = self.dice.pick(&REGISTERS);
                self.leg(SYSTEM_WRITE, address, &[value]);
            }
            5 if tag.registers.mb_mode == 1 => {
                let value = self.dice.pick(&[1, 1, 0]);
                self.leg(USER_WRITE, MB_CTRL_DYN, &[value]);
            }
            6 if tag.mailbox.enabled() => self.leg(USER_WRITE, MAILBOX_FIRST, &data),
            7 => self.read(USER_READ, MB_CTRL_DYN, few + 2),
            8 => {
                let value = self.dice.pick(&[0, 0, 1, 2]);
                self.leg(USER_WRITE, RF_MNGT_DYN, &[value]);
            }
            _ => {
                let code = if tag.i2c_session {
                    CODE_WRITE
                } else {
                    CODE_PRESENT
                };
                return self.present(code);
            }
        }
        self.finish();
    }

    pub(super) fn frame(&mut self) {
        let bytes = self.frame_bytes();
        self.put_bytes(b'R', &bytes);
    }

    /// Plain, or to one tag by its UID or as the Selected one.
    pub(super) fn frame_bytes(&mut self) -> Vec<u8> {
        let command = self.dice.pick(&[
            0x02, 0x20, 0x20, 0x21, 0x21, 0x23, 0x24, 0x25, 0x25, 0x26, 0x2C, 0xA0, 0xA1, 0xAA,
            0xAB, 0xAC, 0xAD, 0xAE, 0xB1, 0xB3, 0x2B,
        ]);
        let uid = self.any_uid();
        let addressed = matches!(command, 0x02 | 0x25) || self.dice.one_in(3);
        let mode = match addressed {
            true => 0x20,
            false => self.dice.pick(&[0, 0, 0, 0, 0, 0x10]),
        };
        let option = self.dice.pick(&[0, 0, 0, 0x40]);
        let mut bytes = vec![0x02 | mode | option, command];
        if command >= 0xA0 {
            bytes.push(0x02);
        }
        if addressed {
            bytes.extend(uid);
        }
        bytes.extend(self.parameters(command));
        if self.dice.one_in(24) {
            bytes.truncate(1 + self.dice.below(bytes.len()));
        }
        bytes
    }

    fn parameters(&mut self, command: u8) -> Vec<u8> {
        let block = self.dice.pick(&[0, 1, 7, 0x1F, 0x7F, 0x80]);
        let more = self.dice.pick(&[0, 1, 3, 0x1F]);
        let data = self.dice.bytes(8);
        let number = self.dice.below(4) as u8;
        match command {
            0x20 => vec![block],
            0x21 => [&[block], &data[..4]].concat(),
            0x23 | 0x2C => vec![block, more],
            0x24 => [&[block, 1], &data[..]].concat(),
            0xA0 => vec![self.dice.pick(&[0x03, 0x04, 0x05, 0x0D, 0x12])],
            0xA1 => self
                .dice
                .pick(&[[0x0D, 1], [0x05, 3], [0x04, 0], [0x03, 0]])
                .to_vec(),
            0xAA => [&[7], &data[..]].concat(),
            0xAC => vec![self.dice.below(3) as u8, 0],
            0xAD => vec![0x0D],
            0xAE => vec![0x0D, self.dice.pick(&[1, 1, 0])],
            0xB1 => [&[number], &[0; 8][..]].concat(),
            0xB3 if self.dice.one_in(6) => [&[number], &data[..]].concat(),
            0xB3 => [&[self.dice.pick(&[0, 0, number])], &[0; 8][..]].concat(),
            _ => Vec::new(),
        }
    }
}
