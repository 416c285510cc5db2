//! Wire legs and transfers.

use super::Author;
use crate::tag::*;

pub(super) const USER_WRITE: u8 = 0xA6;
const USER_READ: u8 = 0xA7;
const SYSTEM_WRITE: u8 = 0xAE;
const SYSTEM_READ: u8 = 0xAF;
const PASSWORD_CODE_PRESENT: u8 = 0x09;
const PASSWORD_CODE_WRITE: u8 = 0x07;

impl Author {
    fn start(&mut self) {
        self.disturb();
        self.put(b"S".to_vec());
    }

    fn stop(&mut self) {
        self.disturb();
        self.put(b"P".to_vec());
    }

    /// True for an Ack.
    fn send(&mut self, byte: u8) -> bool {
        self.disturb();
        self.put(format!("B\t{byte:02X}").into_bytes()) == b"A"
    }

    fn fetch(&mut self, ack: bool) {
        self.disturb();
        self.put(vec![b'G', b'\t', b'0' + u8::from(ack)]);
    }

    /// How a transfer ends: mostly by a Stop and the programming's end.
    fn finish(&mut self) {
        if self.dice.one_in(self.roughness.broken) {
            match self.dice.below(6) {
                0 => self.start(),
                1 | 2 => {
                    self.start();
                    let byte = self.dice.pick(&[0xA4, 0xA5, 0xA2, 0xAC, 0x00, 0xFF]);
                    self.send(byte);
                }
                3 => self.level(b'V', false),
                4 => self.put_frames(2),
                _ => {}
            }
            return;
        }
        self.stop();
        if self.bench.tag.programming && !self.dice.one_in(8) {
            self.put(b"D".to_vec());
        }
    }

    /// A write leg from its Start. After a NoAck only a few bytes more are tried.
    fn leg(&mut self, select: u8, address: u16, data: &[u8]) {
        self.start();
        let [high, low] = address.to_be_bytes();
        let bytes = [&[select, high, low], data].concat();
        let mut count = bytes.len();
        if self.dice.one_in(self.roughness.short) {
            count = self.dice.below(count);
        }
        let mut patience = self.dice.below(3);
        for &byte in &bytes[..count] {
            if !self.send(byte) {
                if patience == 0 {
                    return;
                }
                patience -= 1;
            }
        }
    }

    /// A transfer of one write leg.
    pub(super) fn write(&mut self, select: u8, address: u16, data: &[u8]) {
        self.leg(select, address, data);
        self.finish();
    }

    /// The same to the system registers, the session being opened first.
    pub(super) fn write_system(&mut self, address: u16, data: &[u8]) {
        if self.bench.tag.vcc && !self.bench.tag.i2c_session {
            self.present();
        }
        self.write(SYSTEM_WRITE, address, data);
    }

    /// A read leg from its Start. The host's NoAck comes at the last byte, at the first or never.
    fn read_leg(&mut self, select: u8, count: usize) {
        self.start();
        if !self.send(select) && self.dice.one_in(2) {
            return;
        }
        let last = self.dice.pick(&[1, 1, 1, 1, 1, 1, 0, count]);
        for left in (1..=count).rev() {
            self.fetch(left != last);
            if self.dice.one_in(60) {
                let byte = self.dice.byte();
                self.send(byte);
            }
        }
        if self.dice.one_in(6) {
            self.fetch(true);
        }
    }

    /// A transfer that sets the counter and reads.
    fn read(&mut self, select: u8, address: u16, count: usize) {
        let setter = if self.dice.one_in(8) {
            self.dice.pick(&[USER_WRITE, SYSTEM_WRITE])
        } else {
            select & !1
        };
        self.leg(setter, address, &[]);
        if self.dice.one_in(16) {
            self.stop();
        }
        self.read_leg(select, count);
        self.finish();
    }

    /// Reads wherever the counter stands.
    pub(super) fn read_from_counter(&mut self) {
        let select = self.dice.pick(&[USER_READ, USER_READ, SYSTEM_READ]);
        let count = 1 + self.dice.below(3);
        self.read_leg(select, count);
        self.finish();
    }

    /// A user address, often at a border or an edge.
    fn place(&mut self) -> u16 {
        let near = self.dice.below(6) as u16;
        match self.dice.below(12) {
            0..=4 => {
                let end = self.dice.pick(&self.bench.tag.registers.enda);
                32 * u16::from(end) + 29 + near
            }
            5 | 6 => 2 * near,
            7 => 0x01FC + near,
            8 => 0xFFFC + near % 4,
            9 => self.dice.pick(&[0x1FFF, 0x2000, 0x2005, 0x2107, 0x0900]) + near % 3,
            _ => self.dice.below(USER_SIZE) as u16,
        }
    }

    /// Bytes from `first` to the end of its area.
    fn to_border(&self, first: u16) -> usize {
        let first = usize::from(first);
        let ends = self.bench.tag.registers.enda;
        let borders = ends.map(|end| 32 * usize::from(end) + 32);
        let border = borders.into_iter().find(|&border| border > first);
        border.unwrap_or(USER_SIZE).saturating_sub(first)
    }

    fn mailbox_off(&mut self) {
        if self.bench.tag.mailbox.enabled() && !self.dice.one_in(4) {
            self.write(USER_WRITE, MB_CTRL_DYN, &[0]);
        }
    }

    pub(super) fn memory_leg(&mut self) {
        self.mailbox_off();
        let mut first = self.place();
        let border = self.to_border(first);
        let mut count = match self.dice.below(6) {
            0 if border < 40 => border,
            1 if border < 40 => border + 1,
            _ => 1 + self.dice.below(6),
        };
        if self.dice.one_in(self.long) {
            let end = self.dice.pick(&self.bench.tag.registers.enda);
            first = self.dice.pick(&[0, 0, 32 * u16::from(end) + 32]);
            count = self.dice.pick(&[255, 256, 257, 257, 258]);
        }
        let data = self.dice.bytes(count);
        self.write(USER_WRITE, first, &data);
        if self.dice.one_in(2) {
            self.read(USER_READ, first.wrapping_sub(1), count.min(8) + 2);
        }
    }

    pub(super) fn memory_read(&mut self) {
        let first = self.place();
        let count = 1 + self.dice.below(8);
        self.read(USER_READ, first, count);
    }

    /// A byte written, its programming not ended.
    pub(super) fn write_and_wait(&mut self) {
        let (place, byte) = (self.dice.below(USER_SIZE) as u16, self.dice.byte());
        self.leg(USER_WRITE, place, &[byte]);
        self.stop();
    }

    /// A value for a register, the ends being those at the time. Rights and ends vary most.
    pub(super) fn register_value(&mut self, address: u16, ends: &[u8; 3]) -> u8 {
        if self.dice.one_in(12) {
            return self.dice.byte();
        }
        match (address, end_index(address)) {
            (_, Some(index)) => self.end_value(index, ends),
            (RF_MNGT, _) => self.dice.pick(&[0, 0, 0, 0, 1, 2, 3, 0xFC]),
            (LOCK_CCFILE, _) => self.dice.pick(&[0, 0, 0, 1, 2, 3, 0xFC]),
            (MB_MODE, _) => self.dice.pick(&[1, 1, 1, 0, 0xFE, 0xFF]),
            (LOCK_CFG, _) => self.dice.pick(&[0, 0, 0, 1, 0xFE]),
            (I2CSS, _) => {
                let place = self.dice.below(8);
                self.dice.pick(&[1, 3, 0x0F, 0x55, 0xAA]) << place
            }
            _ => self.dice.below(16) as u8,
        }
    }

    fn end_value(&mut self, index: usize, ends: &[u8; 3]) -> u8 {
        let before = if index == 0 { 0 } else { ends[index - 1] };
        let step = self.dice.below(5) as u8;
        match self.dice.below(12) {
            0 => before,
            1 => before.wrapping_sub(1),
            2 => LAST_END,
            3 => 0x10 + step,
            4 => 0x80 | step,
            5 => self.dice.below(16) as u8,
            _ => before.saturating_add(1 + step).min(LAST_END),
        }
    }

    /// A leg of registers, each end chosen after the leg's earlier ones.
    pub(super) fn system_leg(&mut self) {
        self.mailbox_off();
        match self.dice.below(6) {
            0 | 1 => return self.move_ends(),
            2 => return self.lay_out_areas(),
            _ => {}
        }
        let first = match self.dice.below(12) {
            0 => self
                .dice
                .pick(&[0x0000, 0x000E, 0x0011, 0x0012, 0x0013, 0x0017]),
            1 => self.dice.pick(&[0x0018, 0x001F, 0x0020, 0xFFFF, 0x0103]),
            2 => LOCK_CFG,
            3 => MB_MODE,
            _ => 0x0003 + self.dice.below(11) as u16,
        };
        let count = match self.dice.below(3) {
            0 => 1 + self.dice.below(12),
            _ => 1,
        };
        let mut ends = self.bench.tag.registers.enda;
        let mut data = Vec::new();
        for k in 0..count {
            let address = first.wrapping_add(k as u16);
            let value = self.register_value(address, &ends);
            if let Some(index) = end_index(address) {
                ends[index] = value;
            }
            data.push(value);
        }
        if self.dice.one_in(8) {
            self.write(SYSTEM_WRITE, first, &data);
        } else {
            self.write_system(first, &data);
        }
        if self.dice.one_in(2) {
            self.read(SYSTEM_READ, first, count + 1);
        }
    }

    /// Ends and rights of all areas in one leg, if the ends are free.
    pub(super) fn lay_out_areas(&mut self) {
        if self.bench.tag.registers.enda != [LAST_END; 3] {
            return self.move_ends();
        }
        let mut data = Vec::new();
        let mut end = 0;
        for _ in 0..3 {
            data.push(self.dice.below(16) as u8);
            end += 1 + self.dice.below(4) as u8;
            data.push(end);
        }
        data.push(self.dice.below(16) as u8);
        self.write_system(RFA1SS, &data);
    }

    /// Frees the later ends and moves one of them, by wire or by radio.
    pub(super) fn move_ends(&mut self) {
        let index = self.dice.below(3);
        let by_radio = !self.dice.one_in(3);
        for place in (index..3).rev() {
            let ends = self.bench.tag.registers.enda;
            let address = ENDA1 + 2 * place as u16;
            let value = if place > index {
                LAST_END
            } else {
                self.end_value(index, &ends)
            };
            if place > index && ends[place] == LAST_END {
                continue;
            }
            if by_radio {
                self.config_write(address as u8, value);
            } else {
                self.write_system(address, &[value]);
            }
        }
    }

    /// The dynamic registers and their neighbours.
    pub(super) fn dynamic_leg(&mut self) {
        let address = self.dice.pick(&[
            RF_MNGT_DYN,
            RF_MNGT_DYN,
            MB_CTRL_DYN,
            MB_CTRL_DYN,
            I2C_SSO_DYN,
            MB_LEN_DYN,
            0x2002,
            0x2005,
        ]);
        let value = match address {
            RF_MNGT_DYN => self.dice.pick(&[0, 0, 1, 1, 2, 3, 0xFC, 0xFF]),
            _ => self.dice.pick(&[0, 1, 1, 1, 0xFE, 0xFF, 0x43, 0x85]),
        };
        let mut data = vec![value];
        if self.dice.one_in(8) {
            data.push(value);
        }
        self.write(USER_WRITE, address, &data);
        if self.dice.one_in(2) {
            self.read(USER_READ, RF_MNGT_DYN, 5);
        }
    }

    /// A password like one that stands, with a byte changed.
    pub(super) fn changed_password(&mut self, password: [u8; 8]) -> [u8; 8] {
        let mut changed = password;
        let bit = self.dice.below(8);
        changed[self.dice.below(8)] ^= 1 << bit;
        changed
    }

    /// Opens the I2C session.
    pub(super) fn present(&mut self) {
        let password = self.bench.tag.i2c_password;
        let leg = [&password[..], &[PASSWORD_CODE_PRESENT], &password].concat();
        self.write(SYSTEM_WRITE, PASSWORD_PLACE, &leg);
    }

    pub(super) fn password_leg(&mut self) {
        let right = self.bench.tag.i2c_password;
        let wrong = self.changed_password(right);
        let code = match self.dice.below(8) {
            0 => self.dice.pick(&[0x00, 0x06, 0x08, 0x0A, 0x17, 0x89, 0xFF]),
            1..=3 => PASSWORD_CODE_WRITE,
            _ => PASSWORD_CODE_PRESENT,
        };
        if code == PASSWORD_CODE_WRITE && !self.bench.tag.i2c_session && !self.dice.one_in(4) {
            self.present();
        }
        let often = if code == PASSWORD_CODE_WRITE {
            wrong
        } else {
            right
        };
        let (one, two) = match self.dice.below(10) {
            0 => (right, wrong),
            1 => (wrong, right),
            2 => (wrong, wrong),
            _ => (often, often),
        };
        let mut leg = [&one[..], &[code], &two].concat();
        match self.dice.below(12) {
            0 => leg.truncate(self.dice.pick(&[1, 7, 8, 9, 10, 15, 16])),
            1 => leg.push(self.dice.pick(&[0, code, 0xFF])),
            _ => {}
        }
        let (select, address) = match self.dice.below(24) {
            0 => (USER_WRITE, PASSWORD_PLACE),
            1 => (SYSTEM_WRITE, self.dice.pick(&[0x08FF, 0x0901, 0x0908])),
            _ => (SYSTEM_WRITE, PASSWORD_PLACE),
        };
        self.write(select, address, &leg);
        if self.dice.one_in(2) {
            let place = self
                .dice
                .pick(&[I2C_SSO_DYN, PASSWORD_PLACE, PASSWORD_PLACE + 7]);
            self.read(USER_READ, place, 1);
        }
    }

    /// MB_MODE and MB_EN, by wire or by radio.
    pub(super) fn mailbox_on(&mut self) {
        let by_radio = self.dice.one_in(3);
        if self.bench.tag.registers.mb_mode == 0 {
            if by_radio {
                self.config_write(MB_MODE as u8, 1);
            } else {
                self.write_system(MB_MODE, &[1]);
            }
        }
        if by_radio {
            self.frame(0xAE, &[0x0D, 1]);
        } else {
            self.write(USER_WRITE, MB_CTRL_DYN, &[1]);
        }
    }

    /// A message's length: the seed's favourite, 1, 2, some, and now and then 255 or 256.
    pub(super) fn message_length(&mut self) -> usize {
        if self.dice.one_in(self.long) {
            return self.dice.pick(&[255, 256]);
        }
        match self.dice.below(6) {
            0 => 1,
            1 => 2,
            2 | 3 => self.favourite,
            _ => 1 + self.dice.below(12),
        }
    }

    /// The host's side of the mailbox.
    pub(super) fn mailbox_leg(&mut self) {
        if !self.bench.tag.mailbox.enabled() && !self.dice.one_in(4) {
            self.mailbox_on();
        }
        let mailbox = &self.bench.tag.mailbox;
        let weights = match (mailbox.length, mailbox.put_pending()) {
            (0, _) => [8, 1, 1, 1],
            (_, true) => [1, 6, 2, 1],
            (_, false) => [5, 2, 2, 1],
        };
        match self.dice.weighted(&weights) {
            0 => self.host_message(),
            1 => self.read_message(),
            2 => self.read(USER_READ, MB_CTRL_DYN, 4),
            _ => {
                let value = self.dice.pick(&[0, 1, 1]);
                self.write(USER_WRITE, MB_CTRL_DYN, &[value]);
            }
        }
    }

    fn host_message(&mut self) {
        let mut count = self.message_length();
        if count == 256 && self.dice.one_in(3) {
            count = 257;
        }
        let place = if self.dice.one_in(12) {
            self.dice.pick(&[0x2009, 0x2107, 0x2108])
        } else {
            MAILBOX_FIRST
        };
        let data = self.dice.bytes(count);
        self.write(USER_WRITE, place, &data);
        if self.dice.one_in(3) {
            self.read(USER_READ, MB_CTRL_DYN, 2 + count.min(6) + 1);
        }
    }

    /// Reads the message that stands: all, its last byte, short of it, past it. Now and then
    /// the transfer goes on with the next message or with MB_CTRL_Dyn.
    fn read_message(&mut self) {
        let length = usize::from(self.bench.tag.mailbox.length);
        let short = length.saturating_sub(self.dice.below(4));
        let (from, count) = match self.dice.below(6) {
            0 => (length.saturating_sub(1), 1),
            1 => (short, length - short + self.dice.below(3)),
            2 => (length.saturating_sub(3), 2),
            3 => (length, 2),
            _ if length > 16 && !self.dice.one_in(3) => (length - 9, 9),
            _ => (0, length),
        };
        let address = MAILBOX_FIRST + from as u16;
        self.leg(USER_WRITE, address, &[]);
        self.read_leg(USER_READ, count);
        match self.dice.below(5) {
            0 => {
                let data = self.dice.bytes(1 + count % 5);
                self.leg(USER_WRITE, MAILBOX_FIRST, &data);
            }
            1 => {
                self.leg(USER_WRITE, MB_CTRL_DYN, &[]);
                self.read_leg(USER_READ, 3);
            }
            _ => {}
        }
        self.finish();
        if self.dice.one_in(3) {
            self.frame(0xAD, &[0x0D]);
        }
    }

    /// A leg that writes a dynamic register; a second byte spoils it.
    fn dynamic_write(&mut self) {
        let address = self.dice.pick(&[RF_MNGT_DYN, MB_CTRL_DYN]);
        let value = match address {
            RF_MNGT_DYN => self.dice.pick(&[0, 1, 2, 3, 0xFC, 0xFF]),
            _ => self.dice.pick(&[0, 1, 1, 1, 0xFE, 0xFF]),
        };
        let data = [value, self.dice.byte()];
        let count = if self.dice.one_in(5) { 2 } else { 1 };
        self.leg(USER_WRITE, address, &data[..count]);
    }

    /// A leg of any kind, or a Start after which there is none.
    fn any_leg(&mut self) {
        let count = 1 + self.dice.below(3);
        let data = self.dice.bytes(count);
        match self.dice.below(10) {
            0 => {
                let place = self.place();
                self.leg(USER_WRITE, place, &data);
            }
            1 => {
                let address = 0x0003 + self.dice.below(11) as u16;
                let ends = self.bench.tag.registers.enda;
                let value = self.register_value(address, &ends);
                self.leg(SYSTEM_WRITE, address, &[value]);
            }
            2 => {
                let password = self.bench.tag.i2c_password;
                let code = self
                    .dice
                    .pick(&[PASSWORD_CODE_PRESENT, PASSWORD_CODE_WRITE]);
                let leg = [&password[..], &[code], &password].concat();
                self.leg(SYSTEM_WRITE, PASSWORD_PLACE, &leg);
            }
            3 | 4 => self.leg(USER_WRITE, MAILBOX_FIRST, &data),
            5 => {
                self.start();
                match self.dice.below(4) {
                    0 => self.stop(),
                    1 => {
                        self.level(b'V', false);
                        self.level(b'V', true);
                    }
                    _ => {
                        self.send(0xA4);
                    }
                }
            }
            6 => self.read_leg(SYSTEM_READ, count),
            7 => self.read_leg(USER_READ, count),
            _ => {
                let first = self.dice.pick(&[RF_MNGT_DYN, MB_CTRL_DYN]);
                self.leg(USER_WRITE, first, &[]);
                self.read_leg(USER_READ, count);
            }
        }
    }

    /// A transfer with dynamic legs that a Start ends, and other legs after them, frames between
    /// all its signals; then a look at what they left.
    pub(super) fn dynamic_legs(&mut self) {
        if self.bench.tag.registers.mb_mode == 0 && !self.dice.one_in(4) {
            self.mailbox_off();
            self.write_system(MB_MODE, &[1]);
        }
        if self.dice.one_in(2) {
            let value = self.dice.below(4) as u8;
            self.write(USER_WRITE, RF_MNGT_DYN, &[value]);
        }
        if self.dice.one_in(4) {
            self.wait_for_slot();
        }
        self.roughness.frames = self.dice.pick(&[0, 3, 6]);
        for _ in 0..1 + self.dice.below(3) {
            self.dynamic_write();
            for _ in 0..self.dice.below(3) {
                self.any_leg();
            }
        }
        self.finish();
        self.roughness.frames = 0;
        match self.dice.below(4) {
            0 => self.read(USER_READ, RF_MNGT_DYN, 5),
            1 => self.ask_radio_state(),
            2 => self.frame(0xAD, &[0x0D]),
            _ => {}
        }
    }

    /// A transfer of several legs: only the last one can write, but for dynamic registers.
    pub(super) fn chain_of_legs(&mut self) {
        for _ in 0..2 + self.dice.below(3) {
            let place = self.place();
            let count = self.dice.below(5);
            match self.dice.below(5) {
                0 => self.read_leg(USER_READ, count),
                1 => self.read_leg(SYSTEM_READ, count),
                2 => self.leg(SYSTEM_WRITE, 0x0003 + place % 12, &[1, 1, 1, 1][..count]),
                3 => self.leg(USER_WRITE, MAILBOX_FIRST, &[1, 2, 3, 4][..count]),
                _ => self.leg(USER_WRITE, place, &[1, 2, 3, 4][..count]),
            }
        }
        self.finish();
        self.read_from_counter();
    }

    /// A transfer with frames between its bytes, the radio state being asked after it.
    pub(super) fn frames_in_transfer(&mut self) {
        if self.dice.one_in(4) {
            self.wait_for_slot();
        }
        self.start();
        let select = self
            .dice
            .pick(&[USER_WRITE, USER_READ, SYSTEM_WRITE, SYSTEM_READ]);
        self.send(select);
        if self.dice.one_in(2) {
            self.put_frames(2);
        }
        for byte in [0x00, 0x04].iter().take(self.dice.below(3)) {
            self.send(*byte);
        }
        self.put_frames(3);
        self.finish();
        self.ask_radio_state();
    }

    /// Looks at what a script seldom reads by itself.
    pub(super) fn observe(&mut self) {
        match self.dice.below(8) {
            0 => self.read(USER_READ, RF_MNGT_DYN, 6),
            1 => self.read(SYSTEM_READ, RF_MNGT, 13),
            2 => {
                let (first, count) = self.dice.pick(&[(DSFID - 1, 4), (UID_FIRST - 1, 10)]);
                self.read(SYSTEM_READ, first, count);
            }
            3 | 4 => self.read_from_counter(),
            _ => self.observe_by_radio(),
        }
    }
}
