//! Radio frames, without their CRC.

use super::{Author, Line};
use crate::bench::{write_hex, UID};
use crate::tag::*;

const SELECT_FLAG: u8 = 0x10;
const ADDRESS: u8 = 0x20;
const OPTION: u8 = 0x40;
const MAKER: u8 = 0x02;
/// The commands that know the option.
const OPTIONAL: [u8; 7] = [0x20, 0x21, 0x22, 0x23, 0x24, 0xA1, 0xB1];
/// The longest frame the tag hears, without its CRC.
const LONGEST_HEARD: usize = 268;

impl Author {
    pub(super) fn put_frame(&mut self, bytes: &[u8]) {
        let mut line: Line = b"R\t".to_vec();
        let _ = write_hex(&mut line, bytes); // a Vec takes every byte
        self.put(line);
    }

    /// Plain, addressed or selected as the tag's state asks for, most of the time.
    fn mode(&mut self, command: u8) -> u8 {
        let weights = match self.bench.tag.radio_state {
            _ if command == 0x02 || command == 0x25 => [1, 14, 1],
            RadioState::Ready => [8, 3, 1],
            RadioState::Quiet => [1, 6, 1],
            RadioState::Selected => [2, 2, 4],
        };
        [0, ADDRESS, SELECT_FLAG][self.dice.weighted(&weights)]
    }

    /// A request whose parameters are as they should be, some of its frame perhaps not.
    pub(super) fn frame(&mut self, command: u8, parameters: &[u8]) {
        let mut flags = self.dice.pick(&[2, 2, 2, 0, 1, 3]) | self.mode(command);
        let option = if OPTIONAL.contains(&command) { 3 } else { 40 };
        if self.dice.one_in(option) {
            flags |= OPTION;
        }
        let rough = self.roughness.changed;
        if self.dice.one_in(rough) {
            flags ^= self.dice.pick(&[0x04, 0x08, 0x10, 0x20, 0x40, 0x80]);
        }
        let mut uid = UID;
        let other = if command == 0x25 { 3 } else { 4 * rough };
        if self.dice.one_in(other) {
            uid = self.changed_password(uid);
        }
        let mut bytes = frame_bytes(flags, command, &uid, parameters);
        if self.dice.one_in(rough) {
            self.change(&mut bytes);
        }
        self.put_frame(&bytes);
    }

    /// A frame's length or one of its bytes changed.
    fn change(&mut self, bytes: &mut Vec<u8>) {
        let place = self.dice.below(bytes.len());
        match self.dice.below(8) {
            0 => bytes.truncate(place.max(1)),
            1 => bytes.truncate((bytes.len() - 1).max(1)),
            2 => bytes[place] ^= 1 << self.dice.below(8),
            3 => bytes[place] = self.dice.pick(&[0x00, 0x7F, 0x80, 0xFF]),
            4 => bytes.insert(place, 0),
            5 => {
                let more = self.dice.below(3);
                bytes.resize(LONGEST_HEARD - 1 + more, 0);
            }
            _ => bytes.push(self.dice.pick(&[0, 0, 1, 0xFF])),
        }
    }

    /// A request without parameters that even a Quiet tag hears.
    pub(super) fn frame_to_own_uid(&mut self, command: u8) {
        self.put_frame(&frame_bytes(0x02 | ADDRESS, command, &UID, &[]));
    }

    pub(super) fn put_frames(&mut self, most: usize) {
        for _ in 0..1 + self.dice.below(most) {
            self.any_frame();
        }
    }

    pub(super) fn any_frame(&mut self) {
        match self.dice.below(12) {
            0 | 1 => self.block_frame(),
            2 => self.config_frame(),
            3 | 4 => self.message_frame(),
            5 => self.password_frame(),
            6 | 7 => self.state_frame(),
            8 => self.odd_frame(),
            9 => self.inventory_frame(),
            10 => self.end_of_frame(),
            _ => self.lock_frame(),
        }
    }

    /// A frame between the signals of a transfer, mostly one that tells 0Fh from silence. Before the
    /// select that opens the transfer RF_MNGT can still be written, and RF_MNGT_Dyn by it.
    pub(super) fn frame_between(&mut self) {
        let awaited = self.bench.tag.bus == Bus::Started { open: false };
        match self.dice.below(6) {
            0 => self.calmly(Author::any_frame),
            1 | 2 if awaited => {
                let value = self.dice.below(4) as u8;
                self.calmly(|author| author.config_write(RF_MNGT as u8, value));
            }
            3 if self.bench.tag.slot_count > 0 => self.end_of_frame(),
            _ => self.frame_to_own_uid(0x26),
        }
    }

    /// All memory, by 32 frames of four blocks.
    pub(super) fn fill(&mut self) {
        for block in (0..=LAST_BLOCK as u8).step_by(4) {
            let data = self.dice.bytes(16);
            self.put_frame(&frame_bytes(
                0x02,
                0x24,
                &UID,
                &[&[block, 3], &data[..]].concat(),
            ));
        }
    }

    /// A block, often at a border or an edge.
    fn block(&mut self) -> u8 {
        let near = self.dice.below(4) as u8;
        match self.dice.below(8) {
            0..=2 => 8 * self.dice.pick(&self.bench.tag.registers.enda) + 5 + near,
            3 => near,
            4 => self.dice.pick(&[0x7E, 0x7F, 0x80, 0x81, 0xFE, 0xFF]),
            _ => self.dice.below(LAST_BLOCK + 1) as u8,
        }
    }

    /// A count less 1: some, up to a border, up to the memory's end, over eight bits.
    fn more(&mut self, first: u8) -> u8 {
        let near = self.dice.below(3) as u8;
        match self.dice.below(10) {
            0..=2 => {
                let end = 8 * self.dice.pick(&self.bench.tag.registers.enda) + 7;
                end.wrapping_sub(first).wrapping_add(near) & 0x7F
            }
            3 => (LAST_BLOCK as u8).wrapping_sub(first).wrapping_add(near),
            4 => 0xFF_u8.wrapping_sub(first).wrapping_add(near),
            5 => self.dice.pick(&[0x7F, 0x80, 0xFE, 0xFF]),
            _ => self.dice.below(5) as u8,
        }
    }

    pub(super) fn block_frame(&mut self) {
        let first = self.block();
        let more = self.more(first);
        match self.dice.below(8) {
            0 => self.frame(0x20, &[first]),
            1 => {
                let data = self.dice.bytes(4);
                self.frame(0x21, &[&[first], &data[..]].concat());
                self.frame(0x20, &[first]);
            }
            2 | 3 => self.frame(0x23, &[first, more]),
            4 | 5 => self.write_blocks(first),
            6 => self.frame(0x2C, &[first, more]),
            _ => self.try_area(),
        }
    }

    fn write_blocks(&mut self, first: u8) {
        let more = self.dice.pick(&[0, 1, 2, 3, 3, 4, 5, 60]);
        let mut size = 4 * (usize::from(more) + 1);
        if self.dice.one_in(12) {
            size = self.dice.pick(&[0, size - 4, size - 1, size + 1, size + 4]);
        }
        let data = self.dice.bytes(size);
        self.frame(0x24, &[&[first, more], &data[..]].concat());
        if self.dice.one_in(2) {
            self.frame(0x23, &[first, more & 3]);
        }
    }

    /// Rights of an area with each session: its password named, then a read, a write, a status.
    fn try_area(&mut self) {
        let area = self.dice.below(4);
        let named = self.bench.tag.registers.rfass[area] & 3;
        if self.dice.one_in(2) {
            let n = if self.dice.one_in(3) {
                self.dice.below(4) as u8
            } else {
                named
            };
            self.present_by_radio(n);
        }
        let ends = self.bench.tag.registers.enda;
        let first = if area == 0 { 0 } else { 8 * ends[area - 1] + 8 };
        let data = self.dice.bytes(4);
        self.frame(0x20, &[first]);
        self.frame(0x21, &[&[first], &data[..]].concat());
        self.frame(0x2C, &[first, 1]);
    }

    pub(super) fn lock_frame(&mut self) {
        let block = self.dice.pick(&[0, 1, 0, 1, 2, 0x7F, 0x80, 0xFF]);
        self.frame(0x22, &[block]);
        match self.dice.below(4) {
            0 | 1 => self.frame(0x2C, &[0, 3]),
            2 => self.write_blocks(block & 1),
            _ => {}
        }
    }

    fn pointer(&mut self) -> u8 {
        match self.dice.below(8) {
            0 => self
                .dice
                .pick(&[0x00, 0x02, 0x0B, 0x0C, 0x0E, 0x12, 0x13, 0x18, 0x83, 0xFF]),
            1 => 0x0F,
            2 => 0x0D,
            _ => 0x03 + self.dice.below(8) as u8,
        }
    }

    pub(super) fn config_frame(&mut self) {
        if self.dice.one_in(6) && !self.bench.tag.bus.transfer_open() {
            return self.move_ends();
        }
        let pointer = self.pointer();
        if self.dice.one_in(3) {
            return self.frame(0xA0, &[pointer]);
        }
        let ends = self.bench.tag.registers.enda;
        let value = self.register_value(u16::from(pointer), &ends);
        self.config_write(pointer, value);
        if self.dice.one_in(2) {
            self.frame(0xA0, &[pointer]);
        }
    }

    /// A1, mostly with the session it needs.
    pub(super) fn config_write(&mut self, pointer: u8, value: u8) {
        if self.bench.tag.radio_session != 1 && !self.dice.one_in(8) {
            self.present_by_radio(0);
        }
        self.frame(0xA1, &[pointer, value]);
    }

    /// The till's side of the mailbox.
    pub(super) fn message_frame(&mut self) {
        let calm = !self.bench.tag.bus.transfer_open();
        if calm && !self.bench.tag.mailbox.enabled() && !self.dice.one_in(3) {
            self.mailbox_on();
        }
        let mailbox = &self.bench.tag.mailbox;
        let weights = match (mailbox.length, mailbox.put_pending()) {
            (0, _) => [8, 1, 1, 2, 2],
            (_, true) => [2, 8, 2, 2, 1],
            (_, false) => [5, 3, 1, 2, 1],
        };
        let pointer = self
            .dice
            .pick(&[0x0D, 0x0D, 0x0D, 0x0D, 0x0D, 0x0C, 0x0E, 0x06]);
        let value = self.dice.pick(&[0, 1, 1, 1, 0xFE, 0xFF]);
        match self.dice.weighted(&weights) {
            0 => self.till_message(),
            1 => self.message_part(),
            2 => self.frame(0xAB, &[]),
            3 => self.frame(0xAD, &[pointer]),
            _ => self.frame(0xAE, &[pointer, value]),
        }
    }

    /// AA, a few with a count that does not fit: one off, or right in eight bits only.
    fn till_message(&mut self) {
        let mut count = self.message_length();
        let mut named = (count - 1) as u8;
        if self.dice.one_in(24) {
            (count, named) = match self.dice.below(4) {
                0 => (count - 1, named),
                1 => (count + 1, named),
                2 => (0, 0xFF),
                _ => (257, 0),
            };
        }
        let data = self.dice.bytes(count);
        self.frame(0xAA, &[&[named], &data[..]].concat());
    }

    /// AC: the whole, parts up to the last byte, past it, sums over eight bits.
    fn message_part(&mut self) {
        let length = self.bench.tag.mailbox.length;
        let last = length.wrapping_sub(1) as u8;
        let from = self.dice.below(usize::from(length)) as u8;
        let (pointer, number) = match self.dice.below(12) {
            0 | 1 => (0, 0),
            2 => (0, last),
            3 => (last, 0),
            4 => (last.wrapping_add(1), 0),
            5 => (0, last.wrapping_add(1)),
            6 => (from, last.wrapping_sub(from)),
            7 => (from, last.wrapping_sub(from).wrapping_add(1)),
            8 => (from, last.wrapping_sub(from).wrapping_sub(1)),
            9 => (from, 0xFF_u8.wrapping_sub(from).wrapping_add(1)),
            10 => (from, 0),
            _ => (self.dice.byte(), self.dice.pick(&[0, 1, 0x7F, 0x80, 0xFF])),
        };
        self.frame(0xAC, &[pointer, number]);
        if self.dice.one_in(3) {
            self.frame(0xAD, &[0x0D]);
        }
    }

    /// B3 with the password that stands.
    pub(super) fn present_by_radio(&mut self, n: u8) {
        let password = self.bench.tag.radio_passwords[usize::from(n & 3)];
        self.frame(0xB3, &[&[n], &password[..]].concat());
    }

    pub(super) fn password_frame(&mut self) {
        let n = self.dice.pick(&[0, 0, 1, 2, 3, 1, 2, 3, 4, 0xFF]);
        let right = self.bench.tag.radio_passwords[usize::from(n & 3)];
        let wrong = self.changed_password(right);
        match self.dice.below(6) {
            0 => self.frame(0xB3, &[&[n], &wrong[..]].concat()),
            1 | 2 => {
                if !self.dice.one_in(4) {
                    self.present_by_radio(n & 3);
                }
                self.frame(0xB1, &[&[n], &wrong[..]].concat());
                if self.dice.one_in(2) {
                    self.present_by_radio(n);
                }
            }
            _ => self.present_by_radio(n),
        }
    }

    /// Stay Quiet, Select, Reset; some with a surplus byte, which they must not serve.
    fn state_frame(&mut self) {
        let command = self.dice.pick(&[0x02, 0x25, 0x25, 0x25, 0x26]);
        let surplus = self.dice.one_in(12);
        self.frame(command, if surplus { &[0] } else { &[] });
    }

    pub(super) fn state_frames(&mut self) {
        self.state_frame();
        if self.dice.one_in(2) {
            self.state_frame();
        }
        self.ask_radio_state();
    }

    /// A plain and a selected read tell Ready, Quiet and Selected apart.
    pub(super) fn ask_radio_state(&mut self) {
        self.put_frame(&[0x02, 0x20, 0x00]);
        self.put_frame(&[0x02 | SELECT_FLAG, 0x20, 0x01]);
    }

    /// A command 01 does not name, or bytes of no form at all.
    pub(super) fn odd_frame(&mut self) {
        let count = self.dice.below(12);
        let bytes = self.dice.bytes(count);
        if self.dice.one_in(3) {
            let first = self.dice.byte();
            return self.put_frame(&[&[first], &bytes[..]].concat());
        }
        let command = match self.dice.below(3) {
            0 => self.dice.byte(),
            1 => self
                .dice
                .pick(&[0x00, 0x01, 0x03, 0x1F, 0x27, 0x2B, 0x2D, 0x30, 0x9F]),
            _ => self
                .dice
                .pick(&[0xA2, 0xA9, 0xAF, 0xB0, 0xB2, 0xB4, 0xC0, 0xC4, 0xFF]),
        };
        self.frame(command, &bytes);
    }

    pub(super) fn observe_by_radio(&mut self) {
        match self.dice.below(6) {
            0 => {
                for pointer in 0x03..=0x0A {
                    self.frame(0xA0, &[pointer]);
                }
            }
            1 => self.frame(0x2C, &[0, 0x7F]),
            2 => {
                let ends = self.bench.tag.registers.enda;
                let area = self.dice.below(4);
                let first = if area == 0 { 0 } else { 8 * ends[area - 1] + 8 };
                let last = if area == 3 { 0x0F } else { ends[area] };
                self.frame(0x23, &[first, (8 * last + 7).wrapping_sub(first)]);
            }
            3 => self.ask_radio_state(),
            4 => self.frame(0xAD, &[0x0D]),
            _ => self.odd_frame(),
        }
    }
}

/// Flags, command, 02h from A0h up, UID if addressed, parameters.
fn frame_bytes(flags: u8, command: u8, uid: &[u8; 8], parameters: &[u8]) -> Vec<u8> {
    let mut bytes = vec![flags, command];
    if command >= 0xA0 {
        bytes.push(MAKER);
    }
    if flags & ADDRESS != 0 {
        bytes.extend(uid);
    }
    bytes.extend(parameters);
    bytes
}
