//! Inventory frames and ends-of-frame.

use super::legs::USER_WRITE;
use super::Author;
use crate::asks;
use crate::tag::*;

impl Author {
    pub(super) fn end_of_frame(&mut self) {
        self.put(b"E".to_vec());
    }

    pub(super) fn inventory_frame(&mut self) {
        let (uid, afi) = (self.bench.tag.uid, self.bench.tag.registers.afi);
        let bytes = asks::frame(&mut self.dice, &uid, afi);
        self.put_frame(&bytes);
    }

    /// After it the tag waits for its slot, if it takes it and that is not the first.
    pub(super) fn wait_for_slot(&mut self) {
        let uid = self.bench.tag.uid;
        let bytes = asks::waiting_frame(&mut self.dice, &uid);
        self.put_frame(&bytes);
    }

    /// An inventory and its slots: as many as are left to the tag's, one more or fewer, or all. Something else between
    /// them at times.
    pub(super) fn inventory(&mut self) {
        self.inventory_frame();
        let left = usize::from(self.bench.tag.slot_count);
        let fewer = self.dice.below(left + 1);
        let count = self.dice.pick(&[left, left, left, left + 1, fewer, 15]);
        for _ in 0..count {
            if self.dice.one_in(8) {
                self.between_slots();
            }
            self.end_of_frame();
        }
    }

    /// What changes the count, or keeps the tag from counting.
    fn between_slots(&mut self) {
        match self.dice.below(10) {
            0 => self.frame_to_own_uid(0x02),
            1 => self.frame_to_own_uid(0x25),
            2 => {
                self.level(b'F', false);
                self.level(b'F', true);
            }
            3 | 4 => self.slots_in_transfer(),
            5 => self.slots_when_disabled(),
            6 => {
                self.calmly(Author::write_and_wait);
                self.slots_not_taken();
                self.put(b"D".to_vec());
            }
            7 => self.inventory_frame(),
            8 => self.any_frame(),
            _ => self.frame_to_own_uid(0x26),
        }
    }

    /// Ends-of-frame and frames that a tag must not take.
    fn slots_not_taken(&mut self) {
        for _ in 0..1 + self.dice.below(3) {
            match self.dice.below(3) {
                0 => self.inventory_frame(),
                _ => self.end_of_frame(),
            }
        }
    }

    /// In a transfer that may set RF_MNGT_Dyn, before its Start and after it.
    fn slots_in_transfer(&mut self) {
        let value = self.dice.pick(&["B\t00", "B\t00", "B\t01", "B\t02"]);
        for line in ["S", "B\tA6", "B\t20", "B\t03", value, "S"] {
            self.put(line.as_bytes().to_vec());
            if self.dice.one_in(4) {
                self.slots_not_taken();
            }
        }
        self.put(b"P".to_vec());
    }

    /// With RF_MNGT_Dyn that lets no frame be served, or none be heard; put back most of the time.
    fn slots_when_disabled(&mut self) {
        let value = 1 + self.dice.below(3) as u8;
        self.calmly(|author| author.write(USER_WRITE, RF_MNGT_DYN, &[value]));
        self.slots_not_taken();
        if !self.dice.one_in(8) {
            self.calmly(|author| author.write(USER_WRITE, RF_MNGT_DYN, &[0]));
        }
    }
}
