//! What does not belong: signals out of place, wrong lines.

use super::{Author, Line};
use crate::bench::LONGEST_LINE;
use crate::dice::Dice;

/// Lines the bench program must not take.
const WRONG_LINES: [&str; 44] = [
    "", "V", "V\t", "V\t2", "V 1", "v\t1", "V\t1 ", "V\t1\t", "V\t01", "V\t\t1", "F", "F\t-1",
    "f\t0", "F\tF", "s", "S\t", "S ", " S", "S\r", "SS", "P\r", "p", "P\t1", "D\t", "d", "DD", "B",
    "B\t", "B\tA", "B\ta6", "B\tA60", "B\tG0", "B A6", "G", "G\t2", "g\t1", "R", "R\t", "R\t022",
    "e", "E\t", "E\t0", "EE", "E\r",
];

/// More of them around frames, which would do something if they were taken.
const WRONG_FRAMES: [&str; 7] = [
    "R\t0222000",
    "R\t02 2200",
    "R\t02220g",
    "r\t022200",
    "R\t022a00",
    "R022200",
    "R\t\t022200",
];

impl Author {
    /// Now and then, before a line of a transfer: something else.
    pub(super) fn disturb(&mut self) {
        if self.dice.one_in(self.roughness.frames) {
            self.frame_between();
        }
        if !self.dice.one_in(self.roughness.disturb) {
            return;
        }
        let vcc = self.bench.tag.vcc;
        match self.dice.below(16) {
            0..=5 => self.calmly(Author::any_frame),
            6 => self.level(b'F', false),
            7 => self.level(b'F', true),
            8 => {
                self.level(b'F', false);
                self.level(b'F', true);
            }
            9 => self.level(b'V', vcc),
            10 => self.level(b'V', !vcc),
            11 => {
                self.put(b"D".to_vec());
            }
            12 => self.wrong_line(),
            _ => self.stray_signal(),
        }
    }

    fn stray_signal(&mut self) {
        let byte = self.dice.pick(&[0xA6, 0xA7, 0xAE, 0xAF, 0x00, 0x20, 0xFF]);
        let line: Line = match self.dice.below(8) {
            0 | 5 => b"S".to_vec(),
            6 => b"E".to_vec(),
            1 => b"P".to_vec(),
            2 => b"G\t1".to_vec(),
            3 => b"G\t0".to_vec(),
            _ => format!("B\t{byte:02X}").into_bytes(),
        };
        self.put(line);
    }

    /// Signals without any plan, at times while a byte is being programmed.
    pub(super) fn noise(&mut self) {
        if self.dice.one_in(2) {
            self.write_and_wait();
        }
        for _ in 0..2 + self.dice.below(8) {
            match self.dice.below(12) {
                0 => self.any_frame(),
                1 => {
                    self.put(b"D".to_vec());
                }
                2 => self.wrong_line(),
                3 => {
                    let (letter, on) = (self.dice.pick(b"VF"), !self.dice.one_in(3));
                    self.level(letter, on);
                }
                _ => self.stray_signal(),
            }
        }
    }

    pub(super) fn wrong_line(&mut self) {
        let line = match self.dice.below(8) {
            0 => self.long_line(),
            1 | 2 => self.changed_line(),
            3 => self.dice.pick(&WRONG_FRAMES).as_bytes().to_vec(),
            _ => self.dice.pick(&WRONG_LINES).as_bytes().to_vec(),
        };
        self.put(line);
    }

    /// Around the longest line: frames with the tag's ear closed by length, and other text.
    fn long_line(&mut self) -> Line {
        let size = match self.dice.below(6) {
            0 => self.dice.pick(&[4095, 4096, 4097, 8192, 16384, 70_000]),
            _ => LONGEST_LINE - 3 + self.dice.below(8),
        };
        let start = self
            .dice
            .pick(&["R\t022000", "R\t0226", "S", "V\t1", "V\t0", ""]);
        let filler = self.dice.pick(b"000A \t");
        let mut line = start.as_bytes().to_vec();
        line.resize(size, filler);
        line
    }

    /// A frame too long for the tag, of a length from `first` to `last`, most often at the
    /// ends of that. Up to the longest line it is met with silence, and so is the start of
    /// a longer one if that is all that is kept.
    pub(super) fn frame_line(&mut self, (first, last): (usize, usize)) -> Line {
        let near = 4.min(last + 1 - first);
        let size = match self.dice.below(4) {
            0 => first + self.dice.below(last + 1 - first),
            1 => last - self.dice.below(near),
            _ => first + self.dice.below(near),
        };
        let mut line = b"R\t".to_vec();
        line.extend((2..size).map(|_| self.dice.pick(b"0123456789ABCDEF")));
        line
    }

    /// An earlier line, changed.
    fn changed_line(&mut self) -> Line {
        let mut line = match self.lines.len() {
            0 => b"V\t1".to_vec(),
            count => self.lines[self.dice.below(count)].clone(),
        };
        line.truncate(LONGEST_LINE);
        changed(&mut self.dice, line)
    }
}

/// A line with a character lost, put in, put behind or changed; at times it is still right.
pub fn changed(dice: &mut Dice, mut line: Line) -> Line {
    let place = dice.below(line.len());
    if line.is_empty() {
        return b"\0".to_vec();
    }
    let other = dice.pick(b"\t \r\0\x800AafgVS");
    match dice.below(4) {
        0 => {
            line.remove(place);
        }
        1 => line.insert(place, other),
        2 => line.push(other),
        _ => line[place] = other,
    }
    line
}
