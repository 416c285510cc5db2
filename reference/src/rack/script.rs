//! Seeded random scripts for the rack's bench program: tags whose UIDs share low nibbles, transfers of several of them
//! at once, frames to all, slots and searches. As in the one-tag scripts, the author knows where each tag stands.

mod recipes;

use super::bench::RackBench;
use super::MOST_TAGS;
use crate::asks;
use crate::bench::{write_hex, LONGEST_LINE, UID};
use crate::dice::Dice;
use crate::script::{changed, Line, Script};
use crate::tag::*;

/// Lines that the program must not take.
const WRONG_LINES: [&str; 40] = [
    "",
    "U",
    "U\t",
    "U\t01020304052402E",
    "U\t01020304052402E00",
    "U\t01020304052402e0",
    "U 01020304052402E0",
    "u\t01020304052402E0",
    "U\t01020304052402E0\t",
    "T",
    "T\t",
    "T\t00",
    "T\t01",
    "T\t256",
    "T\t300",
    "T\t-1",
    "T\t+1",
    "T\tA",
    "T\t1 ",
    "T 1",
    "t\t0",
    "T\t1000000000000000000000",
    "L",
    "L\t",
    "L\t0",
    "L\t06010",
    "L\t06010g",
    "l\t060100",
    "L 060100",
    "L\t060100\t0",
    "E\t",
    "E\t0",
    "e",
    "R",
    "R\t",
    "F\t2",
    "V",
    "S\t0",
    "B\t0",
    "G\t2",
];

/// The script of a seed, `size` lines long.
pub fn rack_script(seed: u64, size: usize) -> Script {
    let mut author = Author::new(seed);
    author.fill_rack(seed);
    author.supply_all();
    while author.lines.len() < size {
        author.act();
    }
    author.lines.truncate(size);
    Script {
        lines: author.lines,
        ended: !author.dice.one_in(4),
    }
}

/// UIDs that differ from one another in few nibbles, so that tags share slots.
pub fn uids(dice: &mut Dice, count: usize) -> Vec<[u8; 8]> {
    let mut base = [0; 8];
    base.fill_with(|| dice.byte());
    let mut uids = vec![dice.pick(&[UID, base, base, base])];
    while uids.len() < count {
        let mut uid = dice.pick(&uids);
        let place = dice.below(16);
        let any = dice.below(16) as u8;
        let shift = 4 * (place % 2);
        uid[place / 2] = uid[place / 2] & !(0x0F << shift) | any << shift;
        if !uids.contains(&uid) {
            uids.push(uid);
        }
    }
    uids
}

/// Something between two lines that belong together.
type Interruption = fn(&mut Author);

struct Author {
    dice: Dice,
    bench: RackBench,
    lines: Vec<Line>,
    /// Each happens once in so many times: another line inside a recipe, a wrong one after an action.
    interrupted: usize,
    wrong: usize,
}

impl Author {
    fn new(seed: u64) -> Author {
        let mut dice = Dice::new(seed);
        let interrupted = dice.pick(&[0, 40, 12, 5]);
        let wrong = dice.pick(&[0, 60, 20]);
        Author {
            dice,
            bench: RackBench::new(),
            lines: Vec::new(),
            interrupted,
            wrong,
        }
    }

    /// Writes a line and lets the own rack take it.
    fn put(&mut self, line: impl Into<Line>) {
        let line = line.into();
        let taken = (line.len() <= LONGEST_LINE).then_some(&line[..]);
        let _ = self.bench.answer(taken, &mut Vec::new()); // a Vec takes every byte
        self.lines.push(line);
    }

    fn put_bytes(&mut self, letter: u8, bytes: &[u8]) {
        let mut line = vec![letter, b'\t'];
        let _ = write_hex(&mut line, bytes);
        self.put(line);
    }

    /// 1 to 16 tags, each number in some of 32 seeds on end; seldom none, more, two of one UID, or one that comes too
    /// late.
    fn fill_rack(&mut self, seed: u64) {
        let mut count = match seed % 2 {
            0 => 1 + (seed / 2) as usize % MOST_TAGS,
            _ => self.dice.pick(&[1, 2, 2, 3, 3, 4]),
        };
        let kind = self.dice.below(24);
        match kind {
            0 => count = 0,
            1 => count = MOST_TAGS + 1 + self.dice.below(2),
            _ => {}
        }
        let mut uids = uids(&mut self.dice, count.max(1));
        uids.truncate(count);
        if kind == 2 && count > 1 {
            let one = self.dice.below(count);
            uids[(one + 1) % count] = uids[one];
        }
        for (place, uid) in uids.into_iter().enumerate() {
            if self.dice.one_in(self.wrong) {
                self.wrong_line();
            }
            if kind == 3 && place + 1 == count {
                let line = self
                    .dice
                    .pick(&["T\t0", "T\t255", "F\t0", "D", "L\t060100"]);
                self.put(line);
            }
            self.put_bytes(b'U', &uid);
        }
    }

    /// The field, and VCC of most tags.
    fn supply_all(&mut self) {
        if !self.dice.one_in(6) {
            self.put("F\t1");
        }
        for tag in 0..self.bench.tags.len() {
            if self.dice.one_in(4) {
                continue;
            }
            self.name(tag);
            self.put("V\t1");
        }
    }

    fn name(&mut self, tag: usize) {
        if usize::from(self.bench.to) != tag {
            self.put(format!("T\t{tag}"));
        }
    }

    /// Mostly one that is there.
    fn name_any(&mut self) {
        let count = self.bench.tags.len();
        let tag = self.dice.below(count);
        let other = self.dice.pick(&[count, count + 1, 16, 17, 255]);
        let tag = if self.dice.one_in(24) { other } else { tag };
        self.put(format!("T\t{tag}"));
    }

    /// A fresh one where there is none.
    fn tag(&self) -> Tag {
        let tag = self.bench.tags.get(usize::from(self.bench.to));
        tag.cloned().unwrap_or(Tag::fresh(UID))
    }

    /// Of a tag in the rack; at times of none.
    fn any_uid(&mut self) -> [u8; 8] {
        let tag = self.dice.below(self.bench.tags.len());
        let mut uid = self.bench.tags.get(tag).map_or(UID, |tag| tag.uid);
        if self.dice.one_in(16) {
            uid[self.dice.below(8)] ^= 1 << self.dice.below(8);
        }
        uid
    }

    fn act(&mut self) {
        if self.dice.one_in(self.wrong) {
            self.wrong_line();
        }
        if self.dice.one_in(3) {
            self.name_any();
        }
        if self.dice.one_in(5) {
            self.settle();
        }
        match self.dice.weighted(&[8, 10, 8, 7, 2, 1]) {
            0 => self.recipe(),
            1 => self.frame(),
            2 => self.inventory(),
            3 => self.search(),
            4 => self.supplies(),
            _ => self.stray(),
        }
    }

    /// Ends what keeps tags from answering.
    fn settle(&mut self) {
        for tag in 0..self.bench.tags.len() {
            let Tag {
                bus,
                programming,
                radio_state,
                uid,
                ..
            } = self.bench.tags[tag];
            if bus != Bus::Idle {
                self.name(tag);
                self.put("P");
            }
            if programming {
                self.name(tag);
                self.put("D");
            }
            if radio_state == RadioState::Quiet && self.dice.one_in(2) {
                self.put_bytes(b'R', &[&[0x22, 0x26], &uid[..]].concat());
            }
        }
        if self.bench.tags.iter().any(|tag| !tag.field) && !self.dice.one_in(4) {
            self.put("F\t1");
        }
    }

    fn supplies(&mut self) {
        let letter = self.dice.pick(&["V", "V", "F"]);
        let level = self.dice.below(2);
        self.put(format!("{letter}\t{level}"));
        if level == 0 && !self.dice.one_in(3) {
            self.put(format!("{letter}\t1"));
        }
    }

    fn stray(&mut self) {
        let line = self.dice.pick(&[
            "S", "P", "D", "G\t1", "G\t0", "B\tA6", "B\tA7", "B\tAE", "B\t00", "E", "E",
        ]);
        self.put(line);
    }

    fn end_of_frame(&mut self) {
        self.put("E");
    }

    /// For one of the tags.
    fn inventory_frame(&mut self) -> Vec<u8> {
        let uid = self.any_uid();
        match self.dice.below(4) {
            0 => {
                let (flags, bits) = self
                    .dice
                    .pick(&[(0x06, 0), (0x06, 0), (0x26, 0), (0x06, 4)]);
                [&[flags, 0x01, bits], &uid[..usize::from(bits) / 4]].concat()
            }
            _ => asks::frame(&mut self.dice, &uid, 0),
        }
    }

    /// An inventory and its slots, up to the last tag's, fewer, or all.
    fn inventory(&mut self) {
        let bytes = self.inventory_frame();
        self.put_bytes(b'R', &bytes);
        self.slots();
    }

    fn slots(&mut self) {
        let left = self.bench.tags.iter().map(|tag| tag.slot_count).max();
        let left = usize::from(left.unwrap_or(0));
        let fewer = self.dice.below(left + 1);
        for _ in 0..self
            .dice
            .pick(&[left, left, left, left + 1, fewer, fewer, 15])
        {
            self.interrupt();
            self.end_of_frame();
        }
    }

    /// The search, mostly with an inventory frame; then at times what is left of the slots.
    fn search(&mut self) {
        let bytes = match self.dice.below(8) {
            0 => self.frame_bytes(),
            _ => self.inventory_frame(),
        };
        self.put_bytes(b'L', &bytes);
        if self.dice.one_in(2) {
            self.slots();
        }
    }

    fn interrupt(&mut self) {
        if !self.dice.one_in(self.interrupted) {
            return;
        }
        let quietly = std::mem::take(&mut self.interrupted);
        let interruptions: [Interruption; 7] = [
            Author::recipe,
            Author::frame,
            Author::frame,
            Author::end_of_frame,
            Author::inventory,
            Author::search,
            Author::supplies,
        ];
        let to = usize::from(self.bench.to);
        if self.dice.one_in(2) {
            self.name_any();
        }
        self.dice.pick(&interruptions)(self);
        self.name(to);
        self.interrupted = quietly;
    }

    fn wrong_line(&mut self) {
        let line = match (self.dice.below(6), self.lines.len()) {
            (0, count) if count > 0 => {
                let line = self.lines[self.dice.below(count)].clone();
                changed(&mut self.dice, line)
            }
            (1, _) => {
                let uid = self.any_uid();
                let mut line = b"U\t".to_vec();
                let _ = write_hex(&mut line, &uid);
                line
            }
            (2, _) => {
                let size = LONGEST_LINE - 2 + self.dice.below(5);
                let mut line = self
                    .dice
                    .pick(&["R\t06", "L\t06", "U\t"])
                    .as_bytes()
                    .to_vec();
                line.resize(size, b'0');
                line
            }
            _ => self.dice.pick(&WRONG_LINES).as_bytes().to_vec(),
        };
        self.put(line);
    }
}
