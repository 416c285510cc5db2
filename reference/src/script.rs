//! Seeded random scripts for the bench program, made to reach deep states.
//!
//! The author feeds each line it writes to a bench of its own, the reference, and so knows where
//! the tag stands: supplies, sessions, ends, passwords, mailbox. Most of what it writes is valid
//! there; the rest is broken on purpose.

mod crowded;
mod frames;
mod legs;
mod noise;
mod slots;

use crate::bench::{Bench, LONGEST_LINE};
use crate::dice::Dice;
use crate::tag::*;
use legs::USER_WRITE;
pub use noise::changed;

/// Lengths of long lines, and of long last ones: first and last.
const LONG_LINES: (usize, usize) = (LONGEST_LINE - 1, 3000);
const LAST_LINES: (usize, usize) = (LONGEST_LINE - 1, LONGEST_LINE + 2);

/// A line without its line feed.
pub type Line = Vec<u8>;

pub struct Script {
    pub lines: Vec<Line>,
    /// The last line has a line feed too.
    pub ended: bool,
}

/// The lines as the bench program reads them.
pub fn text(lines: &[Line], ended: bool) -> Vec<u8> {
    let mut text = lines.join(&b'\n');
    if ended && !lines.is_empty() {
        text.push(b'\n');
    }
    text
}

/// The script of a seed, `size` lines long.
pub fn script(seed: u64, size: usize) -> Script {
    let mut author = Author::new(seed);
    author.opening();
    while author.lines.len() < size {
        author.act();
    }
    author.lines.truncate(size);
    Script {
        lines: author.lines,
        ended: !author.dice.one_in(4),
    }
}

/// A seed's script for the naming of rules, `size` lines long: frames and legs that several rules
/// forbid are frequent.
pub fn crowded_script(seed: u64, size: usize) -> Script {
    let mut author = Author::new(seed);
    author.opening();
    while author.lines.len() < size {
        author.act();
        if author.dice.one_in(2) {
            author.crowded_frames();
        }
        if author.dice.one_in(12) {
            author.crowded_leg();
        }
        if author.dice.one_in(200) {
            author.crowded_page();
        }
    }
    author.lines.truncate(size);
    Script {
        lines: author.lines,
        ended: !author.dice.one_in(4),
    }
}

/// A seed's script for the reading of lines, `size` lines long: long lines are frequent, and
/// every other script ends in one without line feed.
pub fn long_script(seed: u64, size: usize) -> Script {
    let mut author = Author::new(seed);
    author.opening();
    while author.lines.len() < size {
        author.act();
        if author.dice.one_in(4) {
            let line = author.frame_line(LONG_LINES);
            author.put(line);
        }
    }
    author.lines.truncate(size);
    let unfinished = author.dice.one_in(2);
    if unfinished {
        author.lines.pop();
        let line = author.frame_line(LAST_LINES);
        author.lines.push(line);
    }
    Script {
        lines: author.lines,
        ended: !unfinished,
    }
}

/// How rough a seed is: each happens once in so many times, never for 0.
#[derive(Clone, Copy)]
struct Roughness {
    /// Something else before a line of a transfer.
    disturb: usize,
    /// A frame there.
    frames: usize,
    /// A leg that ends before its bytes do.
    short: usize,
    /// A transfer not ended by a Stop.
    broken: usize,
    /// A frame changed in one place.
    changed: usize,
    /// A wrong line after an action.
    wrong: usize,
}

const CALM: Roughness = Roughness {
    disturb: 0,
    frames: 0,
    short: 0,
    broken: 0,
    changed: 0,
    wrong: 0,
};

const ACTIONS: usize = 18;

/// How often each action comes in a scene, in the order of `act`: bytes read and written by wire,
/// system, dynamic, password and mailbox legs, chains of legs, dynamic legs ended by a Start;
/// block, lock, config, message, password and state frames, inventories; supplies, noise, a look.
const SCENES: [[usize; ACTIONS]; 8] = [
    [4, 4, 5, 3, 3, 6, 2, 3, 12, 3, 8, 12, 8, 8, 6, 3, 3, 6], // of all
    [0, 0, 0, 1, 0, 8, 1, 1, 0, 0, 0, 20, 0, 0, 1, 0, 1, 2],  // the mailbox
    [0, 0, 0, 0, 0, 6, 0, 0, 0, 0, 1, 20, 1, 0, 0, 0, 0, 1],  // the mailbox, undisturbed
    [2, 1, 2, 0, 0, 0, 0, 0, 16, 3, 6, 0, 6, 0, 0, 0, 0, 2],  // areas and rights
    [8, 6, 6, 2, 2, 2, 3, 3, 2, 0, 1, 0, 0, 0, 1, 2, 4, 3],   // the wire
    [0, 0, 0, 2, 0, 0, 0, 2, 4, 1, 0, 0, 1, 16, 4, 2, 1, 2],  // radio states
    [1, 1, 1, 0, 4, 0, 0, 0, 4, 0, 6, 0, 16, 0, 0, 1, 0, 2],  // passwords
    [0, 1, 1, 2, 0, 0, 1, 2, 1, 0, 0, 0, 0, 4, 24, 2, 1, 1],  // slots
];

/// Something that brings the tag back to where it answers.
type Repair = fn(&mut Author);

struct Author {
    dice: Dice,
    bench: Bench,
    lines: Vec<Line>,
    /// The seed's taste, and what comes of it in the scene.
    taste: [usize; ACTIONS],
    weights: [usize; ACTIONS],
    roughness: Roughness,
    /// One action in so many is led by a repair.
    repairs: usize,
    /// One message or leg in so many is long.
    long: usize,
    /// A length that the seed's messages have more often than others.
    favourite: usize,
}

impl Author {
    /// A seed has a taste: some actions often, some never.
    fn new(seed: u64) -> Author {
        let mut dice = Dice::new(seed);
        let taste = [(); ACTIONS].map(|()| dice.pick(&[0, 1, 2, 2, 3, 6]));
        let roughness = Roughness {
            disturb: dice.pick(&[0, 200, 60, 20]),
            frames: 0,
            short: dice.pick(&[0, 30, 12, 5]),
            broken: dice.pick(&[0, 30, 12, 5]),
            changed: dice.pick(&[0, 40, 16, 6]),
            wrong: dice.pick(&[0, 100, 30, 10]),
        };
        let repairs = dice.pick(&[1, 2, 3]);
        let long = dice.pick(&[0, 80, 30, 12]);
        let favourite = dice.pick(&[1, 1, 2, 3, 9, 9, 255, 256]);
        Author {
            dice,
            bench: Bench::fresh(),
            lines: Vec::new(),
            taste,
            weights: taste,
            roughness,
            repairs,
            long,
            favourite,
        }
    }

    /// Writes a line and lets the own bench take it; its answer.
    fn put(&mut self, line: Line) -> Vec<u8> {
        let mut answer = Vec::new();
        let taken = (line.len() <= LONGEST_LINE).then_some(&line[..]);
        let _ = self.bench.answer(taken, &mut answer); // a Vec takes every byte
        self.lines.push(line);
        answer
    }

    /// Does it without any roughness.
    fn calmly(&mut self, what: impl FnOnce(&mut Author)) {
        let roughness = std::mem::replace(&mut self.roughness, CALM);
        what(self);
        self.roughness = roughness;
    }

    /// V and F.
    fn level(&mut self, letter: u8, on: bool) {
        self.put(vec![letter, b'\t', b'0' + u8::from(on)]);
    }

    /// Supplies on and bytes in the memory, most of the time.
    fn opening(&mut self) {
        if !self.dice.one_in(4) {
            self.level(b'F', true);
            self.calmly(Author::fill);
        }
        if !self.dice.one_in(6) {
            self.level(b'V', true);
        }
        if self.dice.one_in(2) {
            self.calmly(Author::lay_out_areas);
        }
        self.next_scene();
    }

    fn next_scene(&mut self) {
        let scene = self.dice.pick(&SCENES);
        for (weight, (often, taste)) in self.weights.iter_mut().zip(scene.iter().zip(self.taste)) {
            *weight = often * taste;
        }
    }

    fn act(&mut self) {
        if self.dice.one_in(16) {
            self.next_scene();
        }
        if self.dice.one_in(self.repairs) {
            self.calmly(Author::repair);
        }
        if self.dice.one_in(self.roughness.wrong) {
            self.wrong_line();
        }
        if !self.dice.one_in(6) {
            self.settle();
        }
        match self.dice.weighted(&self.weights) {
            0 => self.memory_leg(),
            1 => self.memory_read(),
            2 => self.system_leg(),
            3 => self.dynamic_leg(),
            4 => self.password_leg(),
            5 => self.mailbox_leg(),
            6 => self.chain_of_legs(),
            7 => self.dynamic_legs(),
            8 => self.block_frame(),
            9 => self.lock_frame(),
            10 => self.config_frame(),
            11 => self.message_frame(),
            12 => self.password_frame(),
            13 => self.state_frames(),
            14 => self.inventory(),
            15 => self.supplies(),
            16 => self.noise(),
            _ => self.observe(),
        }
        if self.dice.one_in(24) {
            self.frames_in_transfer();
        }
    }

    /// Ends what is open and what is programming.
    fn settle(&mut self) {
        if self.bench.tag.bus != Bus::Idle {
            self.put(b"P".to_vec());
        }
        if self.bench.tag.programming {
            self.put(b"D".to_vec());
        }
    }

    /// Mends one thing that keeps the tag from answering, some things seldom.
    fn repair(&mut self) {
        self.settle();
        let seldom = self.dice.one_in(8);
        let tag = &self.bench.tag;
        let registers = &tag.registers;
        let mailbox = tag.mailbox.enabled();
        let system = tag.vcc && !mailbox;
        let repairs: [(bool, Repair); 8] = [
            (!tag.vcc, |a| a.level(b'V', true)),
            (!tag.field, |a| a.level(b'F', true)),
            (tag.vcc && tag.rf_mngt_dyn != 0, |a| {
                a.write(USER_WRITE, RF_MNGT_DYN, &[0])
            }),
            (system && registers.rf_mngt != 0, |a| {
                a.write_system(RF_MNGT, &[0])
            }),
            (tag.radio_state == RadioState::Quiet, |a| {
                a.frame_to_own_uid(0x26)
            }),
            (seldom && system && registers.lock_ccfile != 0, |a| {
                a.write_system(LOCK_CCFILE, &[0])
            }),
            (seldom && system && registers.lock_cfg != 0, |a| {
                a.write_system(LOCK_CFG, &[0])
            }),
            (seldom && mailbox, |a| {
                a.write(USER_WRITE, MB_CTRL_DYN, &[0])
            }),
        ];
        let needed = repairs.map(|(needed, _)| usize::from(needed));
        if needed.contains(&1) {
            let (_, repair) = repairs[self.dice.weighted(&needed)];
            repair(self);
        }
    }

    /// V and F changed, repeated, put back.
    fn supplies(&mut self) {
        let letter = self.dice.pick(b"VF");
        let on = self.dice.one_in(3);
        if self.dice.one_in(4) {
            self.dynamic_leg();
        }
        self.level(letter, on);
        if self.dice.one_in(3) {
            self.level(letter, on);
        }
        if !on && !self.dice.one_in(3) {
            if self.dice.one_in(2) {
                self.any_frame();
            }
            self.level(letter, true);
            if self.dice.one_in(2) {
                self.read_from_counter();
            }
        }
    }
}
