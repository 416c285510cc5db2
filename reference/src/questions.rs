//! Seeded random scripts for the example program `write_examples`: tags, what stands in the page, and questions about
//! writes, most of them near an edge of the rules.

pub mod edges;
pub mod tags;

use crate::bench::UID;
use crate::dice::Dice;
use crate::examples::write::line;
use crate::script::{changed, Line, Script};
use crate::state;
use crate::tag::*;
use crate::verdict::{Reason, Verdict};

/// What a write by the wire can meet.
pub const ON_THE_WIRE: [Verdict; 14] = [
    Verdict::Allowed,
    Verdict::Forbidden(Reason::LegSpoiled),
    Verdict::Forbidden(Reason::OutsideTheMap),
    Verdict::Forbidden(Reason::MailboxModeOn),
    Verdict::Forbidden(Reason::ModeOff),
    Verdict::Forbidden(Reason::MailboxBusy),
    Verdict::Forbidden(Reason::MailboxLegNotFrom2008h),
    Verdict::Forbidden(Reason::AnotherArea),
    Verdict::Forbidden(Reason::LockedBlock),
    Verdict::Forbidden(Reason::SessionNeeded(None)),
    Verdict::Forbidden(Reason::RegisterReadOnly),
    Verdict::Forbidden(Reason::PasswordCode),
    Verdict::Forbidden(Reason::EndaRule),
    Verdict::Forbidden(Reason::PageFull),
];

/// What a write by radio can meet.
pub const BY_RADIO: [Verdict; 11] = [
    Verdict::Allowed,
    Verdict::Forbidden(Reason::OutsideTheMap),
    Verdict::Forbidden(Reason::LockedBlock),
    Verdict::Forbidden(Reason::AreaNeverWritable),
    Verdict::Forbidden(Reason::ConfigurationLocked),
    Verdict::Forbidden(Reason::SessionNeeded(None)),
    Verdict::Forbidden(Reason::SessionNeeded(Some(0))),
    Verdict::Forbidden(Reason::SessionNeeded(Some(1))),
    Verdict::Forbidden(Reason::SessionNeeded(Some(2))),
    Verdict::Forbidden(Reason::SessionNeeded(Some(3))),
    Verdict::Forbidden(Reason::EndaRule),
];

/// Questions to a tag, which is changed in a place now and then.
const ROUND: usize = 24;

/// Lines that the program must not take; some would change the tag or the memory.
pub const WRONG_LINES: [&str; 60] = [
    "",
    "?",
    "N\t",
    "N\t00",
    "n",
    "NN",
    "N ",
    " N",
    "W",
    "W\t",
    "W\t0000000000000",
    "W\t000000000000",
    "W\t0000000000000000",
    "W\t02000000000000",
    "W\tFF000000000000",
    "W\t00020000000000",
    "W\t00FF0000000000",
    "W\t0000000000000a",
    "w\t00000000000000",
    "W 00000000000000",
    "W\t\t00000000000000",
    "W\t00000000000000\t",
    "W\t00000000000000\r",
    "W00000000000000",
    "B",
    "B\t",
    "B\t00",
    "B\t000",
    "B\t000000",
    "b\t0000",
    "B\t0000 ",
    "C",
    "C\t",
    "C\t05",
    "C\t05000",
    "C\t050000",
    "c\t0500",
    "P",
    "P\t",
    "P\t0",
    "P\t0000",
    "p\t00",
    "T",
    "T\t",
    "T\t00",
    "T\t005700",
    "T\t005800",
    "T\t00560000",
    "T\t000402",
    "T\t000502",
    "T\t000906",
    "T\t002002",
    "M",
    "M\t",
    "M\t03",
    "M\t040000",
    "M\t040100",
    "M\t03FF0000",
    "M\tFFFF00",
    " # ",
];

/// Lines that are taken and change nothing.
pub const IDLE_LINES: [&str; 8] = [
    "#",
    "# a remark",
    "#W\t00000000000000",
    "#\t?",
    "T\t0000",
    "T\t0057",
    "M\t0000",
    "M\t0400",
];

/// The script of a seed, with `size` questions.
pub fn questions(seed: u64, size: usize) -> Script {
    let mut author = Author::new(seed);
    let mut left = size;
    while left > 0 {
        let now = left.min(ROUND);
        author.round(now);
        left -= now;
    }
    Script {
        lines: author.lines,
        ended: !author.dice.one_in(4),
    }
}

struct Author {
    dice: Dice,
    /// As the program has it.
    tag: Tag,
    lines: Vec<Line>,
    /// One question in so many is led by a line that does not belong.
    wrong: usize,
}

impl Author {
    fn new(seed: u64) -> Author {
        let mut dice = Dice::new(seed);
        let wrong = dice.pick(&[0, 100, 30, 10]);
        Author {
            dice,
            tag: Tag::fresh(UID),
            lines: Vec::new(),
            wrong,
        }
    }

    fn put(&mut self, line: impl Into<Line>) {
        self.lines.push(line.into());
    }

    /// A letter, a place and the bytes from there on.
    fn put_bytes(&mut self, letter: char, place: usize, bytes: &[u8]) {
        let hex: String = bytes.iter().map(|byte| format!("{byte:02X}")).collect();
        self.put(format!("{letter}\t{place:04X}{hex}"));
    }

    fn round(&mut self, questions: usize) {
        // At times the first questions are to the tag that the program starts with.
        if !self.lines.is_empty() || !self.dice.one_in(4) {
            self.other_tag();
            self.fill_page();
        }
        for _ in 0..questions {
            if self.dice.one_in(8) {
                self.change_tag();
            }
            if self.dice.one_in(16) {
                self.fill_page();
            }
            if self.dice.one_in(self.wrong) {
                self.odd_line();
            }
            let question = edges::question(&mut self.dice, &self.tag);
            self.put(line(question));
        }
    }

    fn other_tag(&mut self) {
        if self.dice.one_in(12) {
            self.tag = Tag::fresh(UID);
            return self.put("N");
        }
        self.tag = tags::tag(&mut self.dice);
        if self.dice.one_in(12) {
            tags::make_strange(&mut self.dice, &mut self.tag);
        }
        self.put_bytes('T', 0, &state::encode(&self.tag));
    }

    /// One thing of the tag as another has it.
    fn change_tag(&mut self) {
        let before = state::encode(&self.tag);
        let other = tags::tag(&mut self.dice);
        let (mine, others) = (&mut self.tag.registers, other.registers);
        match self.dice.below(9) {
            0 => mine.rfass = others.rfass,
            1 => mine.enda = others.enda,
            2 => mine.i2css = others.i2css,
            3 => mine.lock_ccfile = others.lock_ccfile,
            4 => mine.lock_cfg ^= 1,
            5 => self.tag.i2c_session ^= true,
            6 => self.tag.mailbox = other.mailbox,
            _ => self.tag.radio_session = other.radio_session,
        }
        let after = state::encode(&self.tag);
        let mut places = (0..after.len()).filter(|&place| before[place] != after[place]);
        if let Some(first) = places.next() {
            let last = places.next_back().unwrap_or(first);
            self.put_bytes('T', first, &after[first..=last]);
        }
    }

    /// Bytes at the page's start, seldom others, all there are, or one too many. None is above 0Fh: at the place of an
    /// end such a byte is NoAcked, no leg goes on from it, and what it would be taken as the papers leave open.
    fn fill_page(&mut self) {
        let few = self.dice.below(20);
        let (place, count) = match self.dice.below(120) {
            0 => (0, MEMORY_SIZE + self.dice.below(2)),
            1..=5 => (PAGE_PLACE, PAGE_SIZE),
            6..=15 => (self.dice.below(MEMORY_SIZE), few),
            _ => (PAGE_PLACE, few),
        };
        let mut bytes = Vec::new();
        for _ in 0..count {
            let any = self.dice.below(0x10) as u8;
            bytes.push(self.dice.pick(&[any, any, any, LAST_END]));
        }
        self.put_bytes('M', place, &bytes);
    }

    /// A wrong line, one that changes nothing, or an earlier one with a character changed. Of these none sets the tag or
    /// the memory: still right, it could have undefined bits.
    fn odd_line(&mut self) {
        let place = self.dice.below(self.lines.len());
        let earlier = self.lines.get(place);
        let earlier = earlier.filter(|line| !matches!(line[..], [b'T' | b'M', ..]));
        let line = match (self.dice.below(4), earlier) {
            (0, Some(line)) => changed(&mut self.dice, line.clone()),
            (1, _) => self.dice.pick(&IDLE_LINES).into(),
            _ => self.dice.pick(&WRONG_LINES).into(),
        };
        self.put(line);
    }
}
