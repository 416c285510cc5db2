//! Whether a write is allowed and, if not, which rule forbids it: 02, Ask 2.
//! It stands beside the rules that the wire and the radio go by; tests/verdict.rs holds it to them.

use std::fmt::{Display, Formatter, Result};

use crate::tag::*;
use crate::wire::{CODE_PLACE, CODE_PRESENT, CODE_WRITE, PASSWORD_LEG};

/// Why a write is forbidden, in Ask 2's order.
#[derive(Clone, Copy, PartialEq, Eq, PartialOrd, Ord, Debug)]
pub enum Reason {
    LegSpoiled,
    OutsideTheMap,
    MailboxModeOn,
    ModeOff,
    MailboxBusy,
    MailboxLegNotFrom2008h,
    AnotherArea,
    LockedBlock,
    AreaNeverWritable,
    ConfigurationLocked,
    /// The number is that of a radio password: the wire's has none, and not every area names one.
    SessionNeeded(Option<u8>),
    RegisterReadOnly,
    PasswordCode,
    EndaRule,
    PageFull,
}

impl Reason {
    /// Ask 2's words.
    pub fn words(self) -> &'static str {
        match self {
            Reason::LegSpoiled => "leg spoiled",
            Reason::OutsideTheMap => "outside the map",
            Reason::MailboxModeOn => "mailbox mode on",
            Reason::ModeOff => "mode off",
            Reason::MailboxBusy => "mailbox busy",
            Reason::MailboxLegNotFrom2008h => "mailbox leg not from 2008h",
            Reason::AnotherArea => "another area",
            Reason::LockedBlock => "locked block",
            Reason::AreaNeverWritable => "area never writable",
            Reason::ConfigurationLocked => "configuration locked",
            Reason::SessionNeeded(_) => "session needed",
            Reason::RegisterReadOnly => "register read only",
            Reason::PasswordCode => "password code",
            Reason::EndaRule => "ENDA rule",
            Reason::PageFull => "page full",
        }
    }
}

impl Display for Reason {
    /// A password's number stands behind the words.
    fn fmt(&self, f: &mut Formatter) -> Result {
        f.write_str(self.words())?;
        match self {
            Reason::SessionNeeded(Some(number)) => write!(f, " {number}"),
            _ => Ok(()),
        }
    }
}

#[derive(Clone, Copy, PartialEq, Eq, PartialOrd, Ord, Debug)]
pub enum Verdict {
    Allowed,
    Forbidden(Reason),
}

impl Display for Verdict {
    fn fmt(&self, f: &mut Formatter) -> Result {
        match self {
            Verdict::Allowed => f.write_str("allowed"),
            Verdict::Forbidden(reason) => reason.fmt(f),
        }
    }
}

/// Reasons in Ask 2's order, and whether the condition of each holds.
pub type Rules = Vec<(Reason, bool)>;

/// What is to be written.
#[derive(Clone, Copy, PartialEq, Eq, Debug)]
pub enum Question {
    /// By the wire.
    Byte(DataByte),
    /// By radio: a block, the register at a pointer, a password.
    Block(u16),
    Register {
        pointer: u8,
        byte: u8,
    },
    Password(u8),
}

/// Data byte `k` of a write leg, from 0; the bytes before it stand in the page.
#[derive(Clone, Copy, PartialEq, Eq, Debug)]
pub struct DataByte {
    pub spoiled: bool,
    pub space: Space,
    /// The address of byte 0.
    pub first: u16,
    pub k: u16,
    pub byte: u8,
}

/// What lies where a data byte goes.
#[derive(Clone, Copy, PartialEq, Eq, Debug)]
pub enum Place {
    Nowhere,
    Memory,
    Mailbox,
    /// 2003h and 2006h.
    Dynamic,
    /// 2004h and 2007h.
    DynamicReadOnly,
    /// System registers that can be written.
    Register,
    /// DSFID, AFI and UID.
    RegisterReadOnly,
    Password,
}

impl DataByte {
    /// A plain sum: past FFFFh nothing is mapped.
    fn address(&self) -> usize {
        usize::from(self.first) + usize::from(self.k)
    }

    /// 01's map. A password leg is no part of it: all its places are its own, however many.
    pub fn place(&self) -> Place {
        if self.space == Space::System && self.first == PASSWORD_PLACE {
            return Place::Password;
        }
        let Ok(address) = u16::try_from(self.address()) else {
            return Place::Nowhere;
        };
        match (self.space, address) {
            (Space::User, 0x0000..=0x01FF) => Place::Memory,
            (Space::User, RF_MNGT_DYN | MB_CTRL_DYN) => Place::Dynamic,
            (Space::User, I2C_SSO_DYN | MB_LEN_DYN) => Place::DynamicReadOnly,
            (Space::User, MAILBOX_FIRST..=MAILBOX_LAST) => Place::Mailbox,
            (Space::System, RF_MNGT..=MB_MODE | LOCK_CFG) => Place::Register,
            (Space::System, DSFID | AFI | UID_FIRST..=UID_LAST) => Place::RegisterReadOnly,
            _ => Place::Nowhere,
        }
    }

    /// How many bytes a leg has room for.
    fn room(&self) -> usize {
        match self.place() {
            Place::Dynamic | Place::DynamicReadOnly => 1,
            Place::Password => PASSWORD_LEG,
            _ => PAGE_SIZE,
        }
    }

    /// The code of a password leg, if this is its place.
    fn code(&self) -> Option<u8> {
        let there = self.place() == Place::Password && usize::from(self.k) == CODE_PLACE;
        there.then_some(self.byte)
    }

    /// What 01 lets be written with MB_EN 0 only; of a password leg that is the code 07h.
    fn needs_mailbox_off(&self) -> bool {
        match self.place() {
            Place::Memory | Place::Register | Place::RegisterReadOnly => true,
            _ => self.code() == Some(CODE_WRITE),
        }
    }

    /// 01: "the byte lies in the first byte's area".
    fn leaves_area(&self, tag: &Tag) -> bool {
        let area = |address: usize| area_of_block(&tag.registers.enda, address / 4);
        self.place() == Place::Memory && area(self.address()) != area(self.first.into())
    }

    fn is_locked(&self, tag: &Tag) -> bool {
        self.place() == Place::Memory && block_locked(&tag.registers, self.address() / 4)
    }

    /// I2CSS decides for memory, its low bit of an area. All system bytes need the session, and the code 07h.
    fn needs_session(&self, tag: &Tag) -> bool {
        let area = area_of_block(&tag.registers.enda, self.address() / 4);
        match self.place() {
            Place::Memory => tag.registers.i2css >> (2 * area) & 1 != 0,
            Place::Register | Place::RegisterReadOnly => true,
            _ => self.code() == Some(CODE_WRITE),
        }
    }

    fn is_read_only(&self) -> bool {
        matches!(
            self.place(),
            Place::RegisterReadOnly | Place::DynamicReadOnly
        )
    }

    fn is_other_code(&self) -> bool {
        !matches!(self.code(), None | Some(CODE_PRESENT | CODE_WRITE))
    }

    /// What the leg has put at an address before this byte; 0 past the page.
    fn earlier(&self, page: &[u8], address: u16) -> Option<u8> {
        let place = address.checked_sub(self.first)?;
        let byte = page.get(usize::from(place)).copied().unwrap_or(0);
        (place < self.k).then_some(byte)
    }

    /// 01: "ENDA rule met with the leg's earlier bytes taken as written".
    fn breaks_enda_rule(&self, tag: &Tag, page: &[u8]) -> bool {
        if self.place() != Place::Register {
            return false;
        }
        let mut enda = tag.registers.enda;
        for (i, end) in enda.iter_mut().enumerate() {
            let earlier = self.earlier(page, ENDA1 + 2 * i as u16);
            *end = earlier.unwrap_or(*end);
        }
        let index = end_index(self.address() as u16);
        index.is_some_and(|index| !end_accepted(&enda, index, self.byte))
    }

    /// Two of the reasons cannot occur on the wire.
    fn rules(&self, tag: &Tag, page: &[u8]) -> Rules {
        use Reason::*;
        let (place, mailbox) = (self.place(), &tag.mailbox);
        let in_mailbox = place == Place::Mailbox;
        let elsewhere = self.first != MAILBOX_FIRST;
        let closed = !tag.i2c_session;
        vec![
            (LegSpoiled, self.spoiled),
            (OutsideTheMap, place == Place::Nowhere),
            (MailboxModeOn, mailbox.enabled() && self.needs_mailbox_off()),
            (ModeOff, in_mailbox && !mailbox.enabled()),
            (MailboxBusy, in_mailbox && mailbox.put_pending()),
            (MailboxLegNotFrom2008h, in_mailbox && elsewhere),
            (AnotherArea, self.leaves_area(tag)),
            (LockedBlock, self.is_locked(tag)),
            (SessionNeeded(None), closed && self.needs_session(tag)),
            (RegisterReadOnly, self.is_read_only()),
            (PasswordCode, self.is_other_code()),
            (EndaRule, self.breaks_enda_rule(tag, page)),
            (PageFull, usize::from(self.k) >= self.room()),
        ]
    }
}

/// Whether this password's session is the open one; where none is named none is.
pub fn session_open(tag: &Tag, password: Option<u8>) -> bool {
    password.is_some() && tag.radio_session.checked_sub(1) == password
}

/// 01: RFAiSS bits 1-0 "name password 1 to 3 (0: none opens it)".
pub fn named_password(rfass: u8) -> Option<u8> {
    Some(rfass & 3).filter(|&number| number != 0)
}

/// 01, 21 and 24: "10h; .. 12h no right or locked".
fn block_rules(tag: &Tag, block: usize) -> Rules {
    use Reason::*;
    let registers = &tag.registers;
    let rfass = registers.rfass[area_of_block(&registers.enda, block)];
    let password = named_password(rfass);
    let setting = rfass >> 2 & 3;
    let closed = matches!(setting, 1 | 2) && !session_open(tag, password);
    vec![
        (OutsideTheMap, block > LAST_BLOCK),
        (LockedBlock, block_locked(registers, block)),
        (AreaNeverWritable, setting == 3),
        (SessionNeeded(password), closed),
    ]
}

/// 01, A1: "else 10h; .. 12h if LOCK_CFG or password 0 session closed; 0Fh ENDA".
fn register_rules(tag: &Tag, pointer: u8, byte: u8) -> Rules {
    use Reason::*;
    let registers = &tag.registers;
    let index = end_index(pointer.into());
    let refused = index.is_some_and(|index| !end_accepted(&registers.enda, index, byte));
    vec![
        (OutsideTheMap, !is_pointer(pointer)),
        (ConfigurationLocked, registers.lock_cfg != 0),
        (SessionNeeded(Some(0)), !session_open(tag, Some(0))),
        (EndaRule, refused),
    ]
}

/// 01, B1: "10h; 12h unless session n".
fn password_rules(tag: &Tag, number: u8) -> Rules {
    use Reason::*;
    let needed = SessionNeeded(Some(number));
    vec![
        (OutsideTheMap, number > 3),
        (needed, !session_open(tag, Some(number))),
    ]
}

/// What can forbid a write; the leg's earlier bytes stand in the memory's page buffer.
pub fn rules(tag: &Tag, memory: &[u8; MEMORY_SIZE], question: Question) -> Rules {
    match question {
        Question::Byte(byte) => byte.rules(tag, &memory[PAGE_PLACE..]),
        Question::Block(block) => block_rules(tag, block.into()),
        Question::Register { pointer, byte } => register_rules(tag, pointer, byte),
        Question::Password(number) => password_rules(tag, number),
    }
}

/// The first reason whose condition holds.
pub fn judge(tag: &Tag, memory: &[u8; MEMORY_SIZE], question: Question) -> Verdict {
    let rules = rules(tag, memory, question);
    match rules.into_iter().find(|&(_, holds)| holds) {
        Some((reason, _)) => Verdict::Forbidden(reason),
        None => Verdict::Allowed,
    }
}
