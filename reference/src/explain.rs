//! Which rule gave a NoAck, an error or silence: 02, Ask 3.
//! It stands beside the rules that the wire and the radio go by; tests/explain.rs holds it to them.

use crate::crc::crc;
use crate::inventory::Inventory;
use crate::model::{self, Signal};
use crate::radio::*;
use crate::tag::*;
use crate::verdict::{judge, named_password, session_open, DataByte, Question, Reason, Verdict};
use crate::wire::{SYSTEM_READ, SYSTEM_WRITE, USER_READ, USER_WRITE};

use Rule::*;

/// A rule that can be named.
#[derive(Clone, Copy, PartialEq, Eq, PartialOrd, Ord, Debug)]
pub enum Rule {
    /// Of a data byte: Ask 2's.
    Data(Reason),
    // Of another byte sent.
    NoVcc,
    NoStart,
    ReadLeg,
    OtherSelectByte,
    Programming,
    // 01's silence list.
    FieldOff,
    Sleep,
    FrameLength,
    BadCrc,
    InventoryFlag,
    BothFlags,
    MakerCode,
    Uid,
    SelectFlag,
    NeitherFlag,
    NotAddressed,
    // Before the rows.
    OwnSilence,
    ShutOut,
    UnknownCommand,
    WrongFlags,
    WrongLength,
    // Of the rows, in the order of 01's table.
    FirstBlock,
    ReadLeaves,
    ReadProtected,
    WriteCount,
    WriteLeaves,
    WriteForbidden,
    LockBlock,
    AlreadyLocked,
    ConfigPointer,
    ConfigForbidden,
    ConfigEnd,
    DynamicPointer,
    MessageRefused,
    MailboxOff,
    MessagePast,
    PasswordNumber,
    PasswordWrong,
    PasswordForbidden,
}

/// All rules with their names, in the order of their numbers, which count from 1.
pub const RULES: [(Rule, &str); 54] = [
    (Data(Reason::LegSpoiled), "leg spoiled"),
    (Data(Reason::OutsideTheMap), "outside the map"),
    (Data(Reason::MailboxModeOn), "mailbox mode on"),
    (Data(Reason::ModeOff), "mode off"),
    (Data(Reason::MailboxBusy), "mailbox busy"),
    (
        Data(Reason::MailboxLegNotFrom2008h),
        "mailbox leg not from 2008h",
    ),
    (Data(Reason::AnotherArea), "another area"),
    (Data(Reason::LockedBlock), "locked block"),
    (Data(Reason::AreaNeverWritable), "area never writable"),
    (Data(Reason::ConfigurationLocked), "configuration locked"),
    // The wire's session has no number.
    (Data(Reason::SessionNeeded(None)), "session needed"),
    (Data(Reason::RegisterReadOnly), "register read only"),
    (Data(Reason::PasswordCode), "password code"),
    (Data(Reason::EndaRule), "ENDA rule"),
    (Data(Reason::PageFull), "page full"),
    (NoVcc, "no VCC"),
    (NoStart, "no Start"),
    (ReadLeg, "read leg"),
    (OtherSelectByte, "other select byte"),
    (Programming, "programming"),
    (FieldOff, "field off"),
    (Sleep, "RF_MNGT_Dyn b1"),
    (FrameLength, "under 4 or over 270 bytes"),
    (BadCrc, "bad CRC"),
    (InventoryFlag, "inventory flag"),
    (BothFlags, "both select and address"),
    (MakerCode, "02h missing or other"),
    (Uid, "UID short or, except in Select, other"),
    (SelectFlag, "select flag when not Selected"),
    (NeitherFlag, "neither flag when Quiet"),
    (NotAddressed, "Select or Stay Quiet not addressed"),
    (OwnSilence, "own silence"),
    (ShutOut, "shut out"),
    (UnknownCommand, "01h"),
    (WrongFlags, "03h"),
    (WrongLength, "02h"),
    (FirstBlock, "10h"),
    (ReadLeaves, "0Fh"),
    (ReadProtected, "15h"),
    (WriteCount, "0Fh"),
    (WriteLeaves, "0Fh-2"),
    (WriteForbidden, "12h"),
    (LockBlock, "10h"),
    (AlreadyLocked, "11h"),
    (ConfigPointer, "10h"),
    (ConfigForbidden, "12h"),
    (ConfigEnd, "0Fh"),
    (DynamicPointer, "10h"),
    (MessageRefused, "0Fh"),
    (MailboxOff, "0Fh"),
    (MessagePast, "0Fh-2"),
    (PasswordNumber, "10h"),
    (PasswordWrong, "0Fh"),
    (PasswordForbidden, "12h"),
];

impl Rule {
    fn place(self) -> usize {
        let place = RULES.iter().position(|&(rule, _)| rule == self);
        place.expect("every rule stands in the list")
    }

    pub fn number(self) -> u32 {
        self.place() as u32 + 1
    }

    pub fn name(self) -> &'static str {
        RULES[self.place()].1
    }
}

/// The first of the rules whose condition holds.
fn first<C: Copy>(rules: &[(Rule, C)], holds: impl Fn(C) -> bool) -> Option<Rule> {
    let found = rules.iter().find(|&&(_, condition)| holds(condition));
    found.map(|&(rule, _)| rule)
}

/// The rule that gives the signal's NoAck, error or silence; none if it gets another answer.
pub fn explain(tag: &Tag, memory: &[u8; MEMORY_SIZE], signal: Signal) -> Option<Rule> {
    let bytes = signal.frame;
    match signal.code {
        model::SEND => explain_byte(tag, memory, signal.value as u8),
        model::FRAME => explain_frame(&Frame { tag, memory, bytes }),
        _ => None,
    }
}

fn explain_byte(tag: &Tag, memory: &[u8; MEMORY_SIZE], byte: u8) -> Option<Rule> {
    match data_byte(tag, byte) {
        Some(data) => forbidden(tag, memory, Question::Byte(data)).map(Data),
        None => explain_other_byte(&Sent { tag, byte }),
    }
}

/// A byte of a write leg past its address, in a spoiled leg too.
fn data_byte(tag: &Tag, byte: u8) -> Option<DataByte> {
    let Bus::Data {
        space,
        count: k,
        spoiled,
    } = tag.bus
    else {
        return None;
    };
    Some(DataByte {
        spoiled,
        space,
        first: tag.counter.wrapping_sub(k),
        k,
        byte,
    })
}

/// Ask 2's reason.
fn forbidden(tag: &Tag, memory: &[u8; MEMORY_SIZE], question: Question) -> Option<Reason> {
    match judge(tag, memory, question) {
        Verdict::Allowed => None,
        Verdict::Forbidden(reason) => Some(reason),
    }
}

/// A byte sent that is no data byte.
struct Sent<'a> {
    tag: &'a Tag,
    byte: u8,
}

type SentRule = (Rule, fn(&Sent) -> bool);

fn explain_other_byte(sent: &Sent) -> Option<Rule> {
    first(OTHER_BYTES, |holds| holds(sent))
}

const OTHER_BYTES: &[SentRule] = &[
    (NoVcc, |sent| !sent.tag.vcc),
    (NoStart, |sent| sent.tag.bus == Bus::Idle),
    (ReadLeg, |sent| matches!(sent.tag.bus, Bus::Read { .. })),
    (OtherSelectByte, |sent| awaited(sent) && !known(sent)),
    (Programming, |sent| awaited(sent) && sent.tag.programming),
];

/// A select byte is awaited: only the first byte after a Start is one.
fn awaited(sent: &Sent) -> bool {
    matches!(sent.tag.bus, Bus::Started { .. })
}

fn known(sent: &Sent) -> bool {
    [USER_WRITE, USER_READ, SYSTEM_WRITE, SYSTEM_READ].contains(&sent.byte)
}

/// A radio frame and the tag that it reaches.
struct Frame<'a> {
    tag: &'a Tag,
    memory: &'a [u8; MEMORY_SIZE],
    /// With the CRC.
    bytes: &'a [u8],
}

/// A condition reads what is not in the frame as 0 or none: it has a value whatever the rules before it say.
type FrameRule = (Rule, fn(&Frame) -> bool);

impl<'a> Frame<'a> {
    fn body_length(&self) -> usize {
        self.bytes.len().saturating_sub(2)
    }

    fn body(&self) -> &'a [u8] {
        &self.bytes[..self.body_length()]
    }

    fn flags(&self) -> u8 {
        self.body().first().copied().unwrap_or(0)
    }

    fn command(&self) -> u8 {
        self.body().get(1).copied().unwrap_or(0)
    }

    fn has(&self, flag: u8) -> bool {
        self.flags() & flag != 0
    }

    /// 01: "02h for commands from A0h".
    fn has_maker_code(&self) -> bool {
        self.command() >= FIRST_CUSTOM
    }

    /// What comes after the command and the place of 02h.
    fn rest(&self) -> &'a [u8] {
        let place = if self.has_maker_code() { 3 } else { 2 };
        self.body().get(place..).unwrap_or(&[])
    }

    /// Of an addressed frame, if it is whole.
    fn uid(&self) -> Option<&'a [u8]> {
        self.rest().get(..8)
    }

    fn is_to_another(&self) -> bool {
        self.has(ADDRESS) && self.uid().is_some_and(|uid| uid != self.tag.uid)
    }

    fn parameters(&self) -> &'a [u8] {
        let place = if self.has(ADDRESS) { 8 } else { 0 };
        self.rest().get(place..).unwrap_or(&[])
    }

    fn parameter(&self, place: usize) -> u8 {
        self.parameters().get(place).copied().unwrap_or(0)
    }

    /// The first block of 20 to 24 and 2C.
    fn first_block(&self) -> usize {
        self.parameter(0).into()
    }

    /// The last block of 20 to 24; 20 and 21 have no count.
    fn last_block(&self) -> usize {
        match self.command() {
            0x23 | 0x24 => self.first_block() + usize::from(self.parameter(1)),
            _ => self.first_block(),
        }
    }

    fn area(&self, block: usize) -> usize {
        area_of_block(&self.tag.registers.enda, block)
    }

    /// Ask 2's yes or no about a block.
    fn forbids(&self, block: usize) -> bool {
        let question = Question::Block(block as u16);
        forbidden(self.tag, self.memory, question).is_some()
    }
}

/// 02, Ask 4: the inventory flag's rule is "such frames' last".
fn explain_frame(frame: &Frame) -> Option<Rule> {
    let first = |rules: &[FrameRule]| first(rules, |holds| holds(frame));
    let (of_all, of_others) = SILENCES.split_at(UP_TO_INVENTORY);
    if let Some(rule) = first(of_all) {
        return Some(rule);
    }
    if frame.has(INVENTORY) {
        return None;
    }
    first(of_others)
        .or_else(|| first(BEFORE_ROWS))
        .or_else(|| first(row(frame.command())))
}

/// 01, Frames: "Silence and no change".
const SILENCES: &[FrameRule] = &[
    (FieldOff, |frame| !frame.tag.field),
    (Sleep, is_asleep),
    (FrameLength, |frame| !(4..=270).contains(&frame.bytes.len())),
    (BadCrc, has_bad_crc),
    (InventoryFlag, is_silent_inventory),
    (BothFlags, has_both_flags),
    (MakerCode, lacks_maker_code),
    (Uid, has_wrong_uid),
    (SelectFlag, is_for_selected),
    (NeitherFlag, is_plain_to_quiet),
    (NotAddressed, lacks_address),
];

/// The rules that frames with the inventory flag meet.
const UP_TO_INVENTORY: usize = 5;

/// Own silence comes before the errors, shut out among them.
const BEFORE_ROWS: &[FrameRule] = &[
    (OwnSilence, has_no_answer),
    (ShutOut, is_shut_out),
    (UnknownCommand, |frame| option_of(frame.command()).is_none()),
    (WrongFlags, has_wrong_flags),
    (WrongLength, has_wrong_length),
];

/// 01's table: the errors of a command's row, in the row's order.
fn row(command: u8) -> &'static [FrameRule] {
    match command {
        0x20 | 0x23 => READ,
        0x21 | 0x24 => WRITE,
        0x22 => LOCK,
        0x2C => STATUS,
        0xA0 => &CONFIG[..1],
        0xA1 => CONFIG,
        0xAD | 0xAE => DYNAMIC,
        0xAA => WRITE_MESSAGE,
        0xAB => &MESSAGE[..1],
        0xAC => MESSAGE,
        0xB3 => PRESENT_PASSWORD,
        0xB1 => WRITE_PASSWORD,
        _ => &[],
    }
}

const READ: &[FrameRule] = &[
    (FirstBlock, starts_outside),
    (ReadLeaves, leaves_area_or_memory),
    (ReadProtected, is_read_protected),
];

const WRITE: &[FrameRule] = &[
    (WriteCount, has_large_count),
    (FirstBlock, starts_outside),
    (WriteLeaves, leaves_area_or_memory),
    (WriteForbidden, has_forbidden_block),
];

const LOCK: &[FrameRule] = &[
    (LockBlock, |frame| frame.parameter(0) > 1),
    (AlreadyLocked, is_locked),
];

const STATUS: &[FrameRule] = &[(FirstBlock, starts_outside)];

/// The first is A0's too.
const CONFIG: &[FrameRule] = &[
    (ConfigPointer, |frame| !is_pointer(frame.parameter(0))),
    (ConfigForbidden, is_config_closed),
    (ConfigEnd, has_refused_end),
];

const DYNAMIC: &[FrameRule] = &[(DynamicPointer, |frame| frame.parameter(0) != 0x0D)];

const WRITE_MESSAGE: &[FrameRule] = &[(MessageRefused, has_no_room)];

/// The first is AB's too.
const MESSAGE: &[FrameRule] = &[
    (MailboxOff, |frame| !frame.tag.mailbox.enabled()),
    (MessagePast, is_past_message),
];

const PRESENT_PASSWORD: &[FrameRule] = &[
    (PasswordNumber, |frame| frame.parameter(0) > 3),
    (PasswordWrong, is_wrong_password),
];

const WRITE_PASSWORD: &[FrameRule] = &[
    (PasswordNumber, |frame| frame.parameter(0) > 3),
    (PasswordForbidden, lacks_session),
];

/// By RF_MNGT_Dyn as at the transfer's start, inside one.
fn is_asleep(frame: &Frame) -> bool {
    frame.tag.rf_mngt_dyn_for_frames() & RF_SLEEP != 0
}

/// A frame too short for a CRC has none that is right.
fn has_bad_crc(frame: &Frame) -> bool {
    frame.bytes[frame.body_length()..] != crc(frame.body()).to_le_bytes()
}

/// 02, Ask 4: "only for a malformed inventory frame .., a Quiet or shut-out tag, one waiting for its
/// slot, or else an unmatched one".
fn is_silent_inventory(frame: &Frame) -> bool {
    let tag = frame.tag;
    let answered = |request: Inventory| request.asks(tag) && request.slot(&tag.uid) == 0;
    frame.has(INVENTORY)
        && (tag.radio_state == RadioState::Quiet
            || is_shut_out(frame)
            || !Inventory::read(frame.body()).is_some_and(answered))
}

fn has_both_flags(frame: &Frame) -> bool {
    frame.has(SELECT_FLAG) && frame.has(ADDRESS)
}

fn lacks_maker_code(frame: &Frame) -> bool {
    frame.has_maker_code() && frame.body().get(2) != Some(&MAKER)
}

fn has_wrong_uid(frame: &Frame) -> bool {
    let short = frame.has(ADDRESS) && frame.uid().is_none();
    short || (frame.command() != SELECT && frame.is_to_another())
}

fn is_for_selected(frame: &Frame) -> bool {
    frame.has(SELECT_FLAG) && frame.tag.radio_state != RadioState::Selected
}

fn is_plain_to_quiet(frame: &Frame) -> bool {
    !frame.has(SELECT_FLAG | ADDRESS) && frame.tag.radio_state == RadioState::Quiet
}

fn lacks_address(frame: &Frame) -> bool {
    matches!(frame.command(), SELECT | STAY_QUIET) && !frame.has(ADDRESS)
}

/// Ask 3: "any Stay Quiet or Select of another UID".
fn has_no_answer(frame: &Frame) -> bool {
    match frame.command() {
        STAY_QUIET => true,
        SELECT => frame.is_to_another(),
        _ => false,
    }
}

/// 01: "with RF_MNGT_Dyn b0, a transfer open or programming".
fn is_shut_out(frame: &Frame) -> bool {
    let tag = frame.tag;
    let disabled = tag.rf_mngt_dyn_for_frames() & RF_DISABLE != 0;
    disabled || tag.bus.transfer_open() || tag.programming
}

/// Whether a command of 01's table has the option; none for any other command.
fn option_of(command: u8) -> Option<bool> {
    match command {
        0x20..=0x24 | 0xA1 | 0xB1 => Some(true),
        0x02 | 0x25 | 0x26 | 0x2C | 0xA0 | 0xAA..=0xAE | 0xB3 => Some(false),
        _ => None,
    }
}

/// 01: "03h extension, reserved bit or unsupported option".
fn has_wrong_flags(frame: &Frame) -> bool {
    let supported = option_of(frame.command()) == Some(true);
    frame.has(EXTENSION | RESERVED) || (frame.has(OPTION) && !supported)
}

/// The data of 24 and AA is as long as their count says.
fn has_wrong_length(frame: &Frame) -> bool {
    let right = match frame.command() {
        0x20 | 0x22 | 0xA0 | 0xAD => 1,
        0x23 | 0x2C | 0xA1 | 0xAC | 0xAE => 2,
        0x21 => 1 + 4,
        0x24 => 2 + 4 * (usize::from(frame.parameter(1)) + 1),
        0xAA => 1 + usize::from(frame.parameter(0)) + 1,
        0xB1 | 0xB3 => 1 + 8,
        _ => 0,
    };
    frame.parameters().len() != right
}

/// 01: "10h first above 127".
fn starts_outside(frame: &Frame) -> bool {
    frame.first_block() > LAST_BLOCK
}

fn leaves_area_or_memory(frame: &Frame) -> bool {
    let (first, last) = (frame.first_block(), frame.last_block());
    last > LAST_BLOCK || frame.area(first) != frame.area(last)
}

/// 01: settings 2 and 3 need the session to read; "Area 1 is always readable".
fn is_read_protected(frame: &Frame) -> bool {
    let area = frame.area(frame.first_block());
    let rfass = frame.tag.registers.rfass[area];
    let open = session_open(frame.tag, named_password(rfass));
    area != 0 && rfass >> 2 & 3 >= 2 && !open
}

/// 01: "24: count-1 at most 3, else 0Fh".
fn has_large_count(frame: &Frame) -> bool {
    frame.command() == 0x24 && frame.parameter(1) > 3
}

fn has_forbidden_block(frame: &Frame) -> bool {
    let mut blocks = frame.first_block()..=frame.last_block();
    blocks.any(|block| frame.forbids(block))
}

fn is_locked(frame: &Frame) -> bool {
    block_locked(&frame.tag.registers, frame.parameter(0).into())
}

/// 01: "12h if LOCK_CFG or password 0 session closed".
fn is_config_closed(frame: &Frame) -> bool {
    frame.tag.registers.lock_cfg != 0 || !session_open(frame.tag, Some(0))
}

fn has_refused_end(frame: &Frame) -> bool {
    let index = end_index(frame.parameter(0).into());
    let ends = &frame.tag.registers.enda;
    index.is_some_and(|index| !end_accepted(ends, index, frame.parameter(1)))
}

/// 01: "0Fh unless MB_EN and no PUT".
fn has_no_room(frame: &Frame) -> bool {
    let mailbox = &frame.tag.mailbox;
    !mailbox.enabled() || mailbox.put_pending()
}

/// 01: "0,0 is the whole, else n+1 bytes; 0Fh past or empty".
fn is_past_message(frame: &Frame) -> bool {
    let length = usize::from(frame.tag.mailbox.length);
    let (p, n) = (frame.parameter(0), frame.parameter(1));
    let end = usize::from(p) + usize::from(n) + 1;
    let whole = p == 0 && n == 0;
    length == 0 || (!whole && end > length)
}

/// No password has a number above 3.
fn is_wrong_password(frame: &Frame) -> bool {
    let password = frame
        .tag
        .radio_passwords
        .get(usize::from(frame.parameter(0)));
    let given = frame.parameters().get(1..);
    password.map(|password| &password[..]) != given
}

/// 01: "12h unless session n".
fn lacks_session(frame: &Frame) -> bool {
    !session_open(frame.tag, Some(frame.parameter(0)))
}
