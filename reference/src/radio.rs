//! The radio side: field, frames in the order they are judged, and the lone end-of-frame.

use crate::crc::{crc, crc_bytes};
use crate::inventory::Inventory;
use crate::tag::*;

// Flags. 01h and 02h choose the answer's modulation only (D27).
pub const INVENTORY: u8 = 0x04;
pub const EXTENSION: u8 = 0x08;
pub const SELECT_FLAG: u8 = 0x10;
pub const ADDRESS: u8 = 0x20;
pub const OPTION: u8 = 0x40;
pub const RESERVED: u8 = 0x80;

pub const STAY_QUIET: u8 = 0x02;
pub const SELECT: u8 = 0x25;
const RESET: u8 = 0x26;
pub const FIRST_CUSTOM: u8 = 0xA0;
pub const MAKER: u8 = 0x02;

// RF_MNGT_Dyn.
pub const RF_DISABLE: u8 = 0x01;
pub const RF_SLEEP: u8 = 0x02;

// Error codes.
const UNKNOWN_COMMAND: u8 = 0x01;
const WRONG_LENGTH: u8 = 0x02;
const WRONG_OPTION: u8 = 0x03;
const NO_INFORMATION: u8 = 0x0F;
const NO_BLOCK: u8 = 0x10;
const ALREADY_LOCKED: u8 = 0x11;
const NO_RIGHT: u8 = 0x12;
const READ_PROTECTED: u8 = 0x15;

/// 01: "Field off makes the tag Ready and closes the radio session"; 02, Ask 4: the count is 0
/// "out of the field".
pub fn field(tag: &mut Tag, level: bool) {
    if tag.field == level {
        return;
    }
    tag.field = level;
    if !level {
        tag.radio_state = RadioState::Ready;
        tag.radio_session = 0;
        tag.slot_count = 0;
    }
}

/// A frame past the silence rules.
struct Request<'a> {
    flags: u8,
    command: u8,
    own_uid: bool,
    parameters: &'a [u8],
}

/// What a command may use: the tag, the lent memory and the reply being built.
struct Service<'a> {
    tag: &'a mut Tag,
    memory: &'a mut [u8],
    reply: &'a mut [u8],
    length: usize,
}

/// A radio frame with its CRC; the reply's length, or none for silence.
pub fn frame(tag: &mut Tag, memory: &mut [u8], reply: &mut [u8], frame: &[u8]) -> Option<usize> {
    let body = received(tag, frame)?;
    if body[0] & INVENTORY != 0 {
        return inventory(tag, reply, body);
    }
    let request = heard(tag, body)?;
    let silent = request.command == STAY_QUIET || !request.own_uid;
    let mut service = Service {
        tag,
        memory,
        reply,
        length: 1,
    };
    let outcome = service.answer(&request);
    if silent {
        return None;
    }
    Some(service.finish(outcome))
}

fn asleep(tag: &Tag) -> bool {
    tag.rf_mngt_dyn_for_frames() & RF_SLEEP != 0
}

/// 01, Frames: the causes of "Silence and no change" that all frames have, in order. What is left
/// is without the CRC.
fn received<'a>(tag: &Tag, frame: &'a [u8]) -> Option<&'a [u8]> {
    if !tag.field || asleep(tag) || frame.len() < 4 || frame.len() > 270 {
        return None;
    }
    let (body, check) = frame.split_at(frame.len() - 2);
    if crc(body) != u16::from_le_bytes([check[0], check[1]]) {
        return None;
    }
    Some(body)
}

/// 02, Ask 4: on "either a Quiet, sleeping or shut-out tag is silent and unchanged".
fn takes_slots(tag: &Tag) -> bool {
    !asleep(tag) && tag.radio_state != RadioState::Quiet && !shut_out(tag)
}

/// 02, Ask 4: "each well-formed inventory frame sets that anew"; an unmatched one to 0.
fn inventory(tag: &mut Tag, reply: &mut [u8], body: &[u8]) -> Option<usize> {
    if !takes_slots(tag) {
        return None;
    }
    let request = Inventory::read(body)?;
    tag.slot_count = 0;
    if !request.asks(tag) {
        return None;
    }
    tag.slot_count = request.slot(&tag.uid);
    in_its_slot(tag, reply)
}

/// "The lone end-of-frame that opens the next slot": one less is left to the tag's own. A tag that
/// waits for none does nothing.
pub fn end_of_frame(tag: &mut Tag, reply: &mut [u8]) -> Option<usize> {
    if !tag.field || !takes_slots(tag) || tag.slot_count == 0 {
        return None;
    }
    tag.slot_count -= 1;
    in_its_slot(tag, reply)
}

/// The reply to an inventory, 00h, DSFID and UID, if the tag's slot has come.
fn in_its_slot(tag: &Tag, reply: &mut [u8]) -> Option<usize> {
    if tag.slot_count > 0 {
        return None;
    }
    let body = [&[0x00, tag.registers.dsfid], &tag.uid[..]].concat();
    let whole = [&body[..], &crc_bytes(&body)].concat();
    reply[..whole.len()].copy_from_slice(&whole);
    Some(whole.len())
}

/// The other causes, those of a frame without the inventory flag.
fn heard<'a>(tag: &Tag, body: &'a [u8]) -> Option<Request<'a>> {
    let (flags, command) = (body[0], body[1]);
    if flags & (SELECT_FLAG | ADDRESS) == SELECT_FLAG | ADDRESS {
        return None;
    }
    let rest = after_maker_code(command, &body[2..])?;
    let (own_uid, parameters) = after_uid(tag, flags, command, rest)?;
    let selected = flags & SELECT_FLAG != 0;
    let addressed = flags & ADDRESS != 0;
    if (selected && tag.radio_state != RadioState::Selected)
        || (!selected && !addressed && tag.radio_state == RadioState::Quiet)
        || (!addressed && (command == SELECT || command == STAY_QUIET))
    {
        return None;
    }
    Some(Request {
        flags,
        command,
        own_uid,
        parameters,
    })
}

/// 01: "02h for commands from A0h"; missing or other is silence.
fn after_maker_code(command: u8, rest: &[u8]) -> Option<&[u8]> {
    if command < FIRST_CUSTOM {
        return Some(rest);
    }
    match rest {
        [MAKER, rest @ ..] => Some(rest),
        _ => None,
    }
}

/// 01: "UID short or, except in Select, other" is silence.
fn after_uid<'a>(tag: &Tag, flags: u8, command: u8, rest: &'a [u8]) -> Option<(bool, &'a [u8])> {
    if flags & ADDRESS == 0 {
        return Some((true, rest));
    }
    if rest.len() < 8 {
        return None;
    }
    let own = rest[..8] == tag.uid;
    if !own && command != SELECT {
        return None;
    }
    Some((own, &rest[8..]))
}

/// 01: "RF_MNGT_Dyn b0, a transfer open or programming".
fn shut_out(tag: &Tag) -> bool {
    tag.rf_mngt_dyn_for_frames() & RF_DISABLE != 0 || tag.bus.transfer_open() || tag.programming
}

/// 01: 01h unknown command, 03h flags, 02h wrong length, in this order.
fn check_form(request: &Request) -> Result<(), u8> {
    let p = request.parameters;
    let n = p.len();
    let (option, fits) = match request.command {
        STAY_QUIET | SELECT | RESET => (false, n == 0),
        0x20 | 0x22 => (true, n == 1),
        0x21 => (true, n == 5),
        0x23 => (true, n == 2),
        0x24 => (true, n >= 2 && n == 2 + 4 * (usize::from(p[1]) + 1)),
        0x2C => (false, n == 2),
        0xA0 | 0xAD => (false, n == 1),
        0xA1 => (true, n == 2),
        0xAA => (false, n >= 1 && n == 1 + usize::from(p[0]) + 1),
        0xAB => (false, n == 0),
        0xAC | 0xAE => (false, n == 2),
        0xB1 => (true, n == 9),
        0xB3 => (false, n == 9),
        _ => return Err(UNKNOWN_COMMAND),
    };
    let optional = request.flags & OPTION != 0;
    if request.flags & (EXTENSION | RESERVED) != 0 || (optional && !option) {
        return Err(WRONG_OPTION);
    }
    if fits {
        Ok(())
    } else {
        Err(WRONG_LENGTH)
    }
}

impl Service<'_> {
    /// Shut-out, form, then the command's row. An error is found before any data is laid out.
    fn answer(&mut self, request: &Request) -> Result<(), u8> {
        if shut_out(self.tag) {
            return Err(NO_INFORMATION);
        }
        check_form(request)?;
        self.serve(request)
    }

    fn serve(&mut self, request: &Request) -> Result<(), u8> {
        let p = request.parameters;
        let option = request.flags & OPTION != 0;
        match request.command {
            STAY_QUIET => self.stay_quiet(),
            SELECT => self.select(request.own_uid),
            RESET => self.become_state(RadioState::Ready),
            0x20 => self.read_blocks(p[0], 0, option),
            0x23 => self.read_blocks(p[0], p[1], option),
            0x21 => self.write_blocks(p[0], 0, &p[1..]),
            0x24 => self.write_blocks(p[0], p[1], &p[2..]),
            0x22 => self.lock_block(p[0]),
            0x2C => self.block_status(p[0], p[1]),
            0xA0 => self.read_config(p[0]),
            0xA1 => self.write_config(p[0], p[1]),
            0xAD => self.read_dynamic(p[0]),
            0xAE => self.write_dynamic(p[0], p[1]),
            0xAA => self.write_message(&p[1..]),
            0xAB => self.message_length(),
            0xAC => self.read_message(usize::from(p[0]), usize::from(p[1])),
            0xB1 => self.write_password(p[0], &p[1..]),
            0xB3 => self.present_password(p[0], &p[1..]),
            _ => Err(UNKNOWN_COMMAND),
        }
    }

    /// 01: "00h and data, or 01h and the code .., then CRC".
    fn finish(&mut self, outcome: Result<(), u8>) -> usize {
        self.reply[0] = 0x00;
        if let Err(code) = outcome {
            self.reply[0] = 0x01;
            self.reply[1] = code;
            self.length = 2;
        }
        let check = crc_bytes(&self.reply[..self.length]);
        self.reply[self.length..self.length + 2].copy_from_slice(&check);
        self.length + 2
    }

    fn push(&mut self, byte: u8) {
        self.reply[self.length] = byte;
        self.length += 1;
    }

    /// 02, Ask 4: the count is 0 "when Quiet".
    fn stay_quiet(&mut self) -> Result<(), u8> {
        self.tag.slot_count = 0;
        self.become_state(RadioState::Quiet)
    }

    fn become_state(&mut self, state: RadioState) -> Result<(), u8> {
        self.tag.radio_state = state;
        Ok(())
    }

    /// 01: "own UID Selected; another UID: Selected becomes Ready".
    fn select(&mut self, own_uid: bool) -> Result<(), u8> {
        if own_uid {
            self.tag.radio_state = RadioState::Selected;
        } else if self.tag.radio_state == RadioState::Selected {
            self.tag.radio_state = RadioState::Ready;
        }
        Ok(())
    }

    fn area(&self, block: usize) -> usize {
        area_of_block(&self.tag.registers.enda, block)
    }

    /// RFAiSS bits 1-0 name the password; session n + 1 is open for password n.
    fn session_opens(&self, area: usize) -> bool {
        let password = self.tag.registers.rfass[area] & 3;
        password != 0 && self.tag.radio_session == password + 1
    }

    /// RFAiSS bits 3-2: 2 and 3 need the session to read; "Area 1 is always readable".
    fn may_read(&self, area: usize) -> bool {
        area == 0 || self.tag.registers.rfass[area] >> 2 & 3 < 2 || self.session_opens(area)
    }

    /// RFAiSS bits 3-2: 0 free, 1 and 2 need the session, 3 never; and LOCK_CCFILE.
    fn may_write(&self, block: usize) -> bool {
        let area = self.area(block);
        let right = match self.tag.registers.rfass[area] >> 2 & 3 {
            0 => true,
            3 => false,
            _ => self.session_opens(area),
        };
        right && !block_locked(&self.tag.registers, block)
    }

    /// 01: "1 exactly when 21 would give 12h".
    fn status(&self, block: usize) -> u8 {
        u8::from(!self.may_write(block))
    }

    /// 01, 20 to 24: "10h first above 127; 0Fh leaves area or memory". Gives first and last.
    fn run_of_blocks(&self, first: u8, more: u8) -> Result<(usize, usize), u8> {
        let first = usize::from(first);
        let last = first + usize::from(more);
        if first > LAST_BLOCK {
            return Err(NO_BLOCK);
        }
        if last > LAST_BLOCK || self.area(first) != self.area(last) {
            return Err(NO_INFORMATION);
        }
        Ok((first, last))
    }

    fn read_blocks(&mut self, first: u8, more: u8, option: bool) -> Result<(), u8> {
        let (first, last) = self.run_of_blocks(first, more)?;
        if !self.may_read(self.area(first)) {
            return Err(READ_PROTECTED);
        }
        for block in first..=last {
            if option {
                self.push(self.status(block));
            }
            for place in 4 * block..4 * block + 4 {
                self.push(self.memory[place]);
            }
        }
        Ok(())
    }

    fn write_blocks(&mut self, first: u8, more: u8, data: &[u8]) -> Result<(), u8> {
        if more > 3 {
            return Err(NO_INFORMATION);
        }
        let (first, last) = self.run_of_blocks(first, more)?;
        if !(first..=last).all(|block| self.may_write(block)) {
            return Err(NO_RIGHT);
        }
        self.memory[4 * first..4 * (last + 1)].copy_from_slice(data);
        Ok(())
    }

    fn lock_block(&mut self, block: u8) -> Result<(), u8> {
        if block > 1 {
            return Err(NO_BLOCK);
        }
        if block_locked(&self.tag.registers, usize::from(block)) {
            return Err(ALREADY_LOCKED);
        }
        self.tag.registers.lock_ccfile |= 1 << block;
        Ok(())
    }

    fn block_status(&mut self, first: u8, more: u8) -> Result<(), u8> {
        let first = usize::from(first);
        if first > LAST_BLOCK {
            return Err(NO_BLOCK);
        }
        let last = LAST_BLOCK.min(first + usize::from(more));
        for block in first..=last {
            self.push(self.status(block));
        }
        Ok(())
    }

    /// 01, Config: "pointers .., else 10h".
    fn config_address(pointer: u8) -> Result<u16, u8> {
        if is_pointer(pointer) {
            Ok(u16::from(pointer))
        } else {
            Err(NO_BLOCK)
        }
    }

    fn read_config(&mut self, pointer: u8) -> Result<(), u8> {
        let address = Self::config_address(pointer)?;
        let value = self.tag.registers.get(address).ok_or(NO_BLOCK)?;
        self.push(value);
        Ok(())
    }

    fn write_config(&mut self, pointer: u8, value: u8) -> Result<(), u8> {
        let address = Self::config_address(pointer)?;
        if self.tag.registers.lock_cfg != 0 || self.tag.radio_session != 1 {
            return Err(NO_RIGHT);
        }
        if let Some(index) = end_index(address) {
            if !end_accepted(&self.tag.registers.enda, index, value) {
                return Err(NO_INFORMATION);
            }
        }
        self.tag.write_register(address, value);
        Ok(())
    }

    fn read_dynamic(&mut self, pointer: u8) -> Result<(), u8> {
        if pointer != 0x0D {
            return Err(NO_BLOCK);
        }
        self.push(self.tag.mailbox.control);
        Ok(())
    }

    fn write_dynamic(&mut self, pointer: u8, value: u8) -> Result<(), u8> {
        if pointer != 0x0D {
            return Err(NO_BLOCK);
        }
        self.tag.write_mb_ctrl(value);
        Ok(())
    }

    fn write_message(&mut self, message: &[u8]) -> Result<(), u8> {
        let mailbox = &mut self.tag.mailbox;
        if !mailbox.enabled() || mailbox.put_pending() {
            return Err(NO_INFORMATION);
        }
        mailbox.radio_put(message.len() as u16);
        self.memory[MAILBOX_PLACE..MAILBOX_PLACE + message.len()].copy_from_slice(message);
        Ok(())
    }

    fn message_length(&mut self) -> Result<(), u8> {
        if !self.tag.mailbox.enabled() {
            return Err(NO_INFORMATION);
        }
        self.push(self.tag.mailbox.length_register());
        Ok(())
    }

    /// 01, AC: "0,0 is the whole, else n+1 bytes; 0Fh past or empty".
    fn read_message(&mut self, pointer: usize, number: usize) -> Result<(), u8> {
        let length = usize::from(self.tag.mailbox.length);
        let whole = pointer == 0 && number == 0;
        let end = if whole { length } else { pointer + number + 1 };
        if !self.tag.mailbox.enabled() || length == 0 || end > length {
            return Err(NO_INFORMATION);
        }
        for place in MAILBOX_PLACE + pointer..MAILBOX_PLACE + end {
            self.push(self.memory[place]);
        }
        if end == length {
            // A host message's last byte; with an RF message HOST_PUT is 0 already.
            self.tag.mailbox.control &= !HOST_PUT;
        }
        Ok(())
    }

    /// 01, B3: "10h n above 3, session kept; wrong: session closed, 0Fh".
    fn present_password(&mut self, n: u8, password: &[u8]) -> Result<(), u8> {
        if n > 3 {
            return Err(NO_BLOCK);
        }
        if self.tag.radio_passwords[usize::from(n)] == password {
            self.tag.radio_session = n + 1;
            return Ok(());
        }
        self.tag.radio_session = 0;
        Err(NO_INFORMATION)
    }

    /// 01, B1: "10h; 12h unless session n".
    fn write_password(&mut self, n: u8, password: &[u8]) -> Result<(), u8> {
        if n > 3 {
            return Err(NO_BLOCK);
        }
        if self.tag.radio_session != n + 1 {
            return Err(NO_RIGHT);
        }
        self.tag.radio_passwords[usize::from(n)].copy_from_slice(password);
        Ok(())
    }
}
