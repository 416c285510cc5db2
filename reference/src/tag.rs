//! The tag's state, its registers, areas and mailbox flags.

// 01, What the bench hands in: the lent memory.
pub const MEMORY_SIZE: usize = 1024;
pub const REPLY_SIZE: usize = 643;
pub const USER_SIZE: usize = 512;
pub const MAILBOX_PLACE: usize = 512;
pub const PAGE_PLACE: usize = 768;
pub const PAGE_SIZE: usize = 256;

// 01, Areas and rights.
pub const LAST_BLOCK: usize = 127;
pub const LAST_END: u8 = 0x0F;

// 01, The wire: map, user space.
pub const RF_MNGT_DYN: u16 = 0x2003;
pub const I2C_SSO_DYN: u16 = 0x2004;
pub const MB_CTRL_DYN: u16 = 0x2006;
pub const MB_LEN_DYN: u16 = 0x2007;
pub const MAILBOX_FIRST: u16 = 0x2008;
pub const MAILBOX_LAST: u16 = 0x2107;

// 01, The wire: map, system space. RFAiSS and ENDAi take turns from 0004h.
pub const RF_MNGT: u16 = 0x0003;
pub const RFA1SS: u16 = 0x0004;
pub const ENDA1: u16 = 0x0005;
pub const I2CSS: u16 = 0x000B;
pub const LOCK_CCFILE: u16 = 0x000C;
pub const MB_MODE: u16 = 0x000D;
pub const LOCK_CFG: u16 = 0x000F;
// 02, Ask 4: "read only for all".
pub const DSFID: u16 = 0x0012;
pub const AFI: u16 = 0x0013;
pub const UID_FIRST: u16 = 0x0018;
pub const UID_LAST: u16 = 0x001F;
pub const PASSWORD_PLACE: u16 = 0x0900;

// 01, The mailbox: MB_CTRL_Dyn.
pub const MB_EN: u8 = 0x01;
pub const HOST_PUT: u8 = 0x02;
pub const RF_PUT: u8 = 0x04;
pub const HOST_CURRENT: u8 = 0x40;
pub const RF_CURRENT: u8 = 0x80;

/// The two device selects of the wire.
#[derive(Clone, Copy, PartialEq, Eq, Debug)]
pub enum Space {
    User,
    System,
}

/// Where the wire stands. Only the legs and a repeated Start belong to an open transfer.
#[derive(Clone, Copy, PartialEq, Eq, Debug)]
pub enum Bus {
    Idle,
    /// A select byte is awaited.
    Started {
        open: bool,
    },
    /// `over`: the host has NoAcked; `last`: the last byte of an RF message was fetched.
    Read {
        space: Space,
        over: bool,
        last: bool,
    },
    /// The high address byte is awaited.
    AddressHigh {
        space: Space,
    },
    /// The low address byte is awaited.
    AddressLow {
        space: Space,
        high: u8,
    },
    /// Past the address; `count` bytes stand in the page.
    Data {
        space: Space,
        count: u16,
        spoiled: bool,
    },
}

impl Bus {
    /// 01: "open from an Acked select to Stop, VCC off, or a select not Acked".
    pub fn transfer_open(self) -> bool {
        !matches!(self, Bus::Idle | Bus::Started { open: false })
    }
}

/// 01, Frames: the radio state.
#[derive(Clone, Copy, PartialEq, Eq, Debug)]
pub enum RadioState {
    Ready,
    Quiet,
    Selected,
}

/// The stored registers of the system map.
#[derive(Clone, Copy, PartialEq, Eq, Debug)]
pub struct Registers {
    pub rf_mngt: u8,
    pub rfass: [u8; 4],
    pub enda: [u8; 3],
    pub i2css: u8,
    pub lock_ccfile: u8,
    pub mb_mode: u8,
    pub lock_cfg: u8,
    pub dsfid: u8,
    pub afi: u8,
}

impl Registers {
    /// 01, Fresh tag: registers 0, ends 0Fh.
    pub fn fresh() -> Registers {
        Registers {
            rf_mngt: 0,
            rfass: [0; 4],
            enda: [LAST_END; 3],
            i2css: 0,
            lock_ccfile: 0,
            mb_mode: 0,
            lock_cfg: 0,
            dsfid: 0,
            afi: 0,
        }
    }

    /// The register at a system address; none where the map has none.
    pub fn get(&self, address: u16) -> Option<u8> {
        match address {
            RF_MNGT => Some(self.rf_mngt),
            0x04 | 0x06 | 0x08 | 0x0A => Some(self.rfass[usize::from(address - RFA1SS) / 2]),
            0x05 | 0x07 | 0x09 => Some(self.enda[usize::from(address - ENDA1) / 2]),
            I2CSS => Some(self.i2css),
            LOCK_CCFILE => Some(self.lock_ccfile),
            MB_MODE => Some(self.mb_mode),
            LOCK_CFG => Some(self.lock_cfg),
            DSFID => Some(self.dsfid),
            AFI => Some(self.afi),
            _ => None,
        }
    }

    /// Stores a value already masked, or an end already accepted.
    fn set(&mut self, address: u16, value: u8) {
        match address {
            RF_MNGT => self.rf_mngt = value,
            0x04 | 0x06 | 0x08 | 0x0A => self.rfass[usize::from(address - RFA1SS) / 2] = value,
            0x05 | 0x07 | 0x09 => self.enda[usize::from(address - ENDA1) / 2] = value,
            I2CSS => self.i2css = value,
            LOCK_CCFILE => self.lock_ccfile = value,
            MB_MODE => self.mb_mode = value,
            LOCK_CFG => self.lock_cfg = value,
            _ => {}
        }
    }
}

/// The registers that the wire can write.
pub fn is_writable(address: u16) -> bool {
    matches!(address, RF_MNGT..=MB_MODE | LOCK_CFG)
}

/// 01: "Defined bits: RF_MNGT two, RFAiSS four, LOCK_CCFILE two, MB_MODE and LOCK_CFG one".
pub fn defined_bits(address: u16) -> u8 {
    match address {
        RF_MNGT | LOCK_CCFILE => 0x03,
        0x04 | 0x06 | 0x08 | 0x0A => 0x0F,
        MB_MODE | LOCK_CFG => 0x01,
        _ => 0xFF,
    }
}

/// 01, Config: "pointers 03-0A, 0D, 0F".
pub fn is_pointer(pointer: u8) -> bool {
    matches!(pointer, 0x03..=0x0A | 0x0D | 0x0F)
}

/// Which of ENDA1 to ENDA3 (0 to 2) lies at this address.
pub fn end_index(address: u16) -> Option<usize> {
    match address {
        0x05 | 0x07 | 0x09 => Some(usize::from(address - ENDA1) / 2),
        _ => None,
    }
}

/// 01: "at most 0Fh, all later ends are 0Fh, and it exceeds the end before it
/// (ENDA1 has none) or is itself 0Fh (house)".
pub fn end_accepted(enda: &[u8; 3], index: usize, value: u8) -> bool {
    value <= LAST_END
        && enda[index + 1..].iter().all(|&later| later == LAST_END)
        && (index == 0 || value > enda[index - 1] || value == LAST_END)
}

/// 01: "A block lies in the first area whose end reaches it". Areas count from 0 here.
pub fn area_of_block(enda: &[u8; 3], block: usize) -> usize {
    for (area, &end) in enda.iter().enumerate() {
        if block <= 8 * usize::from(end) + 7 {
            return area;
        }
    }
    3
}

/// 01: "LOCK_CCFILE bits 0 and 1 lock blocks 0 and 1 against writing by either side".
pub fn block_locked(registers: &Registers, block: usize) -> bool {
    block < 2 && registers.lock_ccfile >> block & 1 != 0
}

/// MB_CTRL_Dyn and the message's length. The bytes lie in the lent memory.
#[derive(Clone, Copy, PartialEq, Eq, Debug)]
pub struct Mailbox {
    pub control: u8,
    pub length: u16,
}

impl Mailbox {
    pub fn enabled(&self) -> bool {
        self.control & MB_EN != 0
    }

    /// A message that its receiver has not yet read.
    pub fn put_pending(&self) -> bool {
        self.control & (HOST_PUT | RF_PUT) != 0
    }

    /// 01: "MB_LEN_Dyn is length minus 1, or 0 when empty".
    pub fn length_register(&self) -> u8 {
        self.length.saturating_sub(1) as u8
    }

    /// 01: "sets bytes, length, its PUT and CURRENT, and clears the other CURRENT".
    pub fn host_put(&mut self, length: u16) {
        self.control = (self.control | HOST_PUT | HOST_CURRENT) & !RF_CURRENT;
        self.length = length;
    }

    /// The same by the till.
    pub fn radio_put(&mut self, length: u16) {
        self.control = (self.control | RF_PUT | RF_CURRENT) & !HOST_CURRENT;
        self.length = length;
    }

    /// 01: clearing MB_EN "empties the mailbox (length and b1 to b7 zero, bytes kept)".
    pub fn switch_off(&mut self) {
        self.control = 0;
        self.length = 0;
    }
}

/// The whole tag, both sides.
#[derive(Clone, PartialEq, Eq, Debug)]
pub struct Tag {
    pub uid: [u8; 8],
    pub vcc: bool,
    pub field: bool,
    pub registers: Registers,
    pub rf_mngt_dyn: u8,
    pub mailbox: Mailbox,
    /// In the order of the password leg's bytes.
    pub i2c_password: [u8; 8],
    pub i2c_session: bool,
    pub programming: bool,
    pub counter: u16,
    pub bus: Bus,
    /// RF_MNGT_Dyn as at the select that opened the transfer; 0 with none open.
    pub kept_rf_mngt_dyn: u8,
    pub radio_state: RadioState,
    /// 0 none, 1 to 4 for passwords 0 to 3.
    pub radio_session: u8,
    /// 02, Ask 4: how many ends-of-frame are left to its slot.
    pub slot_count: u8,
    /// In the order of the frame's bytes.
    pub radio_passwords: [[u8; 8]; 4],
}

impl Tag {
    /// 01: "all bytes, registers and passwords 0, ends 0Fh, UID as set, Ready, all supplies off".
    /// The bytes are the caller's 1,024 zeros.
    pub fn fresh(uid: [u8; 8]) -> Tag {
        Tag {
            uid,
            vcc: false,
            field: false,
            registers: Registers::fresh(),
            rf_mngt_dyn: 0,
            mailbox: Mailbox {
                control: 0,
                length: 0,
            },
            i2c_password: [0; 8],
            i2c_session: false,
            programming: false,
            counter: 0,
            bus: Bus::Idle,
            kept_rf_mngt_dyn: 0,
            radio_state: RadioState::Ready,
            radio_session: 0,
            slot_count: 0,
            radio_passwords: [[0; 8]; 4],
        }
    }

    /// One byte of a register, as either side writes it: defined bits kept.
    pub fn write_register(&mut self, address: u16, value: u8) {
        self.registers.set(address, value & defined_bits(address));
        if address == RF_MNGT {
            // 01: "each write of RF_MNGT, reloads RF_MNGT_Dyn".
            self.rf_mngt_dyn = self.registers.rf_mngt;
        }
        if address == MB_MODE && self.registers.mb_mode == 0 && self.mailbox.enabled() {
            // Datasheet, MB_EN falls with MB_MODE (D23).
            self.mailbox.switch_off();
        }
    }

    /// RF_MNGT_Dyn as frames are judged by it. 01: "Inside a transfer RF_MNGT_Dyn counts as at
    /// the transfer's start (house)".
    pub fn rf_mngt_dyn_for_frames(&self) -> u8 {
        if self.bus.transfer_open() {
            self.kept_rf_mngt_dyn
        } else {
            self.rf_mngt_dyn
        }
    }

    /// 01: b0 "works only with MB_MODE 1 and VCC, otherwise it stays as it was;
    /// clearing it empties the mailbox". The other bits are read only.
    pub fn write_mb_ctrl(&mut self, value: u8) {
        if value & MB_EN == 0 {
            self.mailbox.switch_off();
        } else if self.registers.mb_mode == 1 && self.vcc {
            self.mailbox.control |= MB_EN;
        }
    }
}
