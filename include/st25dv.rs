// Made from st25dv.h by tools/rust_header. docs/LIBRARY.md says what a caller owes.
#![allow(dead_code)]
#![cfg_attr(rustfmt, rustfmt_skip)]

pub const STATE_BYTES: usize = 87;
pub const UID_BYTES: usize = 8;
pub const MEMORY_BYTES: usize = 1024;
pub const REPLY_BYTES: usize = 643;
pub const RACK_TAGS: u32 = 16;
pub const MEMORY_AT_USER: usize = 0;
pub const MEMORY_AT_MAILBOX: usize = 512;
pub const MEMORY_AT_PAGE: usize = 768;
pub const VCC: u32 = 1;
pub const FIELD: u32 = 2;
pub const START: u32 = 3;
pub const SEND: u32 = 4;
pub const FETCH: u32 = 5;
pub const STOP: u32 = 6;
pub const PROGRAMMING_END: u32 = 7;
pub const FRAME: u32 = 8;
pub const END_OF_FRAME: u32 = 9;
pub const REFUSED_MEMORY_LENGTH: u32 = 1;
pub const REFUSED_REPLY_SHORT: u32 = 2;
pub const REFUSED_SIGNAL_UNKNOWN: u32 = 3;
pub const REFUSED_STATE_LENGTH: u32 = 13;
pub const REFUSED_OUT_OF_RANGE: u32 = 4;
pub const REFUSED_RACK_SIZE: u32 = 5;
pub const REFUSED_NO_SUCH_TAG: u32 = 6;
pub const REFUSED_EQUAL_UIDS: u32 = 7;
pub const REFUSED_UID_LENGTH: u32 = 14;
pub const NONE: u32 = 0x100;
pub const ACK: u32 = 0x101;
pub const NOACK: u32 = 0x102;
pub const SILENCE: u32 = 0x103;
pub const BYTE: u32 = 0x200;
pub const SLOT: u32 = 0x400;
pub const REPLY: u32 = 0x1000;
pub const RULE_LEG_SPOILED: u32 = 1;
pub const RULE_OUTSIDE_MAP: u32 = 2;
pub const RULE_MAILBOX_MODE_ON: u32 = 3;
pub const RULE_MODE_OFF: u32 = 4;
pub const RULE_MAILBOX_BUSY: u32 = 5;
pub const RULE_MAILBOX_LEG_NOT_FROM_2008: u32 = 6;
pub const RULE_ANOTHER_AREA: u32 = 7;
pub const RULE_LOCKED_BLOCK: u32 = 8;
pub const RULE_SESSION_NEEDED: u32 = 11;
pub const RULE_REGISTER_READ_ONLY: u32 = 12;
pub const RULE_PASSWORD_CODE: u32 = 13;
pub const RULE_ENDA: u32 = 14;
pub const RULE_PAGE_FULL: u32 = 15;
pub const RULE_NO_VCC: u32 = 16;
pub const RULE_NO_START: u32 = 17;
pub const RULE_READ_LEG: u32 = 18;
pub const RULE_OTHER_SELECT_BYTE: u32 = 19;
pub const RULE_PROGRAMMING: u32 = 20;
pub const RULE_FIELD_OFF: u32 = 21;
pub const RULE_RF_SLEEP: u32 = 22;
pub const RULE_FRAME_LENGTH: u32 = 23;
pub const RULE_BAD_CRC: u32 = 24;
pub const RULE_INVENTORY_FLAG: u32 = 25;
pub const RULE_SELECT_AND_ADDRESS: u32 = 26;
pub const RULE_MAKER: u32 = 27;
pub const RULE_UID: u32 = 28;
pub const RULE_NOT_SELECTED: u32 = 29;
pub const RULE_QUIET: u32 = 30;
pub const RULE_NOT_ADDRESSED: u32 = 31;
pub const RULE_OWN_SILENCE: u32 = 32;
pub const RULE_SHUT_OUT: u32 = 33;
pub const RULE_UNKNOWN_COMMAND: u32 = 34;
pub const RULE_UNSUPPORTED_FLAGS: u32 = 35;
pub const RULE_WRONG_LENGTH: u32 = 36;
pub const RULE_NO_SUCH_BLOCK: u32 = 37;
pub const RULE_READ_LEAVES_AREA: u32 = 38;
pub const RULE_READ_PROTECTED: u32 = 39;
pub const RULE_TOO_MANY_BLOCKS: u32 = 40;
pub const RULE_WRITE_LEAVES_AREA: u32 = 41;
pub const RULE_WRITE_FORBIDDEN: u32 = 42;
pub const RULE_NOT_LOCKABLE: u32 = 43;
pub const RULE_ALREADY_LOCKED: u32 = 44;
pub const RULE_NO_SUCH_REGISTER: u32 = 45;
pub const RULE_CONFIGURATION_CLOSED: u32 = 46;
pub const RULE_END_REFUSED: u32 = 47;
pub const RULE_NO_SUCH_DYNAMIC_REGISTER: u32 = 48;
pub const RULE_MAILBOX_UNAVAILABLE: u32 = 49;
pub const RULE_MAILBOX_DISABLED: u32 = 50;
pub const RULE_PAST_MESSAGE: u32 = 51;
pub const RULE_NO_SUCH_PASSWORD: u32 = 52;
pub const RULE_WRONG_PASSWORD: u32 = 53;
pub const RULE_PASSWORD_SESSION_CLOSED: u32 = 54;
pub const AT_FIELD: usize = 0;
pub const AT_RADIO_STATE: usize = 1;
pub const AT_RADIO_SESSION: usize = 2;
pub const AT_SLOTS: usize = 3;
pub const AT_VCC: usize = 4;
pub const AT_I2C_SESSION: usize = 5;
pub const AT_PROGRAMMING: usize = 6;
pub const AT_COUNTER: usize = 7;
pub const AT_BUS: usize = 9;
pub const AT_SPACE: usize = 10;
pub const AT_TRANSFER_OPEN: usize = 11;
pub const AT_HOST_NOACKED: usize = 11;
pub const AT_SPOILED: usize = 11;
pub const AT_LAST_FETCHED: usize = 12;
pub const AT_HIGH_ADDRESS: usize = 13;
pub const AT_PAGE_COUNT: usize = 14;
pub const AT_KEPT_RF_MNGT_DYN: usize = 16;
pub const AT_RF_MNGT: usize = 17;
pub const AT_RF_MNGT_DYN: usize = 18;
pub const AT_RFA1SS: usize = 19;
pub const AT_ENDA1: usize = 20;
pub const AT_RFA2SS: usize = 21;
pub const AT_ENDA2: usize = 22;
pub const AT_RFA3SS: usize = 23;
pub const AT_ENDA3: usize = 24;
pub const AT_RFA4SS: usize = 25;
pub const AT_I2CSS: usize = 26;
pub const AT_LOCK_CCFILE: usize = 27;
pub const AT_MB_MODE: usize = 28;
pub const AT_LOCK_CFG: usize = 29;
pub const AT_DSFID: usize = 30;
pub const AT_AFI: usize = 31;
pub const AT_MB_EN: usize = 32;
pub const AT_HOST_PUT: usize = 33;
pub const AT_RF_PUT: usize = 34;
pub const AT_HOST_CURRENT: usize = 35;
pub const AT_RF_CURRENT: usize = 36;
pub const AT_MESSAGE_LENGTH: usize = 37;
pub const AT_I2C_PASSWORD: usize = 39;
pub const AT_PASSWORD_0: usize = 47;
pub const AT_PASSWORD_1: usize = 55;
pub const AT_PASSWORD_2: usize = 63;
pub const AT_PASSWORD_3: usize = 71;
pub const AT_UID: usize = 79;
pub const READY: u32 = 0;
pub const QUIET: u32 = 1;
pub const SELECTED: u32 = 2;
pub const SESSION_NONE: u32 = 0;
pub const SESSION_PASSWORD_0: u32 = 1;
pub const SESSION_PASSWORD_1: u32 = 2;
pub const SESSION_PASSWORD_2: u32 = 3;
pub const SESSION_PASSWORD_3: u32 = 4;
pub const BUS_IDLE: u32 = 0;
pub const BUS_STARTED: u32 = 1;
pub const BUS_READ_LEG: u32 = 2;
pub const BUS_WRITE_LEG: u32 = 3;
pub const BUS_LOW_ADDRESS: u32 = 4;
pub const BUS_DATA_LEG: u32 = 5;
pub const SPACE_USER: u32 = 0;
pub const SPACE_SYSTEM: u32 = 1;

#[repr(C)]
#[derive(Clone, Copy, Debug, PartialEq, Eq)]
pub struct RackAnswer {
    pub answer: u32,
    pub answered: u32,
}

#[link(name = "capi", kind = "static")]
#[link(name = "capi_explain", kind = "static")]
#[link(name = "capi_rack", kind = "static")]
extern "C" {
    pub fn st25dv_fresh(
        uid: *const u8,
        uid_bytes: usize,
        memory: *mut u8,
        memory_bytes: usize,
        state: *mut u8,
        state_bytes: usize,
    ) -> u32;
    pub fn st25dv_step(
        state: *mut u8,
        state_bytes: usize,
        memory: *mut u8,
        memory_bytes: usize,
        reply: *mut u8,
        reply_bytes: usize,
        code: u32,
        value: u32,
        frame: *const u8,
        frame_bytes: usize,
    ) -> u32;
    pub fn st25dv_explain(
        state: *const u8,
        state_bytes: usize,
        memory: *const u8,
        memory_bytes: usize,
        reply: *const u8,
        reply_bytes: usize,
        code: u32,
        value: u32,
        frame: *const u8,
        frame_bytes: usize,
    ) -> u32;
    pub fn st25dv_rack_step(
        states: *mut u8,
        state_bytes: usize,
        memory: *mut u8,
        memory_bytes: usize,
        reply: *mut u8,
        reply_bytes: usize,
        tags: u32,
        to: u32,
        code: u32,
        value: u32,
        frame: *const u8,
        frame_bytes: usize,
    ) -> RackAnswer;
    pub fn st25dv_rack_search(
        states: *mut u8,
        state_bytes: usize,
        memory: *mut u8,
        memory_bytes: usize,
        reply: *mut u8,
        reply_bytes: usize,
        tags: u32,
        frame: *const u8,
        frame_bytes: usize,
    ) -> u32;
    pub fn st25dv_crc(
        bytes: *const u8,
        count: usize,
    ) -> u16;
}
