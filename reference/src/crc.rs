//! The frame's CRC, ISO/IEC 13239, one bit at a time.
//! 01, Frames: "8408h, start FFFFh, complemented", sent low byte first.

const POLYNOMIAL: u16 = 0x8408;
const START: u16 = 0xFFFF;

/// The remainder after one more byte, lowest bit first.
fn add_byte(remainder: u16, byte: u8) -> u16 {
    let mut r = remainder ^ u16::from(byte);
    for _ in 0..8 {
        let carry = r & 1 != 0;
        r >>= 1;
        if carry {
            r ^= POLYNOMIAL;
        }
    }
    r
}

/// The CRC as a number.
pub fn crc(bytes: &[u8]) -> u16 {
    let mut remainder = START;
    for &byte in bytes {
        remainder = add_byte(remainder, byte);
    }
    !remainder
}

/// The two CRC bytes as they are sent: low byte first.
pub fn crc_bytes(bytes: &[u8]) -> [u8; 2] {
    crc(bytes).to_le_bytes()
}
