//! The inventory frame: 02, Ask 4, its form by the datasheet, mask, slot and AFI by ISO/IEC 15693-3.

use crate::radio::{EXTENSION, INVENTORY, OPTION, RESERVED};
use crate::tag::Tag;

pub const COMMAND: u8 = 0x01;
// What 10h and 20h mean beside the inventory flag.
pub const AFI_FLAG: u8 = 0x10;
pub const ONE_SLOT: u8 = 0x20;
pub const LAST_SLOT: u8 = 15;
/// The longest mask with one slot, and with sixteen: the slot takes four bits of the UID.
pub const MOST_BITS: u8 = 64;
pub const MOST_BITS_OF_SIXTEEN: u8 = 60;

/// A well-formed frame.
#[derive(Clone, Copy, PartialEq, Eq, Debug)]
pub struct Inventory<'a> {
    pub afi: Option<u8>,
    pub sixteen_slots: bool,
    /// The mask's length in bits.
    pub bits: u8,
    pub mask: &'a [u8],
}

impl<'a> Inventory<'a> {
    /// From a frame without its CRC. 02: malformed is "other command or length, flag 08, 40 or 80,
    /// mask over 64 bits, with sixteen slots over 60".
    pub fn read(body: &'a [u8]) -> Option<Inventory<'a>> {
        let [flags, COMMAND, rest @ ..] = body else {
            return None;
        };
        if flags & INVENTORY == 0 || flags & (EXTENSION | OPTION | RESERVED) != 0 {
            return None;
        }
        let (afi, rest) = match flags & AFI_FLAG {
            0 => (None, rest),
            _ => rest.split_first().map(|(&afi, rest)| (Some(afi), rest))?,
        };
        let (&bits, mask) = rest.split_first()?;
        let sixteen_slots = flags & ONE_SLOT == 0;
        let most = if sixteen_slots {
            MOST_BITS_OF_SIXTEEN
        } else {
            MOST_BITS
        };
        let fits = bits <= most && mask.len() == usize::from(bits).div_ceil(8);
        fits.then_some(Inventory {
            afi,
            sixteen_slots,
            bits,
            mask,
        })
    }

    /// Whether it asks this tag.
    pub fn asks(&self, tag: &Tag) -> bool {
        self.asks_afi(tag.registers.afi) && self.asks_uid(&tag.uid)
    }

    pub fn asks_afi(&self, afi: u8) -> bool {
        self.afi.is_none_or(|asked| afi_asked(asked, afi))
    }

    /// Mask bit i is UID bit i; the last mask byte's bits above the mask are not read.
    pub fn asks_uid(&self, uid: &[u8; 8]) -> bool {
        let bits = usize::from(self.bits);
        (0..bits).all(|place| bit(self.mask, place) == bit(uid, place))
    }

    /// The slot of a tag that it asks: the four UID bits above the mask.
    pub fn slot(&self, uid: &[u8; 8]) -> u8 {
        if !self.sixteen_slots {
            return 0;
        }
        let first = usize::from(self.bits);
        (0..4).fold(0, |slot, place| slot | bit(uid, first + place) << place)
    }
}

fn bit(bytes: &[u8], place: usize) -> u8 {
    bytes[place / 8] >> (place % 8) & 1
}

/// 00h asks all tags, X0h the family X, any other AFI itself.
pub fn afi_asked(asked: u8, afi: u8) -> bool {
    match (asked >> 4, asked & 0x0F) {
        (0, 0) => true,
        (family, 0) => afi >> 4 == family,
        _ => afi == asked,
    }
}
