//! What the inventory frames and ends-of-frame of a run met, and what none of them did.

use std::collections::{BTreeMap, BTreeSet};
use std::fmt::Debug;
use std::io::{Result, Write};

use crate::bench::{read_line, LONGEST_FRAME};
use crate::crc::crc;
use crate::inventory::*;
use crate::model::{self, Signal};
use crate::radio::*;
use crate::tag::*;

use Met::*;

/// The first of these. `Waiting`: of a tag that has ends-of-frame left to its slot.
#[derive(Clone, Copy, PartialEq, Eq, PartialOrd, Ord, Debug)]
pub enum Met {
    // An inventory frame.
    FieldOff,
    Asleep,
    AsleepWaiting,
    FrameLength,
    BadCrc,
    /// Well-formed for sixteen slots, the CRC apart.
    BadCrcOfSixteen,
    Quiet,
    ShutOut,
    ShutOutWaiting,
    OtherCommand,
    Flag08,
    Flag40,
    Flag80,
    NoMaskLength,
    MaskOver64,
    MaskOver60OfSixteen,
    MaskShort,
    MaskLong,
    OtherAfi,
    OtherMask,
    /// A bit above the mask is not the UID's.
    Padding,
    SetsCount,
    SlotZero,
    OneSlot,
    // An end-of-frame.
    EndFieldOff,
    EndAsleep,
    EndAsleepWaiting,
    EndQuiet,
    EndShutOut,
    EndShutOutWaiting,
    EndNoneLeft,
    EndCounts,
    EndAnswered,
}

pub const ALL: [Met; 33] = [
    FieldOff,
    Asleep,
    AsleepWaiting,
    FrameLength,
    BadCrc,
    BadCrcOfSixteen,
    Quiet,
    ShutOut,
    ShutOutWaiting,
    OtherCommand,
    Flag08,
    Flag40,
    Flag80,
    NoMaskLength,
    MaskOver64,
    MaskOver60OfSixteen,
    MaskShort,
    MaskLong,
    OtherAfi,
    OtherMask,
    Padding,
    SetsCount,
    SlotZero,
    OneSlot,
    EndFieldOff,
    EndAsleep,
    EndAsleepWaiting,
    EndQuiet,
    EndShutOut,
    EndShutOutWaiting,
    EndNoneLeft,
    EndCounts,
    EndAnswered,
];

/// The bench puts the right CRC behind each frame.
pub fn in_scripts(met: Met) -> bool {
    !matches!(met, BadCrc | BadCrcOfSixteen)
}

fn asleep(tag: &Tag) -> bool {
    tag.rf_mngt_dyn_for_frames() & RF_SLEEP != 0
}

fn shut_out(tag: &Tag) -> bool {
    let disabled = tag.rf_mngt_dyn_for_frames() & RF_DISABLE != 0;
    disabled || tag.bus.transfer_open() || tag.programming
}

/// None for another signal, and for a frame without the inventory flag.
pub fn met(tag: &Tag, signal: Signal) -> Option<Met> {
    match signal.code {
        model::END_OF_FRAME => Some(end_met(tag)),
        model::FRAME if signal.frame.first()? & INVENTORY != 0 => {
            Some(frame_met(tag, signal.frame))
        }
        _ => None,
    }
}

fn end_met(tag: &Tag) -> Met {
    match tag.slot_count {
        _ if !tag.field => EndFieldOff,
        0 if asleep(tag) => EndAsleep,
        _ if asleep(tag) => EndAsleepWaiting,
        _ if tag.radio_state == RadioState::Quiet => EndQuiet,
        0 if shut_out(tag) => EndShutOut,
        _ if shut_out(tag) => EndShutOutWaiting,
        0 => EndNoneLeft,
        1 => EndAnswered,
        _ => EndCounts,
    }
}

fn frame_met(tag: &Tag, frame: &[u8]) -> Met {
    let (body, check) = frame.split_at(frame.len().saturating_sub(2));
    let waiting = tag.slot_count > 0;
    if !tag.field {
        FieldOff
    } else if asleep(tag) {
        [Asleep, AsleepWaiting][usize::from(waiting)]
    } else if !(4..=270).contains(&frame.len()) {
        FrameLength
    } else if check != crc(body).to_le_bytes() {
        let sixteen = Inventory::read(body).is_some_and(|request| request.sixteen_slots);
        [BadCrc, BadCrcOfSixteen][usize::from(sixteen)]
    } else if tag.radio_state == RadioState::Quiet {
        Quiet
    } else if shut_out(tag) {
        [ShutOut, ShutOutWaiting][usize::from(waiting)]
    } else {
        match Inventory::read(body) {
            Some(request) => asked_met(tag, &request),
            None => malformed(body),
        }
    }
}

fn asked_met(tag: &Tag, request: &Inventory) -> Met {
    let bits = usize::from(request.bits);
    let high = |bytes: &[u8]| bytes.get(bits / 8).map(|byte| byte >> (bits % 8));
    if !request.asks_afi(tag.registers.afi) {
        OtherAfi
    } else if !request.asks_uid(&tag.uid) {
        OtherMask
    } else if bits % 8 != 0 && high(request.mask) != high(&tag.uid) {
        Padding
    } else if !request.sixteen_slots {
        OneSlot
    } else if request.slot(&tag.uid) == 0 {
        SlotZero
    } else {
        SetsCount
    }
}

/// Why a frame of two bytes or more is malformed.
fn malformed(body: &[u8]) -> Met {
    let has = |flag: u8| body[0] & flag != 0;
    let place = if has(AFI_FLAG) { 3 } else { 2 };
    let bits = body.get(place).copied();
    let mask = body.len().saturating_sub(place + 1);
    let needed = usize::from(bits.unwrap_or(0)).div_ceil(8);
    if body[1] != COMMAND {
        OtherCommand
    } else if has(EXTENSION) {
        Flag08
    } else if has(OPTION) {
        Flag40
    } else if has(RESERVED) {
        Flag80
    } else if bits.is_none() {
        NoMaskLength
    } else if bits > Some(MOST_BITS) {
        MaskOver64
    } else if mask < needed {
        MaskShort
    } else if mask > needed {
        MaskLong
    } else {
        MaskOver60OfSixteen
    }
}

/// 00h, X0h, 0Yh or XYh.
#[derive(Clone, Copy, PartialEq, Eq, PartialOrd, Ord, Debug)]
pub enum AfiKind {
    Zero,
    Family,
    Low,
    Both,
}

pub fn afi_kind(afi: u8) -> AfiKind {
    match (afi >> 4, afi & 0x0F) {
        (0, 0) => AfiKind::Zero,
        (_, 0) => AfiKind::Family,
        (0, _) => AfiKind::Low,
        _ => AfiKind::Both,
    }
}

/// What is asked, what the tag has, and whether it is asked.
type AfiMet = (AfiKind, AfiKind, bool);

/// All that two AFIs can be to each other.
pub fn afis() -> BTreeSet<AfiMet> {
    let mut all = BTreeSet::new();
    for asked in 0..=255 {
        for afi in 0..=255 {
            all.insert((afi_kind(asked), afi_kind(afi), afi_asked(asked, afi)));
        }
    }
    all
}

/// How often each was met; what AFIs were asked of tags that the mask asked for, and the DSFIDs that were answered.
#[derive(Default)]
pub struct Meetings {
    met: BTreeMap<Met, u64>,
    afis: BTreeMap<AfiMet, u64>,
    dsfids: BTreeSet<u8>,
}

impl Meetings {
    /// A signal that a tag gets.
    pub fn add(&mut self, tag: &Tag, signal: Signal) {
        let Some(met) = met(tag, signal) else {
            return;
        };
        *self.met.entry(met).or_default() += 1;
        if matches!(met, SlotZero | OneSlot | EndAnswered) {
            self.dsfids.insert(tag.registers.dsfid);
        }
        if matches!(met, OtherAfi | Padding | SetsCount | SlotZero | OneSlot) {
            self.add_afi(tag, signal.frame);
        }
    }

    /// The same of a script's line.
    pub fn add_line(&mut self, tag: &Tag, line: &[u8]) {
        let mut room = [0; LONGEST_FRAME];
        // The inventory flag is in the second digit of a frame's flags.
        if let b"E" | [b'R', b'\t', _, b'4'..=b'7' | b'C'..=b'F', ..] = line {
            if let Some(signal) = read_line(line, &mut room) {
                self.add(tag, signal);
            }
        }
    }

    /// Of a well-formed frame with a CRC.
    fn add_afi(&mut self, tag: &Tag, frame: &[u8]) {
        let request = Inventory::read(&frame[..frame.len() - 2]);
        let request = request.filter(|request| request.asks_uid(&tag.uid));
        if let Some(asked) = request.and_then(|request| request.afi) {
            let afi = tag.registers.afi;
            let kind = (afi_kind(asked), afi_kind(afi), afi_asked(asked, afi));
            *self.afis.entry(kind).or_default() += 1;
        }
    }

    pub fn print(&self, out: &mut impl Write) -> Result<()> {
        let (frames, ends): (Vec<_>, _) = self.met.iter().partition(|(&met, _)| met < EndFieldOff);
        writeln!(out, "  inventory frames: {}", in_words(frames))?;
        writeln!(out, "  ends-of-frame: {}", in_words(ends))
    }

    /// For runs whose tags have AFIs and DSFIDs of all kinds.
    pub fn print_registers(&self, out: &mut impl Write) -> Result<()> {
        writeln!(
            out,
            "  AFI asked, the tag's, asked it: {}",
            in_words(self.afis.iter().collect())
        )?;
        writeln!(out, "  {} different DSFIDs answered", self.dsfids.len())
    }

    /// Says which possible ones were never met; true if there is none.
    pub fn complete(&self, out: &mut impl Write, possible: fn(Met) -> bool) -> Result<bool> {
        let never = |&met: &Met| possible(met) && !self.met.contains_key(&met);
        let never: Vec<Met> = ALL.into_iter().filter(never).collect();
        for met in &never {
            writeln!(out, "never compared: {met:?}")?;
        }
        Ok(never.is_empty())
    }

    /// The same of AFIs and DSFIDs.
    pub fn complete_registers(&self, out: &mut impl Write) -> Result<bool> {
        let never: Vec<AfiMet> = afis()
            .into_iter()
            .filter(|kind| !self.afis.contains_key(kind))
            .collect();
        for kind in &never {
            writeln!(out, "never compared: AFI {kind:?}")?;
        }
        let dsfids: BTreeSet<AfiKind> = self.dsfids.iter().map(|&dsfid| afi_kind(dsfid)).collect();
        if dsfids.len() < 4 {
            writeln!(out, "never compared: a DSFID that is none of {dsfids:?}")?;
        }
        Ok(never.is_empty() && dsfids.len() == 4)
    }
}

fn in_words<K: Debug>(counts: Vec<(&K, &u64)>) -> String {
    let words = counts
        .iter()
        .map(|(kind, count)| format!("{kind:?} {count}"));
    words.collect::<Vec<_>>().join(", ")
}
