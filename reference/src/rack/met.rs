//! What the calls of a rack's run came to, and what none of them did.

use std::collections::BTreeMap;
use std::io::{Result, Write};

use super::{Report, MOST_TAGS};
use crate::crc::crc;
use crate::inventory::{Inventory, LAST_SLOT};
use crate::met::Meetings;
use crate::model::{Answer, Refusal, Signal};
use crate::radio::INVENTORY;
use crate::tag::Tag;

/// So many lines or calls come to all that is possible: a script has one rack.
pub const ENOUGH: u64 = 1_000_000;

/// What a call can come to.
#[derive(Clone, Copy, PartialEq, Eq, PartialOrd, Ord, Debug)]
pub enum Came {
    /// A call to a rack of so many tags was taken.
    Tags(usize),
    /// So many tags replied to a frame or an end-of-frame.
    Replied(usize),
    /// This tag's reply was in the buffer.
    Lowest(usize),
    /// A higher-numbered tag had a longer reply.
    LongerBehind,
    /// Of a wire signal: another tag had a transfer open.
    WireBesideTransfer,
    /// Of a frame that was replied to: another tag had a transfer open.
    ReplyBesideTransfer,
    Refused(u8),
    Searched(Sent, Option<u8>),
}

impl Came {
    /// The line of a report that it stands in, and its word there.
    fn words(self) -> (&'static str, String) {
        match self {
            Came::Tags(count) => ("tags", count.to_string()),
            Came::Replied(count) => ("tags that replied", count.to_string()),
            Came::Lowest(tag) => ("lowest tag that replied", tag.to_string()),
            Came::Refused(number) => ("refusals", number.to_string()),
            Came::Searched(sent, Some(slot)) => ("searches", format!("{sent:?} slot {slot}")),
            Came::Searched(sent, None) => ("searches", format!("{sent:?} none")),
            came => ("beside others", format!("{came:?}")),
        }
    }
}

/// What a search sends.
#[derive(Clone, Copy, PartialEq, Eq, PartialOrd, Ord, Debug)]
pub enum Sent {
    Sixteen,
    OneSlot,
    Malformed,
    /// Well-formed for sixteen slots, the CRC apart.
    SixteenBadCrc,
    /// No inventory frame, or another with a wrong CRC.
    Other,
}

pub fn sent(frame: &[u8]) -> Sent {
    let (body, check) = frame.split_at(frame.len().saturating_sub(2));
    let right = check == crc(body).to_le_bytes();
    let flagged = body.first().is_some_and(|flags| flags & INVENTORY != 0);
    match Inventory::read(body) {
        Some(request) if request.sixteen_slots && right => Sent::Sixteen,
        Some(request) if request.sixteen_slots => Sent::SixteenBadCrc,
        Some(_) if right => Sent::OneSlot,
        None if right && flagged => Sent::Malformed,
        _ => Sent::Other,
    }
}

/// All that a run can come to; the bench puts the right CRC behind each frame, and hands in what fits.
pub fn all(in_scripts: bool) -> Vec<Came> {
    let mut all = vec![
        Came::LongerBehind,
        Came::WireBesideTransfer,
        Came::ReplyBesideTransfer,
        Came::Searched(Sent::Malformed, None),
    ];
    all.extend((1..=MOST_TAGS).map(Came::Tags));
    all.extend((0..=MOST_TAGS).map(Came::Replied));
    all.extend((0..MOST_TAGS).map(Came::Lowest));
    for sent in [Sent::Sixteen, Sent::OneSlot, Sent::Other] {
        let last = if sent == Sent::Sixteen { LAST_SLOT } else { 0 };
        all.push(Came::Searched(sent, None));
        all.extend((0..=last).map(|slot| Came::Searched(sent, Some(slot))));
    }
    let refusals: &[u8] = if in_scripts {
        &[5, 6, 7]
    } else {
        all.push(Came::Searched(Sent::SixteenBadCrc, None));
        &[1, 2, 3, 4, 5, 6, 7, 13]
    };
    all.extend(refusals.iter().map(|&number| Came::Refused(number)));
    all
}

#[derive(Default)]
pub struct RackMeetings {
    /// What frames and ends-of-frame met at each tag.
    pub tags: Meetings,
    came: BTreeMap<Came, u64>,
}

impl RackMeetings {
    fn note(&mut self, came: Came) {
        *self.came.entry(came).or_default() += 1;
    }

    /// A call that was taken, with the tags as they were before it.
    pub fn add(&mut self, tags: &[Tag], to: usize, signal: Signal, report: &Report) {
        self.note(Came::Tags(tags.len()));
        let open = |tag: usize| tags[tag].bus.transfer_open();
        if !super::goes_to_all(signal.code) {
            if (0..tags.len()).any(|tag| tag != to && open(tag)) {
                self.note(Came::WireBesideTransfer);
            }
            return;
        }
        if report.answer == Answer::None {
            return; // the field's
        }
        for tag in tags {
            self.tags.add(tag, signal);
        }
        self.note(Came::Replied(report.replies.len()));
        let Some(&(lowest, length)) = report.replies.first() else {
            return;
        };
        self.note(Came::Lowest(lowest));
        if report.replies.iter().any(|&(_, other)| other > length) {
            self.note(Came::LongerBehind);
        }
        if report.answered().any(|tag| !open(tag)) && (0..tags.len()).any(open) {
            self.note(Came::ReplyBesideTransfer);
        }
    }

    pub fn add_search(&mut self, frame: &[u8], slot: Option<u8>) {
        self.note(Came::Searched(sent(frame), slot));
    }

    pub fn add_refusal(&mut self, number: u8) {
        self.note(Came::Refused(number));
    }

    pub fn print(&self, out: &mut impl Write) -> Result<()> {
        self.tags.print(out)?;
        let mut lines: BTreeMap<&str, Vec<String>> = BTreeMap::new();
        for (&came, count) in &self.came {
            let (line, word) = came.words();
            let words = lines.entry(line).or_default();
            words.push(format!("{word} {count}"));
        }
        for (line, words) in lines {
            writeln!(out, "  {line}: {}", words.join(", "))?;
        }
        Ok(())
    }

    /// Says which of `all` never came; true if there is none.
    pub fn complete(&self, out: &mut impl Write, all: &[Came]) -> Result<bool> {
        let never = all.iter().filter(|came| !self.came.contains_key(came));
        let never: Vec<_> = never.collect();
        for came in &never {
            writeln!(out, "never compared: {came:?}")?;
        }
        Ok(never.is_empty())
    }
}

/// The number of a refusal of the rack.
pub fn refusal(answer: &[u8]) -> Option<u8> {
    let refusals = [Refusal::RackSize, Refusal::NoSuchTag, Refusal::EqualUids];
    let numbers = refusals.map(|refusal| refusal as u8);
    let text = std::str::from_utf8(answer.strip_prefix(b"!")?).ok()?;
    text.parse().ok().filter(|number| numbers.contains(number))
}
