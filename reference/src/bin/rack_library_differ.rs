//! Runs seeded rack calls on the proved library and on the reference, and compares the answer, the tags that answered
//! and every lent byte.
//!
//!     rack_library_differ FIRST_SEED COUNT [LINES]
//!
//! The calls are those of the seed's rack script, its searches among them, on tags of any AFI and DSFID; between them
//! calls with other states, memories, buffers, numbers of tags, names, codes, values or frames, or with two faults and
//! more at once. A difference is printed whole and ends the run with 1. So does something that a call can come to and
//! that none came to, or two faults that never were in one call, if there were calls enough.

use std::collections::BTreeMap;
use std::io::{stdout, Result};
use std::process::exit;

use reference::bench::LONGEST_FRAME;
use reference::crc::crc_bytes;
use reference::dice::Dice;
use reference::rack::bench::{read, Line};
use reference::rack::faults::{self, Call, Fault, Lent, OF_SEARCH, OF_STEP};
use reference::rack::met::{all, RackMeetings, ENOUGH};
use reference::rack::script::rack_script;
use reference::rack::{self, library, Rack};
use reference::state::{self, at, STATE_SIZE};
use reference::tag::{MEMORY_SIZE, REPLY_SIZE};

const LINES: usize = 2000;

/// The answers by kind, the calls that had both of two faults, and what calls came to.
#[derive(Default)]
struct Tally {
    kinds: BTreeMap<String, u64>,
    pairs: BTreeMap<(bool, u32, u32), u64>,
    meetings: RackMeetings,
}

impl Tally {
    fn add(&mut self, before: &Lent, call: &Call, answer: u32, faults: &[Fault]) {
        let name = if call.search { "search " } else { "" };
        let kind = format!("{name}{}", kind(answer));
        *self.kinds.entry(kind).or_default() += 1;
        for (place, one) in faults.iter().enumerate() {
            for two in &faults[place + 1..] {
                let pair = (call.search, one.number(), two.number());
                *self.pairs.entry(pair).or_default() += 1;
            }
        }
        match answer {
            0..=0xFF => self.meetings.add_refusal(answer as u8),
            _ if call.search => {
                let slot = answer.checked_sub(rack::calls::SLOT);
                let slot = slot.map(|slot| slot as u8);
                self.meetings.add_search(&call.frame, slot);
            }
            _ => self.add_taken(before, call),
        }
    }

    /// The model's report tells more than the answer's numbers.
    fn add_taken(&mut self, before: &Lent, call: &Call) {
        let (mut memory, mut reply) = (before.memory.clone(), before.reply.clone());
        let (Some(tags), to) = (before.tags(), call.to as usize) else {
            return;
        };
        let signal = state::signal(call.code, call.value, &call.frame);
        let mut rack = Rack {
            tags: &mut tags.clone(),
            memory: &mut memory,
            reply: &mut reply,
        };
        if let Ok(report) = rack::step(&mut rack, to, signal) {
            self.meetings.add(&tags, to, signal, &report);
        }
    }

    fn calls(&self) -> u64 {
        self.kinds.values().sum()
    }

    /// True if nothing is missing, or the calls were too few for all.
    fn print(&self) -> Result<bool> {
        let kinds = self.kinds.iter().map(|(k, n)| format!("{k} {n}"));
        println!("  {}", kinds.collect::<Vec<_>>().join(", "));
        for (search, name) in [(false, "faults at once"), (true, "of a search")] {
            let pairs = self.pairs.iter().filter(|((of, ..), _)| *of == search);
            let pairs = pairs.map(|((_, one, two), n)| format!("{one} and {two} {n}"));
            println!("  {name}: {}", pairs.collect::<Vec<_>>().join(", "));
        }
        let mut out = stdout().lock();
        self.meetings.print(&mut out)?;
        self.meetings.tags.print_registers(&mut out)?;
        if self.calls() < ENOUGH {
            return Ok(true);
        }
        let pairs = self.pairs.len() == pairs_of(&OF_STEP) + pairs_of(&OF_SEARCH);
        if !pairs {
            println!("never compared: some two faults at once");
        }
        Ok(pairs
            & self.meetings.complete(&mut out, &all(false))?
            & self.meetings.tags.complete(&mut out, |_| true)?
            & self.meetings.tags.complete_registers(&mut out)?)
    }
}

fn pairs_of(faults: &[Fault]) -> usize {
    faults.len() * (faults.len() - 1) / 2
}

fn kind(answer: u32) -> String {
    match answer {
        0..=0xFF => format!("refusal {answer}"),
        0x200..=0x2FF => "byte".to_string(),
        0x400..=0x40F => "slot".to_string(),
        0x1000.. => "reply".to_string(),
        _ => format!("{answer:#X}"),
    }
}

fn hex(bytes: &[u8]) -> String {
    bytes.iter().map(|byte| format!("{byte:02X}")).collect()
}

fn library_call(lent: &mut Lent, call: &Call) -> (u32, u32) {
    let signal = (call.code, call.value, &call.frame[..]);
    match call.search {
        true => (
            library::rack_search(lent.slices(), call.tags, &call.frame),
            0,
        ),
        false => library::rack_step(lent.slices(), call.tags, call.to, signal),
    }
}

/// One call on both: the answer and what is lent after it; nothing where they differ.
fn both(before: &Lent, call: &Call) -> Option<(u32, Lent)> {
    let (mut one, mut two) = (before.clone(), before.clone());
    let (a, b) = (library_call(&mut one, call), faults::call(&mut two, call));
    if a == b && one == two {
        return Some((a.0, one));
    }
    let name = if call.search { "search" } else { "step" };
    let Call {
        tags,
        to,
        code,
        value,
        ..
    } = call;
    println!("{name} of {tags} tags, to {to:#X}, code {code:#X} value {value:#X}");
    println!("frame {}", hex(&call.frame));
    println!("library answers {a:#X?}, reference {b:#X?}");
    print_parts(
        "state",
        STATE_SIZE,
        [&before.states, &one.states, &two.states],
    );
    print_parts(
        "memory",
        MEMORY_SIZE,
        [&before.memory, &one.memory, &two.memory],
    );
    print_parts("reply", REPLY_SIZE, [&before.reply, &one.reply, &two.reply]);
    None
}

/// The parts that differ between the three, or all states, since the call depends on them.
fn print_parts(name: &str, each: usize, [before, one, two]: [&[u8]; 3]) {
    for (place, part) in before.chunks(each).enumerate() {
        let end = each * place + part.len();
        let [one, two] = [one, two].map(|bytes| bytes.get(each * place..end).unwrap_or(&[]));
        if name != "state" && part == one && part == two {
            continue;
        }
        println!("{name} {place} before:    {}", hex(part));
        println!("{name} {place} library:   {}", hex(one));
        println!("{name} {place} reference: {}", hex(two));
    }
}

/// The call with something changed, or with two faults and more; what to go on from.
fn wrong_call(dice: &mut Dice, lent: &Lent, call: &Call, tally: &mut Tally) -> Option<Lent> {
    let (mut other, mut call) = (lent.clone(), call.clone());
    if dice.one_in(3) {
        call.search = !call.search && !call.frame.is_empty();
    }
    let mut faults = Vec::new();
    if dice.one_in(3) {
        let possible: &[Fault] = if call.search { &OF_SEARCH } else { &OF_STEP };
        faults = faults::chosen(possible, dice.below(1 << possible.len()));
        faults::make_all(dice, &faults, &mut other, &mut call);
    } else {
        faults::change(dice, &mut other, &mut call);
    }
    let (answer, after) = both(&other, &call)?;
    tally.add(&other, &call, answer, &faults);
    let fits = after.states.len() == lent.states.len() && after.reply.len() == REPLY_SIZE;
    let taken = answer >= 0x100 && fits && dice.one_in(2);
    Some(if taken { after } else { lent.clone() })
}

/// AFIs of each of the four kinds, and any DSFIDs.
fn set_registers(dice: &mut Dice, lent: &mut Lent) {
    let family = dice.byte();
    for state in lent.states.chunks_exact_mut(STATE_SIZE) {
        let any = dice.byte();
        state[at::AFI] = dice.pick(&[0x00, family, family & 0xF0, family & 0x0F, any]);
        state[at::DSFID] = dice.byte();
    }
}

/// The call of a line; at times its frame asks by an AFI of a tag, or has a wrong CRC.
fn call_of(dice: &mut Dice, line: &[u8], to: &mut u8, lent: &Lent) -> Option<Call> {
    let mut room = [0; LONGEST_FRAME];
    let (search, code, value, frame) = match read(line, &mut room)? {
        Line::Add(_) => return None,
        Line::Name(tag) => {
            *to = tag;
            return None;
        }
        Line::Search(frame) => (true, 8, 0, frame),
        Line::Signal(signal) => {
            let (code, value) = (u32::from(signal.code), u32::from(signal.value));
            (false, code + 1, value, signal.frame)
        }
    };
    let mut frame = frame.to_vec();
    if frame.first().is_some_and(|flags| flags & 0x04 != 0) {
        ask_by_afi(dice, &mut frame, lent);
    }
    Some(Call {
        search,
        tags: (lent.states.len() / STATE_SIZE) as u32,
        to: u32::from(*to),
        code,
        value,
        frame,
    })
}

fn ask_by_afi(dice: &mut Dice, frame: &mut Vec<u8>, lent: &Lent) {
    let place = STATE_SIZE * dice.below(lent.states.len() / STATE_SIZE) + at::AFI;
    if frame.len() > 4 && dice.one_in(2) {
        let afi = reference::asks::other_afi(dice, lent.states[place]);
        match frame[0] & 0x10 {
            0 => frame.insert(2, afi),
            _ => frame[2] = afi,
        }
        frame[0] |= 0x10;
        let body = frame.len() - 2;
        let check = crc_bytes(&frame[..body]);
        frame[body..].copy_from_slice(&check);
    }
    if dice.one_in(16) {
        let body = frame.len() - 1 - dice.below(2);
        frame[body] ^= 1 << dice.below(8);
    }
}

/// Nothing where the seed shows a difference.
fn run(seed: u64, size: usize, tally: &mut Tally) -> Option<()> {
    let mut dice = Dice::new(!seed);
    let lines = rack_script(seed, size).lines;
    let mut room = [0; LONGEST_FRAME];
    let uids = lines.iter().map_while(|line| match read(line, &mut room) {
        Some(Line::Add(uid)) => Some(uid),
        _ => None,
    });
    let mut uids: Vec<[u8; 8]> = uids.take(rack::MOST_TAGS).collect();
    uids.dedup();
    if uids.is_empty() {
        uids = rack::script::uids(&mut dice, 2);
    }
    let (mut lent, mut to) = (Lent::fresh(&uids), 0);
    for line in lines {
        if dice.one_in(100) {
            set_registers(&mut dice, &mut lent);
        }
        let Some(call) = call_of(&mut dice, &line, &mut to, &lent) else {
            continue;
        };
        let (answer, after) = both(&lent, &call)?;
        tally.add(&lent, &call, answer, &[]);
        lent = after;
        if dice.one_in(3) {
            lent = wrong_call(&mut dice, &lent, &call, tally)?;
        }
    }
    Some(())
}

fn main() {
    let numbers: Vec<u64> = std::env::args()
        .skip(1)
        .filter_map(|word| word.parse().ok())
        .collect();
    let (first, count, size) = match numbers[..] {
        [first, count] => (first, count, LINES),
        [first, count, size] => (first, count, size as usize),
        _ => {
            eprintln!("rack_library_differ FIRST_SEED COUNT [LINES]");
            exit(2);
        }
    };
    let mut tally = Tally::default();
    for seed in first..first.saturating_add(count) {
        if run(seed, size, &mut tally).is_none() {
            println!("seed {seed} differs");
            exit(1);
        }
    }
    let calls = tally.calls();
    println!("{count} seeds from {first}: {calls} calls, no difference");
    match tally.print() {
        Ok(true) => {}
        Ok(false) => exit(1),
        Err(error) => {
            eprintln!("rack_library_differ: {error}");
            exit(2);
        }
    }
}
