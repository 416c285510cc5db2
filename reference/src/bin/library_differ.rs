//! Runs seeded calls on the proved library and on the reference, and compares the answer and every lent byte. Before
//! each it asks both which rule gives the call's NoAck, error or silence.
//!
//!     library_differ FIRST_SEED COUNT [LINES]
//!
//! The calls are those of the seed's script, and between them calls with another state, memory, buffer length,
//! code, value or frame, or with two faults and more at once; a changed state that is taken is often gone on from.
//! Inventories of tags of any UID, AFI and DSFID are among them, which no script has. A difference is one call with its
//! state, so it is printed whole, and ends the run with 1. So does a rule that a call can bring about and that explained
//! none, and what an inventory frame or an end-of-frame can meet and none met, if there were calls enough.

use std::collections::BTreeMap;
use std::fmt::Debug;
use std::io::{stdout, Result};
use std::process::exit;

use reference::asks;
use reference::bench::{read_line, LONGEST_FRAME, UID};
use reference::crc::crc_bytes;
use reference::dice::Dice;
use reference::faults::{
    self, change, chosen, kept, make, other_length, several, Call, Fault, Kept, Lent, OF_FRESH,
};
use reference::met::Meetings;
use reference::names::{in_calls, Names, ENOUGH};
use reference::script::script;
use reference::state::{at, STATE_SIZE};
use reference::tag::{MEMORY_SIZE, REPLY_SIZE};
use reference::{library, state};

const LINES: usize = 2000;

/// The answers by kind, the calls that had both of two faults, those with another kept RF_MNGT_Dyn or another count of
/// ends-of-frame, those that a rule explains, and what slots met.
struct Tally {
    kinds: BTreeMap<String, u64>,
    pairs: BTreeMap<(u32, u32), u64>,
    kept: BTreeMap<(Kept, String), u64>,
    counts: BTreeMap<(faults::Count, String), u64>,
    names: Names,
    meetings: Meetings,
}

impl Tally {
    fn new() -> Tally {
        Tally {
            kinds: BTreeMap::new(),
            pairs: BTreeMap::new(),
            kept: BTreeMap::new(),
            counts: BTreeMap::new(),
            names: Names::none(),
            meetings: Meetings::default(),
        }
    }

    fn add(&mut self, answer: u32, explained: u32, faults: &[Fault]) {
        *self.kinds.entry(kind(answer)).or_default() += 1;
        if explained > 0x100 {
            self.names.add(explained - 0x100);
        }
        for (place, one) in faults.iter().enumerate() {
            for two in &faults[place + 1..] {
                let pair = (one.number(), two.number());
                *self.pairs.entry(pair).or_default() += 1;
            }
        }
    }

    /// A call over a state whose kept byte or count is another.
    fn add_changed(&mut self, before: &[u8], state: &[u8], answer: u32) {
        let answer = match answer {
            0x100.. => "taken".to_string(),
            _ => kind(answer),
        };
        let other = |place: usize| state.len() == STATE_SIZE && state[place] != before[place];
        if other(at::KEPT_RF_MNGT_DYN) {
            let kind = (kept(state), answer.clone());
            *self.kept.entry(kind).or_default() += 1;
        }
        if other(at::SLOT_COUNT) {
            let kind = (faults::count(state), answer);
            *self.counts.entry(kind).or_default() += 1;
        }
    }

    /// A call that was not refused.
    fn add_meeting(&mut self, state: &[u8], call: &Call) {
        let slots = call.code == 9 || call.frame.first().is_some_and(|flags| flags & 0x04 != 0);
        let signal = state::signal(call.code, call.value, &call.frame);
        let tag = state.try_into().ok().and_then(state::decode);
        if let (true, Some(tag)) = (slots, tag) {
            self.meetings.add(&tag, signal);
        }
    }

    fn calls(&self) -> u64 {
        self.kinds.values().sum()
    }

    /// True if nothing is missing, or the calls were too few for all.
    fn print(&self) -> Result<bool> {
        let kinds = self.kinds.iter().map(|(k, n)| format!("{k} {n}"));
        println!("  {}", kinds.collect::<Vec<_>>().join(", "));
        let pairs = self.pairs.iter();
        let pairs = pairs.map(|((one, two), n)| format!("{one} and {two} {n}"));
        println!("  faults at once: {}", pairs.collect::<Vec<_>>().join(", "));
        print_changed("kept byte", &self.kept);
        print_changed("slot count", &self.counts);
        let (mut out, meetings) = (stdout().lock(), &self.meetings);
        meetings.print(&mut out)?;
        meetings.print_registers(&mut out)?;
        self.names.print(&mut out, in_calls)?;
        let complete = self.names.complete(&mut out, in_calls)?
            & meetings.complete(&mut out, |_| true)?
            & meetings.complete_registers(&mut out)?;
        Ok(complete || self.calls() < ENOUGH)
    }
}

fn print_changed<K: Debug>(name: &str, counts: &BTreeMap<(K, String), u64>) {
    let words = counts.iter();
    let words = words.map(|((kind, answer), n)| format!("{kind:?} {answer} {n}"));
    println!("  {name}: {}", words.collect::<Vec<_>>().join(", "));
}

fn kind(answer: u32) -> String {
    match answer {
        0..=0xFF => format!("refusal {answer}"),
        0x200..=0x2FF => "byte".to_string(),
        0x1000.. => "reply".to_string(),
        _ => format!("{answer:#X}"),
    }
}

fn hex(bytes: &[u8]) -> String {
    bytes.iter().map(|byte| format!("{byte:02X}")).collect()
}

fn print_bytes(name: &str, before: &[u8], one: &[u8], two: &[u8]) {
    println!("{name} before:    {}", hex(before));
    println!("{name} library:   {}", hex(one));
    println!("{name} reference: {}", hex(two));
}

/// What a call gave: its answer, what explained it before, and what is lent after it.
struct Done {
    answer: u32,
    explained: u32,
    lent: Lent,
}

/// One call on both, explained before; nothing where they differ.
fn both(before: &Lent, call: &Call) -> Option<Done> {
    let (mut one, mut two) = (before.clone(), before.clone());
    let (code, value, frame) = (call.code, call.value, &call.frame);
    let (s, m, r) = (&mut one.state, &mut one.memory, &mut one.reply);
    let a = library::explain(s, m, r, code, value, frame);
    let b = state::explain(&two.state, &two.memory, &two.reply, code, value, frame);
    if a != b || one != two {
        print_difference("explains by", (a, b), call, before, (&one, &two));
        return None;
    }
    let explained = a;
    let (s, m, r) = (&mut one.state, &mut one.memory, &mut one.reply);
    let a = library::step(s, m, r, code, value, frame);
    let (s, m, r) = (&mut two.state, &mut two.memory, &mut two.reply);
    let b = state::step(s, m, r, code, value, frame);
    if a != b || one != two {
        print_difference("answers", (a, b), call, before, (&one, &two));
        return None;
    }
    Some(Done {
        answer: a,
        explained,
        lent: one,
    })
}

fn print_difference(
    verb: &str,
    (a, b): (u32, u32),
    call: &Call,
    before: &Lent,
    (one, two): (&Lent, &Lent),
) {
    let (code, value, frame) = (call.code, call.value, hex(&call.frame));
    println!("code {code:#X} value {value:#X} frame {frame}");
    println!("library {verb} {a:#X}, reference {b:#X}");
    print_bytes("state", &before.state, &one.state, &two.state);
    print_bytes("memory", &before.memory, &one.memory, &two.memory);
    print_bytes("reply", &before.reply, &one.reply, &two.reply);
}

/// A fresh tag by both, with the faults that are named; the memory and state after it.
fn both_fresh(dice: &mut Dice, uid: &[u8], faults: &[Fault]) -> Option<(Vec<u8>, Vec<u8>)> {
    let mut length = |fault: Fault, right: usize| match faults.contains(&fault) {
        true => other_length(dice, right),
        false => right,
    };
    let (u, m, s) = (
        length(Fault::Uid, uid.len()),
        length(Fault::Memory, MEMORY_SIZE),
        length(Fault::StateLength, STATE_SIZE),
    );
    let mut uid = uid.to_vec();
    uid.resize(u, 0x33);
    let mut one = (vec![0xA5; m], vec![0x5A; s]);
    let mut two = one.clone();
    let a = library::fresh(&uid, &mut one.0, &mut one.1);
    let b = state::fresh(&uid, &mut two.0, &mut two.1);
    if a == b && one == two {
        return Some(one);
    }
    println!("fresh with a UID of {u} bytes, {m} bytes of memory, {s} of state");
    println!("library answers {a:#X}, reference {b:#X}");
    print_bytes("memory", &vec![0xA5; m], &one.0, &two.0);
    print_bytes("state", &vec![0x5A; s], &one.1, &two.1);
    None
}

/// A fresh tag of some UID with every set of faults, and the bench's.
fn fresh(dice: &mut Dice) -> Option<Lent> {
    let uid = dice.bytes(UID.len());
    for bits in 0..1 << OF_FRESH.len() {
        both_fresh(dice, &uid, &chosen(&OF_FRESH, bits))?;
    }
    let (memory, state) = both_fresh(dice, &UID, &[])?;
    Some(Lent {
        state,
        memory,
        reply: vec![0xEE; REPLY_SIZE],
    })
}

/// The call with something changed, or with two faults and more; what to go on from.
fn wrong_call(dice: &mut Dice, lent: &Lent, call: &Call, tally: &mut Tally) -> Option<Lent> {
    let (mut other, mut call) = (lent.clone(), call.clone());
    let mut faults = Vec::new();
    if dice.one_in(4) {
        faults = several(dice);
        // A state's bytes are broken before its length.
        for &fault in faults.iter().rev() {
            make(dice, fault, &mut other, &mut call);
        }
    } else {
        change(dice, &mut other, &mut call);
    }
    let done = both(&other, &call)?;
    tally.add(done.answer, done.explained, &faults);
    tally.add_changed(&lent.state, &other.state, done.answer);
    if done.answer >= 0x100 {
        tally.add_meeting(&other.state, &call);
    }
    let taken = done.answer >= 0x100 && done.lent.reply.len() == REPLY_SIZE && dice.one_in(2);
    Some(if taken { done.lent } else { lent.clone() })
}

/// One right call on both; what is lent after it.
fn right_call(lent: &Lent, call: &Call, tally: &mut Tally) -> Option<Lent> {
    let done = both(lent, call)?;
    tally.add(done.answer, done.explained, &[]);
    tally.add_meeting(&lent.state, call);
    Some(done.lent)
}

/// An AFI of each of its four kinds as often.
fn any_afi(dice: &mut Dice) -> u8 {
    let any = dice.byte();
    dice.pick(&[0x00, any & 0xF0, any & 0x0F, any])
}

/// An inventory of the tag with any UID, AFI and DSFID, its CRC wrong at times; then its slots. What to go on from has
/// the bench's UID again.
fn inventory(dice: &mut Dice, lent: &Lent, tally: &mut Tally) -> Option<Lent> {
    let mut lent = lent.clone();
    let mut uid = [0; 8];
    uid.fill_with(|| dice.byte());
    let afi = any_afi(dice);
    lent.state[at::UID..].copy_from_slice(&uid);
    (lent.state[at::AFI], lent.state[at::DSFID]) = (afi, dice.byte());
    let mut frame = asks::frame(dice, &uid, afi);
    let mut check = crc_bytes(&frame);
    if dice.one_in(8) {
        check[dice.below(2)] ^= 1 << dice.below(8);
    }
    frame.extend(check);
    let (code, value) = (8, 0);
    lent = right_call(&lent, &Call { code, value, frame }, tally)?;
    let left = lent.state[at::SLOT_COUNT];
    for _ in 0..dice.pick(&[0, left, left, left + 1]) {
        let (code, frame) = (9, Vec::new());
        lent = right_call(&lent, &Call { code, value, frame }, tally)?;
    }
    lent.state[at::UID..].copy_from_slice(&UID);
    Some(lent)
}

/// Nothing where the seed shows a difference.
fn run(seed: u64, size: usize, tally: &mut Tally) -> Option<()> {
    let mut dice = Dice::new(!seed);
    let mut lent = fresh(&mut dice)?;
    for line in script(seed, size).lines {
        let mut room = [0; LONGEST_FRAME];
        let Some(signal) = read_line(&line, &mut room) else {
            continue;
        };
        let call = Call {
            code: u32::from(signal.code) + 1,
            value: u32::from(signal.value),
            frame: signal.frame.to_vec(),
        };
        lent = right_call(&lent, &call, tally)?;
        if dice.one_in(3) {
            lent = wrong_call(&mut dice, &lent, &call, tally)?;
        }
        if dice.one_in(24) {
            lent = inventory(&mut dice, &lent, tally)?;
        }
    }
    Some(())
}

fn main() {
    let numbers: Vec<u64> = std::env::args()
        .skip(1)
        .filter_map(|word| word.parse().ok())
        .collect();
    let (first, count, size) = match numbers[..] {
        [first, count] => (first, count, LINES),
        [first, count, size] => (first, count, size as usize),
        _ => {
            eprintln!("library_differ FIRST_SEED COUNT [LINES]");
            exit(2);
        }
    };
    let mut tally = Tally::new();
    for seed in first..first.saturating_add(count) {
        if run(seed, size, &mut tally).is_none() {
            println!("seed {seed} differs");
            exit(1);
        }
    }
    let calls = tally.calls();
    println!("{count} seeds from {first}: {calls} calls, no difference");
    match tally.print() {
        Ok(true) => {}
        Ok(false) => exit(1),
        Err(error) => {
            eprintln!("library_differ: {error}");
            exit(2);
        }
    }
}
