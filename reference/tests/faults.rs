//! Calls with several faults at once: the first in order is the answer, and nothing changes.

use std::collections::BTreeSet;

use reference::bench::UID;
use reference::dice::Dice;
use reference::explain::Rule;
use reference::faults::{
    change, chosen, count, kept, make, several, Call, Count, Kept, Lent, OF_FRESH, OF_STEP,
};
use reference::state::{self, at, STATE_SIZE};
use reference::tag::{MEMORY_SIZE, REPLY_SIZE};

fn right() -> (Lent, Call) {
    let mut lent = Lent {
        state: vec![0; STATE_SIZE],
        memory: vec![0; MEMORY_SIZE],
        reply: vec![0xEE; REPLY_SIZE],
    };
    assert_eq!(state::fresh(&UID, &mut lent.memory, &mut lent.state), 0x100);
    let call = Call {
        code: 4,
        value: 0xA6,
        frame: Vec::new(),
    };
    (lent, call)
}

fn step(lent: &mut Lent, call: &Call) -> u32 {
    let Lent {
        state,
        memory,
        reply,
    } = lent;
    state::step(state, memory, reply, call.code, call.value, &call.frame)
}

fn explain(lent: &Lent, call: &Call) -> u32 {
    let (s, m, r) = (&lent.state, &lent.memory, &lent.reply);
    state::explain(s, m, r, call.code, call.value, &call.frame)
}

#[test]
fn the_first_fault_is_the_answer() {
    let mut dice = Dice::new(1);
    let (mut lent, call) = right();
    assert_eq!(explain(&lent, &call), 0x100 + Rule::NoVcc.number());
    assert_eq!(step(&mut lent, &call), 0x102);
    for bits in 1..1 << OF_STEP.len() {
        let faults = chosen(&OF_STEP, bits);
        for _ in 0..200 {
            let (mut lent, mut call) = right();
            for &fault in faults.iter().rev() {
                make(&mut dice, fault, &mut lent, &mut call);
            }
            let before = lent.clone();
            assert_eq!(explain(&lent, &call), faults[0].number(), "{faults:?}");
            assert_eq!(step(&mut lent, &call), faults[0].number(), "{faults:?}");
            assert!(lent == before, "{faults:?}");
        }
    }
}

#[test]
fn the_orders() {
    assert_eq!(OF_STEP.map(|fault| fault.number()), [1, 2, 3, 13, 4]);
    assert_eq!(OF_FRESH.map(|fault| fault.number()), [1, 13, 14]);
}

#[test]
fn the_first_fault_of_a_fresh_tag() {
    for bits in 1..1 << OF_FRESH.len() {
        let faults = chosen(&OF_FRESH, bits);
        let length = |place: usize, right: usize| right - (bits >> place & 1);
        let mut memory = vec![0xA5; length(0, MEMORY_SIZE)];
        let mut state = vec![0x5A; length(1, STATE_SIZE)];
        let uid = &UID[..length(2, UID.len())];
        let answer = state::fresh(uid, &mut memory, &mut state);
        assert_eq!(answer, faults[0].number(), "{faults:?}");
        assert!(memory.iter().all(|&byte| byte == 0xA5));
        assert!(state.iter().all(|&byte| byte == 0x5A));
    }
}

#[test]
fn every_pair_comes_up() {
    let mut dice = Dice::new(2);
    let mut pairs = BTreeSet::new();
    for _ in 0..100 {
        let faults = several(&mut dice);
        assert!(faults.len() > 1);
        for &one in &faults {
            pairs.extend(faults.iter().map(|&two| (one, two)));
        }
    }
    assert_eq!(pairs.len(), OF_STEP.len() * OF_STEP.len());
}

/// Changed states have another kept RF_MNGT_Dyn, in range, with undefined bits, and with no transfer open. The first
/// is taken, the others are refused.
#[test]
fn the_kept_byte_comes_up() {
    let mut dice = Dice::new(3);
    let mut reached = BTreeSet::new();
    for round in 0..20_000_u32 {
        let (mut lent, mut call) = right();
        lent.state[at::VCC] = 1;
        lent.state[at::BUS] = (round % 6) as u8;
        lent.state[at::TRANSFER_OPEN] = u8::from(round % 12 == 1);
        let before = lent.clone();
        change(&mut dice, &mut lent, &mut call);
        if lent.state.len() == STATE_SIZE
            && lent.state[at::KEPT_RF_MNGT_DYN] != before.state[at::KEPT_RF_MNGT_DYN]
        {
            let kind = kept(&lent.state);
            reached.insert((kind, lent.state[at::BUS], step(&mut lent, &call) >= 0x100));
        }
    }
    for bus in 1..6 {
        assert!(reached.contains(&(Kept::InRange, bus, true)), "{bus}");
        assert!(reached.contains(&(Kept::Undefined, bus, false)), "{bus}");
    }
    for bus in 0..2 {
        assert!(reached.contains(&(Kept::Unused, bus, false)), "{bus}");
    }
    let refused = |&(kind, _, taken): &(Kept, u8, bool)| kind == Kept::InRange || !taken;
    assert!(reached.iter().all(refused));
}

/// The same of the count of ends-of-frame: in range, above 15, out of the field, of a Quiet tag.
#[test]
fn the_slot_count_comes_up() {
    let mut dice = Dice::new(4);
    let mut reached = BTreeSet::new();
    for round in 0..40_000_u32 {
        let (mut lent, mut call) = right();
        lent.state[at::FIELD] = (round % 2) as u8;
        lent.state[at::RADIO_STATE] = (round % 3) as u8;
        let before = lent.clone();
        change(&mut dice, &mut lent, &mut call);
        if lent.state.len() == STATE_SIZE
            && lent.state[at::SLOT_COUNT] != before.state[at::SLOT_COUNT]
        {
            let kind = count(&lent.state);
            reached.insert((kind, step(&mut lent, &call) >= 0x100));
        }
    }
    for kind in [Count::Above15, Count::OutOfField, Count::Quiet] {
        assert!(reached.contains(&(kind, false)), "{kind:?}");
        assert!(!reached.contains(&(kind, true)), "{kind:?}");
    }
    assert!(reached.contains(&(Count::InRange, true)));
}
