//! The scripts of the differential run, and the cutting of one that differs.

use std::collections::BTreeSet;

use reference::bench::{self, read_line, Bench, LONGEST_FRAME};
use reference::cut::cut;
use reference::inventory::{Inventory, ONE_SLOT};
use reference::met::{in_scripts, Meetings};
use reference::model;
use reference::radio::INVENTORY;
use reference::script::{script, text, Line};
use reference::tag::*;

fn answers(lines: &[Line], ended: bool) -> Vec<String> {
    let mut output = Vec::new();
    bench::run(&text(lines, ended)[..], &mut output).unwrap();
    let output = String::from_utf8(output).unwrap();
    let answer = |line: &str| line.split_once('\t').unwrap().1.to_string();
    output.lines().map(answer).collect()
}

#[test]
fn a_seed_gives_one_script() {
    assert_eq!(script(7, 500).lines, script(7, 500).lines);
    assert_ne!(script(7, 500).lines, script(8, 500).lines);
    assert_eq!(script(7, 500).lines.len(), 500);
    assert!(script(7, 0).lines.is_empty());
}

/// Every outcome that a row of 01 can have comes up in a few seeds.
#[test]
fn scripts_reach_every_row() {
    let rows = [
        ("02", "-"),
        ("20", "00 02 03 0F 10 15 -"),
        ("21", "00 02 03 0F 10 12 -"),
        ("22", "00 02 03 0F 10 11 -"),
        ("23", "00 02 03 0F 10 15 -"),
        ("24", "00 02 03 0F 10 12 -"),
        ("25", "00 02 03 0F -"),
        ("26", "00 02 03 0F -"),
        ("2C", "00 02 03 0F 10 -"),
        ("A0", "00 02 03 0F 10 -"),
        ("A1", "00 02 03 0F 10 12 -"),
        ("AA", "00 02 03 0F -"),
        ("AB", "00 02 03 0F -"),
        ("AC", "00 02 03 0F -"),
        ("AD", "00 02 03 0F 10 -"),
        ("AE", "00 02 03 0F 10 -"),
        ("B1", "00 02 03 0F 10 12 -"),
        ("B3", "00 02 03 0F 10 -"),
        ("2B", "01 0F -"),
    ];
    let mut reached = BTreeSet::new();
    for seed in 1..=60 {
        let script = script(seed, 2000);
        let answers = answers(&script.lines, script.ended);
        for (line, answer) in script.lines.iter().zip(answers) {
            if line.starts_with(b"R\t") && line.len() >= 6 {
                let command = String::from_utf8_lossy(&line[4..6]).into_owned();
                let outcome = match answer.strip_prefix("01") {
                    Some(code) => code,
                    None => answer.get(..2).unwrap_or(&answer),
                };
                reached.insert((command, outcome.to_string()));
            }
        }
    }
    for (command, outcomes) in rows {
        for outcome in outcomes.split(' ') {
            let row = (command.to_string(), outcome.to_string());
            assert!(reached.contains(&row), "{row:?}");
        }
    }
}

/// The register of the dynamic leg under way, and whether a second byte has spoiled it.
fn dynamic_leg(tag: &Tag) -> Option<(u16, bool)> {
    match tag.bus {
        Bus::Data {
            space: Space::User,
            count: 1,
            spoiled,
        } => {
            let register = tag.counter.wrapping_sub(1);
            let dynamic = [RF_MNGT_DYN, MB_CTRL_DYN].contains(&register);
            dynamic.then_some((register, spoiled))
        }
        _ => None,
    }
}

/// What comes after the Start, once that is known.
fn next_leg(before: &Tag, line: &[u8], after: &Tag) -> Option<&'static str> {
    match (line, after.bus) {
        (b"P", _) => Some("Stop"),
        (b"V\t0", _) => Some("VCC off"),
        (_, Bus::Idle) => Some("select not Acked"),
        (_, Bus::Read { space, .. }) => Some(match space {
            Space::User => "user read",
            Space::System => "system read",
        }),
        (_, Bus::Data { space, .. }) if before.bus != after.bus => match (space, after.counter) {
            (Space::System, PASSWORD_PLACE) => Some("password"),
            (Space::System, _) => Some("system"),
            (_, MAILBOX_FIRST) => Some("mailbox"),
            (_, RF_MNGT_DYN) => Some("RF_MNGT_Dyn"),
            (_, MB_CTRL_DYN) => Some("MB_CTRL_Dyn"),
            (_, 0..=0x01FF) => Some("memory"),
            _ => Some("nothing"),
        },
        _ => None,
    }
}

/// Each dynamic register in a leg that a Start ends, spoiled and not, before each kind of leg. MB_EN before and after
/// it. Frames in the transfer before the Start, after it and after the next select, the kept value and the register
/// having each of their values.
#[test]
fn scripts_reach_legs_ended_by_a_start() {
    let (mut legs, mut enables) = (BTreeSet::new(), BTreeSet::new());
    let (mut frames, mut openings) = (BTreeSet::new(), BTreeSet::new());
    for seed in 1..=200 {
        let mut bench = Bench::fresh();
        // The leg that the last Start ended, until it is known what comes next; whether one was in this transfer;
        // RF_MNGT_Dyn at the last Start.
        let (mut ended, mut changed, mut at_start) = (None, false, 0);
        for line in script(seed, 2000).lines {
            let before = bench.tag.clone();
            bench.answer(Some(&line), &mut Vec::new()).unwrap();
            let after = &bench.tag;
            if line.starts_with(b"R\t") {
                let place = match before.bus {
                    _ if dynamic_leg(&before).is_some() => "in the leg",
                    Bus::Started { .. } if changed => "after the Start",
                    _ if changed => "after the select",
                    _ => "",
                };
                frames.insert((place, after.kept_rf_mngt_dyn, after.rf_mngt_dyn));
            } else if line == b"S" {
                ended = dynamic_leg(&before);
                if let Some(leg) = ended {
                    enables.insert((leg, before.mailbox.enabled(), after.mailbox.enabled()));
                    changed = true;
                }
                at_start = after.rf_mngt_dyn;
            } else if let (Some(leg), Some(next)) = (ended, next_leg(&before, &line, after)) {
                legs.insert((leg, next));
                ended = None;
            }
            if after.bus.transfer_open() && !before.bus.transfer_open() {
                openings.insert((at_start, after.kept_rf_mngt_dyn));
            }
            changed &= after.bus.transfer_open();
        }
    }
    let kinds = [
        "Stop",
        "VCC off",
        "select not Acked",
        "user read",
        "system read",
        "password",
        "system",
        "mailbox",
        "RF_MNGT_Dyn",
        "MB_CTRL_Dyn",
        "memory",
    ];
    for register in [RF_MNGT_DYN, MB_CTRL_DYN] {
        for spoiled in [false, true] {
            for next in kinds {
                let leg = ((register, spoiled), next);
                assert!(legs.contains(&leg), "{leg:x?}");
            }
        }
    }
    for change in [(false, true), (true, false), (false, false), (true, true)] {
        let enable = ((MB_CTRL_DYN, false), change.0, change.1);
        assert!(enables.contains(&enable), "{enable:x?}");
    }
    for kept in 0..4 {
        for now in 0..4 {
            for place in ["in the leg", "after the Start", "after the select"] {
                let frame = (place, kept, now);
                assert!(frames.contains(&frame), "{frame:?}");
            }
        }
    }
    // RF_MNGT written by radio between the Start and the select that opens the transfer.
    assert!(openings.contains(&(0, 1)) && openings.contains(&(0, 2)));
}

/// All that an inventory frame or an end-of-frame can meet in a script.
#[test]
fn scripts_reach_all_that_slots_meet() {
    let mut meetings = Meetings::default();
    for seed in 1..=60 {
        let mut bench = Bench::fresh();
        for line in script(seed, 2000).lines {
            meetings.add_line(&bench.tag, &line);
            bench.answer(Some(&line), &mut Vec::new()).unwrap();
        }
    }
    let mut said = Vec::new();
    let complete = meetings.complete(&mut said, in_scripts).unwrap();
    assert!(complete, "{}", String::from_utf8_lossy(&said));
}

/// Masks of each length, and those that are too long by little, with a frame that is right but for that.
#[test]
fn scripts_reach_every_mask() {
    let (mut right, mut over) = (BTreeSet::new(), BTreeSet::new());
    for seed in 1..=200 {
        for line in script(seed, 2000).lines {
            let mut room = [0; LONGEST_FRAME];
            let signal = read_line(&line, &mut room).filter(|signal| signal.code == model::FRAME);
            let Some(signal) = signal.filter(|signal| signal.frame[0] & INVENTORY != 0) else {
                continue;
            };
            let body = &signal.frame[..signal.frame.len() - 2];
            let one_slot = body[0] & ONE_SLOT != 0;
            match Inventory::read(body) {
                Some(request) => right.insert((one_slot, request.bits)),
                None => over.insert((one_slot, body.get(2).copied().unwrap_or(0))),
            };
        }
    }
    for (one_slot, most) in [(true, 64), (false, 60)] {
        assert!((0..=most).all(|bits| right.contains(&(one_slot, bits))));
        assert!((most + 1..most + 3).all(|bits| over.contains(&(one_slot, bits))));
    }
    assert!(over.contains(&(false, 64)) && over.contains(&(false, 65)));
}

/// A program that goes wrong at the second P after a D, told from one that does not.
#[test]
fn cut_leaves_only_what_is_needed() {
    let lines = script(3, 2000).lines;
    let mut differs = |lines: &[Line]| {
        let first = lines.iter().position(|line| line == b"D")?;
        let mut stops = (first..lines.len()).filter(|&place| lines[place] == b"P");
        stops.nth(1)
    };
    let short = cut(&lines, &mut differs);
    assert_eq!(short, [b"D", b"P", b"P"]);
    let mut never = |_: &[Line]| None;
    assert_eq!(cut(&lines, &mut never), lines);
}
