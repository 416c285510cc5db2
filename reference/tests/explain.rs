//! 02's Ask 3: the rule that gave a NoAck, an error or silence; and that one is named exactly where the tag gave such an
//! answer.

use std::collections::BTreeSet;

use reference::bench::{self, Bench, UID};
use reference::crc::crc_bytes;
use reference::dice::Dice;
use reference::explain::{Rule, RULES};
use reference::faults::{change, Call, Lent};
use reference::names::{in_calls, in_scripts, Names};
use reference::script::{crowded_script, script, text, Script};
use reference::state::{self, at, STATE_SIZE};
use reference::tag::{MEMORY_SIZE, REPLY_SIZE};
use reference::verdict::Reason;

/// 02: "its words between 01's semicolons or the commas of Ask 2 and here, without brackets".
#[test]
fn words_and_order_are_the_papers() {
    let ask_2 = "leg spoiled, outside the map, mailbox mode on, mode off, mailbox busy, mailbox leg not from 2008h, \
        another area, locked block, area never writable, configuration locked, session needed, register read only, \
        password code, ENDA rule, page full";
    let ask_3 = "no VCC, no Start, read leg, other select byte, programming";
    let silences = "field off; RF_MNGT_Dyn b1; under 4 or over 270 bytes; bad CRC; inventory flag; both select and \
        address; 02h missing or other; UID short or, except in Select, other; select flag when not Selected; neither \
        flag when Quiet; Select or Stay Quiet not addressed";
    let errors =
        "01h 03h 02h 10h 0Fh 15h 0Fh 0Fh-2 12h 10h 11h 10h 12h 0Fh 10h 0Fh 0Fh 0Fh-2 10h 0Fh 12h";
    let mut names: Vec<&str> = ask_2.split(", ").chain(ask_3.split(", ")).collect();
    names.extend(silences.split("; "));
    names.extend(["own silence", "shut out"]);
    names.extend(errors.split(' '));
    assert_eq!(RULES.map(|(_, name)| name)[..], names);
    for (place, (rule, name)) in RULES.into_iter().enumerate() {
        assert_eq!(rule.number() as usize, place + 1);
        assert_eq!(rule.name(), name);
        if let Rule::Data(reason) = rule {
            assert_eq!(reason.words(), name);
        }
    }
}

/// Lines to a fresh tag, spaces for tabs, and their answers, a name behind a colon. "B A6 00" is a line for each byte:
/// all but the last are Acked.
fn check(entries: &[(&str, &str)]) {
    let mut bench = Bench::fresh();
    for (input, wanted) in entries {
        for (line, wanted) in lines(input, wanted) {
            let mut answer = Vec::new();
            bench.explain(Some(line.as_bytes()), &mut answer).unwrap();
            let answer = String::from_utf8(answer).unwrap();
            assert_eq!(answer.replace('\t', ": "), wanted, "{line} of {input}");
        }
    }
}

fn lines<'a>(input: &str, wanted: &'a str) -> Vec<(String, &'a str)> {
    let Some(bytes) = input.strip_prefix("B ") else {
        return vec![(input.replacen(' ', "\t", 1).replace(' ', ""), wanted)];
    };
    let bytes: Vec<&str> = bytes.split(' ').collect();
    let mut lines: Vec<_> = bytes.iter().map(|b| (format!("B\t{b}"), "A")).collect();
    lines.last_mut().unwrap().1 = wanted;
    lines
}

const VCC: (&str, &str) = ("V 1", "-");
const FIELD: (&str, &str) = ("F 1", "-");
const START: (&str, &str) = ("S", "-");
const STOP: (&str, &str) = ("P", "-");
const END: (&str, &str) = ("D", "-");

/// A whole transfer of one leg, all its bytes Acked.
fn leg(bytes: &str) -> [(&str, &str); 4] {
    [START, (bytes, "A"), STOP, END]
}

const PRESENT: &str = "B AE 09 00 00 00 00 00 00 00 00 00 09 00 00 00 00 00 00 00 00";
/// Password 0 to the radio.
const OPEN: (&str, &str) = ("R 02 B3 02 00 00 00 00 00 00 00 00 00", "00");

/// The I2C session open, and a system leg.
fn system(bytes: &str) -> Vec<(&str, &str)> {
    [leg(PRESENT), leg(bytes)].concat()
}

/// MB_MODE 1 and MB_EN 1.
fn mailbox_on() -> Vec<(&'static str, &'static str)> {
    [system("B AE 00 0D 01"), leg("B A6 20 06 01").to_vec()].concat()
}

fn powered(parts: &[&[(&str, &str)]]) {
    check(&[&[VCC, FIELD], &parts.concat()[..]].concat());
}

/// Each leg from a Start to a Stop; the last byte's answer.
fn legs<'a>(entries: &[(&'a str, &'a str)]) -> Vec<(&'a str, &'a str)> {
    let leg = |&entry| [START, entry, STOP];
    entries.iter().flat_map(leg).collect()
}

#[test]
fn bytes_that_are_no_data() {
    check(&[
        // Without VCC there is no Start either.
        ("B A6", "N: no VCC"),
        START,
        ("B A6", "N: no VCC"),
        VCC,
        ("B A6", "N: no Start"),
        START,
        ("B A4", "N: other select byte"),
        // The bus is idle after it.
        ("B A6", "N: no Start"),
        START,
        ("B A7", "A"),
        ("B A6", "N: read leg"),
        ("B A4", "N: read leg"),
        START,
        ("B A6 00 10 55", "A"),
        STOP,
        START,
        ("B A4", "N: other select byte"),
        START,
        ("B A6", "N: programming"),
        ("B A6", "N: no Start"),
        START,
        END,
        ("B A6", "A"),
        ("V 0", "-"),
        ("B 00", "N: no VCC"),
    ]);
}

#[test]
fn data_bytes_without_mailbox() {
    powered(&[&legs(&[
        ("B A6 20 08 11", "N: mode off"),
        ("B A6 20 09 11", "N: mode off"),
        ("B A6 01 FF 00 00", "N: outside the map"),
        ("B A6 20 05 00", "N: outside the map"),
        ("B A6 20 04 00", "N: register read only"),
        ("B A6 20 03 00 00", "N: register read only"),
        ("B AE 00 18 00", "N: session needed"),
        ("B AE 00 17 00", "N: outside the map"),
        ("B AE 09 00 00 00 00 00 00 00 00 00 07", "N: session needed"),
        ("B AE 09 00 00 00 00 00 00 00 00 00 08", "N: password code"),
        ("B AE 09 01 00", "N: outside the map"),
    ])]);
    powered(&[
        &leg(PRESENT),
        &legs(&[
            ("B AE 00 18 00", "N: register read only"),
            ("B AE 00 05 10", "N: ENDA rule"),
            // The leg's earlier byte counts: ENDA1 0, then ENDA2 0.
            ("B AE 00 05 00 00 00", "N: ENDA rule"),
        ]),
    ]);
    powered(&[
        &[START, (PRESENT, "A")],
        &[
            ("B 00", "N: page full"),
            ("B 00", "N: leg spoiled"),
            // A Start ends the spoiled leg.
            START,
            ("B A6 00 00 00", "A"),
        ],
    ]);
}

#[test]
fn a_spoiled_leg() {
    powered(&[
        &[START, ("B A6 01 FF 00 00", "N: outside the map")],
        &[("B 00", "N: leg spoiled"), ("B A6", "N: leg spoiled")],
        &[
            ("R 022000", "010F: shut out"),
            STOP,
            ("B 00", "N: no Start"),
        ],
    ]);
}

#[test]
fn data_bytes_with_mailbox() {
    let put = leg("B A6 20 08 41");
    powered(&[
        &mailbox_on(),
        &legs(&[
            ("B A6 20 09 11", "N: mailbox leg not from 2008h"),
            ("B A6 21 08 11", "N: outside the map"),
            ("B A6 00 20 01", "N: mailbox mode on"),
            ("B AE 00 03 01", "N: mailbox mode on"),
            ("B AE 00 18 01", "N: mailbox mode on"),
            (
                "B AE 09 00 00 00 00 00 00 00 00 00 07",
                "N: mailbox mode on",
            ),
            ("B AE 09 00 00 00 00 00 00 00 00 00 08", "N: password code"),
            ("B A6 20 07 00", "N: register read only"),
        ]),
        &put,
        &legs(&[
            ("B A6 20 08 11", "N: mailbox busy"),
            ("B A6 20 09 11", "N: mailbox busy"),
        ]),
    ]);
}

#[test]
fn areas_and_locks() {
    // ENDA1 0, I2CSS: writes of areas 1 and 2 need the session.
    let areas = [system("B AE 00 05 00"), leg("B AE 00 0B 05").to_vec()].concat();
    powered(&[
        &areas,
        &legs(&[("B A6 00 1F 00 00", "N: another area")]),
        &[("R 022200", "00")],
        &legs(&[("B A6 00 00 00", "N: locked block")]),
        &[("V 0", "-"), VCC],
        &legs(&[
            ("B A6 00 00 00", "N: locked block"),
            ("B A6 00 08 00", "N: session needed"),
            ("B A6 00 20 00", "N: session needed"),
        ]),
        // Area 1 is free again and area 2 is not: a byte there is in another area first.
        &system("B AE 00 0B 04"),
        &[("V 0", "-"), VCC],
        &legs(&[("B A6 00 1F 00 00", "N: another area")]),
    ]);
}

/// A leg of 256 zeros from an address and one more.
fn full_page(address: &str) -> String {
    format!("B A6 {address}{} 00", " 00".repeat(256))
}

#[test]
fn a_full_page() {
    let leg = full_page("00 00");
    powered(&[&legs(&[(&leg, "N: page full")])]);
    // ENDA1 7: the 257th byte is in area 2.
    let areas = system("B AE 00 05 07");
    powered(&[&areas, &legs(&[(&leg, "N: another area")])]);
    // The 257th byte is at 0200h.
    let leg = full_page("01 00");
    powered(&[&legs(&[(&leg, "N: outside the map")])]);
}

const SHORT: &str = "-: under 4 or over 270 bytes";
const UID_RULE: &str = "-: UID short or, except in Select, other";
const OWN: &str = "-: own silence";

#[test]
fn silence_before_the_flags() {
    let sleep = leg("B A6 20 03 02");
    check(&[&[VCC], &sleep[..], &[("R 02", "-: field off")]].concat());
    powered(&[&sleep, &[("R 02", "-: RF_MNGT_Dyn b1")]]);
    powered(&[&[("R 02", SHORT), ("R 04", SHORT), ("R 0220", "0102: 02h")]]);
    let over = format!("R 04{}", "00".repeat(268));
    let longest = format!("R 04{}", "00".repeat(267));
    powered(&[&[(&over, SHORT), (&longest, "-: inventory flag")]]);
}

/// RF_MNGT_Dyn as at the transfer's start decides inside it, the new one after it.
#[test]
fn sleep_inside_a_transfer() {
    powered(&[
        &[START, ("B A6 20 03 02", "A"), START],
        &[("R 022000", "010F: shut out"), ("R 0202", NOT_ADDRESSED)],
        &[STOP, ("R 022000", "-: RF_MNGT_Dyn b1")],
        &[START, ("B A6 20 03 00", "A"), START],
        &[("R 022000", "-: RF_MNGT_Dyn b1"), STOP],
        &[("R 022000", "0000000000")],
    ]);
}

const NOT_ADDRESSED: &str = "-: Select or Stay Quiet not addressed";

#[test]
fn flags_and_uid() {
    powered(&[&[
        ("R 34 01 00", "-: inventory flag"),
        ("R 04 A0 03", "-: inventory flag"),
        ("R 32 A0", "-: both select and address"),
        ("R 32 20 01", "-: both select and address"),
        ("R 02 A0", "-: 02h missing or other"),
        ("R 02 A0 03", "-: 02h missing or other"),
        ("R 02 FF 03", "-: 02h missing or other"),
        // The UID is short too.
        ("R 22 A0 03", "-: 02h missing or other"),
        ("R 22 20 01", UID_RULE),
        ("R 22 20 01 02 03 04 05 24 02 E1 00", UID_RULE),
        ("R 22 02 01 02 03 04 05 24 02 E1", UID_RULE),
        ("R 22 25 01 02 03 04 05 24 02", UID_RULE),
        ("R 22 25 01 02 03 04 05 24 02 E1", OWN),
        // Neither Selected nor addressed.
        ("R 12 20 00", "-: select flag when not Selected"),
        ("R 12 25", "-: select flag when not Selected"),
        ("R 02 25", NOT_ADDRESSED),
        // A Stay Quiet is an own silence too.
        ("R 02 02", NOT_ADDRESSED),
        ("R 22 02 01 02 03 04 05 24 02 E0", OWN),
        ("R 02 20 00", "-: neither flag when Quiet"),
        ("R 02 25", "-: neither flag when Quiet"),
        ("R 12 20 00", "-: select flag when not Selected"),
        ("R 22 25 01 02 03 04 05 24 02 E0", "00"),
        ("R 12 20 00", "0000000000"),
        ("R 12 25", NOT_ADDRESSED),
    ]]);
}

/// Reading 51: every Stay Quiet and every Select of another UID that the silence list let through.
#[test]
fn own_silence() {
    let other = "R 22 25 01 02 03 04 05 24 02 E1";
    let frames = [
        ("R 22 02 01 02 03 04 05 24 02 E0", OWN),
        ("R 22 02 01 02 03 04 05 24 02 E0 00", OWN),
        ("R 62 02 01 02 03 04 05 24 02 E0", OWN),
        ("R 2A 02 01 02 03 04 05 24 02 E0", OWN),
        (other, OWN),
        ("R 22 25 01 02 03 04 05 24 02 E1 00", OWN),
        ("R 62 25 01 02 03 04 05 24 02 E1", OWN),
    ];
    powered(&[&frames]);
    powered(&[&[START, ("B A6", "A")], &frames]);
    let errors = [
        ("R 22 25 01 02 03 04 05 24 02 E0 00", "0102: 02h"),
        ("R 62 25 01 02 03 04 05 24 02 E0", "0103: 03h"),
    ];
    powered(&[&errors]);
}

const SHUT: &str = "010F: shut out";

#[test]
fn shut_out_and_form() {
    let frames = [
        "R 02 27",
        "R 0A 20 00",
        "R 02 20",
        "R 02 20 80",
        "R 22 25 01 02 03 04 05 24 02 E0",
    ];
    let open = frames.map(|frame| (frame, SHUT));
    powered(&[&[START, ("B A6", "A")], &open]);
    // Programming, and RF_MNGT_Dyn b0.
    powered(&[
        &leg("B A6 00 00 00")[..3],
        &open,
        &[END],
        &[("R 02 20 80", "0110: 10h")],
    ]);
    powered(&[&leg("B A6 20 03 01"), &open]);
    // Started, and no transfer open.
    powered(&[&[START, ("R 02 27", "0101: 01h")]]);
    powered(&[&[
        ("R 02 27", "0101: 01h"),
        ("R 0A 27", "0101: 01h"),
        ("R 42 27", "0101: 01h"),
        ("R 02 01", "0101: 01h"),
        ("R 0A 20", "0103: 03h"),
        ("R 82 20 00", "0103: 03h"),
        ("R 42 2C 80 00", "0103: 03h"),
        ("R 02 20 80 00", "0102: 02h"),
        ("R 02 24 80 04 00", "0102: 02h"),
        ("R 02 B3 02 04", "0102: 02h"),
    ]]);
}

#[test]
fn rows_of_blocks() {
    // RFA1SS 0Ch, ENDA1 0, RFA2SS 09h: area 1 is never written, area 2 is read with password 1 alone.
    let areas = system("B AE 00 04 0C 00 09");
    powered(&[
        &areas,
        &[
            ("R 02 20 80", "0110: 10h"),
            // It leaves memory too.
            ("R 02 23 80 FF", "0110: 10h"),
            ("R 02 23 07 01", "010F: 0Fh"),
            // Leaves area 2, which is protected.
            ("R 02 23 7F 01", "010F: 0Fh"),
            ("R 02 20 08", "0115: 15h"),
            ("R 02 20 00", "0000000000"),
            ("R 02 2C 80 00", "0110: 10h"),
            ("R 02 2C 7F 01", "0001"),
            ("R 02 21 80 00 00 00 00", "0110: 10h"),
            ("R 02 21 00 00 00 00 00", "0112: 12h"),
            ("R 02 22 02", "0110: 10h"),
            ("R 02 22 01", "00"),
            ("R 02 22 01", "0111: 11h"),
        ],
    ]);
    let data = |count: usize| "00".repeat(4 * count);
    let five = format!("R 02248004{}", data(5));
    let high = format!("R 02248001{}", data(2));
    let leaves = format!("R 02240701{}", data(2));
    let past = format!("R 02247F01{}", data(2));
    let never = format!("R 02240600{}", data(1));
    powered(&[
        &areas,
        &[
            // Above 127 too, and it leaves memory.
            (&five, "010F: 0Fh"),
            (&high, "0110: 10h"),
            // There is no right to write area 1.
            (&leaves, "010F: 0Fh-2"),
            (&past, "010F: 0Fh-2"),
            (&never, "0112: 12h"),
        ],
    ]);
}

#[test]
fn rows_of_registers_and_passwords() {
    powered(&[&[
        ("R 02 A0 02 0B", "0110: 10h"),
        ("R 02 A1 02 0B 00", "0110: 10h"),
        // No session, and an end over 0Fh.
        ("R 02 A1 02 05 10", "0112: 12h"),
        OPEN,
        ("R 02 A1 02 05 10", "010F: 0Fh"),
        ("R 02 A1 02 0F 01", "00"),
        ("R 02 A1 02 05 10", "0112: 12h"),
        ("R 02 A1 02 0B 00", "0110: 10h"),
        ("R 02 AD 02 0C", "0110: 10h"),
        ("R 02 AE 02 06 01", "0110: 10h"),
        ("R 02 B3 02 04 00 00 00 00 00 00 00 01", "0110: 10h"),
        ("R 02 B1 02 04 00 00 00 00 00 00 00 01", "0110: 10h"),
        ("R 02 B1 02 01 00 00 00 00 00 00 00 01", "0112: 12h"),
        ("R 02 B3 02 01 00 00 00 00 00 00 00 01", "010F: 0Fh"),
        ("R 02 B1 02 00 00 00 00 00 00 00 00 01", "0112: 12h"),
    ]]);
}

#[test]
fn rows_of_the_mailbox() {
    let put = leg("B A6 20 08 41 42");
    powered(&[
        &[
            ("R 02 AA 02 00 33", "010F: 0Fh"),
            ("R 02 AB 02", "010F: 0Fh"),
            // The mailbox is empty too.
            ("R 02 AC 02 00 00", "010F: 0Fh"),
        ],
        &mailbox_on(),
        &[("R 02 AB 02", "0000"), ("R 02 AC 02 00 00", "010F: 0Fh-2")],
        &put,
        &[
            ("R 02 AA 02 00 33", "010F: 0Fh"),
            ("R 02 AC 02 02 00", "010F: 0Fh-2"),
            ("R 02 AC 02 FF 00", "010F: 0Fh-2"),
            ("R 02 AC 02 01 00", "0042"),
        ],
    ]);
}

/// Lines that are neither a frame nor a byte sent, and bad ones.
#[test]
fn other_lines_have_no_name() {
    check(&[
        ("V 0", "-"),
        ("F 0", "-"),
        START,
        ("G 1", "FF"),
        STOP,
        END,
        ("E", "-"),
        FIELD,
        ("E", "-"),
        ("X", "?"),
        ("R", "?"),
        ("R 0", "?"),
    ]);
}

/// Whether the tag gave such an answer, and whether the name fits it.
fn fits(line: &[u8], answer: &str, name: Option<&str>) -> bool {
    let of = |letter| line.first() == Some(&letter);
    match (answer, name) {
        ("N", name) => of(b'B') == name.is_some(),
        ("-", name) => of(b'R') == name.is_some_and(|name| !name.ends_with("h")),
        (_, None) => !of(b'R') || !answer.starts_with("01"),
        (_, Some("shut out")) => answer == "010F",
        (_, Some(name)) => {
            of(b'R') && answer.get(2..) == name.get(..2) && name.get(2..3) == Some("h")
        }
    }
}

/// A name is given exactly to a NoAck, an error and silence; the rest of the line is the bench's.
#[test]
fn names_in_random_scripts() {
    for seed in 1..=60 {
        for Script { lines, ended } in [script(seed, 2000), crowded_script(seed, 2000)] {
            let input = text(&lines, ended);
            let (mut plain, mut explained) = (Vec::new(), Vec::new());
            bench::run(&input[..], &mut plain).unwrap();
            bench::run_explaining(&input[..], &mut explained, |_| {}).unwrap();
            let (plain, explained) = (String::from_utf8(plain), String::from_utf8(explained));
            let (plain, explained) = (plain.unwrap(), explained.unwrap());
            assert_eq!(plain.lines().count(), explained.lines().count());
            for ((line, plain), explained) in lines.iter().zip(plain.lines()).zip(explained.lines())
            {
                let name = explained.strip_prefix(plain).unwrap();
                let name = name.strip_prefix('\t');
                let answer = plain.split_once('\t').unwrap().1;
                assert!(fits(line, answer, name), "{answer} {name:?}");
            }
        }
    }
}

/// Every name that a script can bring about comes up in a few seeds.
#[test]
fn scripts_reach_every_name() {
    let mut reached = BTreeSet::new();
    for seed in 1..=100 {
        let Script { lines, ended } = crowded_script(seed, 2000);
        let input = text(&lines, ended);
        let insert = |rule| {
            reached.insert(rule);
        };
        bench::run_explaining(&input[..], Vec::new(), insert).unwrap();
    }
    let possible = RULES
        .map(|(rule, _)| rule)
        .into_iter()
        .filter(|&rule| in_scripts(rule));
    assert_eq!(reached, possible.collect());
    let never = RULES
        .map(|(rule, _)| rule)
        .into_iter()
        .filter(|&rule| !in_scripts(rule));
    assert_eq!(
        never.collect::<Vec<_>>(),
        [
            Rule::Data(Reason::AreaNeverWritable),
            Rule::Data(Reason::ConfigurationLocked),
            Rule::BadCrc,
        ]
    );
    assert!(in_calls(Rule::BadCrc));
}

/// A run in which each possible rule but one was named.
#[test]
fn a_missing_rule_is_said() {
    let mut names = Names::none();
    for (rule, _) in RULES {
        if in_scripts(rule) && rule != Rule::MessagePast {
            names.add(rule.number());
        }
    }
    let mut said = Vec::new();
    assert!(!names.complete(&mut said, in_scripts).unwrap());
    assert_eq!(said, b"never compared: rule 51, 0Fh-2\n");
    names.add(Rule::MessagePast.number());
    assert!(names.complete(&mut said, in_scripts).unwrap());
    assert!(!names.complete(&mut said, in_calls).unwrap());
}

fn fresh() -> Lent {
    let mut lent = Lent {
        state: vec![0; STATE_SIZE],
        memory: vec![0; MEMORY_SIZE],
        reply: vec![0xEE; REPLY_SIZE],
    };
    state::fresh(&UID, &mut lent.memory, &mut lent.state);
    lent
}

fn explain(lent: &Lent, call: &Call) -> u32 {
    state::explain(
        &lent.state,
        &lent.memory,
        &lent.reply,
        call.code,
        call.value,
        &call.frame,
    )
}

fn step(lent: &mut Lent, call: &Call) -> u32 {
    let (s, m, r) = (&mut lent.state, &mut lent.memory, &mut lent.reply);
    state::step(s, m, r, call.code, call.value, &call.frame)
}

/// Frames with a wrong CRC, which no script has: beside the rule before it and the one after it.
#[test]
fn bad_crc() {
    let mut lent = fresh();
    lent.state[at::FIELD] = 1;
    let wrong = |body: &[u8]| {
        let check = crc_bytes(body).map(|byte| !byte);
        [body, &check[..]].concat()
    };
    let mut explained = |frame: Vec<u8>| {
        let call = Call {
            code: 8,
            value: 0,
            frame,
        };
        let rule = explain(&lent, &call);
        assert_eq!(step(&mut lent, &call), 0x103);
        rule
    };
    assert_eq!(explained(wrong(&[0x02, 0x20, 0x00])), 0x100 + 24);
    assert_eq!(explained(wrong(&[0x06, 0x20])), 0x100 + 24);
    assert_eq!(explained(wrong(&[0x06])), 0x100 + 23);
    assert_eq!(explained(wrong(&[])), 0x100 + 23);
    assert_eq!(explained(Vec::new()), 0x100 + 23);
    assert_eq!(explained(wrong(&[0x02; 268])), 0x100 + 24);
    assert_eq!(explained(wrong(&[0x02; 269])), 0x100 + 23);
}

/// A refused call has the step's number; any other a rule exactly when the step gives a NoAck, an error or silence.
#[test]
fn names_of_changed_calls() {
    let mut dice = Dice::new(4);
    let mut bad_crc = 0;
    for seed in 1..=20 {
        let mut lent = fresh();
        for line in script(seed, 1000).lines {
            let mut room = [0; bench::LONGEST_FRAME];
            let Some(signal) = bench::read_line(&line, &mut room) else {
                continue;
            };
            let mut call = Call {
                code: u32::from(signal.code) + 1,
                value: u32::from(signal.value),
                frame: signal.frame.to_vec(),
            };
            let mut other = lent.clone();
            step(&mut lent, &call);
            change(&mut dice, &mut other, &mut call);
            let rule = explain(&other, &call);
            let answer = step(&mut other, &call);
            let named = match answer {
                0..=0xFF => {
                    assert_eq!(rule, answer);
                    continue;
                }
                // An end-of-frame has no name.
                0x102 | 0x103 => call.code != 9,
                0x1000.. => other.reply[0] == 0x01,
                _ => false,
            };
            assert!(rule >= 0x100 && rule <= 0x100 + RULES.len() as u32);
            assert_eq!(rule > 0x100, named, "{answer:#X} {rule:#X}");
            bad_crc += u32::from(rule == 0x100 + Rule::BadCrc.number());
        }
    }
    assert!(bad_crc > 50);
}
