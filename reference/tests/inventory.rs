//! 02's Ask 4, one tag: the inventory frame, the end-of-frame, DSFID and AFI. Answers worked out by hand.

use reference::bench::{Bench, UID};
use reference::crc::crc_bytes;
use reference::inventory::{afi_asked, Inventory};
use reference::model::{self, Answer, Refusal, Signal};
use reference::state::{self, at, STATE_SIZE};
use reference::tag::*;

/// The bench's tag in its slot.
const HERE: &str = "000001020304052402E0";
const SILENT: &str = "-: inventory flag";

/// Lines to a fresh tag, and their answers, a name behind a colon. In a line the first space is a tab and others are
/// nothing, but for "B A6 00", which is a line for each byte, all Acked, and ends in the answer wanted. Several lines
/// of one answer stand apart by semicolons.
fn check(entries: &[(&str, &str)]) {
    let mut bench = Bench::fresh();
    for (input, wanted) in entries {
        for line in input.split("; ") {
            let lines = bytes_apart(line);
            let last = lines.len() - 1;
            for (place, line) in lines.iter().enumerate() {
                let mut answer = Vec::new();
                bench.explain(Some(line.as_bytes()), &mut answer).unwrap();
                let answer = String::from_utf8(answer).unwrap().replace('\t', ": ");
                let wanted = if place < last { "A" } else { wanted };
                assert_eq!(answer, wanted, "{line} of {input}");
            }
        }
    }
}

fn bytes_apart(line: &str) -> Vec<String> {
    match line.strip_prefix("B ") {
        Some(bytes) => bytes.split(' ').map(|byte| format!("B\t{byte}")).collect(),
        None => vec![line.replacen(' ', "\t", 1).replace(' ', "")],
    }
}

fn powered(parts: &[&[(&str, &str)]]) {
    let on = [("V 1; F 1", "-")];
    check(&[&on, &parts.concat()[..]].concat());
}

const SLOT_1: (&str, &str) = ("R 06 01 00", SILENT);
const STOP: (&str, &str) = ("P", "-");
const QUIET: (&str, &str) = ("R 22 02 01 02 03 04 05 24 02 E0", "-: own silence");
const RESET: (&str, &str) = ("R 22 26 01 02 03 04 05 24 02 E0", "00");
const SELECT: (&str, &str) = ("R 22 25 01 02 03 04 05 24 02 E0", "00");

/// RF_MNGT_Dyn by a transfer of its own.
fn rf_mngt_dyn(bytes: &str) -> [(&str, &str); 3] {
    [("S", "-"), (bytes, "A"), STOP]
}

/// The UID's lowest nibble is 1, the next one 0.
#[test]
fn one_slot_or_sixteen() {
    powered(&[&[
        ("R 26 01 00", HERE),
        ("E", "-"),
        SLOT_1,
        ("E", HERE),
        ("E", "-"),
        ("R 06 01 04 01", HERE),
        ("E", "-"),
    ]]);
}

/// Readings 55 and 57: a malformed frame leaves the count, here 1.
#[test]
fn malformed_frames() {
    let malformed = [
        "R 0E 01 00",
        "R 2E 01 00",
        "R 46 01 00",
        "R 86 01 00",
        "R 26 02 00",
        "R 26 00 00",
        "R 06 26",
        "R 26 A0 02 00",
        "R 26 01",
        "R 26 01 00 00",
        "R 26 01 01",
        "R 26 01 08",
        "R 26 01 08 01 00",
        "R 26 01 09 01",
        "R 36 01",
        "R 36 01 00",
        "R 36 01 00 00 00",
        "R 26 01 41 01 02 03 04 05 24 02 E0",
        "R 26 01 41 01 02 03 04 05 24 02 E0 00",
        "R 26 01 FF 01 02 03 04 05 24 02 E0",
        "R 06 01 3D 01 02 03 04 05 24 02 E0",
        "R 06 01 40 01 02 03 04 05 24 02 E0",
    ];
    for frame in malformed {
        powered(&[&[SLOT_1, (frame, SILENT), ("E", HERE)]]);
    }
}

/// Reading 55: flags 01 and 02 are free; bits above the mask are not read.
#[test]
fn well_formed_frames() {
    let answered = [
        "R 24 01 00",
        "R 25 01 00",
        "R 27 01 00",
        "R 26 01 01 01",
        "R 26 01 01 FF",
        "R 26 01 02 FD",
        "R 26 01 08 01",
        "R 26 01 09 01 FE",
        "R 26 01 3F 01 02 03 04 05 24 02 60",
        "R 26 01 40 01 02 03 04 05 24 02 E0",
        "R 36 01 00 00",
        "R 36 01 00 04 F1",
        "R 06 01 04 F1",
        "R 16 01 00 04 01",
        // The high nibble of 02h.
        "R 06 01 0C 01 F2",
    ];
    for frame in answered {
        powered(&[&[SLOT_1, (frame, HERE), ("E", "-")]]);
    }
}

/// Readings 57 and 58: the count becomes 0.
#[test]
fn unmatched_frames() {
    let unmatched = [
        "R 26 01 01 00",
        "R 26 01 08 81",
        "R 26 01 09 01 01",
        "R 26 01 40 01 02 03 04 05 24 02 60",
        "R 26 01 3F 01 02 03 04 05 24 02 20",
        "R 06 01 04 02",
        "R 36 01 10 00",
        "R 36 01 01 00",
        "R 36 01 11 00",
        "R 16 01 FF 00",
    ];
    for frame in unmatched {
        powered(&[&[SLOT_1, (frame, SILENT), ("E", "-")]]);
    }
}

/// The slot is the nibble above the mask, at any bit of the UID.
#[test]
fn slots_above_the_mask() {
    let slots = [
        ("R 06 01 00", 1),
        ("R 06 01 01 01", 0),
        ("R 06 01 05 01", 0), // bits 5 to 8: of 01h and 02h
        ("R 06 01 06 01", 8), // bit 9 of 0201h is its fourth
        ("R 06 01 07 01", 4), // the same bit
        ("R 06 01 08 01", 2),
        ("R 06 01 09 01 FE", 1),
        ("R 06 01 28 01 02 03 04 05", 4),
        ("R 06 01 2C 01 02 03 04 05 04", 2),
        ("R 06 01 3B 01 02 03 04 05 24 02 00", 12), // bits 59 to 62 of E0h: 0, 0, 1, 1
        ("R 06 01 3C 01 02 03 04 05 24 02 00", 14),
    ];
    for (frame, slot) in slots {
        let mut entries = vec![(frame, if slot == 0 { HERE } else { SILENT })];
        for left in (0..slot).rev() {
            entries.push(("E", if left == 0 { HERE } else { "-" }));
        }
        entries.push(("E", "-"));
        powered(&[&entries]);
    }
}

/// A second frame sets the count anew, each end-of-frame takes one.
#[test]
fn a_frame_sets_the_count_anew() {
    powered(&[&[
        ("R 06 01 06 01", SILENT),
        ("E; E; E", "-"),
        ("R 06 01 08 01", SILENT),
        ("E", "-"),
        ("E", HERE),
        ("E", "-"),
    ]]);
}

/// Readings 54 and 62: shut out, a tag neither answers nor counts; it answers late.
#[test]
fn a_shut_out_tag_keeps_its_count() {
    let tries = [
        ("E", "-"),
        ("R 26 01 00", SILENT),
        ("R 06 01 06 01", SILENT),
        ("R 26 01 01 00", SILENT),
    ];
    let late = [("E", HERE), ("E", "-")];
    powered(&[&[SLOT_1, ("S", "-"), ("B A6", "A")], &tries, &[STOP], &late]);
    let programming = [("S", "-"), ("B A6 00 00 00", "A"), STOP];
    powered(&[&[SLOT_1], &programming, &tries, &[("D", "-")], &late]);
    powered(&[
        &[SLOT_1],
        &rf_mngt_dyn("B A6 20 03 01"),
        &tries,
        &rf_mngt_dyn("B A6 20 03 00"),
        &late,
    ]);
    // Started, and no transfer open: it is not shut out.
    powered(&[&[SLOT_1, ("S", "-")], &late]);
}

#[test]
fn a_sleeping_tag_keeps_its_count() {
    let asleep = "-: RF_MNGT_Dyn b1";
    let tries = [("E", "-"), ("R 26 01 00", asleep), ("R 26 01", asleep)];
    let (sleep, wake) = ("B A6 20 03 02", "B A6 20 03 00");
    powered(&[
        &[SLOT_1],
        &rf_mngt_dyn(sleep),
        &tries,
        &rf_mngt_dyn(wake),
        &[("E", HERE)],
    ]);
    // Inside a transfer it is judged by the value at the transfer's start, shut out in any case.
    powered(&[
        &[SLOT_1, ("S", "-"), (sleep, "A"), ("S", "-")],
        &[("E", "-"), ("R 26 01 00", SILENT), STOP],
        &[("E", "-"), ("R 26 01 00", asleep)],
    ]);
}

/// Reading 60: Stay Quiet and field off, and nothing else.
#[test]
fn what_sets_the_count_to_0() {
    powered(&[&[SLOT_1, QUIET, RESET, ("E", "-"), ("R 26 01 00", HERE)]]);
    powered(&[&[SLOT_1, QUIET, ("E", "-"), ("R 26 01 00", SILENT)]]);
    powered(&[&[SLOT_1, ("F 0; F 1; E", "-")]]);
    let others = [
        SELECT,
        RESET,
        ("R 02 20 00", "0000000000"),
        ("R 02 01", "0101: 01h"),
        ("R 42 21 00 00 00 00 00", "00"),
        ("R 02 20 80", "0110: 10h"),
        ("F 1", "-"),
        ("V 0", "-"),
        ("V 1", "-"),
    ];
    for other in others {
        powered(&[&[SLOT_1, other, ("E", HERE)]]);
    }
    powered(&[&[SLOT_1], &others, &[("E", HERE)]]);
}

/// Reading 59: a Selected tag takes part and stays Selected.
#[test]
fn a_selected_tag_answers() {
    let selected = ("R 12 20 00", "0000000000");
    powered(&[&[SELECT, ("R 26 01 00", HERE), selected]]);
    powered(&[&[SELECT, SLOT_1, ("E", HERE), selected]]);
}

#[test]
fn out_of_the_field() {
    check(&[
        ("V 1", "-"),
        ("E", "-"),
        ("R 26 01 00", "-: field off"),
        ("F 1", "-"),
        ("E", "-"),
    ]);
}

/// Readings 56 and 61: the flag's rule is the last for frames with it, and no rule for others.
#[test]
fn the_flags_other_meaning() {
    powered(&[&[
        ("R 36 01 00 00", HERE),
        ("R 34 01 00 00", HERE),
        ("R 16 01 00 04 01", HERE),
        ("R 02 01 00", "0101: 01h"),
        ("R 32 01 00 00", "-: both select and address"),
        ("R 22 01 00", "-: UID short or, except in Select, other"),
        ("R 02 2B", "0101: 01h"),
        (
            "R 02 A0 02 12; R 02 A0 02 13; R 02 A1 02 12 00",
            "0110: 10h",
        ),
    ]]);
}

/// Readings 42 and 61: read by the wire, never written.
#[test]
fn the_registers_by_wire() {
    let read = |address: &'static str| [("S", "-"), (address, "A"), ("S", "-"), ("B AF", "A")];
    powered(&[
        &read("B AE 00 10"),
        &[("G 1; G 1", "FF"), ("G 1; G 1", "00"), ("G 0", "FF"), STOP],
        &[("S", "-"), ("B AE 00 12 01", "N: session needed"), STOP],
        &[("S", "-"), ("B AE 00 11 01", "N: outside the map"), STOP],
    ]);
}

// Tags that no script has.

/// Waiting for nothing, in the field.
fn tag(dsfid: u8, afi: u8) -> Tag {
    let mut tag = Tag::fresh(UID);
    (tag.field, tag.registers.dsfid, tag.registers.afi) = (true, dsfid, afi);
    tag
}

fn step(tag: &mut Tag, code: u8, body: &[u8]) -> (Answer, [u8; REPLY_SIZE]) {
    let (mut memory, mut reply) = ([0; MEMORY_SIZE], [0xEE; REPLY_SIZE]);
    let frame = [body, &crc_bytes(body)].concat();
    let (value, frame) = (0, &frame[..]);
    let answer = model::step(tag, &mut memory, &mut reply, Signal { code, value, frame });
    (answer.unwrap(), reply)
}

/// Reading 59: 00h, DSFID, UID lowest byte first, CRC; past it the buffer stays.
#[test]
fn the_reply() {
    let mut tag = tag(0xA5, 0x12);
    let (answer, reply) = step(&mut tag, model::FRAME, &[0x26, 0x01, 0x00]);
    assert_eq!(answer, Answer::Reply(12));
    let body = [0x00, 0xA5, 0x01, 0x02, 0x03, 0x04, 0x05, 0x24, 0x02, 0xE0];
    assert_eq!(reply[..10], body);
    assert_eq!(reply[10..12], crc_bytes(&body));
    assert!(reply[12..].iter().all(|&byte| byte == 0xEE));
    tag.slot_count = 1;
    let (answer, late) = step(&mut tag, model::END_OF_FRAME, &[]);
    assert_eq!((answer, late), (Answer::Reply(12), reply));
    let (answer, reply) = step(&mut tag, model::END_OF_FRAME, &[]);
    assert_eq!((answer, reply), (Answer::Silence, [0xEE; REPLY_SIZE]));
}

/// Reading 58: 00h asks all, X0h the family, else equality.
#[test]
fn afis() {
    for afi in 0..=255_u8 {
        let asking: Vec<u8> = (0..=255).filter(|&asked| afi_asked(asked, afi)).collect();
        let mut wanted = vec![0x00, afi & 0xF0, afi];
        if afi < 0x10 {
            wanted = vec![0x00, afi];
        }
        wanted.dedup();
        assert_eq!(asking, wanted, "{afi:x}");
        for asked in [0x00, 0x10, 0x12, 0x02, afi] {
            let mut tag = tag(0, afi);
            let (answer, _) = step(&mut tag, model::FRAME, &[0x36, 0x01, asked, 0x00]);
            let answered = answer == Answer::Reply(12);
            assert_eq!(answered, asking.contains(&asked), "{afi:x} {asked:x}");
        }
        let (answer, _) = step(&mut tag(0, afi), model::FRAME, &[0x26, 0x01, 0x00]);
        assert_eq!(answer, Answer::Reply(12));
    }
}

/// The whole UID but its last nibble as mask: each nibble of it is a slot at some length.
#[test]
fn every_mask_of_sixteen_slots() {
    let number = u64::from_le_bytes(UID);
    for bits in 0..=60_u8 {
        let mask = &UID[..usize::from(bits).div_ceil(8)];
        let body = [&[0x06, 0x01, bits], mask].concat();
        let request = Inventory::read(&body).unwrap();
        assert_eq!(u64::from(request.slot(&UID)), number >> bits & 0xF);
        let mut tag = tag(0, 0);
        step(&mut tag, model::FRAME, &body);
        assert_eq!(u64::from(tag.slot_count), number >> bits & 0xF);
        for place in 0..64 {
            let other = (number ^ 1 << place).to_le_bytes();
            assert_eq!(request.asks_uid(&other), place >= u64::from(bits));
        }
    }
}

/// Reading 60: refusal 4.
#[test]
fn ranges_of_the_count() {
    let memory = [0; MEMORY_SIZE];
    for (field, state, most) in [
        (true, RadioState::Ready, 15),
        (true, RadioState::Selected, 15),
        (true, RadioState::Quiet, 0),
        (false, RadioState::Ready, 0),
        (false, RadioState::Selected, 0),
        (false, RadioState::Quiet, 0),
    ] {
        for count in 0..=255 {
            let mut tag = Tag::fresh(UID);
            (tag.field, tag.radio_state, tag.slot_count) = (field, state, count);
            assert_eq!(model::in_range(&tag, &memory), count <= most);
            // Nothing about sleep, VCC or a transfer.
            (tag.vcc, tag.rf_mngt_dyn, tag.bus) = (true, 2, Bus::Started { open: true });
            assert_eq!(model::in_range(&tag, &memory), count <= most);
        }
    }
}

/// The library's numbers: code 9, value 0; 87 bytes.
#[test]
fn the_librarys_numbers() {
    assert_eq!(STATE_SIZE, 87);
    let places = [
        at::SLOT_COUNT,
        at::VCC,
        at::DSFID,
        at::AFI,
        at::MB_EN,
        at::UID,
    ];
    assert_eq!(places, [3, 4, 30, 31, 32, 79]);
    let mut bytes = state::encode(&tag(0xA5, 0x5A));
    bytes[at::SLOT_COUNT] = 2;
    let (mut memory, mut reply) = ([0; MEMORY_SIZE], [0xEE; REPLY_SIZE]);
    let mut call = |bytes: &mut [u8], code, value| {
        let (memory, reply) = (&mut memory, &mut reply);
        let explained = state::explain(bytes, memory, reply, code, value, &[]);
        (
            explained,
            state::step(bytes, memory, reply, code, value, &[]),
        )
    };
    assert_eq!(call(&mut bytes, 9, 1), (3, 3));
    assert_eq!(call(&mut bytes, 10, 0), (3, 3));
    // Silence has a number and no name.
    assert_eq!(call(&mut bytes, 9, 0), (0x100, 0x103));
    assert_eq!(bytes[at::SLOT_COUNT], 1);
    assert_eq!(call(&mut bytes, 9, 0), (0x100, 0x1000 + 12));
    assert_eq!(bytes[at::SLOT_COUNT], 0);
    assert_eq!(call(&mut bytes, 9, 0), (0x100, 0x103));
    bytes[at::SLOT_COUNT] = 16;
    let refused = Refusal::Range as u32;
    assert_eq!(call(&mut bytes, 9, 0), (refused, refused));
}
