//! 02's Ask 2: the verdict on a write, and that the wire's Acks, the radio's codes and the status bytes agree with it.

use std::collections::BTreeSet;

use reference::crc::crc_bytes;
use reference::dice::Dice;
use reference::examples::write::Judged;
use reference::model::{self, Answer, Signal};
use reference::questions::{edges, tags, BY_RADIO, ON_THE_WIRE};
use reference::state;
use reference::tag::*;
use reference::verdict::{judge, rules, DataByte, Question, Reason, Verdict};
use reference::wire;

type Memory = [u8; MEMORY_SIZE];

const ALLOWED: Verdict = Verdict::Allowed;

#[test]
fn words_and_order_are_ask_2s() {
    let ask = "leg spoiled, outside the map, mailbox mode on, mode off, mailbox busy, mailbox leg not from 2008h, \
        another area, locked block, area never writable, configuration locked, session needed, register read only, \
        password code, ENDA rule, page full";
    let sides = [&ON_THE_WIRE[..], &BY_RADIO];
    let mut reasons = BTreeSet::new();
    for verdict in sides.concat() {
        if let Verdict::Forbidden(reason) = verdict {
            reasons.insert(reason);
        }
    }
    let mut words: Vec<&str> = reasons.iter().map(|reason| reason.words()).collect();
    words.dedup();
    assert_eq!(words.join(", "), ask);
}

#[test]
fn none_and_password_0_differ() {
    let needed = |number| Verdict::Forbidden(Reason::SessionNeeded(number)).to_string();
    assert_eq!(needed(None), "session needed");
    assert_eq!(needed(Some(0)), "session needed 0");
    assert_eq!(needed(Some(3)), "session needed 3");
    assert_eq!(ALLOWED.to_string(), "allowed");
}

/// Lines to a fresh tag, and their answers. Digits may stand apart.
fn check(entries: &[(&str, &str)]) {
    let mut judged = Judged::fresh();
    for (input, wanted) in entries {
        let (letter, digits) = input.split_at(1);
        let line = format!("{letter}\t{}", digits.replace(' ', ""));
        let answer = judged.answer(line.as_bytes()).unwrap_or(b"?".to_vec());
        assert_eq!(String::from_utf8_lossy(&answer), *wanted, "at {input}");
    }
}

// Bytes of the state.
const MB_EN_1: (&str, &str) = ("T 0020 01", "-");
const MB_EN_0: (&str, &str) = ("T 0020 00", "-");
const SESSION: (&str, &str) = ("T 0005 01", "-");

#[test]
fn the_code_of_a_password_leg() {
    check(&[
        ("W 00 01 0900 0008 07", "session needed"),
        ("W 00 01 0900 0008 09", "allowed"),
        ("W 00 01 0900 0008 08", "password code"),
        ("W 00 01 0900 0007 08", "allowed"),
        ("W 00 01 0900 0009 08", "allowed"),
        MB_EN_1,
        ("W 00 01 0900 0008 07", "mailbox mode on"),
        ("W 00 01 0900 0008 09", "allowed"),
        ("W 00 01 0900 0008 08", "password code"),
        MB_EN_0,
        SESSION,
        ("W 00 01 0900 0008 07", "allowed"),
        ("W 00 01 0900 0008 06", "password code"),
    ]);
}

#[test]
fn places_of_a_password_leg() {
    check(&[
        ("W 00 01 0900 0000 55", "allowed"),
        ("W 00 01 0900 0010 55", "allowed"),
        ("W 00 01 0900 0011 55", "page full"),
        ("W 01 01 0900 0011 55", "leg spoiled"),
        ("W 00 00 0900 0000 55", "outside the map"),
        ("W 00 01 0901 0000 55", "outside the map"),
        ("W 00 01 0910 0000 55", "outside the map"),
        ("W 00 01 08FF 0001 55", "outside the map"),
    ]);
}

#[test]
fn read_only_registers() {
    check(&[
        ("W 00 01 0018 0000 00", "session needed"),
        ("W 00 01 0012 0000 00", "session needed"),
        SESSION,
        ("W 00 01 0011 0000 00", "outside the map"),
        ("W 00 01 0012 0000 00", "register read only"),
        ("W 00 01 0013 0000 00", "register read only"),
        ("W 00 01 0012 0001 00", "register read only"),
        ("W 00 01 0014 0000 00", "outside the map"),
        ("W 00 01 0017 0000 00", "outside the map"),
        ("W 00 01 0018 0000 00", "register read only"),
        ("W 00 01 001F 0007 00", "outside the map"),
        ("W 00 01 0018 0007 00", "register read only"),
        MB_EN_1,
        ("W 00 01 0012 0000 00", "mailbox mode on"),
        ("W 00 01 0018 0000 00", "mailbox mode on"),
        ("W 00 00 2004 0000 00", "register read only"),
        ("W 00 00 2003 0001 00", "register read only"),
        ("W 00 00 2006 0001 00", "register read only"),
        MB_EN_0,
        ("W 00 00 2003 0000 00", "allowed"),
        ("W 00 00 2003 0001 00", "register read only"),
        ("W 00 00 2006 0000 00", "allowed"),
        ("W 00 00 2006 0001 00", "register read only"),
    ]);
}

#[test]
fn ends_of_the_map_of_areas_and_of_the_page() {
    check(&[
        ("W 00 00 01FF 0000 00", "allowed"),
        ("W 00 00 01FF 0001 00", "outside the map"),
        ("W 00 00 FFFF 0001 00", "outside the map"),
        ("W 00 00 0000 00FF 00", "allowed"),
        ("W 00 00 0000 0100 00", "page full"),
        ("W 00 00 0100 0100 00", "outside the map"),
        ("T 0014 07", "-"), // ENDA1: to 00FFh
        ("W 00 00 0000 0100 00", "another area"),
        ("W 00 00 0001 00FF 00", "another area"),
        ("W 00 00 0100 00FF 00", "allowed"),
        ("T 001B 02", "-"), // LOCK_CCFILE
        ("W 00 00 0000 0003 00", "allowed"),
        ("W 00 00 0000 0004 00", "locked block"),
        ("W 00 00 0000 0008 00", "allowed"),
        ("T 001A 01", "-"), // I2CSS
        ("W 00 00 0000 0003 00", "session needed"),
        ("W 00 00 0000 0004 00", "locked block"),
        ("W 00 00 0100 0000 00", "allowed"),
        MB_EN_1,
        ("W 00 00 0000 0004 00", "mailbox mode on"),
        ("W 00 00 2008 00FF 00", "allowed"),
        ("W 00 00 2008 0100 00", "outside the map"),
    ]);
}

#[test]
fn the_mailbox() {
    check(&[
        ("W 00 00 2008 0000 00", "mode off"),
        ("W 00 00 2009 0000 00", "mode off"),
        MB_EN_1,
        ("W 00 00 2008 0000 00", "allowed"),
        ("W 00 00 2009 0000 00", "mailbox leg not from 2008h"),
        ("W 00 00 2007 0001 00", "mailbox leg not from 2008h"),
        ("T 0021 0100010001", "-"), // HOST_PUT
        ("W 00 00 2008 0000 00", "mailbox busy"),
        ("W 00 00 2009 0000 00", "mailbox busy"),
        ("T 0021 0001000101", "-"), // RF_PUT
        ("W 00 00 2008 0000 00", "mailbox busy"),
        ("T 0021 0000000101", "-"),
        ("W 00 00 2008 0000 00", "allowed"),
    ]);
}

#[test]
fn the_enda_rule_and_the_legs_earlier_bytes() {
    check(&[
        ("W 00 01 0005 0000 10", "session needed"),
        SESSION,
        ("W 00 01 0005 0000 10", "ENDA rule"),
        ("W 00 01 0005 0000 0F", "allowed"),
        ("M 0300 03 00 00", "-"),
        ("W 00 01 0005 0002 03", "ENDA rule"),
        ("W 00 01 0005 0002 04", "allowed"),
        ("W 00 01 0007 0000 03", "ENDA rule"), // ENDA1 is 0Fh
        ("T 0014 03", "-"),                    // ENDA1
        ("W 00 01 0007 0000 03", "ENDA rule"),
        ("W 00 01 0007 0000 04", "allowed"),
        ("M 0300 05", "-"),
        ("W 00 01 0005 0002 04", "ENDA rule"),
        ("T 0016 06", "-"), // ENDA2: a later end
        ("W 00 01 0005 0000 02", "ENDA rule"),
    ]);
}

#[test]
fn rights_by_radio() {
    check(&[
        ("B 007F", "allowed"),
        ("B 0080", "outside the map"),
        ("B 0100", "outside the map"),
        ("T 0013 0C", "-"), // RFA1SS: setting 3
        ("B 0000", "area never writable"),
        ("T 001B 01", "-"), // LOCK_CCFILE
        ("B 0000", "locked block"),
        ("B 0001", "area never writable"),
        ("T 0013 04", "-"), // setting 1, no password
        ("B 0001", "session needed"),
        ("T 0002 01", "-"), // password 0's session
        ("B 0001", "session needed"),
        ("T 0013 0A", "-"), // setting 2, password 2
        ("B 0001", "session needed 2"),
        ("T 0002 03", "-"),
        ("B 0001", "allowed"),
        ("P 02", "allowed"),
        ("P 00", "session needed 0"),
        ("P 03", "session needed 3"),
        ("P 04", "outside the map"),
        MB_EN_1, // no reason by radio
        ("B 0001", "allowed"),
    ]);
}

#[test]
fn pointers_by_radio() {
    check(&[
        ("C 02 00", "outside the map"),
        ("C 0B 00", "outside the map"),
        ("C 0C 00", "outside the map"),
        ("C 0E 00", "outside the map"),
        ("C 12 00", "outside the map"),
        ("C 13 00", "outside the map"),
        ("C 05 10", "session needed 0"),
        ("T 001D 01", "-"), // LOCK_CFG
        ("C 05 10", "configuration locked"),
        ("P 00", "session needed 0"),
        ("T 0002 01", "-"),
        ("C 05 10", "configuration locked"),
        ("P 00", "allowed"),
        ("T 001D 00", "-"),
        ("C 05 10", "ENDA rule"),
        ("C 05 0E", "allowed"),
        ("C 0F 01", "allowed"),
    ]);
}

/// A memory whose page has bytes that are good as ends, most of them.
fn memory(dice: &mut Dice) -> Memory {
    [(); MEMORY_SIZE].map(|()| {
        let (small, any) = (dice.below(16) as u8, dice.byte());
        dice.pick(&[small, small, small, any])
    })
}

/// Each list names a reason once, in Ask 2's order.
#[test]
fn rules_stand_in_order() {
    let mut dice = Dice::new(1);
    for _ in 0..20_000 {
        let (tag, memory) = (tags::tag(&mut dice), memory(&mut dice));
        let question = edges::question(&mut dice, &tag);
        let rules = rules(&tag, &memory, question);
        assert!(rules
            .windows(2)
            .all(|two| two[0].0.words() != two[1].0.words()));
        assert!(rules.is_sorted_by_key(|&(reason, _)| reason));
    }
}

#[test]
fn tags_are_in_range() {
    let mut dice = Dice::new(2);
    for _ in 0..20_000 {
        let tag = tags::tag(&mut dice);
        assert!(model::in_range(&tag, &[0; MEMORY_SIZE]), "{tag:?}");
        assert_eq!(state::decode(&state::encode(&tag)), Some(tag));
    }
}

/// Whether a leg with these page bytes comes to byte `k` by the wire's own rule.
fn reached(tag: &Tag, page: &[u8], asked: &DataByte) -> bool {
    let acked = |k: usize| wire::data_acked(tag, asked.space, asked.first, &page[..k], page[k]);
    usize::from(asked.k) <= page.len() && (0..asked.k.into()).all(acked)
}

/// Every byte that a leg can come to, out of 01's ranges too.
#[test]
fn the_wires_rule_is_the_verdict() {
    let mut dice = Dice::new(3);
    let mut given = BTreeSet::new();
    for _ in 0..10_000 {
        let (mut tag, memory) = (tags::tag(&mut dice), memory(&mut dice));
        if dice.one_in(12) {
            tags::make_strange(&mut dice, &mut tag);
        }
        for _ in 0..40 {
            let mut asked = edges::data_byte(&mut dice, &tag);
            asked.spoiled = false;
            let page = &memory[PAGE_PLACE..];
            if !reached(&tag, page, &asked) {
                continue;
            }
            let earlier = &page[..asked.k.into()];
            let acked = wire::data_acked(&tag, asked.space, asked.first, earlier, asked.byte);
            let verdict = judge(&tag, &memory, Question::Byte(asked));
            assert_eq!(acked, verdict == ALLOWED, "{verdict}: {asked:x?} {tag:x?}");
            given.insert(verdict);
        }
    }
    let unspoiled = |verdict: &Verdict| *verdict != Verdict::Forbidden(Reason::LegSpoiled);
    assert!(given
        .into_iter()
        .eq(ON_THE_WIRE.into_iter().filter(unspoiled)));
}

/// The tag as it takes signals: supplied, in the field, nothing under way.
fn answering(mut tag: Tag) -> Tag {
    (tag.vcc, tag.field, tag.programming) = (true, true, false);
    (tag.bus, tag.kept_rf_mngt_dyn, tag.rf_mngt_dyn) = (Bus::Idle, 0, 0);
    tag.radio_state = RadioState::Ready;
    tag
}

fn step(
    tag: &mut Tag,
    memory: &mut Memory,
    reply: &mut [u8],
    code: u8,
    value: u8,
    frame: &[u8],
) -> Answer {
    let value = value.into();
    model::step(tag, memory, reply, Signal { code, value, frame }).unwrap()
}

/// The question that a byte sent in a write leg past its address puts.
fn asked_by(tag: &Tag, byte: u8) -> Question {
    let Bus::Data {
        space,
        count,
        spoiled,
    } = tag.bus
    else {
        panic!("{:?}", tag.bus);
    };
    Question::Byte(DataByte {
        spoiled,
        space,
        first: tag.counter.wrapping_sub(count),
        k: count,
        byte,
    })
}

/// Legs sent byte by byte, past the first NoAck too.
#[test]
fn legs_are_acked_as_judged() {
    let mut dice = Dice::new(4);
    let mut given = BTreeSet::new();
    let mut reply = [0; REPLY_SIZE];
    for _ in 0..20_000 {
        let (mut tag, mut memory) = (answering(tags::tag(&mut dice)), [0; MEMORY_SIZE]);
        let DataByte { space, first, .. } = edges::data_byte(&mut dice, &tag);
        let select = if space == Space::User { 0xA6 } else { 0xAE };
        let mut send = |code, byte, tag: &mut Tag, memory: &mut Memory| {
            step(tag, memory, &mut reply, code, byte, &[])
        };
        send(model::START, 0, &mut tag, &mut memory);
        for byte in [select, (first >> 8) as u8, first as u8] {
            assert_eq!(send(model::SEND, byte, &mut tag, &mut memory), Answer::Ack);
        }
        let long = first < 0x0200 && dice.one_in(50);
        for _ in 0..if long { 260 } else { 20 } {
            let any = dice.byte();
            let byte = dice.pick(&[0x03, 0x07, 0x07, 0x09, 0x09, 0x0E, 0x0F, any]);
            let verdict = judge(&tag, &memory, asked_by(&tag, byte));
            let acked = send(model::SEND, byte, &mut tag, &mut memory) == Answer::Ack;
            assert_eq!(acked, verdict == ALLOWED, "{verdict}: {byte:x} {tag:x?}");
            given.insert(verdict);
        }
    }
    assert!(given.into_iter().eq(ON_THE_WIRE));
}

/// The reply to a request, without its CRC.
fn reply(tag: &mut Tag, memory: &mut Memory, request: &[u8]) -> Vec<u8> {
    let frame = [request, &crc_bytes(request)].concat();
    let mut reply = vec![0; REPLY_SIZE];
    match step(tag, memory, &mut reply, model::FRAME, 0, &frame) {
        Answer::Reply(length) => reply[..length - 2].to_vec(),
        answer => panic!("{answer:?} to {request:x?}"),
    }
}

/// 01's code for a verdict by radio, 00h for none.
fn code(verdict: Verdict) -> u8 {
    use Reason::*;
    match verdict {
        Verdict::Allowed => 0x00,
        Verdict::Forbidden(OutsideTheMap) => 0x10,
        Verdict::Forbidden(
            LockedBlock | AreaNeverWritable | ConfigurationLocked | SessionNeeded(_),
        ) => 0x12,
        Verdict::Forbidden(EndaRule) => 0x0F,
        verdict => panic!("{verdict}"),
    }
}

/// The code of a write, which is done on a copy of the tag.
fn code_of(tag: &Tag, request: &[u8]) -> u8 {
    match reply(&mut tag.clone(), &mut [0; MEMORY_SIZE], request)[..] {
        [0x00] => 0x00,
        [0x01, code] => code,
        ref reply => panic!("{reply:x?} to {request:x?}"),
    }
}

/// 01, 24: the count, 10h, leaving, and then the first block that is forbidden.
fn code_of_run(tag: &Tag, first: u8, more: u8) -> u8 {
    let (first, last) = (u16::from(first), u16::from(first) + u16::from(more));
    let area = |block: u16| area_of_block(&tag.registers.enda, block.into());
    let verdict = |block| judge(tag, &[0; MEMORY_SIZE], Question::Block(block));
    if more > 3 {
        0x0F
    } else if first > 127 {
        0x10
    } else if last > 127 || area(first) != area(last) {
        0x0F
    } else {
        let codes = (first..=last).map(|block| code(verdict(block)));
        codes.into_iter().find(|&code| code != 0).unwrap_or(0)
    }
}

#[test]
fn radio_codes_are_the_verdicts() {
    let mut dice = Dice::new(5);
    let mut given = BTreeSet::new();
    for _ in 0..60_000 {
        let tag = answering(tags::tag(&mut dice));
        let question = edges::question(&mut dice, &tag);
        let request = match question {
            Question::Block(block) if block <= 0xFF => vec![0x02, 0x21, block as u8, 1, 2, 3, 4],
            Question::Register { pointer, byte } => vec![0x02, 0xA1, 0x02, pointer, byte],
            Question::Password(number) => [&[0x02, 0xB1, 0x02, number][..], &[0; 8]].concat(),
            _ => continue,
        };
        let verdict = judge(&tag, &[0; MEMORY_SIZE], question);
        assert_eq!(
            code_of(&tag, &request),
            code(verdict),
            "{request:x?} {tag:x?}"
        );
        given.insert(verdict);
        if let Question::Block(block) = question {
            let more = dice.below(6) as u8;
            let data = vec![0; 4 * (usize::from(more) + 1)];
            let request = [&[0x02, 0x24, block as u8, more][..], &data].concat();
            let code = code_of_run(&tag, block as u8, more);
            assert_eq!(code_of(&tag, &request), code, "{request:x?} {tag:x?}");
        }
    }
    assert!(given.into_iter().eq(BY_RADIO));
}

/// 01: "1 exactly when 21 would give 12h". 2C, and 20 and 23 with option where they can be read.
#[test]
fn status_bytes_are_the_verdicts() {
    let mut dice = Dice::new(6);
    let mut read = 0;
    for _ in 0..4_000 {
        let (mut tag, mut memory) = (answering(tags::tag(&mut dice)), [0; MEMORY_SIZE]);
        let mut statuses = vec![];
        for block in 0..=127 {
            let verdict = judge(&tag, &memory, Question::Block(block));
            statuses.push(u8::from(verdict != ALLOWED));
        }
        let all = reply(&mut tag, &mut memory, &[0x02, 0x2C, 0x00, 0xFF]);
        assert_eq!(all[0], 0x00);
        assert_eq!(all[1..], statuses);
        for _ in 0..8 {
            let (first, more) = (dice.below(128) as u8, dice.pick(&[0, 0, 1, 7]));
            let one = [0x42, 0x20, first];
            let several = [0x42, 0x23, first, more];
            let request = if more == 0 { &one[..] } else { &several };
            let reply = reply(&mut tag, &mut memory, request);
            if reply[0] == 0x00 {
                let first = usize::from(first);
                let given = reply[1..].iter().step_by(5).copied();
                assert!(given.eq(statuses[first..=first + usize::from(more)].to_vec()));
                read += 1;
            }
        }
    }
    assert!(read > 10_000);
}
