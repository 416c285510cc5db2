//! 01's listing, its twelve pairs, refusals and some ranges; 02's Ask 1.

use reference::bench::{self, UID};
use reference::crc::crc;
use reference::model::{self, Answer, Refusal, Signal};
use reference::state::{self, at, STATE_SIZE};
use reference::tag::*;

/// Runs lines of (input, wanted answer) on the bench program; spaces stand for tabs.
/// Answers are joined by spaces when one entry stands for many lines.
fn check(entries: &[(&str, &str)]) {
    let mut script = String::new();
    let mut sizes = Vec::new();
    for (input, _) in entries {
        let lines = expand(input);
        sizes.push(lines.len());
        for line in lines {
            script.push_str(&line.replace(' ', "\t"));
            script.push('\n');
        }
    }
    let mut output = Vec::new();
    bench::run(script.as_bytes(), &mut output).unwrap();
    let text = String::from_utf8(output).unwrap();
    let mut answers = text.lines().map(|line| line.split_once('\t').unwrap().1);
    for ((input, wanted), size) in entries.iter().zip(sizes) {
        let got: Vec<&str> = answers.by_ref().take(size).collect();
        assert_eq!(got.join(" "), *wanted, "at {input}");
    }
}

/// "leg AE 00 05 00" is a whole write transfer with its programming end,
/// "send 00 01" bytes only, "present" opens the I2C session; all else is a line.
fn expand(input: &str) -> Vec<String> {
    let bytes = |text: &str| {
        text.split(' ')
            .map(|b| format!("B {b}"))
            .collect::<Vec<_>>()
    };
    if let Some(text) = input.strip_prefix("leg ") {
        let mut lines = vec!["S".to_string()];
        lines.extend(bytes(text));
        lines.extend(["P".to_string(), "D".to_string()]);
        return lines;
    }
    if let Some(text) = input.strip_prefix("send ") {
        return bytes(text);
    }
    if input == "present" {
        return expand("leg AE 09 00 00 00 00 00 00 00 00 00 09 00 00 00 00 00 00 00 00");
    }
    vec![input.to_string()]
}

const ON: [(&str, &str); 2] = [("V 1", "-"), ("F 1", "-")];
const PRESENT: (&str, &str) = ("present", "- A A A A A A A A A A A A A A A A A A A A - -");
const LEG_4: &str = "- A A A A - -";

fn from_powered(entries: &[(&str, &str)]) {
    check(&[&ON[..], entries].concat());
}

#[test]
fn listing() {
    check(&[
        ("V 1", "-"),
        ("S", "-"),
        ("B A6", "A"),
        ("B 00", "A"),
        ("B 04", "A"),
        ("B 7E", "A"),
        ("P", "-"),
        ("S", "-"),
        ("B A6", "N"),
        ("D", "-"),
        ("P", "-"),
        ("F 1", "-"),
        ("R 022001", "007E000000"),
    ]);
}

#[test]
fn pair_01_crc() {
    assert_eq!(crc(b"123456789"), 0x906E);
    assert_eq!(crc(&[0; 1024]), 0x0912);
}

#[test]
fn pair_02_last_block() {
    from_powered(&[("R 02207F", "0000000000"), ("R 022080", "0110")]);
}

#[test]
fn pair_03_area_border() {
    from_powered(&[
        PRESENT,
        ("leg AE 00 05 00", LEG_4),
        ("R 02230700", "0000000000"),
        ("R 02230701", "010F"),
    ]);
}

#[test]
fn pair_04_next_end() {
    from_powered(&[
        PRESENT,
        ("leg AE 00 05 00", LEG_4),
        ("leg AE 00 07 00", "- A A A N - -"),
        ("leg AE 00 07 01", LEG_4),
    ]);
}

#[test]
fn pair_05_read_protection() {
    let set = |n: u8| format!("R 02B302{n:02X}0000000000000000");
    from_powered(&[
        PRESENT,
        ("leg AE 00 05 00 09", "- A A A A A - -"),
        ("R 022008", "0115"),
        // Passwords 1 and 2 are both zeros in a fresh tag.
        (&set(1), "00"),
        ("R 022008", "0000000000"),
        (&set(4), "0110"),
        ("R 022008", "0000000000"),
        (&set(2), "00"),
        ("R 022008", "0115"),
    ]);
}

#[test]
fn pair_06_area_1_readable() {
    from_powered(&[
        PRESENT,
        ("leg AE 00 04 09", LEG_4),
        ("R 022000", "0000000000"),
    ]);
}

#[test]
fn pair_07_status_stops() {
    from_powered(&[("R 022C7E05", "000000")]);
}

#[test]
fn pair_08_end_of_memory() {
    from_powered(&[
        ("leg A6 01 FF 11 22", "- A A A A N - -"),
        ("R 02207F", "0000000000"),
    ]);
}

#[test]
fn pair_09_page() {
    let full = format!("send {}", vec!["5A"; 256].join(" "));
    let acks = vec!["A"; 256].join(" ");
    let begin = [
        ("S", "-"),
        ("send A6 00 00", "A A A"),
        (full.as_str(), acks.as_str()),
    ];
    from_powered(
        &[
            &begin[..],
            &[("P", "-"), ("D", "-"), ("R 02203F", "005A5A5A5A")],
        ]
        .concat(),
    );
    let over = [("B 5A", "N"), ("P", "-"), ("R 02203F", "0000000000")];
    from_powered(&[&begin[..], &over[..]].concat());
}

#[test]
fn pair_10_message() {
    from_powered(&[
        PRESENT,
        ("leg AE 00 0D 01", LEG_4),
        ("leg A6 20 06 01", LEG_4),
        ("leg A6 20 08 C1 C2 C3", "- A A A A A A - -"),
        ("R 02AB02", "0002"),
        ("R 02AC020300", "010F"),
        ("R 02AC02FF00", "010F"),
        ("R 02AD020D", "0043"),
        ("R 02AC020200", "00C3"),
        ("R 02AD020D", "0041"),
    ]);
}

#[test]
fn pair_11_counter_wraps() {
    from_powered(&[
        ("leg A6 00 00 77", LEG_4),
        ("S", "-"),
        ("send A6 FF FF", "A A A"),
        ("S", "-"),
        ("B A7", "A"),
        ("G 1", "FF"),
        ("G 0", "77"),
        ("P", "-"),
    ]);
}

#[test]
fn pair_12_stay_quiet_shut_out() {
    from_powered(&[
        ("S", "-"),
        ("B A6", "A"),
        ("R 220201020304052402E0", "-"),
        ("P", "-"),
        ("R 022000", "0000000000"),
        // Outside a transfer it does quieten the tag.
        ("R 220201020304052402E0", "-"),
        ("R 022000", "-"),
    ]);
}

#[test]
fn bad_lines() {
    let good = format!("R {}", "00".repeat(599));
    let long = format!("R {}", "00".repeat(600));
    check(&[
        ("", "?"),
        ("V 2", "?"),
        ("S ", "?"),
        ("B a6", "?"),
        ("B 0", "?"),
        ("R ", "?"),
        (&good, "-"),
        (&long, "?"),
        ("P\r", "?"),
        ("V 1", "-"),
    ]);
}

/// A powered tag in the field with all that is lent.
fn powered() -> (Tag, Vec<u8>, Vec<u8>) {
    let mut tag = Tag::fresh(UID);
    tag.vcc = true;
    tag.field = true;
    (tag, vec![0; 1024], vec![0; 643])
}

fn plain(code: u8, value: u16) -> Signal<'static> {
    Signal {
        code,
        value,
        frame: &[],
    }
}

#[test]
fn refusals_in_order() {
    let (mut tag, mut memory, mut reply) = powered();
    tag.registers.enda = [3, 3, 15];
    let mut short = vec![0; 1023];
    let few = &mut [0; 642];
    let before = tag.clone();
    let bad = plain(model::LAST + 1, 0);
    assert_eq!(
        model::step(&mut tag, &mut short, few, bad),
        Err(Refusal::Memory)
    );
    assert_eq!(
        model::step(&mut tag, &mut memory, few, bad),
        Err(Refusal::ReplyBuffer)
    );
    assert_eq!(
        model::step(&mut tag, &mut memory, &mut reply, bad),
        Err(Refusal::Signal)
    );
    let start = plain(model::START, 0);
    assert_eq!(
        model::step(&mut tag, &mut memory, &mut reply, start),
        Err(Refusal::Range)
    );
    assert_eq!(tag, before);
    tag.registers.enda = [3, 4, 15];
    assert_eq!(
        model::step(&mut tag, &mut memory, &mut reply, start),
        Ok(Answer::None)
    );
}

#[test]
fn signal_values() {
    let (mut tag, mut memory, mut reply) = powered();
    let bad = [
        (model::VCC, 2),
        (model::FIELD, 2),
        (model::START, 1),
        (model::SEND, 256),
    ];
    let more = [
        (model::FETCH, 2),
        (model::STOP, 1),
        (model::PROGRAMMING_END, 1),
        (model::FRAME, 1),
        (model::END_OF_FRAME, 1),
    ];
    for (code, value) in bad.into_iter().chain(more) {
        let answer = model::step(&mut tag, &mut memory, &mut reply, plain(code, value));
        assert_eq!(answer, Err(Refusal::Signal), "{code} {value}");
    }
}

#[test]
fn page_range() {
    let (mut tag, mut memory, _) = powered();
    tag.counter = 256;
    tag.bus = Bus::Data {
        space: Space::User,
        count: 256,
        spoiled: false,
    };
    assert!(model::in_range(&tag, &memory));
    tag.counter = 257;
    tag.bus = Bus::Data {
        space: Space::User,
        count: 257,
        spoiled: false,
    };
    assert!(!model::in_range(&tag, &memory));
    tag.counter = 0x0909;
    tag.bus = Bus::Data {
        space: Space::System,
        count: 9,
        spoiled: true,
    };
    assert!(!model::in_range(&tag, &memory));
    memory[PAGE_PLACE + 8] = 0x09;
    assert!(model::in_range(&tag, &memory));
    memory[PAGE_PLACE + 8] = 0x07;
    assert!(!model::in_range(&tag, &memory));
    tag.i2c_session = true;
    assert!(model::in_range(&tag, &memory));
}

#[test]
fn reply_bytes_past_the_reply_stay() {
    let (mut tag, mut memory, mut reply) = powered();
    reply.fill(0xEE);
    let mut frame = vec![0x02, 0x23, 0x00, 0x80];
    frame.extend(reference::crc::crc_bytes(&frame));
    let signal = Signal {
        code: model::FRAME,
        value: 0,
        frame: &frame,
    };
    let answer = model::step(&mut tag, &mut memory, &mut reply, signal);
    assert_eq!(answer, Ok(Answer::Reply(4)));
    assert_eq!(reply[..2], [0x01, 0x0F]);
    assert!(reply[4..].iter().all(|&byte| byte == 0xEE));
}

/// A small random source, the same on every run.
struct Dice(u64);

impl Dice {
    fn roll(&mut self, sides: usize) -> usize {
        self.0 ^= self.0 << 13;
        self.0 ^= self.0 >> 7;
        self.0 ^= self.0 << 17;
        (self.0 >> 11) as usize % sides
    }

    fn pick(&mut self, bytes: &[u8]) -> u8 {
        bytes[self.roll(bytes.len())]
    }
}

const PLACES: [[u8; 3]; 14] = [
    [0xA6, 0x00, 0x00],
    [0xA6, 0x00, 0x1E],
    [0xA6, 0x01, 0xFE],
    [0xA6, 0x20, 0x03],
    [0xA6, 0x20, 0x06],
    [0xA6, 0x20, 0x06],
    [0xA6, 0x20, 0x08],
    [0xA6, 0x20, 0x08],
    [0xA6, 0xFF, 0xFF],
    [0xAE, 0x00, 0x03],
    [0xAE, 0x00, 0x05],
    [0xAE, 0x00, 0x0B],
    [0xAE, 0x00, 0x0D],
    [0xAE, 0x09, 0x00],
];

/// A run of signals: a leg, a supply change, a frame or a stray signal.
fn random_signals(dice: &mut Dice) -> Vec<(u8, u16, Vec<u8>)> {
    let plain = |code: u8, value: u8| (code, u16::from(value), Vec::new());
    let mut run = Vec::new();
    match dice.roll(8) {
        0..=2 => {
            run.push(plain(model::START, 0));
            run.extend(PLACES[dice.roll(14)].map(|byte| plain(model::SEND, byte)));
            for _ in 0..dice.roll(6) {
                run.push(plain(
                    model::SEND,
                    dice.pick(&[0, 1, 3, 5, 7, 9, 15, 16, 255]),
                ));
            }
        }
        3 => {
            run.push(plain(model::START, 0));
            run.push(plain(model::SEND, dice.pick(&[0xA7, 0xAF])));
            for _ in 0..dice.roll(12) {
                run.push(plain(model::FETCH, u8::from(dice.roll(8) > 0)));
            }
        }
        4 => run.extend(opening_leg()),
        5 => run.push((model::FRAME, 0, random_frame(dice))),
        6 => run.push(plain(
            dice.pick(&[model::VCC, model::FIELD]),
            u8::from(dice.roll(4) > 0),
        )),
        _ => run.push(plain(dice.pick(&[model::START, model::STOP]), 0)),
    }
    if dice.roll(3) > 0 {
        run.push(plain(model::STOP, 0));
        run.push(plain(model::PROGRAMMING_END, 0));
    }
    run
}

/// The password leg that opens a fresh tag's session.
fn opening_leg() -> Vec<(u8, u16, Vec<u8>)> {
    let mut bytes = vec![0xAE, 0x09, 0x00];
    bytes.extend([0; 17]);
    bytes[11] = 0x09;
    let mut run = vec![(model::START, 0, Vec::new())];
    run.extend(
        bytes
            .into_iter()
            .map(|byte| (model::SEND, byte, Vec::new())),
    );
    run
}

fn random_frame(dice: &mut Dice) -> Vec<u8> {
    let command = dice.pick(&[
        0x02, 0x20, 0x21, 0x22, 0x23, 0x24, 0x25, 0x26, 0x2C, 0xA0, 0xA1, 0xAA, 0xAB, 0xAC, 0xAD,
        0xAE, 0xB1, 0xB3, 0x99,
    ]);
    let flags = dice.pick(&[0x02, 0x02, 0x22, 0x12, 0x42]);
    let mut frame = vec![flags, command];
    if command >= 0xA0 {
        frame.push(0x02);
    }
    if flags & 0x20 != 0 {
        frame.extend(UID);
    }
    for _ in 0..dice.pick(&[0, 1, 2, 2, 3, 5, 6, 9, 10]) {
        frame.push(dice.pick(&[0, 0, 0, 1, 2, 3, 5, 7, 0x0D, 0x0F, 0x7F, 0x80]));
    }
    frame.extend(reference::crc::crc_bytes(&frame));
    frame
}

/// Every call leaves the tag within the ranges, so no later call is refused.
#[test]
fn ranges_are_kept() {
    let mut dice = Dice(0x0123_4567_89AB_CDEF);
    let (mut tag, mut memory, mut reply) = powered();
    let mut replies = 0;
    for _ in 0..100_000 {
        for (code, value, frame) in random_signals(&mut dice) {
            let signal = Signal {
                code,
                value,
                frame: &frame,
            };
            let answer = model::step(&mut tag, &mut memory, &mut reply, signal);
            let answer = answer.expect("a tag within the ranges");
            replies += usize::from(matches!(answer, Answer::Reply(_)));
        }
    }
    assert!(replies > 1000);
}

/// The state's bytes: those that decode come back the same, and a byte that the bus does not use must be 0.
#[test]
fn state_bytes() {
    let mut bytes = state::encode(&Tag::fresh(UID));
    assert_eq!(bytes[at::ENDA1..at::I2CSS], [0x0F, 0, 0x0F, 0, 0x0F, 0]);
    assert_eq!(bytes[at::UID..], UID);
    for place in 0..STATE_SIZE {
        for value in 0..=255 {
            let before = std::mem::replace(&mut bytes[place], value);
            if let Some(tag) = state::decode(&bytes) {
                assert_eq!(state::encode(&tag), bytes);
            } else {
                // before the counter all but the radio session and the slot count are flags or have their numbers
                assert!(
                    (place < at::COUNTER && ![at::RADIO_SESSION, at::SLOT_COUNT].contains(&place))
                        || (at::BUS..at::RF_MNGT).contains(&place)
                        || (at::MB_EN..at::MESSAGE_LENGTH).contains(&place)
                );
            }
            bytes[place] = before;
        }
    }
    bytes[at::KEPT_RF_MNGT_DYN - 1] = 1; // a page byte count with the bus idle
    assert_eq!(state::decode(&bytes), None);
}

/// RF_MNGT_Dyn as kept: any value of an open transfer is a state, undefined bits break a range; with none open it
/// is not used.
#[test]
fn kept_byte() {
    let open: [&[u8]; 5] = [&[1, 0, 1], &[2], &[3], &[4], &[5]];
    let none: [&[u8]; 2] = [&[0], &[1]];
    let (tag, memory, _) = powered();
    for kept in 0..=255 {
        let decoded = |bus: &[u8]| {
            let mut bytes = state::encode(&tag);
            bytes[at::BUS..at::BUS + bus.len()].copy_from_slice(bus);
            bytes[at::KEPT_RF_MNGT_DYN] = kept;
            state::decode(&bytes)
        };
        for bus in open {
            let tag = decoded(bus).expect("a transfer is open");
            assert_eq!(tag.kept_rf_mngt_dyn, kept);
            assert_eq!(model::in_range(&tag, &memory), kept < 4);
        }
        for bus in none {
            assert_eq!(decoded(bus).is_some(), kept == 0);
        }
    }
}

/// A tag made by hand, not by bytes, that keeps a value with no transfer open.
#[test]
fn kept_without_a_transfer() {
    let (mut tag, memory, _) = powered();
    tag.kept_rf_mngt_dyn = 1;
    assert!(!model::in_range(&tag, &memory));
    tag.bus = Bus::Started { open: true };
    assert!(model::in_range(&tag, &memory));
}

// 02, Ask 1.

/// Legs without their Stop, as "send" has them after a Start.
const SLEEP: [(&str, &str); 2] = [("S", "-"), ("send A6 20 03 02", "A A A A")];
const ENABLE: [(&str, &str); 2] = [("S", "-"), ("send A6 20 06 01", "A A A A")];
const MODE_ON: [(&str, &str); 2] = [PRESENT, ("leg AE 00 0D 01", LEG_4)];

#[test]
fn ask_1_frames_are_judged_by_the_opening_select() {
    let rest = [("S", "-"), ("R 022000", "010F"), ("P", "-")];
    from_powered(&[&SLEEP[..], &rest, &[("R 022000", "-")]].concat());
    let off = [("leg A6 20 03 02", LEG_4), ("R 022000", "-"), ("S", "-")];
    let back = [("send A6 20 03 00", "A A A A"), ("S", "-"), ("B A7", "A")];
    let ends = [("R 022000", "-"), ("P", "-"), ("R 022000", "0000000000")];
    from_powered(&[&off[..], &back, &ends].concat());
    // Not by the Start before that select: a frame between the two still writes.
    let write = [("R 02B302000000000000000000", "00"), ("S", "-")];
    let between = [("R 02A1020302", "00"), ("B A6", "A"), ("R 022000", "-")];
    from_powered(&[&write[..], &between].concat());
}

#[test]
fn ask_1_a_fetch_gives_the_new_value() {
    let read = [
        ("S", "-"),
        ("send A6 20 03", "A A A"),
        ("S", "-"),
        ("B A7", "A"),
        ("G 1", "02"),
        ("R 022000", "010F"),
        ("P", "-"),
    ];
    from_powered(&[&SLEEP[..], &read].concat());
}

/// The customer's driver: MB_EN by a leg that a Start ends, the message by the next leg.
#[test]
fn ask_1_enable_and_put_in_one_transfer() {
    let put = [("S", "-"), ("send A6 20 08 C1 C2", "A A A A A"), ("P", "-")];
    let read = [("R 02AC020000", "00C1C2"), ("R 02AD020D", "0041")];
    from_powered(&[&MODE_ON[..], &ENABLE, &put, &read].concat());
    // The memory is closed by it at once, and opened again.
    let closed = [("S", "-"), ("send A6 00 04 11", "A A A N")];
    let clear = [("S", "-"), ("send A6 20 06 00", "A A A A")];
    let opened = [("S", "-"), ("send A6 00 04 11", "A A A A"), ("P", "-")];
    from_powered(&[&MODE_ON[..], &ENABLE, &closed, &clear, &opened].concat());
}

#[test]
fn ask_1_no_effect() {
    let asked = [("R 02AD020D", "0000")];
    // A second byte spoils the leg; VCC off drops it; MB_MODE 0 lets nothing be set.
    let spoiled = [("B 01", "N"), ("S", "-"), ("P", "-")];
    from_powered(&[&MODE_ON[..], &ENABLE, &spoiled, &asked].concat());
    let dropped = [("V 0", "-"), ("V 1", "-")];
    from_powered(&[&MODE_ON[..], &ENABLE, &dropped, &asked].concat());
    let ended = [("S", "-"), ("P", "-")];
    from_powered(&[&ENABLE[..], &ended, &asked].concat());
}

#[test]
fn ask_1_a_select_not_acked_comes_too_late() {
    let ends = [("S", "-"), ("B A4", "N"), ("R 022000", "-"), ("P", "-")];
    from_powered(&[&SLEEP[..], &ends].concat());
}

/// Memory, system, password and mailbox legs keep needing the Stop.
#[test]
fn ask_1_other_legs_are_dropped() {
    let dropped = [("S", "-"), ("P", "-")];
    let memory = [("S", "-"), ("send A6 00 04 11", "A A A A")];
    let asked = [("R 022001", "0000000000")];
    from_powered(&[&memory[..], &dropped, &asked].concat());
    let system = [PRESENT, ("S", "-"), ("send AE 00 03 02", "A A A A")];
    let asked = [("R 02A00203", "0000")];
    from_powered(&[&system[..], &dropped, &asked].concat());
    let on = [("leg A6 20 06 01", LEG_4), ("S", "-")];
    let mailbox = [("send A6 20 08 C1", "A A A A")];
    let asked = [("R 02AC020000", "010F")];
    from_powered(&[&MODE_ON[..], &on, &mailbox, &dropped, &asked].concat());
}
