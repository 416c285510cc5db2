//! 02's Ask 4, several tags: refusals, what goes to whom, the report, the search. Answers worked out by hand.

use std::collections::BTreeSet;
use std::fs;
use std::io::Result;
use std::path::Path;

use reference::crc::crc_bytes;
use reference::dice::Dice;
use reference::model::{self, Answer, Refusal, Signal};
use reference::rack::bench::{self, RackBench};
use reference::rack::calls::{NO_SLOT, SLOT};
use reference::rack::faults::{self, call, chosen, make_all, Call, Lent, OF_SEARCH, OF_STEP};
use reference::rack::met::{all, sent, Came, RackMeetings, Sent};
use reference::rack::script::{rack_script, uids};
use reference::rack::{goes_to_all, search, step, Rack, Report, MOST_TAGS};
use reference::script::text;
use reference::state::{at, STATE_SIZE};
use reference::tag::*;

/// The rack's scripts and their answers.
#[test]
fn scripts_and_answers() -> Result<()> {
    let folder = Path::new(env!("CARGO_MANIFEST_DIR")).join("../tests/rack/vectors");
    let mut count = 0;
    for entry in fs::read_dir(folder)? {
        let path = entry?.path();
        if path.extension().is_some_and(|extension| extension == "tsv") {
            let mut output = Vec::new();
            bench::run(&fs::read(&path)?[..], &mut output)?;
            let answers = fs::read(path.with_extension("out"))?;
            assert!(output == answers, "{} differs", path.display());
            count += 1;
        }
    }
    assert!(count >= 20);
    Ok(())
}

/// Lines to an empty rack, and their answers; the first space of a line is a tab, and the space of an answer.
fn check(entries: &[(&str, &str)]) {
    let mut bench = RackBench::new();
    for (input, wanted) in entries {
        for line in input.split("; ") {
            let mut answer = Vec::new();
            let line = line.replacen(' ', "\t", 1);
            bench.answer(Some(line.as_bytes()), &mut answer).unwrap();
            let answer = String::from_utf8(answer).unwrap();
            assert_eq!(answer.replace('\t', " "), *wanted, "{line:?} of {input}");
        }
    }
}

/// Low nibbles 1, 1, 2: the first two share slot 1.
const THREE: (&str, &str) = (
    "U 01020304052402E0; U 11020304052402E0; U 02020304052402E0",
    "-",
);
const FIELD: (&str, &str) = ("F 1", "-");
const FIRST: &str = "000001020304052402E0";
const SECOND: &str = "000011020304052402E0";
const THIRD: &str = "000002020304052402E0";

fn of_tags(reply: &str, tags: &str) -> String {
    format!("{reply} {tags}")
}

#[test]
fn the_report_and_the_lowest_reply() {
    let both = of_tags(FIRST, "0,1");
    let (one, two) = (of_tags(SECOND, "1"), of_tags(THIRD, "2"));
    let all = of_tags(FIRST, "0,1,2");
    check(&[
        THREE,
        FIELD,
        ("R 260100", &all),
        ("R 060100", "-"),
        ("E", &both),
        ("E", &two),
        ("E", "-"),
        ("R 26010811", &one),
        // The first in the middle of a transfer: the others go on.
        ("V 1; S", "-"),
        ("B A6", "A"),
        ("R 260100", &of_tags(SECOND, "1,2")),
        ("R 022000", "010F 0,1,2"),
        ("R 222002020304052402E000", "0000000000 2"),
    ]);
}

#[test]
fn a_signal_goes_to_the_named_tag() {
    check(&[
        THREE,
        ("S", "-"),
        ("B A6", "N"),
        ("T 1", "-"),
        ("V 1; S", "-"),
        ("B A6", "A"),
        ("T 0", "-"),
        // Without VCC.
        ("S", "-"),
        ("B A6", "N"),
        ("T 1", "-"),
        ("B 00; B 00; B 77", "A"),
        ("P", "-"),
        ("T 2; F 1", "-"),
        // Tag 1 is programming: its error is an answer too.
        ("R 022000", "0000000000 0,1,2"),
        ("T 1; D", "-"),
        ("R 222011020304052402E000", "0077000000 1"),
        ("R 222002020304052402E000", "0000000000 2"),
    ]);
}

#[test]
fn lines_of_the_rack() {
    let sixteen: Vec<String> = (0..16)
        .map(|tag| format!("U {tag:02X}020304052402E0"))
        .collect();
    check(&[
        (&sixteen.join("; "), "-"),
        ("U 10020304052402E0", "?"),
        ("T 255", "-"),
        ("S", "!6"),
        ("F 1", "-"),
        ("E", "-"),
        ("T 15", "-"),
        ("S", "-"),
    ]);
    let wrong = "U; U 01; U 01020304052402e0; T; T 00; T 256; T -1; T +1; L; L 0; L 0G; E 0; u 0";
    check(&[
        (wrong, "?"),
        // Bad lines before it do not matter.
        ("U 01020304052402E0", "-"),
        ("T 0", "-"),
        ("U 02020304052402E0", "?"),
        ("V 1", "-"),
    ]);
    // A refused call is a good line of another kind.
    check(&[("D", "!5"), ("U 01020304052402E0", "?"), ("L 060100", "!5")]);
}

#[test]
fn the_search_by_lines() {
    check(&[
        THREE,
        FIELD,
        ("L 060100", "1"),
        // The third tag has one end-of-frame left.
        ("E", &of_tags(THIRD, "2")),
        ("L 260100", "0"),
        ("L 26010802", "-"),
        ("L 06010402", "-"),
        ("L 06010401", "-"), // slots 0 and 1
        ("L 0601", "-"),
        // Any frame: error replies are answers too.
        ("L 022000", "0"),
        ("L 022080", "0"),
        ("L 222001020304052402E000", "-"),
        // A Quiet tag does not collide.
        ("R 220201020304052402E0", "-"),
        ("L 060100", "-"),
    ]);
}

/// The rack at the model's level.
struct Bench {
    tags: Vec<Tag>,
    memory: Vec<u8>,
    reply: Vec<u8>,
}

fn bench(uids: &[[u8; 8]]) -> Bench {
    let tags: Vec<Tag> = uids.iter().map(|&uid| Tag::fresh(uid)).collect();
    Bench {
        memory: vec![0; MEMORY_SIZE * tags.len()],
        reply: vec![0xEE; REPLY_SIZE],
        tags,
    }
}

impl Bench {
    fn rack(&mut self) -> Rack<'_> {
        Rack {
            tags: &mut self.tags,
            memory: &mut self.memory,
            reply: &mut self.reply,
        }
    }

    fn step(&mut self, to: usize, code: u8, value: u16, body: &[u8]) -> Report {
        let frame = [body, &crc_bytes(body)].concat();
        let frame = &frame[..];
        step(&mut self.rack(), to, Signal { code, value, frame }).unwrap()
    }
}

fn with_low_byte(low: u8) -> [u8; 8] {
    [low, 0x02, 0x03, 0x04, 0x05, 0x24, 0x02, 0xE0]
}

/// The first tag's error is shorter than the second's reply, which is not seen behind it.
#[test]
fn a_longer_reply_behind_the_first() {
    let mut bench = bench(&[with_low_byte(1), with_low_byte(2)]);
    bench.step(99, model::FIELD, 1, &[]);
    bench.step(0, model::VCC, 1, &[]);
    bench.step(0, model::START, 0, &[]);
    assert_eq!(bench.step(0, model::SEND, 0xA6, &[]).answer, Answer::Ack);
    let report = bench.step(99, model::FRAME, 0, &[0x02, 0x23, 0x00, 0x1F]);
    assert_eq!(report.answer, Answer::Reply(4));
    assert_eq!(report.replies, [(0, 4), (1, 3 + 4 * 32)]);
    assert_eq!(bench.reply[..2], [0x01, 0x0F]);
    assert!(bench.reply[4..].iter().all(|&byte| byte == 0xEE));
}

fn refused(tags: &mut [Tag], memory: &mut [u8], reply: &mut [u8], signal: Signal) -> Refusal {
    let mut rack = Rack {
        tags,
        memory,
        reply,
    };
    step(&mut rack, 2, signal).unwrap_err()
}

const START: Signal = Signal {
    code: model::START,
    value: 0,
    frame: &[],
};

/// 02: "Refusals: 1 and 4 read every tag; 5 ..; 6 ..; 7 ..; all after 1 to 4". The tag named is 2.
#[test]
fn refusals_in_order() {
    let Bench {
        mut tags,
        mut memory,
        mut reply,
    } = bench(&[with_low_byte(1), with_low_byte(1)]);
    tags[1].slot_count = 16;
    let (mut short, mut few) = (vec![0; 2 * MEMORY_SIZE - 1], vec![0; REPLY_SIZE - 1]);
    let bad = Signal { value: 1, ..START };
    let (t, m, r) = (&mut tags, &mut memory, &mut reply);
    assert_eq!(refused(t, &mut short, &mut few, bad), Refusal::Memory);
    assert_eq!(refused(t, m, &mut few, bad), Refusal::ReplyBuffer);
    assert_eq!(refused(t, m, r, bad), Refusal::Signal);
    assert_eq!(refused(t, m, r, START), Refusal::Range);
    t[1].slot_count = 0;
    assert_eq!(refused(t, m, r, START), Refusal::NoSuchTag);
    // The number is unread with what goes to all.
    let (code, value) = (model::FIELD, 1);
    let field = Signal {
        code,
        value,
        ..START
    };
    assert_eq!(refused(t, m, r, field), Refusal::EqualUids);
}

#[test]
fn the_number_of_tags() {
    let reply = &mut [0; REPLY_SIZE];
    assert_eq!(refused(&mut [], &mut [], reply, START), Refusal::RackSize);
    let mut tags: Vec<Tag> = (0..17).map(|low| Tag::fresh(with_low_byte(low))).collect();
    let mut memory = vec![0; 17 * MEMORY_SIZE];
    let refused =
        |tags: &mut [Tag], memory: &mut [u8], reply: &mut [u8]| refused(tags, memory, reply, START);
    assert_eq!(refused(&mut tags, &mut memory, reply), Refusal::RackSize);
    tags[16].radio_session = 5;
    assert_eq!(refused(&mut tags, &mut memory, reply), Refusal::Range);
}

#[test]
fn who_gets_what() {
    let to_all: Vec<u8> = (0..=model::LAST)
        .filter(|&code| goes_to_all(code))
        .collect();
    assert_eq!(to_all, [model::FIELD, model::FRAME, model::END_OF_FRAME]);
}

/// The slots one by one: the first in which two tags answer, by the frame and ends-of-frame on a copy.
#[test]
fn the_search_is_its_signals() {
    let mut dice = Dice::new(1);
    let mut found = BTreeSet::new();
    for _ in 0..3000 {
        let count = 1 + dice.below(MOST_TAGS);
        let uids = uids(&mut dice, count);
        let mut one = bench(&uids);
        one.step(0, model::FIELD, 1, &[]);
        for tag in &mut one.tags {
            tag.slot_count = dice.pick(&[0, 0, 1, 5]);
        }
        let uid = dice.pick(&uids);
        let body = reference::asks::frame(&mut dice, &uid, 0);
        let frame = [&body[..], &crc_bytes(&body)].concat();
        let mut two = Bench {
            tags: one.tags.clone(),
            memory: one.memory.clone(),
            reply: one.reply.clone(),
        };
        let slot = search(&mut one.rack(), &frame).unwrap();
        let mut report = two.step(0, model::FRAME, 0, &body);
        let mut now = 0;
        let last = if sent(&frame) == Sent::Sixteen { 15 } else { 0 };
        while report.replies.len() < 2 && now < last {
            report = two.step(0, model::END_OF_FRAME, 0, &[]);
            now += 1;
        }
        assert_eq!(slot, (report.replies.len() > 1).then_some(now));
        assert!(one.tags == two.tags && one.reply == two.reply);
        found.insert(slot);
    }
    assert_eq!(found.len(), 17);
}

/// In terms of the UIDs: a sixteen-slot frame without a mask, all tags Ready.
#[test]
fn the_search_by_uids() {
    let mut dice = Dice::new(2);
    for _ in 0..2000 {
        let count = 1 + dice.below(MOST_TAGS);
        let uids = uids(&mut dice, count);
        let mut bench = bench(&uids);
        bench.step(0, model::FIELD, 1, &[]);
        let frame = [&[0x06, 0x01, 0x00][..], &crc_bytes(&[0x06, 0x01, 0x00])].concat();
        let shared = |slot: &u8| uids.iter().filter(|uid| uid[0] & 0x0F == *slot).count() > 1;
        let slot = search(&mut bench.rack(), &frame).unwrap();
        assert_eq!(slot, (0..16).find(shared));
    }
}

fn right(dice: &mut Dice, search: bool) -> (Lent, Call) {
    let count = 1 + dice.below(MOST_TAGS);
    let lent = Lent::fresh(&uids(dice, count));
    let body = [0x26, 0x01, 0x00];
    let call = Call {
        search,
        tags: count as u32,
        to: dice.below(count) as u32,
        code: dice.pick(&[3, 8]),
        value: 0,
        frame: [&body[..], &crc_bytes(&body)].concat(),
    };
    (lent, call)
}

#[test]
fn the_orders_of_the_library() {
    assert_eq!(
        OF_STEP.map(|fault| fault.number()),
        [1, 2, 3, 13, 4, 5, 6, 7]
    );
    assert_eq!(OF_SEARCH.map(|fault| fault.number()), [1, 2, 13, 4, 5, 7]);
}

#[test]
fn the_first_fault_is_the_answer() {
    let mut dice = Dice::new(3);
    for (search, faults) in [(false, &OF_STEP[..]), (true, &OF_SEARCH)] {
        for bits in 0..1 << faults.len() {
            let faults = chosen(faults, bits);
            for _ in 0..40 {
                let (mut lent, mut asked) = right(&mut dice, search);
                make_all(&mut dice, &faults, &mut lent, &mut asked);
                let before = lent.clone();
                let answer = call(&mut lent, &asked);
                match faults.first() {
                    Some(fault) => {
                        assert_eq!(answer, (fault.number(), 0), "{faults:?}");
                        assert!(lent == before, "{faults:?}");
                    }
                    None => assert!(answer.0 >= 0x100, "{answer:x?}"),
                }
            }
        }
    }
}

/// The library's numbers: tags 0 and 1 in slot 1.
#[test]
fn numbers_of_the_library() {
    let mut lent = Lent::fresh(&[with_low_byte(1), with_low_byte(0x11), with_low_byte(2)]);
    let mut asked = Call {
        search: false,
        tags: 3,
        to: u32::MAX,
        code: 2,
        value: 1,
        frame: Vec::new(),
    };
    assert_eq!(call(&mut lent, &asked), (0x100, 0));
    assert_eq!(lent.states[at::FIELD], 1);
    assert_eq!(lent.states[2 * STATE_SIZE + at::FIELD], 1);
    let body = [0x06, 0x01, 0x00];
    asked.frame = [&body[..], &crc_bytes(&body)].concat();
    (asked.code, asked.value) = (8, 0);
    assert_eq!(call(&mut lent, &asked), (0x103, 0));
    let count = |lent: &Lent, tag: usize| lent.states[STATE_SIZE * tag + at::SLOT_COUNT];
    assert_eq!([0, 1, 2].map(|tag| count(&lent, tag)), [1, 1, 2]);
    asked.code = 9;
    assert_eq!(call(&mut lent, &asked), (0x100C, 0b011));
    assert_eq!(call(&mut lent, &asked), (0x100C, 0b100));
    asked.search = true;
    assert_eq!(call(&mut lent, &asked), (SLOT + 1, 0));
    assert_eq!([0, 1, 2].map(|tag| count(&lent, tag)), [0, 0, 1]);
    // A wrong CRC: nothing is sent after it.
    asked.frame[4] ^= 1;
    assert_eq!(call(&mut lent, &asked), (NO_SLOT, 0));
    assert_eq!(count(&lent, 2), 1);
    (asked.search, asked.code, asked.to) = (false, 3, 3);
    assert_eq!(call(&mut lent, &asked), (6, 0));
    asked.tags = 4;
    assert_eq!(call(&mut lent, &asked), (1, 0));
    lent.memory.resize(4 * MEMORY_SIZE, 0);
    assert_eq!(call(&mut lent, &asked), (13, 0));
}

#[test]
fn a_seed_gives_one_rack_script() {
    assert_eq!(rack_script(7, 500).lines, rack_script(7, 500).lines);
    assert_ne!(rack_script(7, 500).lines, rack_script(8, 500).lines);
    assert_eq!(rack_script(7, 500).lines.len(), 500);
}

/// UIDs of a rack are all different, and share nibbles.
#[test]
fn uids_share_nibbles() {
    let mut dice = Dice::new(4);
    for _ in 0..200 {
        let uids = uids(&mut dice, MOST_TAGS);
        let different: BTreeSet<_> = uids.iter().collect();
        assert_eq!(different.len(), MOST_TAGS);
        let low: BTreeSet<u8> = uids.iter().map(|uid| uid[0] & 0x0F).collect();
        assert!(low.len() < MOST_TAGS);
    }
}

/// Each tag is that tag alone under its own lines: its wire signals, and all frames, ends-of-frame and field changes.
#[test]
fn a_rack_is_its_tags() {
    for seed in 1..=40 {
        let lines = rack_script(seed, 1000).lines;
        let mut bench = RackBench::new();
        let mut alone: Vec<(Tag, Vec<u8>)> = Vec::new();
        for line in lines {
            let mut room = [0; reference::bench::LONGEST_FRAME];
            let mut answer = Vec::new();
            bench.answer(Some(&line), &mut answer).unwrap();
            let taken = bench.report.is_some();
            if alone.is_empty() && taken {
                alone = vec![(Tag::fresh([0; 8]), vec![0; MEMORY_SIZE]); bench.tags.len()];
                for ((tag, _), rack) in alone.iter_mut().zip(&bench.tags) {
                    tag.uid = rack.uid;
                }
            }
            let signal = match bench::read(&line, &mut room) {
                Some(bench::Line::Signal(signal)) if taken => signal,
                // It stands for several signals: the copies are made anew.
                Some(bench::Line::Search(_)) => {
                    for ((tag, _), rack) in alone.iter_mut().zip(&bench.tags) {
                        *tag = rack.clone();
                    }
                    continue;
                }
                _ => continue,
            };
            for (place, (tag, memory)) in alone.iter_mut().enumerate() {
                if goes_to_all(signal.code) || place == usize::from(bench.to) {
                    let mut reply = [0; REPLY_SIZE];
                    model::step(tag, memory, &mut reply, signal).unwrap();
                }
                assert!(*tag == bench.tags[place], "seed {seed}");
            }
        }
    }
}

/// All that a line of a rack can come to comes up in a few seeds.
#[test]
fn scripts_reach_all() {
    let mut meetings = RackMeetings::default();
    for seed in 1..=150 {
        let mut bench = RackBench::new();
        for line in rack_script(seed, 2000).lines {
            let (tags, to) = (bench.tags.clone(), usize::from(bench.to));
            let (mut answer, mut room) = (Vec::new(), [0; reference::bench::LONGEST_FRAME]);
            bench.answer(Some(&line), &mut answer).unwrap();
            let answer = String::from_utf8(answer).unwrap();
            if let Some(number) = answer.strip_prefix('!') {
                meetings.add_refusal(number.parse().unwrap());
                continue;
            }
            match (bench::read(&line, &mut room), &bench.report) {
                (Some(bench::Line::Signal(signal)), Some(report)) => {
                    meetings.add(&tags, to, signal, report)
                }
                (Some(bench::Line::Search(frame)), _) => {
                    meetings.add_search(frame, answer.parse().ok())
                }
                _ => {}
            }
        }
    }
    let mut said = Vec::new();
    let complete = meetings.complete(&mut said, &all(true)).unwrap();
    assert!(complete, "{}", String::from_utf8_lossy(&said));
    assert!(!meetings.complete(&mut said, &[Came::Refused(13)]).unwrap());
}

/// Scripts are read as a whole: no last line is lost.
#[test]
fn the_program_answers_each_line() {
    for seed in 1..=20 {
        let script = rack_script(seed, 300);
        let mut output = Vec::new();
        bench::run(&text(&script.lines, script.ended)[..], &mut output).unwrap();
        let lines = output.split(|&byte| byte == b'\n').count() - 1;
        // An empty last line without a line feed is none.
        let empty = !script.ended && script.lines.last().is_some_and(Vec::is_empty);
        assert_eq!(lines, script.lines.len() - usize::from(empty));
    }
}

/// Calls with something changed: taken ones and each refusal.
#[test]
fn changed_calls_reach_every_refusal() {
    let mut dice = Dice::new(5);
    let mut answers = BTreeSet::new();
    for _ in 0..20_000 {
        let search = dice.one_in(3);
        let (mut lent, mut asked) = right(&mut dice, search);
        faults::change(&mut dice, &mut lent, &mut asked);
        let before = lent.clone();
        let (answer, bits) = call(&mut lent, &asked);
        assert!(answer >= 0x100 || (lent == before && bits == 0));
        answers.insert((search, answer.min(0x100)));
    }
    let numbers = |search: bool, of: &[u32]| of.iter().all(|&n| answers.contains(&(search, n)));
    assert!(numbers(false, &[1, 2, 3, 4, 5, 6, 7, 13, 0x100]));
    assert!(numbers(true, &[1, 2, 4, 5, 7, 13, 0x100]));
}
