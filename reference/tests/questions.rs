//! The scripts of the differential run on verdicts: what they ask.

use std::collections::{BTreeMap, BTreeSet};

use reference::bench::read_hex;
use reference::examples::write::{self, Judged};
use reference::questions::{questions, IDLE_LINES, WRONG_LINES};
use reference::verdict::{judge, rules, Question, Verdict};

/// What a question is about.
fn place(question: Question) -> String {
    match question {
        Question::Byte(asked) => format!("{:?}", asked.place()),
        Question::Block(_) => "block".to_string(),
        Question::Register { .. } => "pointer".to_string(),
        Question::Password(_) => "number".to_string(),
    }
}

/// The questions of so many scripts, each with the tag and the memory that it meets.
fn each_question(seeds: u64, mut each: impl FnMut(&Judged, Question)) {
    for seed in 1..=seeds {
        let mut judged = Judged::fresh();
        for line in questions(seed, 2000).lines {
            if let Some(question) = question(&line) {
                each(&judged, question);
            }
            judged.answer(&line);
        }
    }
}

/// The question of a script's line, if it is one.
fn question(line: &[u8]) -> Option<Question> {
    let [letter, b'\t', text @ ..] = line else {
        return None;
    };
    let mut bytes = [0; 8];
    let length = read_hex(text, &mut bytes)?;
    write::question(*letter, &bytes[..length])
}

/// What is asked of a place: the reasons that can hold there, and which two of them cannot hold at once.
const ASKED: [(&str, &str, &str); 11] = [
    ("Nowhere", "leg spoiled, outside the map, page full", ""),
    (
        "Memory",
        "leg spoiled, mailbox mode on, another area, locked block, session needed, page full",
        // Blocks 0 and 1 lie in area 1, whatever its end, and a leg has eight bytes at most before it leaves them.
        "another area + locked block, locked block + page full",
    ),
    (
        "Mailbox",
        "leg spoiled, mode off, mailbox busy, mailbox leg not from 2008h, page full",
        "",
    ),
    ("Dynamic", "leg spoiled, page full", ""),
    ("DynamicReadOnly", "leg spoiled, register read only, page full", ""),
    ("Register", "leg spoiled, mailbox mode on, session needed, ENDA rule", ""),
    ("RegisterReadOnly", "leg spoiled, mailbox mode on, session needed, register read only", ""),
    (
        "Password",
        "leg spoiled, mailbox mode on, session needed, password code, page full",
        "mailbox mode on + password code, mailbox mode on + page full, session needed + password code, \
         session needed + page full, password code + page full",
    ),
    (
        "block",
        "outside the map, locked block, area never writable, session needed",
        "outside the map + locked block, area never writable + session needed",
    ),
    (
        "pointer",
        "outside the map, configuration locked, session needed, ENDA rule",
        "outside the map + ENDA rule",
    ),
    ("number", "outside the map, session needed", ""),
];

/// Two reasons that hold at once, at each place: a verdict that had them in another order would show.
#[test]
fn scripts_reach_every_two_reasons() {
    let mut pairs = BTreeSet::new();
    each_question(60, |judged, question| {
        let rules = rules(&judged.tag, &judged.memory, question);
        let holding: Vec<_> = rules.iter().filter(|(_, holds)| *holds).collect();
        for (i, (one, _)) in holding.iter().enumerate() {
            for (two, _) in &holding[i + 1..] {
                pairs.insert((
                    place(question),
                    format!("{} + {}", one.words(), two.words()),
                ));
            }
        }
    });
    for (place, reasons, never) in ASKED {
        let reasons: Vec<&str> = reasons.split(", ").collect();
        for (i, one) in reasons.iter().enumerate() {
            for two in &reasons[i + 1..] {
                let pair = format!("{one} + {two}");
                let possible = !never.split(", ").any(|never| never == pair);
                assert_eq!(
                    pairs.remove(&(place.to_string(), pair.clone())),
                    possible,
                    "{place}: {pair}"
                );
            }
        }
    }
    assert!(pairs.is_empty(), "{pairs:?}");
}

/// The verdicts on each kind of question.
#[test]
fn scripts_reach_every_verdict() {
    let mut reached: BTreeMap<String, BTreeSet<Verdict>> = BTreeMap::new();
    each_question(20, |judged, question| {
        let verdict = judge(&judged.tag, &judged.memory, question);
        reached.entry(place(question)).or_default().insert(verdict);
    });
    let expected = [
        ("Nowhere", "leg spoiled, outside the map"),
        (
            "Memory",
            "allowed, leg spoiled, mailbox mode on, another area, locked block, session needed, page full",
        ),
        ("Mailbox", "allowed, leg spoiled, mode off, mailbox busy, mailbox leg not from 2008h"),
        ("Dynamic", "allowed, leg spoiled, page full"),
        ("DynamicReadOnly", "leg spoiled, register read only"),
        ("Register", "allowed, leg spoiled, mailbox mode on, session needed, ENDA rule"),
        ("RegisterReadOnly", "leg spoiled, mailbox mode on, session needed, register read only"),
        (
            "Password",
            "allowed, leg spoiled, mailbox mode on, session needed, password code, page full",
        ),
        (
            "block",
            "allowed, outside the map, locked block, area never writable, session needed, session needed 1, \
             session needed 2, session needed 3",
        ),
        ("pointer", "allowed, outside the map, configuration locked, session needed 0, ENDA rule"),
        (
            "number",
            "allowed, outside the map, session needed 0, session needed 1, session needed 2, session needed 3",
        ),
    ];
    for (place, verdicts) in expected {
        let reached: Vec<_> = reached[place].iter().map(Verdict::to_string).collect();
        assert_eq!(reached.join(", "), verdicts, "{place}");
    }
    assert_eq!(reached.len(), expected.len());
}

#[test]
fn a_seed_gives_one_script_of_questions() {
    let lines = |seed, size| questions(seed, size).lines;
    assert_eq!(lines(7, 500), lines(7, 500));
    assert_ne!(lines(7, 500), lines(8, 500));
    assert!(lines(7, 0).is_empty());
    let asked = lines(7, 500)
        .iter()
        .filter(|line| question(line).is_some())
        .count();
    assert!((500..510).contains(&asked), "{asked}");
}

#[test]
fn odd_lines_change_nothing() {
    let mut judged = Judged::fresh();
    for (lines, taken) in [(&WRONG_LINES[..], false), (&IDLE_LINES, true)] {
        for line in lines {
            assert_eq!(judged.answer(line.as_bytes()).is_some(), taken, "{line:?}");
        }
    }
    let fresh = Judged::fresh();
    assert!(judged.tag == fresh.tag && judged.memory == fresh.memory);
}
