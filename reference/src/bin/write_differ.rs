//! Runs seeded scripts on a program that answers whether a write is allowed, and on the reference, and compares every
//! answer.
//!
//!     write_differ PROGRAM FIRST_SEED COUNT [QUESTIONS]    scripts of so many questions, 2,000 if not given
//!
//! A difference is cut to a short script, printed with both outputs, and ends the run with 1. So does a verdict that a
//! side can give and that no question got.

use std::collections::BTreeMap;
use std::io::{stdout, Result, Write};
use std::process::exit;

use reference::examples::write;
use reference::feed::{run_program, Output};
use reference::outcome::{report, Outcome};
use reference::questions::{questions, BY_RADIO, ON_THE_WIRE};
use reference::script::{text, Line};
use reference::verdict::Verdict;

const QUESTIONS: usize = 2000;

/// How often each verdict was given.
type Verdicts = BTreeMap<String, u64>;

/// What was answered: to questions by side, and to other lines.
#[derive(Default)]
struct Tally {
    wire: Verdicts,
    radio: Verdicts,
    set: u64,
    wrong: u64,
    remarks: u64,
}

impl Tally {
    fn add(&mut self, line: &[u8], answer: &[u8]) {
        let side = match (line, answer) {
            (_, b"-") => return self.set += 1,
            (_, b"?") => return self.wrong += 1,
            ([b'#', ..], _) => return self.remarks += 1,
            ([b'W', ..], _) => &mut self.wire,
            _ => &mut self.radio,
        };
        let answer = String::from_utf8_lossy(answer).into_owned();
        *side.entry(answer).or_default() += 1;
    }

    fn print(&self, out: &mut impl Write) -> Result<()> {
        let (wire, radio) = (sum(&self.wire), sum(&self.radio));
        let questions = wire + radio;
        writeln!(
            out,
            "{questions} questions compared, {wire} about the wire, {radio} about the radio"
        )?;
        writeln!(out, "  wire: {}", in_words(&self.wire, &ON_THE_WIRE))?;
        writeln!(out, "  radio: {}", in_words(&self.radio, &BY_RADIO))?;
        let (set, wrong, remarks) = (self.set, self.wrong, self.remarks);
        writeln!(out, "  other lines: {set} -, {wrong} ?, {remarks} remarks")?;
        out.flush()
    }

    /// The verdicts that no question got.
    fn missing(&self) -> Vec<String> {
        let sides = [
            ("wire", &self.wire, &ON_THE_WIRE[..]),
            ("radio", &self.radio, &BY_RADIO),
        ];
        let mut missing = Vec::new();
        for (name, given, possible) in sides {
            let never = possible
                .iter()
                .filter(|verdict| !given.contains_key(&verdict.to_string()));
            missing.extend(never.map(|verdict| format!("{name}, {verdict}")));
        }
        missing
    }
}

fn sum(given: &Verdicts) -> u64 {
    given.values().sum()
}

/// In Ask 2's order.
fn in_words(given: &Verdicts, possible: &[Verdict]) -> String {
    let words = possible.iter().map(|verdict| {
        let count = given.get(&verdict.to_string()).unwrap_or(&0);
        format!("{count} {verdict}")
    });
    words.collect::<Vec<_>>().join(", ")
}

/// Some lines of a script on the program and on the reference.
fn run(program: &str, lines: &[Line], ended: bool) -> Result<Outcome> {
    let input = text(lines, ended);
    let mut output = Vec::new();
    write::run(&input[..], &mut output)?;
    Ok(Outcome {
        one: run_program(program, &input, None)?,
        two: Output::new(&output, true),
        pieces: 0,
    })
}

/// True when no seed shows a difference and no verdict is missing.
fn compare(program: &str, first: u64, count: u64, size: usize) -> Result<bool> {
    let mut tally = Tally::default();
    for seed in first..first.saturating_add(count) {
        let script = questions(seed, size);
        let outcome = run(program, &script.lines, script.ended)?;
        if let Some(place) = outcome.first_difference() {
            let run = |lines: &[Line]| run(program, lines, script.ended);
            report(seed, &script.lines, &outcome, place, run)?;
            return Ok(false);
        }
        for (line, answer) in outcome.answers(&script.lines) {
            tally.add(line, answer);
        }
    }
    let mut out = stdout().lock();
    writeln!(out, "{count} seeds from {first}: no difference")?;
    tally.print(&mut out)?;
    let missing = tally.missing();
    for verdict in &missing {
        writeln!(out, "never compared: {verdict}")?;
    }
    Ok(missing.is_empty())
}

fn main() {
    let arguments: Vec<String> = std::env::args().skip(1).collect();
    let Some((program, numbers)) = arguments.split_first() else {
        usage();
    };
    let numbers: Option<Vec<u64>> = numbers.iter().map(|word| word.parse().ok()).collect();
    let agree = match numbers.as_deref() {
        Some(&[first, count]) => compare(program, first, count, QUESTIONS),
        Some(&[first, count, size]) => compare(program, first, count, size as usize),
        _ => usage(),
    };
    match agree {
        Ok(true) => {}
        Ok(false) => exit(1),
        Err(error) => {
            eprintln!("write_differ: {program}: {error}");
            exit(2);
        }
    }
}

fn usage() -> ! {
    eprintln!("write_differ PROGRAM FIRST_SEED COUNT [QUESTIONS]");
    exit(2)
}
