//! Runs seeded scripts on a rack's bench program and on the reference and compares every answer.
//!
//!     rack_differ RACK_BENCH FIRST_SEED COUNT [LINES]    scripts of so many lines, 2,000 if not given, each at once
//!     rack_differ RACK_BENCH FIRST_SEED COUNT pieces     fed through a pipe in pieces
//!
//! A difference is cut to a short script, printed with both outputs, and ends the run with 1. So does something that a
//! rack's line can come to and that none came to, in a run that has lines enough.

use std::collections::BTreeMap;
use std::io::{stdout, Result, Write};
use std::process::exit;

use reference::bench::{answer_lines, LONGEST_FRAME, LONGEST_LINE};
use reference::dice::Dice;
use reference::feed::{run_program, Output};
use reference::met;
use reference::outcome::{report, Outcome};
use reference::pieces::{pieces, Style, STYLES};
use reference::rack::bench::{read, Line, RackBench};
use reference::rack::met::{all, refusal, RackMeetings, ENOUGH};
use reference::rack::script::rack_script;
use reference::script::{self, text};

const LINES: usize = 2000;

/// What was answered, by the line's letter and the kind of answer, and what it came to.
#[derive(Default)]
struct Tally {
    lines: u64,
    pieces: u64,
    kinds: BTreeMap<(char, &'static str), u64>,
    meetings: RackMeetings,
}

impl Tally {
    fn add(&mut self, line: &[u8], answer: &[u8]) {
        let kind = match (line, answer) {
            (_, b"?") => "?",
            (_, b"-") => "-",
            (_, [b'!', ..]) => "refused",
            ([b'B', ..], b"A") => "A",
            ([b'B', ..], b"N") => "N",
            ([b'R', ..], [b'0', b'1', ..]) => "error",
            ([b'R' | b'E', ..], _) => "reply",
            ([b'L', ..], _) => "slot",
            _ => "byte",
        };
        // A bad line's first letter says nothing.
        let letter = match line.first() {
            Some(&letter) if kind != "?" => letter.into(),
            _ => ' ',
        };
        self.lines += 1;
        *self.kinds.entry((letter, kind)).or_default() += 1;
    }

    fn print(&self, out: &mut impl Write) -> Result<()> {
        writeln!(out, "{} lines compared", self.lines)?;
        if self.pieces > 0 {
            writeln!(out, "  fed in {} pieces", self.pieces)?;
        }
        let kinds = self.kinds.iter();
        let kinds = kinds.map(|((letter, kind), n)| format!("{letter} {kind} {n}"));
        writeln!(out, "  {}", kinds.collect::<Vec<_>>().join(", "))?;
        self.meetings.print(out)?;
        out.flush()
    }

    /// True if nothing is missing, or the lines were too few for all.
    fn complete(&self, out: &mut impl Write) -> Result<bool> {
        if self.lines < ENOUGH {
            return Ok(true);
        }
        Ok(self.meetings.complete(out, &all(true))?
            & self.meetings.tags.complete(out, met::in_scripts)?)
    }
}

/// What a line comes to, from the rack before it and the answer.
fn note(bench: &mut RackBench, line: &[u8], answer: &mut Vec<u8>, meetings: &mut RackMeetings) {
    let (tags, to) = (bench.tags.clone(), usize::from(bench.to));
    let _ = bench.answer(Some(line), answer); // a Vec takes every byte
    let mut room = [0; LONGEST_FRAME];
    if let Some(number) = refusal(answer) {
        return meetings.add_refusal(number);
    }
    match (read(line, &mut room), &bench.report) {
        (Some(Line::Signal(signal)), Some(report)) => meetings.add(&tags, to, signal, report),
        (Some(Line::Search(frame)), _) => {
            let slot = std::str::from_utf8(answer).ok();
            meetings.add_search(frame, slot.and_then(|slot| slot.parse().ok()));
        }
        _ => {}
    }
}

/// The reference's output.
fn run_reference(input: &[u8], meetings: &mut RackMeetings) -> Result<Output> {
    let (mut output, mut bench) = (Vec::new(), RackBench::new());
    answer_lines::<LONGEST_LINE, _>(input, &mut output, |line, output| {
        let Some(line) = line else {
            return bench.answer(None, output);
        };
        let mut answer = Vec::new();
        note(&mut bench, line, &mut answer, meetings);
        output.write_all(&answer)
    })?;
    Ok(Output::new(&output, true))
}

/// A seed's script, and how it is fed.
struct Trial {
    seed: u64,
    script: script::Script,
    style: Option<Style>,
}

impl Trial {
    fn whole(seed: u64, size: usize) -> Trial {
        Trial {
            seed,
            script: rack_script(seed, size),
            style: None,
        }
    }

    fn in_pieces(seed: u64) -> Trial {
        let style = STYLES[(seed % STYLES.len() as u64) as usize];
        let size = if style == Style::Bytes { 150 } else { 800 };
        Trial {
            style: Some(style),
            ..Trial::whole(seed, size)
        }
    }

    /// Some lines of the script on the program and on the reference, which gets them at once.
    fn run(
        &self,
        program: &str,
        lines: &[script::Line],
        met: &mut RackMeetings,
    ) -> Result<Outcome> {
        let input = text(lines, self.script.ended);
        let mut dice = Dice::new(!self.seed);
        let lengths = self.style.map(|style| pieces(&mut dice, style, &input));
        Ok(Outcome {
            one: run_program(program, &input, lengths.as_deref())?,
            two: run_reference(&input, met)?,
            pieces: lengths.map_or(0, |lengths| lengths.len() as u64),
        })
    }
}

/// True when no seed shows a difference and nothing is missing.
fn agree(program: &str, first: u64, count: u64, trial: impl Fn(u64) -> Trial) -> Result<bool> {
    let mut tally = Tally::default();
    for seed in first..first.saturating_add(count) {
        let trial = trial(seed);
        let lines = &trial.script.lines;
        let outcome = trial.run(program, lines, &mut tally.meetings)?;
        if let Some(place) = outcome.first_difference() {
            let run =
                |lines: &[script::Line]| trial.run(program, lines, &mut RackMeetings::default());
            report(seed, lines, &outcome, place, run)?;
            return Ok(false);
        }
        tally.pieces += outcome.pieces;
        for (line, answer) in outcome.answers(lines) {
            tally.add(line, answer);
        }
    }
    let mut out = stdout().lock();
    writeln!(out, "{count} seeds from {first}: no difference")?;
    tally.print(&mut out)?;
    tally.complete(&mut out)
}

fn main() {
    let arguments: Vec<String> = std::env::args().skip(1).collect();
    let words: Vec<&str> = arguments.iter().map(String::as_str).collect();
    let (program, first, count, how) = match words[..] {
        [program, first, count] => (program, first, count, None),
        [program, first, count, how] => (program, first, count, Some(how)),
        _ => usage(),
    };
    let (Ok(first), Ok(count)) = (first.parse(), count.parse()) else {
        usage();
    };
    let agreed = match how {
        Some("pieces") => agree(program, first, count, Trial::in_pieces),
        None => agree(program, first, count, |seed| Trial::whole(seed, LINES)),
        Some(size) => match size.parse() {
            Ok(size) => agree(program, first, count, |seed| Trial::whole(seed, size)),
            Err(_) => usage(),
        },
    };
    match agreed {
        Ok(true) => {}
        Ok(false) => exit(1),
        Err(error) => {
            eprintln!("rack_differ: {program}: {error}");
            exit(2);
        }
    }
}

fn usage() -> ! {
    eprintln!("rack_differ PROGRAM FIRST_SEED COUNT [LINES | pieces]");
    exit(2)
}
