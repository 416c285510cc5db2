//! Runs seeded scripts on a bench program and on the reference and compares every answer.
//!
//!     differ BENCH FIRST_SEED COUNT [LINES]    scripts of so many lines, 2,000 if not given, each at once
//!     differ BENCH FIRST_SEED COUNT pieces     scripts with long lines, fed through a pipe in pieces
//!     differ EXPLAIN FIRST_SEED COUNT explain  both, on a program that explains
//!
//! A difference is cut to a short script, printed with both outputs, and ends the run with 1. So does, in a run that has
//! lines enough, something that an inventory frame or an end-of-frame can meet and that none met, and, if it explains,
//! a rule that a script can bring about and that no line was named by.

use std::collections::BTreeMap;
use std::io::{stdout, Result, Write};
use std::process::exit;

use reference::bench::{answer_lines, Bench, LONGEST_LINE};
use reference::dice::Dice;
use reference::feed::{run_program, Output};
use reference::met::{self, Meetings};
use reference::names::{in_scripts, Names, ENOUGH};
use reference::outcome::{self, Outcome};
use reference::pieces::{pieces, Style, STYLES};
use reference::script::{crowded_script, long_script, script, text, Line, Script};

const LINES: usize = 2000;
const COMMANDS: [&str; 19] = [
    "01", "02", "20", "21", "22", "23", "24", "25", "26", "2C", "A0", "A1", "AA", "AB", "AC", "AD",
    "AE", "B1", "B3",
];

/// What the reference says of a script beside its answers: the rules that it names, what its slots met.
struct Notes {
    names: Names,
    meetings: Meetings,
}

impl Notes {
    fn new() -> Notes {
        Notes {
            names: Names::none(),
            meetings: Meetings::default(),
        }
    }
}

/// The reference's output.
fn run_reference(script: &[u8], explains: bool, notes: &mut Notes) -> Result<Output> {
    let (mut output, mut bench) = (Vec::new(), Bench::fresh());
    answer_lines::<LONGEST_LINE, _>(script, &mut output, |line, output| {
        notes.meetings.add_line(&bench.tag, line.unwrap_or(b""));
        if !explains {
            return bench.answer(line, output);
        }
        if let Some(rule) = bench.explain(line, output)? {
            notes.names.add(rule.number());
        }
        Ok(())
    })?;
    Ok(Output::new(&output, true))
}

/// What was answered, by kind, and by command for frames; what was named.
struct Tally {
    lines: u64,
    pieces: u64,
    kinds: BTreeMap<String, u64>,
    commands: BTreeMap<String, BTreeMap<String, u64>>,
    notes: Notes,
}

impl Tally {
    fn new() -> Tally {
        Tally {
            lines: 0,
            pieces: 0,
            kinds: BTreeMap::new(),
            commands: BTreeMap::new(),
            notes: Notes::new(),
        }
    }

    /// An answer without a name.
    fn add(&mut self, line: &[u8], answer: &[u8]) {
        let kind = match (line, answer) {
            (_, b"-" | b"?" | b"A" | b"N") => String::from_utf8_lossy(answer).into_owned(),
            ([b'G', ..], _) => "byte".to_string(),
            (_, [b'0', b'0', ..]) => "reply 00".to_string(),
            _ => format!("error {}", String::from_utf8_lossy(&answer[2..])),
        };
        if let (Some(command), false) = (command(line), answer == b"?") {
            let kinds = self.commands.entry(command).or_default();
            *kinds.entry(kind.clone()).or_default() += 1;
        }
        self.lines += 1;
        *self.kinds.entry(kind).or_default() += 1;
    }

    fn add_all(&mut self, lines: &[Line], outcome: &Outcome) {
        self.pieces += outcome.pieces;
        for (line, answer) in outcome.answers(lines) {
            let tab = answer.iter().position(|&byte| byte == b'\t');
            self.add(line, &answer[..tab.unwrap_or(answer.len())]);
        }
    }

    fn print(&self, out: &mut impl Write) -> Result<()> {
        let kind = |name: &str| self.kinds.get(name).copied().unwrap_or(0);
        let (lines, answered) = (self.lines, self.lines - kind("-") - kind("?"));
        writeln!(
            out,
            "{lines} lines compared, {answered} answered otherwise than - or ?"
        )?;
        if self.pieces > 0 {
            writeln!(out, "  fed in {} pieces", self.pieces)?;
        }
        if self.lines > 0 {
            writeln!(out, "  {}", in_words(&self.kinds))?;
        }
        for (command, kinds) in &self.commands {
            writeln!(out, "  {command}: {}", in_words(kinds))?;
        }
        self.notes.meetings.print(out)?;
        out.flush()
    }

    /// Lines enough for all that they can bring about.
    fn is_large(&self) -> bool {
        self.lines >= ENOUGH
    }
}

fn in_words(kinds: &BTreeMap<String, u64>) -> String {
    let words: Vec<String> = kinds.iter().map(|(k, n)| format!("{k} {n}")).collect();
    words.join(", ")
}

/// The command of a frame as the line has it; one word for all that the papers do not name.
fn command(line: &[u8]) -> Option<String> {
    if line == b"E" {
        return Some("E".to_string());
    }
    let [b'R', b'\t', _, _, text @ ..] = line else {
        return None;
    };
    let known = COMMANDS
        .iter()
        .find(|name| text.starts_with(name.as_bytes()));
    Some(known.unwrap_or(&"other").to_string())
}

/// A seed's script, how it is fed, and whether the program explains.
struct Trial {
    seed: u64,
    script: Script,
    style: Option<Style>,
    explains: bool,
}

impl Trial {
    /// Fed at once.
    fn new(seed: u64, script: Script) -> Trial {
        Trial {
            seed,
            script,
            style: None,
            explains: false,
        }
    }

    fn whole(seed: u64, size: usize) -> Trial {
        Trial::new(seed, script(seed, size))
    }

    /// Over a thousand pieces, but for a style of large ones.
    fn in_pieces(seed: u64) -> Trial {
        let style = STYLES[(seed % STYLES.len() as u64) as usize];
        let size = match style {
            Style::Bytes => 150,
            Style::UpTo(12) => 800,
            Style::Mixed => 1000,
            _ => 1200,
        };
        Trial {
            style: Some(style),
            ..Trial::new(seed, long_script(seed, size))
        }
    }

    /// A few in pieces, a few with line numbers of six digits or without any line.
    fn explaining(seed: u64) -> Trial {
        let trial = match seed % 1000 {
            15 => Trial::whole(seed, 0),
            31 => Trial::whole(seed, 100_000),
            place if place % 16 == 15 => Trial::in_pieces(seed),
            _ => Trial::new(seed, crowded_script(seed, LINES)),
        };
        Trial {
            explains: true,
            ..trial
        }
    }

    /// Some lines of the script on the program and on the reference, which gets them at once.
    fn run(&self, program: &str, lines: &[Line], notes: &mut Notes) -> Result<Outcome> {
        let input = text(lines, self.script.ended);
        let mut dice = Dice::new(!self.seed);
        let lengths = self.style.map(|style| pieces(&mut dice, style, &input));
        let one = run_program(program, &input, lengths.as_deref())?;
        let two = run_reference(&input, self.explains, notes)?;
        let pieces = lengths.map_or(0, |lengths| lengths.len() as u64);
        Ok(Outcome { one, two, pieces })
    }
}

/// The difference, and how the script differs from its lines.
fn report(program: &str, trial: &Trial, outcome: &Outcome, place: usize) -> Result<()> {
    let run = |lines: &[Line]| trial.run(program, lines, &mut Notes::new());
    outcome::report(trial.seed, &trial.script.lines, outcome, place, run)?;
    let mut out = stdout().lock();
    if !trial.script.ended {
        writeln!(out, "the script's last line has no line feed")?;
    }
    if let Some(style) = trial.style {
        writeln!(out, "the script was fed in pieces: {style:?}")?;
    }
    out.flush()
}

/// What was compared, if no seed shows a difference.
fn compare(
    program: &str,
    first: u64,
    count: u64,
    trial: impl Fn(u64) -> Trial,
) -> Result<Option<Tally>> {
    let mut tally = Tally::new();
    for seed in first..first.saturating_add(count) {
        let trial = trial(seed);
        let outcome = trial.run(program, &trial.script.lines, &mut tally.notes)?;
        if let Some(place) = outcome.first_difference() {
            report(program, &trial, &outcome, place)?;
            return Ok(None);
        }
        tally.add_all(&trial.script.lines, &outcome);
    }
    let mut out = stdout().lock();
    writeln!(out, "{count} seeds from {first}: no difference")?;
    tally.print(&mut out)?;
    Ok(Some(tally))
}

/// True when no seed shows a difference and nothing that slots can meet is missing.
fn agree(program: &str, first: u64, count: u64, trial: impl Fn(u64) -> Trial) -> Result<bool> {
    let Some(tally) = compare(program, first, count, trial)? else {
        return Ok(false);
    };
    let meetings = &tally.notes.meetings;
    Ok(!tally.is_large() || meetings.complete(&mut stdout().lock(), met::in_scripts)?)
}

/// The same, and no name is missing.
fn agree_explaining(program: &str, first: u64, count: u64) -> Result<bool> {
    let Some(tally) = compare(program, first, count, Trial::explaining)? else {
        return Ok(false);
    };
    let mut out = stdout().lock();
    let Notes { names, meetings } = &tally.notes;
    names.print(&mut out, in_scripts)?;
    let complete =
        names.complete(&mut out, in_scripts)? & meetings.complete(&mut out, met::in_scripts)?;
    Ok(complete || !tally.is_large())
}

fn main() {
    let arguments: Vec<String> = std::env::args().skip(1).collect();
    let words: Vec<&str> = arguments.iter().map(String::as_str).collect();
    let (program, first, count, how) = match words[..] {
        [program, first, count] => (program, first, count, None),
        [program, first, count, how] => (program, first, count, Some(how)),
        _ => usage(),
    };
    let (Ok(first), Ok(count)) = (first.parse(), count.parse()) else {
        usage();
    };
    let agreed = match how {
        Some("pieces") => agree(program, first, count, Trial::in_pieces),
        Some("explain") => agree_explaining(program, first, count),
        None => agree(program, first, count, |seed| Trial::whole(seed, LINES)),
        Some(size) => match size.parse() {
            Ok(size) => agree(program, first, count, |seed| Trial::whole(seed, size)),
            Err(_) => usage(),
        },
    };
    match agreed {
        Ok(true) => {}
        Ok(false) => exit(1),
        Err(error) => {
            eprintln!("differ: {program}: {error}");
            exit(2);
        }
    }
}

fn usage() -> ! {
    eprintln!("differ PROGRAM FIRST_SEED COUNT [LINES | pieces | explain]");
    exit(2)
}
