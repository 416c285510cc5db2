//! What a program printed beside what the reference did, and the report of a difference.

use std::io::{stdout, Result, Write};
use std::time::{Duration, Instant};

use crate::cut::cut;
use crate::feed::Output;
use crate::script::{text, Line};

/// So long a difference is cut.
const CUTTING: Duration = Duration::from_secs(60);

/// What the program printed, what the reference did, and in how many pieces the program was fed.
pub struct Outcome {
    pub one: Output,
    pub two: Output,
    pub pieces: u64,
}

impl Outcome {
    /// The first place at which they differ. A program that fails after its last line differs there.
    pub fn first_difference(&self) -> Option<usize> {
        let (one, two) = (&self.one, &self.two);
        let most = one.lines.len().max(two.lines.len());
        (0..most)
            .find(|&place| one.lines.get(place) != two.lines.get(place))
            .or((one.ended != two.ended).then(|| most.saturating_sub(1)))
    }

    /// Each line with the reference's answer, which has no number.
    pub fn answers<'a>(&'a self, lines: &'a [Line]) -> impl Iterator<Item = (&'a [u8], &'a [u8])> {
        lines.iter().zip(&self.two.lines).map(|(line, answer)| {
            let answer = answer.strip_suffix(b"\n").unwrap_or(answer);
            let tab = answer.iter().position(|&byte| byte == b'\t');
            (&line[..], &answer[tab.map_or(0, |tab| tab + 1)..])
        })
    }

    /// The answers of both to a script of so many lines.
    fn print(&self, out: &mut impl Write, lines: usize) -> Result<()> {
        let (one, two) = (&self.one, &self.two);
        writeln!(out, "answers of the program and of the reference:")?;
        for place in 0..one.lines.len().max(two.lines.len()).max(lines) {
            let (one, two) = (one.show(place), two.show(place));
            let mark = if one == two { "" } else { "\t<- differs" };
            writeln!(out, "{one}\t{two}{mark}")?;
        }
        if !one.ended {
            writeln!(out, "the program failed")?;
        }
        Ok(())
    }
}

/// The difference of a seed's lines and the shortest script found for it; `run` runs some of the lines on both.
pub fn report(
    seed: u64,
    lines: &[Line],
    outcome: &Outcome,
    place: usize,
    run: impl Fn(&[Line]) -> Result<Outcome>,
) -> Result<()> {
    let mut out = stdout().lock();
    let line = match lines.get(place) {
        Some(line) => String::from_utf8_lossy(line).into_owned(),
        None => "(no line)".to_string(),
    };
    writeln!(out, "seed {seed} differs")?;
    writeln!(out, "line:      {line}")?;
    writeln!(out, "program:   {}", outcome.one.show(place))?;
    writeln!(out, "reference: {}", outcome.two.show(place))?;
    out.flush()?;
    let (mut runs, start) = (0, Instant::now());
    let short = cut(lines, &mut |lines| {
        if start.elapsed() > CUTTING {
            return None;
        }
        runs += 1;
        run(lines).ok()?.first_difference()
    });
    let (from, to) = (lines.len(), short.len());
    writeln!(out, "cut from {from} lines to {to} in {runs} runs:")?;
    out.write_all(&text(&short, true))?;
    run(&short)?.print(&mut out, to)?;
    out.flush()
}
