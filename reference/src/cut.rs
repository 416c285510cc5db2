//! Cuts a script that shows a difference to a short one that still does.

use crate::script::Line;

/// Runs of lines tried at every place: the longest is a password transfer.
const RUNS: [usize; 13] = [24, 23, 22, 16, 12, 8, 7, 6, 5, 4, 3, 2, 1];

/// `differs` runs a script and gives the place of the first line answered otherwise, if any.
/// What comes back is a script that still differs, or `lines` if they do not.
pub fn cut(lines: &[Line], differs: &mut impl FnMut(&[Line]) -> Option<usize>) -> Vec<Line> {
    let mut best = lines.to_vec();
    if !keep(&mut best, lines.to_vec(), differs) {
        return best;
    }
    let mut run = best.len() / 2;
    while run > RUNS[0] {
        remove_runs(&mut best, run, run, differs);
        run /= 2;
    }
    loop {
        let before = best.len();
        for run in RUNS {
            remove_runs(&mut best, run, 1, differs);
        }
        if best.len() == before {
            return best;
        }
    }
}

/// Takes `trial` up to its first difference if it has one.
fn keep(
    best: &mut Vec<Line>,
    mut trial: Vec<Line>,
    differs: &mut impl FnMut(&[Line]) -> Option<usize>,
) -> bool {
    let Some(place) = differs(&trial) else {
        return false;
    };
    if place + 1 < trial.len() && differs(&trial[..=place]).is_some() {
        trial.truncate(place + 1);
    }
    *best = trial;
    true
}

/// Tries the script without each run of `run` lines, from the back, `step` lines apart.
fn remove_runs(
    best: &mut Vec<Line>,
    run: usize,
    step: usize,
    differs: &mut impl FnMut(&[Line]) -> Option<usize>,
) {
    let mut end = best.len();
    while end >= run {
        let trial = [&best[..end - run], &best[end..]].concat();
        let gone = keep(best, trial, differs);
        end = end.saturating_sub(if gone { run } else { step });
        end = end.min(best.len());
    }
}
