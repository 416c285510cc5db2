//! Times of routines, measured in turns.
//!
//! In a round each routine of a case runs once, in turns, for about a millisecond; a time is the least over the rounds,
//! so that other work on the machine counts little.

use std::time::Instant;

/// How long a routine runs in a round.
const ROUND_NS: f64 = 1_000_000.0;

pub struct Case {
    pub group: &'static str,
    pub name: String,
    pub length: usize,
}

fn time(routine: &mut dyn FnMut(), turns: u32) -> f64 {
    let start = Instant::now();
    for _ in 0..turns {
        routine();
    }
    start.elapsed().as_nanos() as f64 / f64::from(turns)
}

/// Each routine's time in ns. They run in turns, `rounds` times each.
pub fn times(rounds: usize, routines: &mut [(&str, &mut dyn FnMut())]) -> Vec<f64> {
    let mut turns = Vec::new();
    for (_, routine) in routines.iter_mut() {
        time(*routine, 3); // caches and branches are warm from here on
        let one = time(*routine, 20).max(1.0);
        turns.push((ROUND_NS / one).max(1.0) as u32);
    }
    let mut times = vec![f64::INFINITY; routines.len()];
    for _ in 0..rounds {
        for (place, (_, routine)) in routines.iter_mut().enumerate() {
            times[place] = times[place].min(time(*routine, turns[place]));
        }
    }
    times
}

/// Prints a line for each routine: group, case, length, routine, ns, and the first routine's time by its own.
pub fn print(case: &Case, names: &[&str], times: &[f64]) {
    let Case {
        group,
        name: what,
        length,
    } = case;
    for (name, ns) in names.iter().zip(times) {
        println!(
            "{group}\t{what}\t{length}\t{name}\t{ns:.1}\t{:.2}",
            times[0] / ns
        );
    }
}

pub fn measure(case: &Case, rounds: usize, routines: &mut [(&str, &mut dyn FnMut())]) {
    let times = times(rounds, routines);
    let names: Vec<&str> = routines.iter().map(|(name, _)| *name).collect();
    print(case, &names, &times);
}
