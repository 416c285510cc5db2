//! The bench program on standard input; with the word `explain` the one that explains, with `rack` the rack's.

use std::io::{stdin, stdout};

use reference::bench::{run, run_explaining};
use reference::rack;

fn main() -> std::io::Result<()> {
    let (input, output) = (stdin().lock(), stdout().lock());
    match std::env::args().nth(1).as_deref() {
        Some("explain") => run_explaining(input, output, |_| {}),
        Some("rack") => rack::bench::run(input, output),
        _ => run(input, output),
    }
}
