//! Answers the script of an example program from standard input: how its file `stdout` is made.
//!
//!     example_answers entry_examples < crates/entry_examples/stdin
//!     example_answers write_examples < crates/write_examples/stdin

use std::io::{stdin, stdout, Result};
use std::process::exit;

use reference::examples::{entry, write};

fn main() -> Result<()> {
    let (input, output) = (stdin().lock(), stdout().lock());
    match std::env::args().nth(1).as_deref() {
        Some("entry_examples") => entry::run(input, output),
        Some("write_examples") => write::run(input, output),
        _ => {
            eprintln!("example_answers entry_examples | write_examples");
            exit(2);
        }
    }
}
