//! The answers that the example programs must print are the reference's. They stand beside the proved programs, and are
//! compared where those are built.
#![cfg(feature = "library")]

use std::fs;
use std::io::Result;
use std::path::Path;

use reference::examples::{entry, write};

fn lines(text: &[u8]) -> Vec<String> {
    let lines = text.split(|&byte| byte == b'\n');
    lines
        .map(|line| String::from_utf8_lossy(line).into_owned())
        .collect()
}

/// The files `stdin` and `stdout` of an example program's crate.
fn check(name: &str, run: impl Fn(&[u8], &mut Vec<u8>) -> Result<()>) -> Result<()> {
    let crates = Path::new(env!("CARGO_MANIFEST_DIR")).join("../crates");
    let folder = crates.join(name);
    let script = fs::read(folder.join("stdin"))?;
    let expected = fs::read(folder.join("stdout"))?;
    let mut answers = Vec::new();
    run(&script, &mut answers)?;
    let (answers, expected) = (lines(&answers), lines(&expected));
    for (answer, expected) in answers.iter().zip(&expected) {
        assert_eq!(answer, expected);
    }
    assert_eq!(answers.len(), expected.len());
    Ok(())
}

#[test]
fn entry_examples() -> Result<()> {
    check("entry_examples", |script, answers| {
        entry::run(script, answers)
    })
}

#[test]
fn write_examples() -> Result<()> {
    check("write_examples", |script, answers| {
        write::run(script, answers)
    })
}
