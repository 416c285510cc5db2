//! The reference's answers to the scripts of tests/ and examples/scripts/, and to that of the crate `bench`, are those
//! that stand beside them; with their names where those stand beside them too.

use std::fs;
use std::io::Result;
use std::path::{Path, PathBuf};

use reference::bench;

/// The scripts of a folder.
fn scripts(folder: &str) -> Result<Vec<PathBuf>> {
    let folder = Path::new(env!("CARGO_MANIFEST_DIR"))
        .join("..")
        .join(folder);
    let paths = fs::read_dir(folder)?.map(|entry| Ok(entry?.path()));
    let mut paths = paths.collect::<Result<Vec<_>>>()?;
    paths.retain(|path| path.extension().is_some_and(|extension| extension == "tsv"));
    paths.sort();
    Ok(paths)
}

fn compare(script: &Path, answers: &Path) -> Result<()> {
    let mut output = Vec::new();
    bench::run(&fs::read(script)?[..], &mut output)?;
    assert!(output == fs::read(answers)?, "{} differs", script.display());
    Ok(())
}

/// The answers with their names.
fn compare_names(script: &Path, names: &Path) -> Result<()> {
    let mut output = Vec::new();
    bench::run_explaining(&fs::read(script)?[..], &mut output, |_| {})?;
    assert!(output == fs::read(names)?, "{} differs", names.display());
    Ok(())
}

#[test]
fn the_crate_bench() -> Result<()> {
    let folder = Path::new(env!("CARGO_MANIFEST_DIR")).join("../crates/bench");
    compare(&folder.join("stdin"), &folder.join("stdout"))
}

#[test]
fn scripts_and_answers() -> Result<()> {
    let mut count = 0;
    for folder in ["tests", "tests/pairs", "tests/vectors", "examples/scripts"] {
        for path in scripts(folder)? {
            compare(&path, &path.with_extension("out"))?;
            count += 1;
        }
    }
    assert!(count >= 78);
    Ok(())
}

#[test]
fn scripts_and_names() -> Result<()> {
    let mut count = 0;
    for path in scripts("tests/vectors")? {
        let names = path.with_extension("explain");
        if names.exists() {
            compare_names(&path, &names)?;
            count += 1;
        }
    }
    assert!(count >= 23);
    Ok(())
}
