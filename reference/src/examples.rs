//! The scripts of the example programs `entry_examples` and `write_examples`, answered by the reference.
//! In both M: bytes of the lent memory; T: bytes of the state.

use std::io::{Read, Result, Write};

use crate::bench::{answer_lines, read_hex, write_hex};
use crate::state;
use crate::tag::Tag;

pub mod entry;
pub mod write;

const LONGEST_LINE: usize = 4096;
const MOST_BYTES: usize = LONGEST_LINE / 2;

/// The text of an answer.
type Text = Vec<u8>;

fn hex(bytes: &[u8]) -> Text {
    let mut text = Vec::new();
    // A vector takes all.
    let _ = write_hex(&mut text, bytes);
    text
}

/// The bytes behind a line's letter and tab, one at least, for `take`.
fn with_bytes<T>(text: &[u8], take: impl FnOnce(&[u8]) -> Option<T>) -> Option<T> {
    let mut bytes = [0; MOST_BYTES];
    match read_hex(text, &mut bytes)? {
        0 => None,
        length => take(&bytes[..length]),
    }
}

/// M: two bytes of place, high first, then the memory's bytes from there on.
fn store(memory: &mut [u8], bytes: &[u8]) -> Option<()> {
    let [high, low, bytes @ ..] = bytes else {
        return None;
    };
    let place = usize::from(u16::from_be_bytes([*high, *low]));
    let target = memory.get_mut(place..place + bytes.len())?;
    target.copy_from_slice(bytes);
    Some(())
}

/// T: the same of the state, if it is a state then.
fn set_state(tag: &mut Tag, bytes: &[u8]) -> Option<()> {
    let mut all = state::encode(tag);
    store(&mut all, bytes)?;
    *tag = state::decode(&all)?;
    Some(())
}

/// Each line's answer; a bad line's is `?`.
fn run(
    input: impl Read,
    output: impl Write,
    mut answer: impl FnMut(&[u8]) -> Option<Text>,
) -> Result<()> {
    answer_lines::<LONGEST_LINE, _>(input, output, |line, output| {
        let text = line.and_then(&mut answer);
        output.write_all(text.as_deref().unwrap_or(b"?"))
    })
}
