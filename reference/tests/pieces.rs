//! Scripts in pieces: how they are cut, which lines they have, and that the reference's own reading does not mind.

use std::collections::BTreeSet;
use std::io::{Read, Result};

use reference::bench::{self, LONGEST_LINE};
use reference::dice::Dice;
use reference::pieces::{pieces, Style, STYLES};
use reference::script::{long_script, text, Script};

/// A source that gives a piece at each read, a large one in several.
struct Pieces<'a> {
    text: &'a [u8],
    lengths: std::vec::IntoIter<usize>,
    /// What is left of the piece.
    left: usize,
}

impl Read for Pieces<'_> {
    fn read(&mut self, room: &mut [u8]) -> Result<usize> {
        if self.left == 0 {
            self.left = self.lengths.next().unwrap_or(0);
        }
        let length = self.left.min(room.len());
        self.left -= length;
        let (piece, rest) = self.text.split_at(length);
        room[..length].copy_from_slice(piece);
        self.text = rest;
        Ok(length)
    }
}

fn input(script: &Script) -> Vec<u8> {
    text(&script.lines, script.ended)
}

#[test]
fn pieces_are_the_text() {
    for seed in 0..30 {
        let input = input(&long_script(seed, 100));
        for style in STYLES {
            let lengths = pieces(&mut Dice::new(seed), style, &input);
            assert_eq!(lengths.iter().sum::<usize>(), input.len());
            assert!(lengths.iter().all(|&length| length > 0));
        }
    }
    assert!(pieces(&mut Dice::new(1), Style::Mixed, b"").is_empty());
}

#[test]
fn styles_cut_where_they_say() {
    let cut = |style| pieces(&mut Dice::new(1), style, b"S\n\nB\tA6\nP");
    assert_eq!(cut(Style::Bytes), [1; 9]);
    assert_eq!(cut(Style::Lines), [2, 1, 5, 1]);
    assert_eq!(cut(Style::BeforeFeeds), [1, 1, 5, 2]);
    assert!(cut(Style::UpTo(3)).iter().all(|&length| length <= 3));
}

#[test]
fn the_reference_reads_pieces_as_the_whole() {
    for seed in 0..20 {
        let input = input(&long_script(seed, 200));
        let mut whole = Vec::new();
        bench::run(&input[..], &mut whole).unwrap();
        for style in STYLES {
            let lengths = pieces(&mut Dice::new(seed), style, &input).into_iter();
            let source = Pieces {
                text: &input,
                lengths,
                left: 0,
            };
            let mut output = Vec::new();
            bench::run(source, &mut output).unwrap();
            assert!(output == whole, "seed {seed}, {style:?}");
        }
    }
}

/// Lengths around the longest line come up in the middle and as a last line without line feed.
#[test]
fn long_scripts_reach_the_longest_line() {
    let (mut middle, mut last) = (BTreeSet::new(), BTreeSet::new());
    for seed in 0..200 {
        let script = long_script(seed, 100);
        let (end, lines) = script.lines.split_last().unwrap();
        middle.extend(lines.iter().map(Vec::len));
        if !script.ended {
            assert!(end.starts_with(b"R\t"));
            last.insert(end.len());
        }
    }
    assert!((LONGEST_LINE - 1..LONGEST_LINE + 3).all(|length| middle.contains(&length)));
    assert!(middle.contains(&3000));
    assert!(last.into_iter().eq(LONGEST_LINE - 1..LONGEST_LINE + 3));
}
