//! A text cut into the pieces in which a program gets it.

use crate::dice::Dice;

/// Where pieces end.
#[derive(Clone, Copy, PartialEq, Eq, Debug)]
pub enum Style {
    /// After each byte.
    Bytes,
    /// After each line feed.
    Lines,
    /// Before each line feed.
    BeforeFeeds,
    /// After at most so many bytes.
    UpTo(usize),
    /// Each piece by one of the others.
    Mixed,
}

pub const STYLES: [Style; 7] = [
    Style::Bytes,
    Style::Lines,
    Style::BeforeFeeds,
    Style::UpTo(12),
    Style::UpTo(300),
    Style::UpTo(5000),
    Style::Mixed,
];

/// Up to the first line feed, with it or without; all if there is none.
fn to_feed(text: &[u8], with: bool) -> usize {
    let feed = text.iter().position(|&byte| byte == b'\n');
    feed.map_or(text.len(), |place| place + usize::from(with))
}

/// The length of the next piece, a byte at least.
fn next(dice: &mut Dice, style: Style, text: &[u8]) -> usize {
    let length = match style {
        Style::Bytes => 1,
        Style::Lines => to_feed(text, true),
        Style::BeforeFeeds => 1 + to_feed(&text[1..], false),
        Style::UpTo(most) => 1 + dice.below(most),
        Style::Mixed => {
            let style = STYLES[dice.below(STYLES.len() - 1)];
            next(dice, style, text)
        }
    };
    length.clamp(1, text.len())
}

/// The lengths of the pieces, one after the other.
pub fn pieces(dice: &mut Dice, style: Style, text: &[u8]) -> Vec<usize> {
    let mut lengths = Vec::new();
    let mut rest = text;
    while !rest.is_empty() {
        let length = next(dice, style, rest);
        lengths.push(length);
        rest = &rest[length..];
    }
    lengths
}
