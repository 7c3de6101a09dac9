//! Where in a text a refusal is, and what was expected there.

use crate::Refusal;
use std::fmt;

/// A line for each refusal: its number, what is wrong, and what was expected. `tools/program` has its words from here too.
const WORDS: &str = include_str!("words.txt");
/// Bytes of a token that are shown.
const SHOWN: usize = 24;

/// What is wrong, and what was expected.
pub(crate) fn words(number: u32) -> (&'static str, &'static str) {
    words_of(&number.to_string()).expect("words.txt has a line for each refusal")
}

/// The same of a file of groups, which has words of its own for some refusals.
pub(crate) fn groups_words(number: u32) -> (&'static str, &'static str) {
    words_of(&format!("groups {number}")).unwrap_or_else(|| words(number))
}

fn words_of(key: &str) -> Option<(&'static str, &'static str)> {
    WORDS.lines().find_map(|line| line.strip_prefix(key)?.strip_prefix('|')?.split_once('|'))
}

/// A refusal beside the text that was refused; see [`Refusal::within`].
#[derive(Clone, Copy, Debug)]
pub struct Within<'a> {
    refusal: Refusal,
    text: &'a [u8],
}

impl Refusal {
    /// The refusal beside the text that was refused: it is displayed with line, column and, where there is one, the token.
    ///
    /// ```
    /// let text = b"p cnf 2 1\n  x1 0\n";
    /// let refusal = igbezolum::read(text).unwrap_err();
    /// assert_eq!(
    ///     refusal.within(text).to_string(),
    ///     "line 2, column 3: `x1`: not a number: a token is an optional - and 1 to 9 digits"
    /// );
    /// ```
    #[must_use]
    pub fn within(self, text: &[u8]) -> Within<'_> {
        Within { refusal: self, text }
    }

    /// The line and the column of its place in the text, both from 1; columns are bytes. None for refusals that are of no text: 1
    /// and 10 to 15.
    #[must_use]
    pub fn line_and_column(self, text: &[u8]) -> Option<(usize, usize)> {
        if !matches!(self.number(), 2..=9 | 17) {
            return None;
        }
        let before = &text[..self.place().min(text.len())];
        let line = 1 + before.iter().filter(|&&b| b == b'\n').count();
        let column = 1 + before.iter().rev().take_while(|&&b| b != b'\n').count();
        Some((line, column))
    }
}

impl fmt::Display for Within<'_> {
    fn fmt(&self, f: &mut fmt::Formatter<'_>) -> fmt::Result {
        let Within { refusal, text } = *self;
        let Some((line, column)) = refusal.line_and_column(text) else { return refusal.fmt(f) };
        write!(f, "line {line}, column {column}: ")?;
        if matches!(refusal.number(), 5..=8 | 17) {
            write!(f, "`{}`: ", token(text, refusal.place()))?;
        }
        let (what, expected) = words(refusal.number());
        write!(f, "{what}: {expected}")
    }
}

/// The token at a place as it can be shown.
fn token(text: &[u8], place: usize) -> String {
    let rest = text.get(place..).unwrap_or_default();
    let bytes = rest.split(|b| b" \t\r\n".contains(b)).next().unwrap_or_default();
    let shown: String = bytes.iter().take(SHOWN).map(|&b| if b.is_ascii_graphic() { char::from(b) } else { '?' }).collect();
    if bytes.len() > SHOWN { shown + "..." } else { shown }
}
