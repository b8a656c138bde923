//! "Words and order of words", first paragraph: cutting a text into words.
//!
//! Words are cut one at a time, on demand, because nothing after
//! the first wrong word is looked at.

use crate::answer::{Refusal, Why};

/// "Reserved: BLOCK VAR BEGIN .."
pub const RESERVED: [&str; 14] = [
    "BLOCK", "VAR", "BEGIN", "END", "GENERATE", "FOR", "IF", "THEN", "WIRE", "VECTOR", "OF", "NUM",
    "BESIDE", "BELOW",
];

/// "Marks: ( ) [ ] , ; : = + - * .."
/// No mark is the front of another, so taking the longest is taking the one
/// that fits.
pub const MARKS: [&str; 12] = ["..", "(", ")", "[", "]", ",", ";", ":", "=", "+", "-", "*"];

/// "A name is a letter and up to 15 more letters, digits or underscores"
pub const NAME_LENGTH: usize = 16;
/// "A number is 1 to 6 digits."
pub const NUMBER_LENGTH: usize = 6;

#[derive(Clone, Copy, PartialEq, Eq, Debug)]
pub enum Word<'t> {
    Reserved(&'static str),
    Mark(&'static str),
    Name(&'t str),
    Number(i64),
    End,
}

/// A word and the offset of its first byte; for the end, the text's length.
#[derive(Clone, Copy, PartialEq, Eq, Debug)]
pub struct Spotted<'t> {
    pub word: Word<'t>,
    pub place: usize,
}

pub struct Words<'t> {
    text: &'t [u8],
    at: usize,
}

impl<'t> Words<'t> {
    pub fn new(text: &'t [u8]) -> Self {
        Words { text, at: 0 }
    }

    /// The next word, or 3 at its first byte.
    pub fn cut(&mut self) -> Result<Spotted<'t>, Refusal> {
        self.skip_separators();
        let place = self.at;
        let Some(&byte) = self.text.get(place) else {
            return Ok(Spotted { word: Word::End, place });
        };
        let word = if is_run_byte(byte) { self.run() } else { self.mark() };
        match word {
            Some(word) => Ok(Spotted { word, place }),
            None => Err(Why::NoWord.at(place)),
        }
    }

    /// "Spaces, tabs, CR and LF separate."
    fn skip_separators(&mut self) {
        while matches!(self.text.get(self.at), Some(b' ' | b'\t' | b'\r' | b'\n')) {
            self.at += 1;
        }
    }

    /// "An unbroken run of letters, digits and underscores is one word."
    fn run(&mut self) -> Option<Word<'t>> {
        let rest = &self.text[self.at..];
        let length = rest.iter().take_while(|&&byte| is_run_byte(byte)).count();
        self.at += length;
        word_of_run(&rest[..length])
    }

    fn mark(&mut self) -> Option<Word<'t>> {
        let rest = &self.text[self.at..];
        let mark = MARKS.into_iter().find(|mark| rest.starts_with(mark.as_bytes()))?;
        self.at += mark.len();
        Some(Word::Mark(mark))
    }
}

/// Letters are ASCII.
fn is_run_byte(byte: u8) -> bool {
    byte.is_ascii_alphanumeric() || byte == b'_'
}

/// A run is a reserved word, a name, a number or one bad word.
fn word_of_run(run: &[u8]) -> Option<Word<'_>> {
    let run = std::str::from_utf8(run).expect("a run is ASCII");
    if let Some(reserved) = RESERVED.into_iter().find(|&reserved| reserved == run) {
        return Some(Word::Reserved(reserved));
    }
    if run.bytes().all(|byte| byte.is_ascii_digit()) {
        return number(run).map(Word::Number);
    }
    let begins_with_letter = run.as_bytes()[0].is_ascii_alphabetic();
    (begins_with_letter && run.len() <= NAME_LENGTH).then_some(Word::Name(run))
}

fn number(digits: &str) -> Option<i64> {
    if digits.len() > NUMBER_LENGTH {
        return None;
    }
    Some(digits.parse().expect("up to six digits"))
}
