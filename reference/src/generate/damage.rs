//! Texts with words or bytes changed.

use super::programs::{joined, words_of};
use super::random::Random;
use crate::words::{MARKS, RESERVED};

/// Words and parts of words that go in by accident.
const STRAYS: [&str; 36] = [
    "main",
    "f",
    "n",
    "i",
    "j",
    "a",
    "x",
    "and",
    "not",
    "zero",
    "mux",
    "connect",
    "IF",
    "THEN",
    "nix",
    "0",
    "1",
    "2",
    "3",
    "7",
    "255",
    "256",
    "257",
    "1000",
    "999999",
    "000000",
    "-",
    "(",
    ")",
    "--",
    "1000*1001",
    "*1000",
    "f []",
    "[]",
    "(1)",
    "(0)",
];

const BAD: [&str; 14] = [
    "1a",
    "_a",
    "abcdefghijklmnopq",
    "1234567",
    "0000000",
    ".",
    "...",
    "....",
    "?",
    "{",
    "/",
    "\"",
    "<",
    "'",
];

/// One to three changes of words.
pub fn damaged_words(random: &mut Random, text: &str) -> Vec<u8> {
    let Some(mut words) = words_of(text) else {
        return damaged_bytes(random, text.as_bytes());
    };
    for _ in 0..1 + random.below(3) * random.below(2) {
        change_word(random, &mut words);
    }
    joined(random, &words, &[" ", " ", "", "\n"]).into_bytes()
}

fn change_word(random: &mut Random, words: &mut Vec<String>) {
    if words.is_empty() {
        return;
    }
    let at = random.below(words.len());
    let other = random.below(words.len());
    match random.below(20) {
        0 => {
            words.remove(at);
        }
        1 => words.insert(at, words[other].clone()),
        2 => words.swap(at, other),
        3 => words[at] = stray(random),
        4 => words.insert(at, stray(random)),
        5 => words[at] = random.word(&BAD).into(),
        6 => words.truncate(at),
        // Like by like: mostly 6, 7, 8 and the answers of unfolding.
        7..=12 => exchange(random, words, |word| word.as_bytes()[0].is_ascii_digit()),
        13..=18 => exchange(random, words, is_name),
        _ => exchange(random, words, |word| matches!(word, "WIRE" | "NUM" | "+" | "-" | "*")),
    }
}

/// Puts a like word in the place of one.
fn exchange(random: &mut Random, words: &mut [String], is_like: impl Fn(&str) -> bool) {
    let like: Vec<usize> = (0..words.len()).filter(|&at| is_like(&words[at])).collect();
    if like.is_empty() {
        return;
    }
    let (at, other) = (*random.pick(&like), *random.pick(&like));
    let is_number = words[at].as_bytes()[0].is_ascii_digit();
    words[at] = match words[at].as_str() {
        number if is_number && random.chance(60) => changed_number(random, number),
        "WIRE" => "NUM".into(),
        _ => words[other].clone(),
    };
}

fn changed_number(random: &mut Random, number: &str) -> String {
    let number: i64 = number.parse().unwrap_or(0);
    match random.below(6) {
        0 => (number + 1).min(999_999).to_string(),
        1 => (number - 1).max(0).to_string(),
        2 => random.between(0, 20).to_string(),
        3 => random.between(250, 260).to_string(),
        4 => random.between(999_990, 999_999).to_string(),
        _ => format!("{number}*{}", random.between(0, 2_000)),
    }
}

fn is_name(word: &str) -> bool {
    word.as_bytes()[0].is_ascii_alphabetic() && !RESERVED.contains(&word)
}

fn stray(random: &mut Random) -> String {
    match random.below(4) {
        0 => random.word(&RESERVED).into(),
        1 => random.word(&MARKS).into(),
        _ => random.word(&STRAYS).into(),
    }
}

/// One to three changes of bytes.
pub fn damaged_bytes(random: &mut Random, text: &[u8]) -> Vec<u8> {
    let mut bytes = text.to_vec();
    for _ in 0..1 + random.below(3) * random.below(2) {
        change_byte(random, &mut bytes);
    }
    bytes
}

fn change_byte(random: &mut Random, bytes: &mut Vec<u8>) {
    if bytes.is_empty() {
        bytes.push(random.below(256) as u8);
        return;
    }
    let at = random.below(bytes.len());
    let likely = *random.pick(b" \n\t\r\x0b\x0c\x00\x80.._09azAZ()[],;:=+-*wW");
    let byte = if random.chance(70) { likely } else { random.below(256) as u8 };
    match random.below(10) {
        0..=1 => bytes[at] = byte,
        2..=3 => bytes.insert(at, byte),
        4..=5 => {
            bytes.remove(at);
        }
        6 => bytes.truncate(at),
        7 => {
            let other = random.below(bytes.len());
            bytes.swap(at, other);
        }
        8 => bytes.insert(at, bytes[at]),
        _ => bytes.push(byte),
    }
}
