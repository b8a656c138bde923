//! The command stream that compares two flatteners.
//!
//! A command is one line (a word and decimal numbers, single spaces, LF) and
//! then the bytes that it announces. The lent buffers are filled with rubbish
//! first: "What it held before does not matter".

use crate::flatten::{flatten, Answer};
use crate::{flat, run};

/// Largest numbers of a command.
pub const WORK: usize = 20_000;
pub const NET: usize = 8_000;
pub const LEN: usize = 70_000;
pub const WORDS: usize = 8_000;
pub const INPUTS: usize = 4_000;
pub const VALUES: usize = 4_000;
pub const TEXT: usize = 70_000;

/// Carries out the commands and gives what is printed.
pub fn drive(input: &[u8]) -> Vec<u8> {
    let mut stream = Stream { rest: input };
    let mut printed = Vec::new();
    while !stream.rest.is_empty() {
        match command(&mut stream) {
            Some(answer) => printed.extend(answer),
            None => {
                printed.extend(b"drive: bad command\n");
                break;
            }
        }
    }
    printed
}

/// One command, or nothing if it is bad.
fn command(stream: &mut Stream) -> Option<Vec<u8>> {
    let line = stream.line()?;
    let mut words = line.split(' ');
    let word = words.next()?;
    let numbers: Vec<&str> = words.collect();
    match word {
        "flatten" => {
            let [work, net, len] = sizes(&numbers, [WORK, NET, LEN])?;
            Some(drive_flatten(work, net, stream.bytes(len)?))
        }
        "run" => {
            let [values, words, inputs] = sizes(&numbers, [VALUES, WORDS, INPUTS])?;
            let netlist = stream.words(words)?;
            Some(drive_run(values, &netlist, stream.bytes(inputs)?))
        }
        "write" => {
            let [text, words] = sizes(&numbers, [TEXT, WORDS])?;
            Some(drive_write(text, &stream.words(words)?))
        }
        "read" => {
            let [net, len] = sizes(&numbers, [NET, LEN])?;
            Some(drive_read(net, stream.bytes(len)?))
        }
        _ => None,
    }
}

/// As many decimal numbers as there are limits, each at most its limit.
fn sizes<const N: usize>(numbers: &[&str], limits: [usize; N]) -> Option<[usize; N]> {
    if numbers.len() != N {
        return None;
    }
    let mut sizes = [0; N];
    for ((size, digits), limit) in sizes.iter_mut().zip(numbers).zip(limits) {
        *size = decimal(digits).filter(|&number| number <= limit)?;
    }
    Some(sizes)
}

fn decimal(digits: &str) -> Option<usize> {
    let all_digits = !digits.is_empty() && digits.bytes().all(|byte| byte.is_ascii_digit());
    if all_digits {
        digits.parse().ok()
    } else {
        None
    }
}

struct Stream<'s> {
    rest: &'s [u8],
}

impl<'s> Stream<'s> {
    fn line(&mut self) -> Option<&'s str> {
        let end = self.rest.iter().position(|&byte| byte == b'\n')?;
        let line = &self.rest[..end];
        self.rest = &self.rest[end + 1..];
        std::str::from_utf8(line).ok()
    }

    fn bytes(&mut self, count: usize) -> Option<&'s [u8]> {
        if count > self.rest.len() {
            return None;
        }
        let (bytes, rest) = self.rest.split_at(count);
        self.rest = rest;
        Some(bytes)
    }

    /// u16 words, low byte first.
    fn words(&mut self, count: usize) -> Option<Vec<u16>> {
        let bytes = self.bytes(2 * count)?;
        Some(bytes.chunks(2).map(|pair| u16::from_le_bytes([pair[0], pair[1]])).collect())
    }
}

fn drive_flatten(work: usize, net: usize, text: &[u8]) -> Vec<u8> {
    let mut work = vec![0xdead_beef; work];
    let mut netlist = vec![0xa5a5; net];
    let Answer { number, place, steps } = flatten(text, &mut work, &mut netlist);
    let left = work.iter().filter(|&&word| word != 0).count();
    format!("flatten {number} {place} {steps} {left}\n{}", numbers("words", &netlist)).into_bytes()
}

fn drive_run(values: usize, netlist: &[u16], inputs: &[u8]) -> Vec<u8> {
    let mut values = vec![0xa5; values];
    let number = run::run(netlist, inputs, &mut values);
    format!("run {number}\n{}", numbers("values", &values)).into_bytes()
}

fn drive_write(text: usize, netlist: &[u16]) -> Vec<u8> {
    let mut text = vec![0xa5; text];
    let (number, length) = flat::write(netlist, &mut text);
    let left = text[length..].iter().filter(|&&byte| byte != 0).count();
    let mut printed = format!("write {number} {length} {left}\ntext\n").into_bytes();
    printed.extend(&text[..length]);
    printed
}

fn drive_read(net: usize, text: &[u8]) -> Vec<u8> {
    let mut netlist = vec![0xa5a5; net];
    let number = flat::read(text, &mut netlist);
    format!("read {number}\n{}", numbers("words", &netlist)).into_bytes()
}

/// A word, then the numbers up to the last that is not zero, each after one
/// space, then LF.
fn numbers<T: Copy + Default + PartialEq + std::fmt::Display>(word: &str, all: &[T]) -> String {
    let zero = T::default();
    let used = all.iter().rposition(|&number| number != zero).map_or(0, |last| last + 1);
    let mut line = String::from(word);
    for number in &all[..used] {
        line += &format!(" {number}");
    }
    line + "\n"
}
