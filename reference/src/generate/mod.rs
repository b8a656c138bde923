//! Streams of `drive` commands, deterministic from a seed.
//!
//! * `random`   - the generator of numbers
//! * `programs` - random programs, most of them valid
//! * `wild`     - texts of the right order with careless names and values
//! * `edges`    - texts at the limits, and several faults at one statement
//! * `damage`   - texts with words or bytes changed
//! * `nets`     - netlists and flat texts, whole and damaged
//! * `cases`    - fixed cases: every limit, every prefix, every length

pub mod cases;
pub mod damage;
pub mod edges;
pub mod nets;
pub mod programs;
pub mod random;
pub mod wild;

use crate::drive::{LEN, NET, TEXT, VALUES, WORK};
use crate::flat::LEAST_TEXT;
use crate::flatten::LEAST_WORK;
use crate::netlist::LEAST_NETLIST;
use crate::run::LEAST_VALUES;
use random::Random;

/// `count` commands.
pub fn stream(seed: u64, count: usize) -> Vec<u8> {
    let mut random = Random::new(seed);
    let mut commands = Vec::new();
    for _ in 0..count {
        commands.extend(command(&mut random));
    }
    commands
}

fn command(random: &mut Random) -> Vec<u8> {
    match random.below(100) {
        0..=57 => flatten_command(random),
        58..=71 => run_command(random),
        72..=84 => write_command(random),
        _ => read_command(random),
    }
}

fn flatten_command(random: &mut Random) -> Vec<u8> {
    let text = pebble_text(random);
    let work = lent(random, LEAST_WORK, WORK);
    let net = lent(random, LEAST_NETLIST, NET);
    announced(format!("flatten {work} {net}"), &text)
}

/// A Pebble text of any sort.
fn pebble_text(random: &mut Random) -> Vec<u8> {
    match random.below(100) {
        0..=24 => programs::program(random).into_bytes(),
        25..=43 => {
            let text = programs::program(random);
            damage::damaged_words(random, &text)
        }
        44..=48 => {
            let text = programs::program(random);
            damage::damaged_bytes(random, text.as_bytes())
        }
        49..=54 => wild::text(random).into_bytes(),
        55..=57 => nets::small_flat_text(random),
        58..=61 => {
            let text = edges::text(random);
            damage::damaged_words(random, &String::from_utf8_lossy(&text))
        }
        _ => edges::text(random),
    }
}

fn run_command(random: &mut Random) -> Vec<u8> {
    let words = nets::netlist_words(random);
    let inputs = nets::run_inputs(random, &words);
    let values = lent(random, LEAST_VALUES, VALUES);
    let mut command = format!("run {values} {} {}\n", words.len(), inputs.len()).into_bytes();
    command.extend(le_bytes(&words));
    command.extend(inputs);
    command
}

fn write_command(random: &mut Random) -> Vec<u8> {
    let words = nets::netlist_words(random);
    let text = lent(random, LEAST_TEXT, TEXT);
    let mut command = format!("write {text} {}\n", words.len()).into_bytes();
    command.extend(le_bytes(&words));
    command
}

fn read_command(random: &mut Random) -> Vec<u8> {
    let text = nets::flat_text(random);
    let net = lent(random, LEAST_NETLIST, NET);
    announced(format!("read {net}"), &text)
}

fn announced(front: String, text: &[u8]) -> Vec<u8> {
    let text = &text[..text.len().min(LEN)];
    let mut command = format!("{front} {}\n", text.len()).into_bytes();
    command.extend(text);
    command
}

fn le_bytes(words: &[u16]) -> Vec<u8> {
    words.iter().flat_map(|word| word.to_le_bytes()).collect()
}

/// The length of a lent buffer: 0, least - 1, least, least + 1, or any.
fn lent(random: &mut Random, least: usize, largest: usize) -> usize {
    match random.below(100) {
        0 if random.chance(60) => 0,
        0 => random.below(least),
        1 => least - 1,
        2..=20 => least + 1,
        21..=30 => random.between(least as i64, largest as i64) as usize,
        31..=34 => largest,
        _ => least,
    }
}
