//! Netlists and flat texts, whole and damaged.

use super::damage::damaged_bytes;
use super::random::Random;
use crate::flat;
use crate::flatten::{flatten, LEAST_WORK};
use crate::netlist::{Gate, Netlist, CONTENTS, GATES, LEAST_NETLIST, RECORD, WIRES};

/// The words of a netlist, given to run and to write.
pub fn netlist_words(random: &mut Random) -> Vec<u16> {
    let mut words = if random.chance(25) { flattened(random) } else { netlist(random).to_words() };
    if random.chance(35) {
        for _ in 0..1 + random.below(2) {
            change_words(random, &mut words);
        }
    }
    if random.chance(25) {
        // Words after the records are free.
        for _ in 0..random.below(20) {
            words.push(any_word(random));
        }
    }
    words.truncate(crate::drive::WORDS);
    words
}

/// The netlist of a random program, or of nothing.
fn flattened(random: &mut Random) -> Vec<u16> {
    let text = super::programs::program(random);
    let mut words = vec![0; LEAST_NETLIST];
    flatten(text.as_bytes(), &mut vec![0; LEAST_WORK], &mut words);
    let gates = words[3] as usize;
    words.truncate(CONTENTS + RECORD * gates);
    words
}

/// A random well-formed netlist.
pub fn netlist(random: &mut Random) -> Netlist {
    let (inputs, outputs, locals) = match random.below(20) {
        0 => (random.below(300), random.below(300), random.below(900)),
        1 => {
            let inputs = random.below(513);
            let outputs = random.below(WIRES - inputs + 1);
            (inputs, outputs, WIRES - inputs - outputs)
        }
        2 => (0, 0, random.below(3)),
        _ => (random.below(7), random.below(5), random.below(20)),
    };
    let wires = inputs + outputs + locals;
    let mut free: Vec<u16> = (inputs as u16..wires as u16).collect();
    random.shuffle(&mut free);
    let most = free.len().min(GATES);
    let count = if random.chance(50) { most } else { random.below(most + 1) };
    // Settled gates take only inputs and outputs of gates before them.
    let settled = random.chance(50);
    let mut known: Vec<u16> = (0..inputs as u16).collect();
    let mut gates = Vec::new();
    for &output in &free[..count] {
        let mut kind = random.below(10) as u16;
        if settled && known.is_empty() {
            kind = Gate::ONE;
        }
        let slots: Vec<u16> = (0..Gate::input_count(kind))
            .map(|_| {
                if settled && random.chance(98) {
                    *random.pick(&known)
                } else {
                    random.below(wires) as u16
                }
            })
            .collect();
        gates.push(Gate::new(kind, &slots, output));
        known.push(output);
    }
    if random.chance(50) {
        random.shuffle(&mut gates);
    }
    Netlist { inputs, outputs, wires, gates }
}

fn any_word(random: &mut Random) -> u16 {
    const LIKELY: [u16; 16] =
        [0, 1, 2, 3, 8, 9, 10, 255, 1023, 1024, 1025, 1535, 1536, 1537, 65534, 65535];
    if random.chance(70) {
        *random.pick(&LIKELY)
    } else {
        random.below(65536) as u16
    }
}

fn change_words(random: &mut Random, words: &mut Vec<u16>) {
    if words.len() < CONTENTS {
        words.push(any_word(random));
        return;
    }
    let wires = words[2];
    let gates = words.len() / RECORD;
    let at = random.below(words.len());
    let record = CONTENTS + RECORD * random.below(gates.max(1));
    match random.below(17) {
        // As many ports as wires, or one more; a sum beyond 65,535.
        14 => words[1] = wires.wrapping_sub(words[0]),
        15 => words[1] = wires.wrapping_sub(words[0]).wrapping_add(1),
        16 => words[1] = words[0].wrapping_neg().wrapping_add(random.below(3) as u16),
        0 => words[at] = any_word(random),
        1 => words.truncate(at),
        2 => {
            words.pop();
        }
        3 => words[random.below(CONTENTS)] = any_word(random),
        4 => {
            let at = random.below(CONTENTS);
            words[at] = words[at].wrapping_add(1);
        }
        5 => {
            let at = random.below(CONTENTS);
            words[at] = words[at].wrapping_sub(1);
        }
        6 => set(words, record, 10),
        7 => set(words, record, random.below(12) as u16),
        8 => set(words, record + 1 + random.below(4), wires),
        9 => set(words, record + 1 + random.below(4), wires.wrapping_sub(1)),
        10 => set(words, record + 1 + random.below(3), 65535),
        11 => {
            let about_an_input = random.below(words[0] as usize + 1) as u16;
            set(words, record + 4, about_an_input);
        }
        12 => {
            let other = CONTENTS + RECORD * random.below(gates.max(1)) + 4;
            let output = words.get(other).copied().unwrap_or(0);
            set(words, record + 4, output);
        }
        _ => words[3] = random.between(1020, 1030) as u16,
    }
}

fn set(words: &mut [u16], at: usize, word: u16) {
    if let Some(place) = words.get_mut(at) {
        *place = word;
    }
}

/// Input bytes for a run of this netlist.
pub fn run_inputs(random: &mut Random, words: &[u16]) -> Vec<u8> {
    let mut count = words.first().map_or(0, |&inputs| inputs as usize).min(3_990);
    if random.chance(6) {
        count = (count + random.below(3)).saturating_sub(1);
    }
    let mut inputs: Vec<u8> = (0..count).map(|_| random.below(2) as u8).collect();
    if random.chance(6) && count > 0 {
        inputs[random.below(count)] = *random.pick(&[2, 3, 48, 49, 255]);
    }
    inputs
}

/// A flat text small enough to be flattened again.
pub fn small_flat_text(random: &mut Random) -> Vec<u8> {
    let text = flat::flat_text(&netlist(random)).into_bytes();
    if random.chance(30) {
        damaged_flat(random, text)
    } else {
        text
    }
}

/// A flat text, written or damaged.
pub fn flat_text(random: &mut Random) -> Vec<u8> {
    if random.chance(2) {
        return super::programs::program(random).into_bytes();
    }
    let mut netlist = netlist(random);
    if random.chance(15) {
        spoil(random, &mut netlist);
    }
    let text = flat::flat_text(&netlist).into_bytes();
    if random.chance(45) {
        damaged_flat(random, text)
    } else {
        text
    }
}

/// Makes a netlist ill formed in a way that can still be written.
fn spoil(random: &mut Random, netlist: &mut Netlist) {
    let count = netlist.gates.len();
    match random.below(5) {
        0 if count > 1 => {
            let output = netlist.gates[random.below(count)].output;
            netlist.gates[random.below(count)].output = output;
        }
        1 if count > 0 && netlist.inputs > 0 => {
            netlist.gates[random.below(count)].output = random.below(netlist.inputs) as u16;
        }
        2 if count > 0 => netlist.gates[random.below(count)].output = netlist.wires as u16,
        3 => netlist.wires = random.between(1535, 1538) as usize,
        4 => {
            netlist.wires = 1500;
            let first = netlist.inputs as u16;
            let gates = random.between(1023, 1026) as u16;
            netlist.gates =
                (first..first + gates).map(|wire| Gate::new(Gate::ZERO, &[], wire)).collect();
        }
        _ => {}
    }
}

fn damaged_flat(random: &mut Random, text: Vec<u8>) -> Vec<u8> {
    if random.chance(40) {
        return damaged_bytes(random, &text);
    }
    let text = String::from_utf8(text).expect("flat text");
    let mut lines: Vec<String> = text.lines().map(String::from).collect();
    let at = random.below(lines.len());
    let other = random.below(lines.len());
    match random.below(14) {
        0 => {
            lines.remove(at);
        }
        1 => lines.insert(at, lines[other].clone()),
        2 => lines.swap(at, other),
        3 => lines.insert(at, String::new()),
        4 => lines[at] += " ",
        5 => lines[at] += "\r",
        6 => lines[at] += ";",
        7 => lines[at] = lines[at].replacen('w', "w0", 1),
        8 => lines[at] = lines[at].replacen(',', ", ", 1),
        9 => lines[at] = lines[at].replace("w1", "w2"),
        10 => return text.trim_end().as_bytes().to_vec(),
        11 => return format!("{text}\n").into_bytes(),
        12 => return text.replace('\n', " \n").into_bytes(),
        // A gate's name for another: often accepted.
        _ => lines[at] = lines[at].replace("and", "or").replace("not", "connect"),
    }
    lines.iter().map(|line| format!("{line}\n")).collect::<String>().into_bytes()
}
