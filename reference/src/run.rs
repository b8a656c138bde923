//! The job "run": "a netlist and one byte (0 or 1) per main input fill a
//! value for each wire: 0, 1, or 2 for unsettled".

use crate::answer::Why;
use crate::netlist::{Gate, Netlist};

/// "Least sizes: .. values 1,536 bytes"
pub const LEAST_VALUES: usize = 1_536;
/// "2 for unsettled"
pub const UNSETTLED: u8 = 2;

/// Gives the number of the answer.
pub fn run(words: &[u16], inputs: &[u8], values: &mut [u8]) -> u8 {
    values.fill(0);
    match settled(words, inputs, values.len()) {
        Ok(known) => {
            values[..known.len()].copy_from_slice(&known);
            0
        }
        Err(why) => why.number(),
    }
}

/// "Run: 1, 19, 20."
fn settled(words: &[u16], inputs: &[u8], lent: usize) -> Result<Vec<u8>, Why> {
    if lent < LEAST_VALUES {
        return Err(Why::ShortBuffer);
    }
    let netlist = Netlist::from_words(words).ok_or(Why::NotWellFormed)?;
    if inputs.len() != netlist.inputs || inputs.iter().any(|&byte| byte > 1) {
        return Err(Why::WrongInputs);
    }
    Ok(settle(&netlist, inputs))
}

/// "A run starts with inputs known, the others unsettled; .. the answer is
/// what is known when nothing more can be added."
fn settle(netlist: &Netlist, inputs: &[u8]) -> Vec<u8> {
    let mut values = vec![UNSETTLED; netlist.wires];
    values[..inputs.len()].copy_from_slice(inputs);
    while add_known(&netlist.gates, &mut values) {}
    values
}

/// One pass over the gates; tells whether a wire became known.
fn add_known(gates: &[Gate], values: &mut [u8]) -> bool {
    let mut added = false;
    for gate in gates {
        let output = gate.output as usize;
        if values[output] != UNSETTLED {
            continue;
        }
        if let Some(bits) = known_bits(gate, values) {
            values[output] = Gate::output_bit(gate.kind, &bits) as u8;
            added = true;
        }
    }
    added
}

/// "a gate whose inputs are all known makes its output known" (it
/// waits for all of them).
fn known_bits(gate: &Gate, values: &[u8]) -> Option<Vec<bool>> {
    let bit = |&wire: &u16| match values[wire as usize] {
        UNSETTLED => None,
        value => Some(value == 1),
    };
    gate.inputs().iter().map(bit).collect()
}
