//! The jobs "write" and "read": flat text.

use crate::answer::Why;
use crate::netlist::{Gate, Netlist, LEAST_NETLIST};

/// "Least sizes: .. flat text 65,536 bytes"
pub const LEAST_TEXT: usize = 65_536;

/// "Second line: inputs; third: outputs; VAR lines: other wires; then one gate
/// a line, each but the last with `;`."
pub fn flat_text(netlist: &Netlist) -> String {
    let ports = netlist.inputs + netlist.outputs;
    let mut text = String::from("BLOCK main\n");
    text += &list((0..netlist.inputs).map(port));
    text += "\n";
    text += &list((netlist.inputs..ports).map(port));
    text += "\n";
    for wire in ports..netlist.wires {
        text += &format!("VAR {};\n", port(wire));
    }
    text += "BEGIN\n";
    let gates: Vec<String> = netlist.gates.iter().map(gate_line).collect();
    text += &gates.join(";\n");
    // With no gates, `END;` follows `BEGIN`.
    if !gates.is_empty() {
        text += "\n";
    }
    text + "END;\n"
}

fn port(wire: usize) -> String {
    format!("w{wire}:WIRE")
}

/// "`[]` stands for no wires."
fn list(items: impl Iterator<Item = String>) -> String {
    let items: Vec<String> = items.collect();
    format!("[{}]", items.join(","))
}

fn gate_line(gate: &Gate) -> String {
    let inputs = list(gate.inputs().iter().map(|wire| format!("w{wire}")));
    format!("{} {} [w{}]", Gate::name(gate.kind), inputs, gate.output)
}

/// "Write a netlist as flat text": the number and the text's length, "0 on a
/// refusal". "Write and read: 1, 19."
pub fn write(words: &[u16], text: &mut [u8]) -> (u8, usize) {
    text.fill(0);
    if text.len() < LEAST_TEXT {
        return (Why::ShortBuffer.number(), 0);
    }
    let Some(netlist) = Netlist::from_words(words) else {
        return (Why::NotWellFormed.number(), 0);
    };
    let written = flat_text(&netlist);
    text[..written.len()].copy_from_slice(written.as_bytes());
    (0, written.len())
}

/// "read flat text into a netlist".
pub fn read(text: &[u8], words: &mut [u16]) -> u8 {
    words.fill(0);
    if words.len() < LEAST_NETLIST {
        return Why::ShortBuffer.number();
    }
    let Some(netlist) = netlist_written_as(text) else {
        return Why::NotWellFormed.number();
    };
    let made = netlist.to_words();
    words[..made.len()].copy_from_slice(&made);
    0
}

/// The well-formed netlist that is written as this text, if there is one.
/// Reading accepts exactly what writing gives. So the text is only
/// glanced at, and the netlist that it seems to be must be written as it.
fn netlist_written_as(text: &[u8]) -> Option<Netlist> {
    let text = std::str::from_utf8(text).ok()?;
    let netlist = glance(text)?;
    (netlist.is_well_formed() && flat_text(&netlist) == text).then_some(netlist)
}

/// What a written text says, line by line; of other texts something or nothing.
fn glance(text: &str) -> Option<Netlist> {
    let mut lines = text.lines().skip(1);
    let inputs = ports_in(lines.next()?);
    let outputs = ports_in(lines.next()?);
    let mut lines = lines.peekable();
    let mut wires = inputs + outputs;
    while lines.next_if(|line| line.starts_with("VAR")).is_some() {
        wires += 1;
    }
    if lines.next()? != "BEGIN" {
        return None;
    }
    let mut gates = Vec::new();
    while let Some(line) = lines.next_if(|&line| line != "END;") {
        gates.push(glance_at_gate(line)?);
    }
    Some(Netlist { inputs, outputs, wires, gates })
}

fn ports_in(line: &str) -> usize {
    line.matches(':').count()
}

fn glance_at_gate(line: &str) -> Option<Gate> {
    let (name, lists) = line.split_once(' ')?;
    let kind = Gate::kind_named(name)?;
    let digits = lists.split(|letter: char| !letter.is_ascii_digit());
    let mut wires = Vec::new();
    for number in digits.filter(|digits| !digits.is_empty()) {
        wires.push(number.parse::<u16>().ok()?);
    }
    let output = wires.pop()?;
    (wires.len() == Gate::input_count(kind)).then(|| Gate::new(kind, &wires, output))
}
