//! Helpers shared by the tests. In an expected refusal the place is marked
//! in the text itself by `@`, a byte that no Pebble text may hold.
#![allow(dead_code)]

use reference::flatten::{flatten, Answer, LEAST_WORK};
use reference::netlist::{Gate, Netlist, LEAST_NETLIST};

/// The worked design of 01.
pub const ODD: &str = "\
BLOCK main [x:VECTOR (2..0) OF WIRE] [p:WIRE]
BEGIN odd (3) [x] [p] END;
BLOCK odd (n) [v:VECTOR (n-1..0) OF WIRE] [q:WIRE]
VAR t:VECTOR (n..0) OF WIRE; VAR i:NUM;
BEGIN
zero [] [t(0)];
GENERATE FOR i=0..n-1 BEGIN xor [t(i),v(i)] [t(i+1)] END;
connect [t(n)] [q]
END;
";

pub const ODD_FLAT: &str = "\
BLOCK main
[w0:WIRE,w1:WIRE,w2:WIRE]
[w3:WIRE]
VAR w4:WIRE;
VAR w5:WIRE;
VAR w6:WIRE;
VAR w7:WIRE;
BEGIN
zero [] [w4];
xor [w4,w0] [w5];
xor [w5,w1] [w6];
xor [w6,w2] [w7];
connect [w7] [w3]
END;
";

/// The block `odd` of the worked design.
pub fn odd_block() -> &'static str {
    &ODD[ODD.find("BLOCK odd").unwrap()..]
}

pub fn answer(text: &[u8]) -> (Answer, Vec<u16>) {
    let mut work = vec![7; LEAST_WORK];
    let mut words = vec![7; LEAST_NETLIST];
    let answer = flatten(text, &mut work, &mut words);
    assert!(work.iter().all(|&word| word == 0), "the work table is all zeros");
    if answer.number != 0 {
        assert!(words.iter().all(|&word| word == 0), "a refusal leaves zeros");
        assert_eq!(answer.steps, 0);
    } else {
        assert_eq!(answer.place, 0);
    }
    (answer, words)
}

/// The netlist and the steps of a text that is accepted.
pub fn done(text: &str) -> (Netlist, u32) {
    let (answer, words) = answer(text.as_bytes());
    assert_eq!(answer.number, 0, "refused {} {}: {text}", answer.number, answer.place);
    let netlist = Netlist::from_words(&words).expect("flattening gives well-formed netlists");
    let used = netlist.to_words().len();
    assert!(words[used..].iter().all(|&word| word == 0));
    (netlist, answer.steps)
}

/// (inputs, outputs, wires, gates)
pub fn contents(netlist: &Netlist) -> (usize, usize, usize, usize) {
    (netlist.inputs, netlist.outputs, netlist.wires, netlist.gates.len())
}

pub fn gate(name: &str, inputs: &[u16], output: u16) -> Gate {
    Gate::new(Gate::kind_named(name).unwrap(), inputs, output)
}

/// The number and place of a refusal.
pub fn refusal(text: &str) -> (u8, usize) {
    let (answer, _) = answer(text.as_bytes());
    (answer.number, answer.place)
}

/// The text is refused with this number at its `@`.
#[track_caller]
pub fn refuses(number: u8, marked: &str) {
    let place = marked.find('@').expect("a marked place");
    let text = marked.replacen('@', "", 1);
    assert_eq!(refusal(&text), (number, place), "{text}");
}

/// The statements of a main without ports.
pub fn body(statements: &str) -> String {
    format!("BLOCK main [] [] BEGIN {statements} END;")
}

/// Joined copies of what `item` gives for 0, 1, ..
pub fn many(count: usize, join: &str, item: impl Fn(usize) -> String) -> String {
    (0..count).map(item).collect::<Vec<_>>().join(join)
}
