//! Answers 19 and 20.
mod common;
use common::*;
use reference::flat::{flat_text, read, write};
use reference::netlist::{Gate, Netlist};
use reference::run::run;

fn odd() -> Vec<u16> {
    done(ODD).0.to_words()
}

fn run_with(words: &[u16], inputs: &[u8], lent: usize) -> (u8, Vec<u8>) {
    let mut values = vec![9; lent];
    let number = run(words, inputs, &mut values);
    assert!(number == 0 || values.iter().all(|&value| value == 0));
    (number, values)
}

fn write_with(words: &[u16], lent: usize) -> (u8, String) {
    let mut text = vec![9; lent];
    let (number, length) = write(words, &mut text);
    assert!(text[length..].iter().all(|&byte| byte == 0));
    assert!(number == 0 || length == 0);
    (number, String::from_utf8(text[..length].to_vec()).unwrap())
}

fn read_with(text: &[u8], lent: usize) -> (u8, Vec<u16>) {
    let mut words = vec![9; lent];
    let number = read(text, &mut words);
    assert!(number == 0 || words.iter().all(|&word| word == 0));
    (number, words)
}

/// 19 in run and in write, or done in both.
fn well_formed(words: &[u16]) -> bool {
    let (written, _) = write_with(words, 65_536);
    let (ran, _) = run_with(words, &vec![0; words.first().copied().unwrap_or(0) as usize], 1_536);
    assert_eq!(written, ran);
    assert!(written == 0 || written == 19);
    written == 0
}

#[test]
fn when_a_netlist_is_well_formed() {
    let odd = odd();
    assert!(well_formed(&odd));
    assert!(!well_formed(&[]));
    for length in 0..odd.len() {
        assert!(!well_formed(&odd[..length]));
    }
    let longer = [&odd[..], &[1, 2, 3, 65535]].concat();
    assert!(well_formed(&longer));
    assert!(well_formed(&[0, 0, 0, 0]));

    let change = |at: usize, word: u16| {
        let mut words = odd.clone();
        words[at] = word;
        well_formed(&words)
    };
    assert!(change(0, 2), "three inputs or two");
    assert!(!change(0, 4), "wire 3 is driven");
    assert!(!change(0, 8));
    assert!(!change(0, 65535));
    assert!(change(1, 5));
    assert!(!change(1, 6));
    assert!(!change(1, 65534));
    assert!(!change(2, 7));
    assert!(change(2, 9));
    assert!(change(2, 1536));
    assert!(!change(2, 1537));
    assert!(change(3, 4));
    assert!(!change(3, 6));
    assert!(!change(3, 65535));
    assert!(change(4, 9));
    assert!(!change(4, 10));
    assert!(!change(4, 65535));
    assert!(!change(5, 0), "an unused slot");
    assert!(!change(8, 8), "an output");
    assert!(!change(8, 5), "driven twice");
    assert!(!change(8, 2), "a main input");
    assert!(change(10, 7));
    assert!(!change(10, 8));
    assert!(!change(10, 65535), "an input slot");
    assert!(!change(12, 1), "an unused slot");
}

#[test]
fn gates_at_most_1024() {
    let zeros = |count: u16| {
        let gates = (0..count).map(|wire| Gate::new(Gate::ZERO, &[], wire)).collect();
        Netlist { inputs: 0, outputs: 0, wires: 1536, gates }.to_words()
    };
    assert!(well_formed(&zeros(1024)));
    assert!(!well_formed(&zeros(1025)));
}

#[test]
fn order_of_run() {
    let odd = odd();
    assert_eq!(run_with(&[], &[2], 1_535).0, 1);
    assert_eq!(run_with(&odd, &[0, 0, 0], 1_535).0, 1);
    assert_eq!(run_with(&odd, &[0, 0, 0], 0).0, 1);
    assert_eq!(run_with(&[], &[2], 1_536).0, 19);
    assert_eq!(run_with(&odd, &[0, 0], 1_536).0, 20);
    assert_eq!(run_with(&odd, &[0, 0, 0, 0], 1_536).0, 20);
    assert_eq!(run_with(&odd, &[0, 0, 2], 1_536).0, 20);
    assert_eq!(run_with(&odd, &[255, 0, 0], 1_536).0, 20);
    let (number, values) = run_with(&odd, &[1, 1, 0], 1_537);
    assert_eq!(number, 0);
    assert_eq!(&values[..8], [1, 1, 0, 0, 0, 1, 0, 0]);
    assert!(values[8..].iter().all(|&value| value == 0));
}

#[test]
fn primitives() {
    let table: [(&str, &[u8]); 10] = [
        ("connect", &[0, 1]),
        ("not", &[1, 0]),
        ("and", &[0, 0, 0, 1]),
        ("or", &[0, 1, 1, 1]),
        ("xor", &[0, 1, 1, 0]),
        ("nand", &[1, 1, 1, 0]),
        ("nor", &[1, 0, 0, 0]),
        // u if c is 0, else v; c is the first bit of three.
        ("mux", &[0, 0, 1, 1, 0, 1, 0, 1]),
        ("zero", &[0]),
        ("one", &[1]),
    ];
    for (kind, (name, outputs)) in table.into_iter().enumerate() {
        let count = Gate::input_count(kind as u16);
        assert_eq!((Gate::name(kind as u16), 1 << count), (name, outputs.len()));
        let wires: Vec<u16> = (0..count as u16).collect();
        let gates = vec![Gate::new(kind as u16, &wires, count as u16)];
        let netlist = Netlist { inputs: count, outputs: 1, wires: count + 1, gates };
        for (row, &output) in outputs.iter().enumerate() {
            let bits: Vec<u8> =
                (0..count).map(|bit| (row >> (count - 1 - bit) & 1) as u8).collect();
            let (number, values) = run_with(&netlist.to_words(), &bits, 1_536);
            assert_eq!((number, values[count]), (0, output), "{name} {bits:?}");
        }
    }
}

#[test]
fn a_gate_waits_for_all_its_inputs() {
    // Wire 0 is an input, wire 1 nothing drives.
    let values = |gates: Vec<Gate>| {
        let netlist = Netlist { inputs: 1, outputs: 0, wires: 4, gates };
        run_with(&netlist.to_words(), &[0], 1_536).1[..4].to_vec()
    };
    assert_eq!(values(vec![gate("and", &[0, 1], 2)]), [0, 2, 2, 2]);
    assert_eq!(values(vec![gate("mux", &[0, 0, 1], 2)]), [0, 2, 2, 2]);
    assert_eq!(values(vec![gate("xor", &[1, 1], 2)]), [0, 2, 2, 2]);
    // In whatever order the gates stand.
    let late = vec![gate("not", &[2], 3), gate("not", &[0], 2), gate("one", &[], 1)];
    assert_eq!(values(late), [0, 1, 1, 0]);
}

#[test]
fn order_of_write_and_read() {
    let odd = odd();
    assert_eq!(write_with(&odd, 65_535), (1, String::new()));
    assert_eq!(write_with(&[], 65_535), (1, String::new()));
    assert_eq!(write_with(&[], 65_536), (19, String::new()));
    assert_eq!(write_with(&odd, 65_536), (0, ODD_FLAT.into()));
    assert_eq!(write_with(&odd, 65_537), (0, ODD_FLAT.into()));
    assert_eq!(read_with(ODD_FLAT.as_bytes(), 5_123).0, 1);
    assert_eq!(read_with(b"", 5_123).0, 1);
    assert_eq!(read_with(b"", 5_124).0, 19);
    let (number, words) = read_with(ODD_FLAT.as_bytes(), 5_125);
    assert_eq!(number, 0);
    assert_eq!(words[..odd.len()], odd);
    assert!(words[odd.len()..].iter().all(|&word| word == 0));
}

#[test]
fn empty_lists() {
    let none = Netlist { inputs: 0, outputs: 0, wires: 0, gates: vec![] };
    assert_eq!(flat_text(&none), "BLOCK main\n[]\n[]\nBEGIN\nEND;\n");
    let locals = Netlist { inputs: 0, outputs: 1, wires: 2, gates: vec![] };
    assert_eq!(flat_text(&locals), "BLOCK main\n[]\n[w0:WIRE]\nVAR w1:WIRE;\nBEGIN\nEND;\n");
    for netlist in [none, locals] {
        let (number, words) = read_with(flat_text(&netlist).as_bytes(), 5_124);
        assert_eq!((number, Netlist::from_words(&words)), (0, Some(netlist)));
    }
}

#[test]
fn the_largest_netlist_is_written() {
    let gates = (0..1024).map(|wire| Gate::new(Gate::MUX, &[1535, 1534, 1533], 511 + wire));
    let mut netlist = Netlist { inputs: 0, outputs: 0, wires: 1536, gates: gates.collect() };
    netlist.gates.rotate_left(100);
    let (number, text) = write_with(&netlist.to_words(), 65_536);
    assert_eq!(number, 0);
    let (number, words) = read_with(text.as_bytes(), 5_124);
    assert_eq!((number, Netlist::from_words(&words)), (0, Some(netlist)));
}

#[test]
fn reading_accepts_only_what_is_written() {
    let refused = |text: &str| assert_eq!(read_with(text.as_bytes(), 5_124).0, 19, "{text}");
    let change = |from: &str, to: &str| {
        assert!(ODD_FLAT.contains(from));
        refused(&ODD_FLAT.replacen(from, to, 1));
    };
    // No other spacing, no leading zeros, a last LF, nothing after.
    refused(ODD_FLAT.trim_end());
    refused(&format!("{ODD_FLAT}\n"));
    refused(&format!("{ODD_FLAT} "));
    refused(&format!(" {ODD_FLAT}"));
    refused(&ODD_FLAT.replace('\n', "\r\n"));
    change("w4,w0", "w4, w0");
    change("w4,w0", "w04,w0");
    change("w4,w0", "w4,w00");
    change("w4,w0", "w4,w8");
    change("w4,w0", "w4");
    change("w4,w0", "w4,w65536");
    change("w4,w0", "w4,w0,w0");
    change("xor", "xnor");
    change("xor", "mux");
    change("zero []", "zero[]");
    change("zero []", "zero");
    change("zero [] [w4];", "zero [] [w4]");
    change("connect [w7] [w3]", "connect [w7] [w3];");
    change("connect [w7] [w3]", "connect [w7] [w2]");
    change("connect [w7] [w3]", "connect [w7] [w7]");
    change("connect [w7] [w3]", "connect [w7,w3]");
    change("VAR w5:WIRE;\n", "");
    change("VAR w5:WIRE;", "VAR w5:WIRE; ");
    change("VAR w5:WIRE;", "VAR w6:WIRE;");
    change("[w3:WIRE]", "[w4:WIRE]");
    change("[w3:WIRE]", "[ w3:WIRE]");
    change("BLOCK main", "BLOCK Main");
    change("BLOCK main", "BLOCK main ");
    change("BEGIN\n", "BEGIN\n\n");
    change("BEGIN\n", "");
    change("END;", "END");
    change("END;\n", "END;\nEND;\n");
    refused("BLOCK main\n[]\n[]\nBEGIN\n\nEND;\n");
    refused("BLOCK main\n[]\n[]\nBEGIN\n");
    refused("BLOCK main\n[]\n");
    refused("\n\n\n\n");
    assert_eq!(read_with(&[0xff; 10], 5_124).0, 19);
    // Every single deletion of a byte (but `xor` to `or`), and every prefix.
    for at in 0..ODD_FLAT.len() {
        refused(&ODD_FLAT[..at]);
        if !ODD_FLAT[at..].starts_with("xor") {
            refused(&format!("{}{}", &ODD_FLAT[..at], &ODD_FLAT[at + 1..]));
        }
    }
}

#[test]
fn reading_judges_the_netlist() {
    let many_wires = |count| many(count, "", |wire| format!("VAR w{wire}:WIRE;\n"));
    let text = |count| format!("BLOCK main\n[]\n[]\n{}BEGIN\nEND;\n", many_wires(count));
    assert_eq!(read_with(text(1536).as_bytes(), 5_124).0, 0);
    assert_eq!(read_with(text(1537).as_bytes(), 5_124).0, 19);
    let gates = |count| many(count, ";\n", |wire| format!("one [] [w{wire}]"));
    let text =
        |count| format!("BLOCK main\n[]\n[]\n{}BEGIN\n{}\nEND;\n", many_wires(1100), gates(count));
    assert_eq!(read_with(text(1024).as_bytes(), 5_124).0, 0);
    assert_eq!(read_with(text(1025).as_bytes(), 5_124).0, 19);
}
