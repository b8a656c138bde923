//! Fixed cases: the edges that 01 lists to be run, one below, at and one above
//! every limit, every prefix of a text, every length of lent memory.

use super::{announced, le_bytes};
use crate::drive::{NET, TEXT, VALUES, WORK};
use crate::flat::{flat_text, LEAST_TEXT};
use crate::flatten::LEAST_WORK;
use crate::netlist::{Gate, Netlist, LEAST_NETLIST};
use crate::run::LEAST_VALUES;

/// The worked design of 01, and its netlist.
const ODD: &str = include_str!("../../../designs/odd.peb");

fn odd() -> Netlist {
    let gates = vec![
        Gate::new(Gate::ZERO, &[], 4),
        Gate::new(Gate::XOR, &[4, 0], 5),
        Gate::new(Gate::XOR, &[5, 1], 6),
        Gate::new(Gate::XOR, &[6, 2], 7),
        Gate::new(Gate::CONNECT, &[7], 3),
    ];
    Netlist { inputs: 3, outputs: 1, wires: 8, gates }
}

/// Every job once, a refusal of each, and a bad command.
pub fn few() -> Vec<u8> {
    let (words, flat) = (odd().to_words(), flat_text(&odd()));
    let mut stream = flatten(ODD);
    stream.extend(flatten("BLOCK main [] [] BEGIN ?"));
    stream.extend(flatten_in(LEAST_WORK - 1, LEAST_NETLIST, ODD.as_bytes()));
    for bits in 0..8 {
        stream.extend(run(LEAST_VALUES, &words, &[bits & 1, bits >> 1 & 1, bits >> 2]));
    }
    stream.extend(run(LEAST_VALUES, &words, &[0, 1]));
    stream.extend(write(LEAST_TEXT, &words));
    stream.extend(write(LEAST_TEXT, &words[1..]));
    stream.extend(read(LEAST_NETLIST, flat.as_bytes()));
    stream.extend(read(LEAST_NETLIST, ODD.as_bytes()));
    stream.extend(b"read 0\n");
    stream
}

pub fn all() -> Vec<u8> {
    let mut stream = Vec::new();
    for text in texts() {
        stream.extend(flatten_in(LEAST_WORK, LEAST_NETLIST, &text));
    }
    for netlist in netlists() {
        let inputs = vec![1; netlist[0].min(3_000) as usize];
        stream.extend(run(LEAST_VALUES, &netlist, &inputs));
        stream.extend(write(LEAST_TEXT, &netlist));
    }
    for text in flat_texts() {
        stream.extend(read(LEAST_NETLIST, &text));
    }
    stream.extend(inputs());
    stream.extend(lengths());
    stream
}

fn flatten(text: &str) -> Vec<u8> {
    flatten_in(LEAST_WORK, LEAST_NETLIST, text.as_bytes())
}

fn flatten_in(work: usize, net: usize, text: &[u8]) -> Vec<u8> {
    announced(format!("flatten {work} {net}"), text)
}

fn run(values: usize, words: &[u16], inputs: &[u8]) -> Vec<u8> {
    let mut command = format!("run {values} {} {}\n", words.len(), inputs.len()).into_bytes();
    command.extend(le_bytes(words));
    command.extend(inputs);
    command
}

fn write(text: usize, words: &[u16]) -> Vec<u8> {
    let mut command = format!("write {text} {}\n", words.len()).into_bytes();
    command.extend(le_bytes(words));
    command
}

fn read(net: usize, text: &[u8]) -> Vec<u8> {
    announced(format!("read {net}"), text)
}

fn many(count: usize, join: &str, item: impl Fn(usize) -> String) -> String {
    (0..count).map(item).collect::<Vec<_>>().join(join)
}

/// One below, at and one above.
fn around(limit: usize) -> [usize; 3] {
    [limit - 1, limit, limit + 1]
}

/// The statements of a main without ports; `rest` are its locals and the
/// other blocks.
fn main_with(locals: &str, statements: &str, rest: &str) -> String {
    format!("BLOCK main [] [] {locals} BEGIN {statements} END; {rest}")
}

// ---- Texts

fn texts() -> Vec<Vec<u8>> {
    let mut texts: Vec<Vec<u8>> = Vec::new();
    // "empty text is 4 at 0"; every prefix of a valid text; every byte alone.
    texts.extend((0..=ODD.len()).map(|end| ODD.as_bytes()[..end].to_vec()));
    texts.extend((0..=255).map(|byte| vec![byte]));
    for at in 0..ODD.len() {
        texts.extend(changed(ODD.as_bytes(), at, b'?'));
    }
    texts.extend(long_texts());
    let more =
        [words(), counts(), levels(), values(), vectors(), depths(), steps(), nets(), names()];
    texts.extend(more.into_iter().flatten().map(String::into_bytes));
    texts
}

/// A text with the byte at a place taken out, doubled, and put for another.
fn changed(text: &[u8], at: usize, byte: u8) -> [Vec<u8>; 3] {
    let (mut out, mut twice, mut other) = (text.to_vec(), text.to_vec(), text.to_vec());
    out.remove(at);
    twice.insert(at, text[at]);
    other[at] = byte;
    [out, twice, other]
}

/// 2: 16,384 bytes.
fn long_texts() -> Vec<Vec<u8>> {
    let mut texts = vec![b"BLOCK m [] [] BEGIN f (".to_vec()];
    texts[0].resize(16_000, b'(');
    for length in around(16_384).into_iter().chain([20_000, 65_535, 65_536, 70_000]) {
        for byte in [b'a', b'(', b' ', 0] {
            texts.push(vec![byte; length]);
        }
        let mut text = ODD.as_bytes().to_vec();
        text.resize(length, b'\n');
        texts.push(text);
    }
    texts
}

/// 3: names of 16 letters, numbers of 6 digits; 4 at every end of a list.
fn words() -> Vec<String> {
    let mut texts = Vec::new();
    for length in around(16) {
        let name = "n".repeat(length);
        texts.push(main_with(&format!("VAR {name}:WIRE;"), &format!("one [] [{name}]"), ""));
    }
    for length in around(6) {
        let number = "0".repeat(length - 1) + "1";
        texts.push(main_with("VAR v:VECTOR (1..0) OF WIRE;", &format!("one [] [v({number})]"), ""));
    }
    let ends =
        ["a [] [];", ";", "f () [] []", "f [,] []", "f [a,] []", "f [] [] f [] []", "...", ".."];
    texts.extend(ends.map(|end| main_with("", end, "")));
    texts.extend(
        ["BLOCK main () [] [] BEGIN END;", "BLOCK main [] [] BEGIN END", "BLOCK main [] [] BEGIN"]
            .map(String::from),
    );
    texts
}

/// 5: blocks, names, loops.
fn counts() -> Vec<String> {
    let mut texts = Vec::new();
    for count in around(64) {
        let main = main_with("", "b1 [] []", "");
        texts.push(main + &many(count - 1, "", |n| format!("BLOCK b{n} [] [] BEGIN END;")));
    }
    for count in around(48) {
        let ports = many(count, ",", |n| format!("n{n}:WIRE"));
        texts.push(format!("BLOCK main [{ports}] [] BEGIN END;"));
        texts.push(format!("BLOCK main [] [{ports}] BEGIN END;"));
        texts.push(main_with(&many(count, "", |n| format!("VAR n{n}:NUM;")), "", ""));
        let generics = many(count, ",", |n| format!("n{n}"));
        texts.push(main_with("", "", &format!("BLOCK f ({generics}) [] [] BEGIN END;")));
        texts.push(format!(
            "BLOCK main [a:WIRE] [b:WIRE] VAR c:NUM;{} BEGIN END;",
            many(count - 3, "", |n| format!("VAR n{n}:WIRE;"))
        ));
    }
    for count in around(8) {
        let loops = "GENERATE FOR i=1..2 BEGIN ".repeat(count) + &"END ".repeat(count);
        texts.push(main_with("VAR i:NUM;", &loops, ""));
        texts.push(main_with("VAR i:NUM;", &format!("{loops}; {loops}"), ""));
    }
    texts
}

/// 5: expression levels.
fn levels() -> Vec<String> {
    let mut texts = Vec::new();
    for count in around(15) {
        let brackets = "(".repeat(count) + "1" + &")".repeat(count);
        for value in [brackets.clone(), "-".repeat(count) + "1", format!("2*{brackets}-{brackets}")]
        {
            let rest = "BLOCK f (n) [] [] BEGIN END;";
            texts.push(main_with("", &format!("f ({value}) [] []"), rest));
            texts.push(main_with(&format!("VAR v:VECTOR ({value}..{value}) OF WIRE;"), "", ""));
            let looped = format!("GENERATE FOR i={value}..{value} BEGIN END");
            texts.push(main_with("VAR i:NUM;", &looped, ""));
            let one = format!("one [] [v({value}+5)]");
            texts.push(main_with("VAR v:VECTOR (9..0) OF WIRE;", &one, ""));
        }
    }
    texts
}

/// 10: -1,000,000 to 1,000,000.
fn values() -> Vec<String> {
    const VALUES: [&str; 22] = [
        "2-3-4",
        "-2*3",
        "999999",
        "999999+1",
        "999999+2",
        "999999+2-5",
        "1000*1000",
        "1000*1001",
        "1000*1000+1",
        "1000*1000-1",
        "-999999",
        "-999999-1",
        "-999999-2",
        "-1000*1000",
        "-1000*1001",
        "-(1000*1000)",
        "--(1000*1000)",
        "1000*-1000",
        "1000*-1001",
        "999999*999999",
        "0*999999*999999",
        "999999*0*999999",
    ];
    let mut texts = Vec::new();
    for value in VALUES {
        texts.push(main_with("", &format!("f ({value}) [] []"), "BLOCK f (n) [] [] BEGIN END;"));
        texts.push(main_with("VAR i:NUM;", &format!("GENERATE FOR i=1..{value} BEGIN END"), ""));
        texts.push(main_with("VAR i:NUM;", &format!("GENERATE FOR i={value}..0 BEGIN END"), ""));
        texts.push(main_with("VAR v:VECTOR (5..-9) OF WIRE;", &format!("one [] [v({value})]"), ""));
        texts.push(main_with(&format!("VAR v:VECTOR ({value}..0) OF WIRE;"), "", ""));
        texts.push(main_with(&format!("VAR v:VECTOR (0..{value}) OF WIRE;"), "", ""));
    }
    texts
}

/// 11, 12, 13: vectors, subscripts, ties.
fn vectors() -> Vec<String> {
    let mut texts = Vec::new();
    for low in [-300, -1, 0, 7] {
        for high in [low - 1, low, low + 1, low + 254, low + 255, low + 256] {
            let vector = format!("v:VECTOR ({high}..{low}) OF WIRE");
            texts.push(main_with(&format!("VAR {vector};"), "", ""));
            texts.push(format!("BLOCK main [{vector}] [] BEGIN END;"));
            texts.push(main_with(
                "",
                "f [] []",
                &format!("BLOCK f [] [] VAR {vector}; BEGIN END;"),
            ));
            for at in [low - 1, low, high, high + 1] {
                texts.push(main_with(&format!("VAR {vector};"), &format!("one [] [v({at})]"), ""));
            }
            texts.push(format!(
                "BLOCK main [v:VECTOR (255..0) OF WIRE] [w:VECTOR (1..0) OF WIRE]
                 BEGIN f [v] [w] END;
                 BLOCK f [{vector}] [w:VECTOR ({high}..{low}) OF WIRE] BEGIN END;"
            ));
        }
    }
    texts
}

/// A block that calls itself with every smaller number.
const FALLING: &str = "BLOCK f (n) [] [] VAR i:NUM;
     BEGIN GENERATE FOR i=1..n BEGIN f (i-1) [] [] END END;";

/// 14: depth 16; blocks that call themselves.
fn depths() -> Vec<String> {
    let mut texts = Vec::new();
    for depth in around(16) {
        let chain = many(depth, "", |n| match n + 1 {
            last if last == depth => format!("BLOCK b{n} [] [] BEGIN END;"),
            next => format!("BLOCK b{n} [] [] BEGIN b{next} [] [] END;"),
        });
        texts.push(chain.replace("b0", "main"));
        // A block that calls itself so often.
        texts.push(main_with(
            "",
            &format!("f ({}) [] []", depth - 2),
            "BLOCK f (n) [] [] VAR i:NUM; VAR j:NUM; BEGIN GENERATE FOR i=1..n BEGIN
             GENERATE FOR j=i..1 BEGIN f (n-1) [] [] END END END;",
        ));
    }
    texts.extend([
        main_with("", "main [] []", ""),
        main_with("", "f [] []", "BLOCK f [] [] BEGIN f [] [] END;"),
        main_with(
            "",
            "f [] []",
            "BLOCK f [] [] BEGIN g [] [] END; BLOCK g [] [] BEGIN f [] [] END;",
        ),
        main_with("", "f (13) [] []", FALLING),
        main_with("", "f (4) [] []", FALLING),
        "BLOCK main [] [] VAR w:WIRE; BEGIN f (3) [] [w] END;
         BLOCK f (n) [] [q:WIRE] VAR w:WIRE; VAR i:NUM;
         BEGIN one [] [w]; GENERATE FOR i=1..n BEGIN not [w] [q] END END;"
            .into(),
    ]);
    texts
}

/// 15: 20,000 steps.
fn steps() -> Vec<String> {
    let mut texts = Vec::new();
    for steps in around(20_000) {
        // A loop begun is a step, and each of its rounds.
        let rounds = |n: usize| format!("GENERATE FOR i=1..{n} BEGIN END");
        texts.push(main_with("VAR i:NUM;", &rounds(steps - 1), ""));
        texts.push(main_with(
            "VAR i:NUM;",
            &format!("f [] []; {}", rounds(steps - 2)),
            "BLOCK f [] [] BEGIN END;",
        ));
        texts.push(main_with(
            "VAR i:NUM;",
            &format!("{}; f [] []", rounds(steps - 2)),
            "BLOCK f [] [] BEGIN END;",
        ));
        texts.push(main_with("VAR i:NUM;", &format!("{}; {}", rounds(steps - 2), rounds(0)), ""));
        texts.push(
            main_with("VAR i:NUM;", &format!("{}; one [] [v(9)]", rounds(steps - 2)), "")
                .replace("VAR i", "VAR v:VECTOR (1..0) OF WIRE; VAR i"),
        );
    }
    texts.push(main_with("VAR i:NUM;", "GENERATE FOR i=0-1000*1000..1000*1000 BEGIN END", ""));
    texts
}

/// 16, 17, 18: 1,536 wires, 1,024 gates, drives.
fn nets() -> Vec<String> {
    let mut texts = Vec::new();
    let full = |count: usize| many(count, "", |n| format!("VAR v{n}:VECTOR (255..0) OF WIRE;"));
    for wires in around(1_536) {
        let last = wires - 1_280 - 1;
        let half = last / 2;
        texts.push(main_with(
            &format!(
                "{}VAR w:VECTOR ({}..0) OF WIRE; VAR x:VECTOR ({half}..0) OF WIRE;",
                full(5),
                last - half - 1
            ),
            "one [] [x(0)]",
            "",
        ));
        texts.push(main_with(
            "VAR i:NUM;",
            &format!("GENERATE FOR i=1..{wires} BEGIN f [] [] END"),
            "BLOCK f [] [] VAR w:WIRE; BEGIN END;",
        ));
    }
    for gates in around(1_024) {
        let each =
            "GENERATE FOR i=0..255 BEGIN one [] [v0(i)]; zero [] [v1(i)]; not [v0(i)] [v2(i)] END";
        let rest = format!(
            "GENERATE FOR i=0..{} BEGIN mux [v0(i),v1(i),v2(i)] [v3(i)] END",
            gates - 769 - 1
        );
        texts.push(main_with(
            &format!("{} VAR w:WIRE; VAR i:NUM;", full(4)),
            &format!("{each}; {rest}; one [] [w]"),
            "",
        ));
        texts.push(main_with(
            &format!("{} VAR w:WIRE; VAR i:NUM;", full(4)),
            &format!("{each}; {rest}; one [] [v0(0)]"),
            "",
        ));
    }
    texts.extend(
        [
            "BLOCK main [a:WIRE] [] BEGIN one [] [a] END;",
            "BLOCK main [] [a:WIRE] BEGIN one [] [a] END;",
            "BLOCK main [] [a:WIRE] BEGIN one [] [a]; zero [] [a] END;",
            "BLOCK main [] [a:WIRE] BEGIN f [] [a]; f [] [a] END;
             BLOCK f [] [q:WIRE] BEGIN one [] [q] END;",
            "BLOCK main [] [a:WIRE] BEGIN not [a] [a] END;",
            "BLOCK main [x:VECTOR (1..0) OF WIRE] [p:WIRE,q:WIRE] BEGIN f [x] [p,q] END;
             BLOCK f [v:VECTOR (7..6) OF WIRE] [p:WIRE,q:WIRE]
             BEGIN connect [v(6)] [p]; connect [v(7)] [q] END;",
        ]
        .map(String::from),
    );
    texts
}

/// 6 to 9, one fault each; "an unused block with an unknown name (7)".
fn names() -> Vec<String> {
    let faults = [
        ("", "nix [] []", ""),
        ("", "", "BLOCK f [] [] BEGIN nix [] [] END;"),
        ("VAR a:WIRE; VAR a:WIRE;", "", ""),
        ("", "", "BLOCK f [] [] BEGIN END; BLOCK f [] [] BEGIN END;"),
        ("", "", "BLOCK xor [] [] BEGIN END;"),
        ("", "", "BLOCK main [] [] BEGIN END;"),
        ("VAR i:NUM;", "one [] [i]", ""),
        ("VAR w:WIRE;", "one [] [w(0)]", ""),
        ("VAR w:WIRE;", "one [w] [w]", ""),
        ("VAR w:WIRE;", "and [w] [w]", ""),
        ("VAR v:VECTOR (1..0) OF WIRE;", "one [] [v]", ""),
        ("VAR v:VECTOR (n..0) OF WIRE;", "", ""),
        ("VAR i:NUM;", "GENERATE FOR i=i..2 BEGIN END", ""),
        ("VAR i:NUM;", "GENERATE FOR i=1..2 BEGIN GENERATE FOR i=i..i BEGIN END END", ""),
        ("", "f [] []", "BLOCK f (n) [] [] BEGIN END;"),
        ("", "f (1) [] []", "BLOCK f [] [] BEGIN END;"),
    ];
    let mut texts: Vec<String> =
        faults.iter().map(|(locals, body, rest)| main_with(locals, body, rest)).collect();
    texts.extend(
        ["BLOCK f [] [] BEGIN END; \n", "BLOCK main (n) [] [] BEGIN END;"].map(String::from),
    );
    texts
}

// ---- Netlists and flat texts

/// Gates that drive wires from `first` on.
fn driving(count: usize, first: usize) -> Vec<Gate> {
    (0..count)
        .map(|n| Gate::new((Gate::ZERO as usize + n % 2) as u16, &[], (first + n) as u16))
        .collect()
}

/// Netlists at the limits, well formed or not, that can be written.
fn edge_netlists() -> Vec<Netlist> {
    let mut all = vec![odd(), Netlist { inputs: 0, outputs: 0, wires: 0, gates: Vec::new() }];
    for wires in around(1_536) {
        for inputs in [0, 1, 768, wires - 1, wires] {
            for outputs in [0, 1, wires - inputs] {
                if inputs + outputs <= wires {
                    let gates = driving(usize::from(inputs < wires), wires - 1);
                    all.push(Netlist { inputs, outputs, wires, gates });
                }
            }
        }
    }
    for gates in around(1_024) {
        all.push(Netlist { inputs: 3, outputs: 2, wires: 1_200, gates: driving(gates, 3) });
    }
    for (input, output) in [(3, 4), (4, 4), (5, 4), (0, 5), (0, 2), (0, 1)] {
        let mut netlist = Netlist { inputs: 2, outputs: 1, wires: 5, gates: driving(2, 2) };
        netlist.gates.push(Gate::new(Gate::NOT, &[input], output));
        all.push(netlist);
    }
    for kind in Gate::CONNECT..=Gate::ONE {
        for bits in 0..8 {
            let inputs: Vec<u16> = (0..Gate::input_count(kind) as u16).collect();
            let mut gates = driving(0, 0);
            for wire in 0..3 {
                gates.push(Gate::new(Gate::ZERO + (bits >> wire & 1), &[], wire));
            }
            gates.push(Gate::new(kind, &inputs, 3));
            all.push(Netlist { inputs: 0, outputs: 0, wires: 4, gates });
        }
    }
    all
}

fn netlists() -> Vec<Vec<u16>> {
    let mut all: Vec<Vec<u16>> = edge_netlists().iter().map(Netlist::to_words).collect();
    let words = odd().to_words();
    // Every word of the worked netlist changed; every shorter part of it; more words after it.
    for at in 0..words.len() {
        for word in [words[at].wrapping_sub(1), words[at].wrapping_add(1), 10, 65_534, 65_535] {
            let mut changed = words.clone();
            changed[at] = word;
            all.push(changed);
        }
        if at > 0 {
            all.push(words[..at].to_vec());
        }
    }
    for more in around(LEAST_NETLIST) {
        let mut longer = words.clone();
        longer.resize(more, 9);
        all.push(longer);
    }
    all
}

fn flat_texts() -> Vec<Vec<u8>> {
    let odd = flat_text(&odd()).into_bytes();
    let mut all: Vec<Vec<u8>> =
        edge_netlists().iter().map(|net| flat_text(net).into_bytes()).collect();
    all.extend((0..odd.len()).map(|end| odd[..end].to_vec()));
    for at in 0..odd.len() {
        all.extend(changed(&odd, at, b'0'));
        all.extend(changed(&odd, at, b' '));
    }
    all
}

/// 20: inputs of a run, one fewer, as many, one more; bytes 0, 1, 2.
fn inputs() -> Vec<u8> {
    let words = odd().to_words();
    let mut stream = Vec::new();
    for count in 0..6 {
        stream.extend(run(LEAST_VALUES, &words, &vec![0; count]));
    }
    for byte in 0..=255 {
        stream.extend(run(LEAST_VALUES, &words, &[1, 0, byte]));
    }
    for inputs in around(1_536) {
        let netlist = Netlist { inputs: 1_536, outputs: 0, wires: 1_536, gates: Vec::new() };
        stream.extend(run(LEAST_VALUES, &netlist.to_words(), &vec![1; inputs]));
    }
    stream
}

/// 1: the lengths of lent memory.
fn lengths() -> Vec<u8> {
    let lent = |least: usize, largest: usize| [0, 1, least - 1, least, least + 1, largest];
    let (words, flat) = (odd().to_words(), flat_text(&odd()));
    let mut stream = Vec::new();
    for work in lent(LEAST_WORK, WORK) {
        for net in lent(LEAST_NETLIST, NET) {
            for text in [ODD, "", "?", "BLOCK main [] [v:VECTOR (0..1) OF WIRE] BEGIN END;"] {
                stream.extend(flatten_in(work, net, text.as_bytes()));
            }
            stream.extend(flatten_in(work, net, &vec![b' '; 16_385]));
        }
    }
    for values in lent(LEAST_VALUES, VALUES) {
        stream.extend(run(values, &words, &[1, 1, 0]));
        stream.extend(run(values, &words, &[1, 1, 2]));
        stream.extend(run(values, &words[1..], &[]));
    }
    for text in lent(LEAST_TEXT, TEXT) {
        stream.extend(write(text, &words));
        stream.extend(write(text, &words[1..]));
    }
    for net in lent(LEAST_NETLIST, NET) {
        stream.extend(read(net, flat.as_bytes()));
        stream.extend(read(net, ODD.as_bytes()));
    }
    stream
}
