//! Answers 10 to 18, the P and R lists of 01.
mod common;
use common::*;
use reference::flatten::pebble;
use reference::netlist::{Gate, Netlist};
use reference::run::run;

fn values(netlist: &Netlist, inputs: &[u8]) -> Vec<u8> {
    let mut values = vec![9; 1536];
    assert_eq!(run(&netlist.to_words(), inputs, &mut values), 0);
    assert!(values[netlist.wires..].iter().all(|&value| value == 0));
    values.truncate(netlist.wires);
    values
}

/// The value of an expression: the wire that `v(expression)` is.
fn value(expression: &str) -> Option<i64> {
    for low in [-10, 246] {
        let text = format!(
            "BLOCK main [] [v:VECTOR ({}..{low}) OF WIRE] BEGIN one [] [v({expression})] END;",
            low + 255
        );
        let (answer, words) = answer(text.as_bytes());
        match answer.number {
            0 => return Some(words[4 + 4] as i64 + low),
            10 => return None,
            number => assert_eq!(number, 12),
        }
    }
    panic!("{expression} is none of -10..501");
}

#[test]
fn p1_p2_p3_values() {
    assert_eq!(value("2-3-4"), Some(-5));
    assert_eq!(value("-2*3"), Some(-6));
    assert_eq!(value("1000*1000-999999"), Some(1));
    assert_eq!(value("1000*1001"), None);
    assert_eq!(value("1000*1001-999999"), None);
    assert_eq!(value("--3"), Some(3));
    assert_eq!(value("2-(3-4)"), Some(3));
    assert_eq!(value("2+3*4"), Some(14));
    assert_eq!(value("(2+3)*4"), Some(20));
    assert_eq!(value("2*-3"), Some(-6));
    assert_eq!(value("-(2+3)*-2"), Some(10));
    assert_eq!(value("2--3"), Some(5));
    assert_eq!(value("000007"), Some(7));
    assert_eq!(value("999999+2-5"), None);
    assert_eq!(value("999999-5+2-999990"), Some(6));
    assert_eq!(value("999999+1-999999"), Some(1));
    assert_eq!(value("-999999-1+999999"), Some(-1));
    assert_eq!(value("-999999-2+999999"), None);
    assert_eq!(value("1000*1000*0"), Some(0));
    assert_eq!(value("1000*1001*0"), None);
    assert_eq!(value("0*1000*1001"), Some(0));
    assert_eq!(value("0*(1000*1001)"), None);
    // P3 as in 01.
    let call = |e: &str| {
        format!("BLOCK main [] [] BEGIN @f ({e}) [] [] END; BLOCK f (n) [] [] BEGIN END;")
    };
    assert_eq!(refusal(&call("1000*1000").replace('@', "")), (0, 0));
    refuses(10, &call("1000*1001"));
}

#[test]
fn p4_an_empty_loop() {
    let text =
        "BLOCK main [] [a:WIRE] VAR i:NUM; BEGIN GENERATE FOR i=1..0 BEGIN one [] [a] END END;";
    let (netlist, steps) = done(text);
    assert_eq!((contents(&netlist), steps), ((0, 1, 1, 0), 1));
}

#[test]
fn p5_the_worked_design() {
    let (netlist, steps) = done(ODD);
    assert_eq!(contents(&netlist), (3, 1, 8, 5));
    assert_eq!(steps, 10);
    let gates = [
        gate("zero", &[], 4),
        gate("xor", &[4, 0], 5),
        gate("xor", &[5, 1], 6),
        gate("xor", &[6, 2], 7),
        gate("connect", &[7], 3),
    ];
    assert_eq!(netlist.gates, gates);
    let words = [
        3, 1, 8, 5, 8, 65535, 65535, 65535, 4, 4, 4, 0, 65535, 5, 4, 5, 1, 65535, 6, 4, 6, 2,
        65535, 7, 0, 7, 65535, 65535, 3,
    ];
    assert_eq!(netlist.to_words(), words);
    assert_eq!(String::from_utf8(pebble(ODD.as_bytes())).unwrap(), ODD_FLAT);
    assert_eq!(values(&netlist, &[1, 1, 0])[3], 0);
    for bits in 0..8u8 {
        let inputs = [bits & 1, bits >> 1 & 1, bits >> 2 & 1];
        assert_eq!(values(&netlist, &inputs)[3], (bits.count_ones() % 2) as u8);
    }
}

#[test]
fn p6_locals_afresh() {
    let text = format!(
        "BLOCK main [x:VECTOR (0..0) OF WIRE,y:VECTOR (0..0) OF WIRE] [p:WIRE,q:WIRE]
         BEGIN odd (1) [x] [p]; odd (1) [y] [q] END; {}",
        odd_block()
    );
    let (netlist, _) = done(&text);
    assert_eq!(contents(&netlist), (2, 2, 8, 6));
    let gates = [
        gate("zero", &[], 4),
        gate("xor", &[4, 0], 5),
        gate("connect", &[5], 2),
        gate("zero", &[], 6),
        gate("xor", &[6, 1], 7),
        gate("connect", &[7], 3),
    ];
    assert_eq!(netlist.gates, gates);
    // Once per round of a loop too.
    let text = "BLOCK main [] [] VAR i:NUM; BEGIN GENERATE FOR i=1..3 BEGIN f [] [] END END;
        BLOCK f [] [] VAR t:WIRE; BEGIN one [] [t] END;";
    assert_eq!(contents(&done(text).0), (0, 0, 3, 3));
}

#[test]
fn p7_vectors() {
    let text =
        |bounds: &str| format!("BLOCK main [] [] VAR @v:VECTOR ({bounds}) OF WIRE; BEGIN END;");
    let wires = |bounds: &str| done(&text(bounds).replace('@', "")).0.wires;
    assert_eq!(wires("0..0"), 1);
    refuses(11, &text("0..1"));
    // R: 256 and 257 wires.
    assert_eq!(wires("255..0"), 256);
    refuses(11, &text("256..0"));
    assert_eq!(wires("-1..-256"), 256);
    refuses(11, &text("999999..-999999"));
    // First bound, second bound, 11.
    refuses(10, &text("1000*1001..1"));
    refuses(10, &text("0..1000*1001"));
    // Over 256 wires before 16.
    let full = many(6, "", |number| format!("VAR v{number}:VECTOR (255..0) OF WIRE;"));
    refuses(11, &format!("BLOCK main [] [] {full} VAR @v:VECTOR (256..0) OF WIRE; BEGIN END;"));
}

#[test]
fn p8_mux() {
    let text = "BLOCK main [c:WIRE,u:WIRE,v:WIRE] [o:WIRE] BEGIN mux [c,u,v] [o] END;";
    let (netlist, steps) = done(text);
    assert_eq!(steps, 1);
    assert_eq!(netlist.gates, [gate("mux", &[0, 1, 2], 3)]);
    assert_eq!(values(&netlist, &[0, 1, 0])[3], 1);
    assert_eq!(values(&netlist, &[0, 0, 1])[3], 0);
    assert_eq!(values(&netlist, &[1, 1, 0])[3], 0);
    assert_eq!(values(&netlist, &[1, 0, 1])[3], 1);
}

/// "A netlist allows bits on its ports if some bits on the rest satisfy every
/// gate": all the bits of the wires that satisfy every gate, the ports first.
fn allowed(netlist: &Netlist) -> Vec<Vec<bool>> {
    let bits = |row: u32| (0..netlist.wires).map(|wire| row >> wire & 1 == 1).collect::<Vec<_>>();
    let satisfied = |bits: &Vec<bool>| {
        netlist.gates.iter().all(|gate| {
            let inputs: Vec<bool> = gate.inputs().iter().map(|&wire| bits[wire as usize]).collect();
            Gate::output_bit(gate.kind, &inputs) == bits[gate.output as usize]
        })
    };
    (0..1 << netlist.wires).map(bits).filter(satisfied).collect()
}

#[test]
fn p9_feedback() {
    let (netlist, _) = done("BLOCK main [] [a:WIRE] BEGIN not [a] [a] END;");
    assert_eq!(values(&netlist, &[]), [2]);
    assert!(allowed(&netlist).is_empty());
    // Two in a ring stay 2 as well, but two sets of bits are allowed.
    let (netlist, _) = done("BLOCK main [] [a:WIRE,b:WIRE] BEGIN not [a] [b]; not [b] [a] END;");
    assert_eq!(values(&netlist, &[]), [2, 2]);
    assert_eq!(allowed(&netlist), [[true, false], [false, true]]);
}

#[test]
fn a_run_that_settles_gives_the_bits_allowed() {
    let (netlist, _) = done(ODD);
    let rows = allowed(&netlist);
    assert_eq!(rows.len(), 8);
    for row in rows {
        let row: Vec<u8> = row.iter().map(|&bit| bit as u8).collect();
        assert_eq!(values(&netlist, &row[..3]), row);
    }
}

#[test]
fn p10_wires() {
    let vectors = many(5, "", |number| format!("VAR v{number}:VECTOR (255..0) OF WIRE;"));
    let text = |last: &str| format!("BLOCK main [a:WIRE] [b:WIRE] {vectors} {last} BEGIN END;");
    let (netlist, _) = done(&text("VAR z:VECTOR (253..0) OF WIRE;"));
    assert_eq!(contents(&netlist), (1, 1, 1536, 0));
    refuses(16, &text("VAR @z:VECTOR (254..0) OF WIRE;"));
    refuses(16, &text("VAR z:VECTOR (253..0) OF WIRE; VAR i:NUM; VAR @y:WIRE;"));
    // A vector that crosses is 16 as a whole, at the call for a sub-block.
    let calls = |count| many(count, ";", |_| "f [] []".into());
    let inner = "BLOCK f [] [] VAR i:NUM; VAR a:VECTOR (99..0) OF WIRE; BEGIN one [] [a(3)] END;";
    let text = format!("BLOCK main [] [] BEGIN {}; @f [] [] END; {inner}", calls(15));
    refuses(16, &text);
    let ok = format!("BLOCK main [] [] BEGIN {} END; {inner}", calls(15));
    assert_eq!(contents(&done(&ok).0), (0, 0, 1500, 15));
}

#[test]
fn wires_are_lowest_first() {
    let text = "BLOCK main [x:VECTOR (5..4) OF WIRE,y:WIRE] [z:VECTOR (-1..-3) OF WIRE]
        VAR l:VECTOR (1..0) OF WIRE;
        BEGIN not [x(4)] [z(-3)]; not [x(5)] [z(-1)]; not [y] [l(1)]; f [x,z] [] END;
        BLOCK f [a:VECTOR (1..0) OF WIRE,b:VECTOR (9..7) OF WIRE] [] BEGIN not [a(0)] [b(8)] END;";
    let gates =
        [gate("not", &[0], 3), gate("not", &[1], 5), gate("not", &[2], 7), gate("not", &[0], 4)];
    assert_eq!(done(text).0.gates, gates);
}

#[test]
fn subscripts() {
    let text = |call: &str| {
        format!("BLOCK main [x:VECTOR (5..4) OF WIRE] [z:VECTOR (3..0) OF WIRE] BEGIN {call} END;")
    };
    refuses(12, &text("@not [x(3)] [z(0)]"));
    refuses(12, &text("@not [x(6)] [z(0)]"));
    refuses(12, &text("@not [x(4)] [z(-1)]"));
    refuses(12, &text("@not [x(4)] [z(4)]"));
    refuses(10, &text("@not [x(1000*1001)] [z(0)]"));
    // Each whole, left to right.
    refuses(12, &text("@and [x(3),x(1000*1001)] [z(0)]"));
    refuses(10, &text("@and [x(1000*1001),x(3)] [z(0)]"));
    refuses(12, &text("@and [x(5),x(5)] [z(999999)]"));
    // Subscripts before 18.
    refuses(12, &text("@and [x(5),x(3)] [x(5)]"));
    refuses(18, &text("@and [x(5),x(4)] [x(5)]"));
}

#[test]
fn order_of_a_block_call() {
    // f's generics, subscripts, then the ports one by one, then its locals.
    let text = |call: &str| {
        format!(
            "BLOCK main [v:VECTOR (3..0) OF WIRE] [] BEGIN {call} END;
             BLOCK f (n,m,k) [s:WIRE,a:VECTOR (n*1000..n*1000-3) OF WIRE]
             [b:VECTOR (m*1000..m*1000-3+k) OF WIRE]
             VAR l:VECTOR (k..0) OF WIRE; BEGIN END;"
        )
    };
    assert_eq!(refusal(&text("f (1,1,0) [v(0),v] [v]")), (0, 0));
    refuses(10, &text("@f (1000*1001,1,0) [v(4),v] [v]"));
    refuses(10, &text("@f (1,1,1000*1001) [v(4),v] [v]"));
    refuses(12, &text("@f (9999,1,0) [v(4),v] [v]"));
    refuses(10, &text("@f (9999,1,0) [v(0),v] [v]"));
    refuses(10, &text("@f (1,9999,0) [v(0),v] [v]"));
    refuses(13, &text("@f (1,1,1) [v(0),v] [v]"));
    refuses(11, &text("@f (1,1,4) [v(0),v] [v]"));
    refuses(11, &text("@f (1,1,-999) [v(0),v] [v]"));
    // Ports one by one: 13 at the first comes before 10 at the second.
    let text = |call: &str| {
        format!(
            "BLOCK main [v:VECTOR (3..0) OF WIRE] [] BEGIN {call} END;
             BLOCK f (n,m) [a:VECTOR (n..0) OF WIRE] [b:VECTOR (m*1000..0) OF WIRE]
             VAR l:VECTOR (n*m*0-1..0) OF WIRE; BEGIN END;"
        )
    };
    refuses(13, &text("@f (2,9999) [v] [v]"));
    refuses(11, &text("@f (-1,9999) [v] [v]"));
    refuses(11, &text("@f (256,9999) [v] [v]"));
    refuses(10, &text("@f (3,9999) [v] [v]"));
    refuses(11, &text("@f (3,1) [v] [v]"));
    refuses(13, &text("@f (3,0) [v] [v]"));
    // The locals last: -1..0 is 11.
    let text = "BLOCK main [v:VECTOR (3..0) OF WIRE] [] BEGIN @f [v] [] END;
        BLOCK f [a:VECTOR (3..0) OF WIRE] [] VAR l:VECTOR (-1..0) OF WIRE; BEGIN END;";
    refuses(11, text);
    // Equal lengths with other bounds are tied.
    assert_eq!(
        refusal(
            "BLOCK main [v:VECTOR (3..0) OF WIRE] [] BEGIN f [v] [] END;
        BLOCK f [a:VECTOR (-7..-10) OF WIRE] [] BEGIN END;"
        ),
        (0, 0)
    );
}

/// main calls b2, b2 calls b3, .. up to a call of the block b`count`.
fn chain(count: usize) -> String {
    let block = |number| format!("BLOCK b{number} [] [] BEGIN b{} [] [] END;", number + 1);
    format!("BLOCK main [] [] BEGIN b2 [] [] END; {}", many(count - 2, " ", |n| block(n + 2)))
}

#[test]
fn depth() {
    // R: depth 16 and 17. b16 is the body at depth 16.
    let ok = format!("{} BLOCK b16 [] [] BEGIN END;", chain(16));
    assert_eq!(done(&ok).1, 15);
    let deep = format!("{} BLOCK b17 [] [] BEGIN END;", chain(17));
    assert_eq!(refusal(&deep), (14, deep.find("b17").unwrap()));
    // A primitive at depth 16 is no body. 14 is judged before the generics.
    let ok = format!("{} BLOCK b16 [] [] VAR a:WIRE; BEGIN one [] [a] END;", chain(16));
    assert_eq!(done(&ok).1, 16);
    refuses(
        14,
        &format!(
            "{} BLOCK b16 [] [] BEGIN @g (1000*1001) [] [] END; BLOCK g (n) [] [] BEGIN END;",
            chain(16)
        ),
    );
}

#[test]
fn a_block_that_calls_itself() {
    refuses(14, "BLOCK main [] [] BEGIN f [] [] END; BLOCK f [] [] BEGIN @f [] [] END;");
    // Depth grows with n only; the recursion ends in an empty loop.
    let text = |n: usize| {
        format!(
            "BLOCK main [] [o:WIRE] BEGIN f ({n}) [] [o] END;
             BLOCK f (n) [] [o:WIRE] VAR l:WIRE; VAR i:NUM; VAR j:NUM;
             BEGIN GENERATE FOR i=1..n BEGIN GENERATE FOR j=n..i BEGIN
             @f (n-1) [] [l]; not [l] [o] END END;
             GENERATE FOR i=n..0 BEGIN one [] [o] END END;"
        )
    };
    let (netlist, _) = done(&text(3).replace('@', ""));
    assert_eq!(contents(&netlist), (0, 1, 5, 4));
    let gates =
        [gate("one", &[], 3), gate("not", &[3], 2), gate("not", &[2], 1), gate("not", &[1], 0)];
    assert_eq!(netlist.gates, gates);
    assert_eq!(done(&text(14).replace('@', "")).0.gates.len(), 15);
    refuses(14, &text(15));
}

#[test]
fn loops() {
    // The bounds are worked out once; an inner loop may take the index again,
    // and its bounds see the outer value.
    let text = "BLOCK main [] [v:VECTOR (40..0) OF WIRE] VAR i:NUM;
        BEGIN GENERATE FOR i=1..3 BEGIN
        GENERATE FOR i=i*10..i*10+1 BEGIN one [] [v(i)] END; zero [] [v(i)] END END;";
    let (netlist, steps) = done(text);
    let outputs: Vec<u16> = netlist.gates.iter().map(|gate| gate.output).collect();
    assert_eq!(outputs, [10, 11, 1, 20, 21, 2, 30, 31, 3]);
    assert_eq!(steps, 1 + 3 * (1 + 1 + 2 * 2 + 1));
    // Faults at the loop, first bound and then second; 10 there.
    refuses(10, "BLOCK main [] [] VAR i:NUM; BEGIN @GENERATE FOR i=1000*1001..0 BEGIN END END;");
    refuses(10, "BLOCK main [] [] VAR i:NUM; BEGIN @GENERATE FOR i=2..1000*1001 BEGIN END END;");
    // .. and at the innermost statement begun.
    refuses(
        12,
        "BLOCK main [] [v:VECTOR (1..0) OF WIRE] VAR i:NUM;
        BEGIN GENERATE FOR i=0..2 BEGIN @one [] [v(i)] END END;",
    );
    refuses(
        10,
        "BLOCK main [] [] VAR i:NUM; VAR j:NUM; BEGIN GENERATE FOR i=1..2 BEGIN
        @GENERATE FOR j=999999+i..0 BEGIN END END END;",
    );
}

#[test]
fn steps() {
    // R: steps 20,000 and 20,001. A loop begun is one step, each round one.
    let text = |rounds: usize, more: &str| {
        let mark = if more.is_empty() { "@" } else { "" };
        format!(
            "BLOCK main [] [o:WIRE] VAR i:NUM;
             BEGIN {mark}GENERATE FOR i=1..{rounds} BEGIN END{more} END;"
        )
    };
    let plain = |rounds, more| text(rounds, more).replace('@', "");
    assert_eq!(done(&plain(19_999, "")).1, 20_000);
    refuses(15, &text(20_000, ""));
    refuses(15, &text(999_999, ""));
    assert_eq!(done(&plain(19_998, "; one [] [o]")).1, 20_000);
    refuses(15, &text(19_999, "; @one [] [o]"));
    refuses(15, &text(19_999, "; @GENERATE FOR i=1000*1001..0 BEGIN END"));
    refuses(10, &text(19_998, "; @GENERATE FOR i=1000*1001..0 BEGIN END"));
    refuses(15, &text(19_998, "; @GENERATE FOR i=0..0 BEGIN END"));
    assert_eq!(done(&plain(19_998, "; GENERATE FOR i=1..0 BEGIN END")).1, 20_000);
    // Bounds of a million are legal and end in 15.
    refuses(
        15,
        "BLOCK main [] [] VAR i:NUM; BEGIN @GENERATE FOR i=-1000*1000..1000*1000 BEGIN END END;",
    );
    // A round that would be step 20,001 is at its loop, also the inner one.
    refuses(
        15,
        "BLOCK main [] [] VAR i:NUM; VAR j:NUM; BEGIN GENERATE FOR i=1..9 BEGIN
        @GENERATE FOR j=1..9999 BEGIN END END END;",
    );
    // 15 comes before 14, 10 and 18 at a call.
    let full = "GENERATE FOR i=1..19999 BEGIN END";
    refuses(15, &format!("BLOCK main [a:WIRE] [] VAR i:NUM; BEGIN {full}; @one [] [a] END;"));
    refuses(
        15,
        &format!(
            "BLOCK main [] [] VAR i:NUM; BEGIN {full}; @f (1000*1001) [] [] END;
        BLOCK f (n) [] [] BEGIN END;"
        ),
    );
    // main's body itself is no step.
    assert_eq!(done("BLOCK main [] [] BEGIN END;").1, 0);
}

#[test]
fn gates() {
    // R: gates 1,024 and 1,025.
    let text = |more: &str| {
        let vectors = many(4, "", |number| format!("VAR v{number}:VECTOR (255..0) OF WIRE;"));
        let all = many(4, ";", |number| format!("one [] [v{number}(i)]"));
        format!(
            "BLOCK main [a:WIRE] [b:WIRE] {vectors} VAR i:NUM;
             BEGIN GENERATE FOR i=0..255 BEGIN {all} END{more} END;"
        )
    };
    assert_eq!(done(&text("")).0.gates.len(), 1024);
    refuses(17, &text("; @one [] [b]"));
    // Both 17 and 18 is 17; a subscript comes before.
    refuses(17, &text("; @one [] [a]"));
    refuses(17, &text("; @one [] [v0(0)]"));
    refuses(12, &text("; @one [] [v0(256)]"));
}

#[test]
fn drives() {
    let text = |calls: &str| {
        format!(
            "BLOCK main [a:WIRE] [b:WIRE] VAR c:WIRE; BEGIN {calls} END;
             BLOCK f [x:WIRE] [y:WIRE,z:WIRE] BEGIN not [x] [y]; one [] [z] END;
             BLOCK g [x:WIRE] [y:WIRE] BEGIN not [x] [y] END;
             BLOCK h [x:WIRE] [y:WIRE] BEGIN END;"
        )
    };
    refuses(18, &text("one [] [b]; @one [] [b]"));
    refuses(18, &text("@one [] [a]"));
    assert_eq!(refusal(&text("f [a] [b,c]")), (0, 0));
    // One wire tied to two ports is no fault until a gate drives it twice.
    assert_eq!(refusal(&text("h [b] [b]; g [b] [b]")), (0, 0));
    let twice = text("f [a] [b,b]");
    assert_eq!(refusal(&twice), (18, twice.find("one [] [z]").unwrap()));
    let twice = text("g [a] [b]; g [b] [b]");
    assert_eq!(refusal(&twice), (18, twice.rfind("not [x]").unwrap()));
    // Inside a called block the place is the statement there.
    let input = text("g [b] [a]");
    assert_eq!(refusal(&input), (18, input.rfind("not [x]").unwrap()));
}

#[test]
fn faults_of_mains_declarations_in_order() {
    refuses(
        11,
        "BLOCK main [@a:VECTOR (0..1) OF WIRE] [b:VECTOR (1000*1001..0) OF WIRE] BEGIN END;",
    );
    refuses(
        10,
        "BLOCK main [a:WIRE] [@b:VECTOR (1000*1001..0) OF WIRE]
        VAR c:VECTOR (0..1) OF WIRE; BEGIN END;",
    );
    refuses(11, "BLOCK main [] [] VAR @c:VECTOR (0..1) OF WIRE; BEGIN one [] [c(9)] END;");
    let ports = many(6, ",", |number| format!("v{number}:VECTOR (255..0) OF WIRE"));
    refuses(16, &format!("BLOCK main [{ports},@x:WIRE,y:VECTOR (0..1) OF WIRE] [] BEGIN END;"));
    refuses(16, &format!("BLOCK main [{ports}] [@x:WIRE] BEGIN END;"));
}

#[test]
fn the_program() {
    assert_eq!(pebble(b""), b"refused 4 0\n");
    assert_eq!(pebble(&[b' '; 16_385]), b"refused 2 0\n");
    assert_eq!(pebble(b"BLOCK f [] [] BEGIN END;\n"), b"refused 9 25\n");
    assert_eq!(pebble(b"BLOCK main [] [] BEGIN END;"), b"BLOCK main\n[]\n[]\nBEGIN\nEND;\n");
}

#[test]
fn flat_text_is_pebble_text() {
    // Flattening a flat text gives its netlist again.
    let (netlist, _) = done(ODD);
    assert_eq!(done(ODD_FLAT).0, netlist);
}
