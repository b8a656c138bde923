//! Answers 1 to 5.
mod common;
use common::*;
use reference::flatten::{flatten, Answer, LEAST_WORK};
use reference::netlist::LEAST_NETLIST;

const EMPTY: &str = "BLOCK main [] [] BEGIN END;";

fn flatten_with(text: &[u8], work: usize, net: usize) -> Answer {
    let mut work = vec![1; work];
    let mut net = vec![1; net];
    let answer = flatten(text, &mut work, &mut net);
    assert!(work.iter().all(|&word| word == 0));
    assert!(answer.number == 0 || net.iter().all(|&word| word == 0));
    answer
}

#[test]
fn short_buffers_come_first() {
    let one = Answer { number: 1, place: 0, steps: 0 };
    let long = vec![b'?'; 16_385];
    for text in [EMPTY.as_bytes(), b"?", b"", &long] {
        assert_eq!(flatten_with(text, LEAST_WORK - 1, LEAST_NETLIST), one);
        assert_eq!(flatten_with(text, LEAST_WORK, LEAST_NETLIST - 1), one);
        assert_eq!(flatten_with(text, 0, 0), one);
    }
    let done = Answer { number: 0, place: 0, steps: 0 };
    assert_eq!(flatten_with(EMPTY.as_bytes(), LEAST_WORK, LEAST_NETLIST), done);
    assert_eq!(flatten_with(EMPTY.as_bytes(), LEAST_WORK + 1, LEAST_NETLIST + 1), done);
}

#[test]
fn a_long_text_comes_second() {
    let fits = format!("{EMPTY:16384}");
    assert_eq!(refusal(&fits), (0, 0));
    assert_eq!(refusal(&format!("{fits} ")), (2, 0));
    assert_eq!(refusal(&"?".repeat(16_385)), (2, 0));
    assert_eq!(refusal(&"?".repeat(16_384)), (3, 0));
}

#[test]
fn separators_only() {
    assert_eq!(refusal(""), (4, 0));
    assert_eq!(refusal(" \t\r\n"), (4, 4));
    // Trailing separators count in the text's length.
    assert_eq!(refusal("BLOCK main \n\n"), (4, 13));
    assert_eq!(refusal("BLOCK\tmain\r[][]\nBEGIN END ;"), (0, 0));
}

#[test]
fn bytes_of_no_kind() {
    for byte in 0u8..=255 {
        let mark_or_word = byte.is_ascii_alphanumeric() || b"_()[],;:=+-* \t\r\n".contains(&byte);
        let (answer, _) = answer(&[b' ', byte]);
        match byte {
            _ if !mark_or_word => assert_eq!((answer.number, answer.place), (3, 1), "{byte}"),
            b'_' => assert_eq!((answer.number, answer.place), (3, 1)),
            b' ' | b'\t' | b'\r' | b'\n' => assert_eq!((answer.number, answer.place), (4, 2)),
            _ => assert_eq!((answer.number, answer.place), (4, 1), "{byte}"),
        }
    }
    for byte in [0u8, 11, 12, 128, 255] {
        let mut text = b"BLOCK ".to_vec();
        text.push(byte);
        let (answer, _) = answer(&text);
        assert_eq!((answer.number, answer.place), (3, 6), "{byte}");
    }
}

#[test]
fn bad_words_are_whole() {
    for word in ["1a", "_a", "abcdefghijklmnopq", "1234567", "0000001", "1_", "BLOCKBLOCKBLOCKBB"] {
        assert_eq!(refusal(&format!(" {word} ?")), (3, 1), "{word}");
    }
    refuses(3, "BLOCK main [] [] BEGIN f (@0000001) [] [] END;");
    refuses(7, "BLOCK main [] [] BEGIN @f (000001) [] [] END;");
    refuses(7, "BLOCK main [] [] BEGIN @abcdefghijklmnop [] [] END;");
    refuses(3, "BLOCK main [] [] BEGIN @abcdefghijklmnopq [] [] END;");
    // A reserved word inside a longer run is no reserved word; case counts.
    refuses(4, "@BLOCKmain [] [] BEGIN END;");
    refuses(4, "@block main [] [] BEGIN END;");
    refuses(4, "BLOCK @BELOW [] [] BEGIN END;");
    refuses(4, "BLOCK main [] [] BEGIN @IF END;");
}

#[test]
fn marks_are_longest_first() {
    refuses(3, "BLOCK main [a:VECTOR (1..@.0) OF WIRE] [] BEGIN END;");
    refuses(4, "BLOCK main [a:VECTOR (1..@..0) OF WIRE] [] BEGIN END;");
    refuses(3, "BLOCK main [a:VECTOR (1@.0) OF WIRE] [] BEGIN END;");
    refuses(3, "BLOCK main [a:VECTOR (1@. .0) OF WIRE] [] BEGIN END;");
    assert_eq!(refusal("BLOCK main [a:VECTOR (1 .. 0) OF WIRE] [] BEGIN END;"), (0, 0));
}

#[test]
fn the_first_wrong_word_decides() {
    refuses(4, "BLOCK main @main ? 1a");
    refuses(3, "BLOCK main @? main");
    refuses(3, "BLOCK @1a main");
    // A word that is both 3 and out of place is 3.
    refuses(3, "BLOCK main [] [] BEGIN @1234567 END;");
}

#[test]
fn order_of_blocks() {
    refuses(4, "BLOCK @(n) [] [] BEGIN END;");
    refuses(4, "BLOCK f (@) [] [] BEGIN END;");
    refuses(4, "BLOCK f (n@;) [] [] BEGIN END;");
    refuses(4, "BLOCK f (n,@) [] [] BEGIN END;");
    refuses(4, "BLOCK f (@1) [] [] BEGIN END;");
    refuses(4, "BLOCK f [] @BEGIN END;");
    refuses(4, "BLOCK f [a@] [] BEGIN END;");
    refuses(4, "BLOCK f [a:@NUM] [] BEGIN END;");
    refuses(4, "BLOCK f [a:WIRE@;b:WIRE] [] BEGIN END;");
    refuses(4, "BLOCK f [a:WIRE,@] [] BEGIN END;");
    refuses(4, "BLOCK f [@,a:WIRE] [] BEGIN END;");
    refuses(4, "BLOCK f [a:VECTOR @1..0 OF WIRE] [] BEGIN END;");
    refuses(4, "BLOCK f [a:VECTOR (1@,0) OF WIRE] [] BEGIN END;");
    refuses(4, "BLOCK f [a:VECTOR (1..0@..0) OF WIRE] [] BEGIN END;");
    refuses(4, "BLOCK f [a:VECTOR (1..0) @WIRE] [] BEGIN END;");
    refuses(4, "BLOCK f [a:VECTOR (1..0) OF @VECTOR (1..0) OF WIRE] [] BEGIN END;");
    refuses(4, "BLOCK f [] [] VAR a@,b:WIRE; BEGIN END;");
    refuses(4, "BLOCK f [] [] VAR a:WIRE @BEGIN END;");
    refuses(4, "BLOCK f [] [] @END;");
    refuses(4, "BLOCK f [] [] BEGIN @VAR a:WIRE; END;");
    refuses(4, "BLOCK f [] [] BEGIN END; @f");
    refuses(4, "BLOCK f [] [] BEGIN END;@;");
    refuses(4, "BLOCK f [] [] BEGIN END @BLOCK g [] [] BEGIN END;");
    refuses(4, "BLOCK f [] [] BEGIN END @");
    refuses(4, "BLOCK f [] [] BEGIN @");
}

#[test]
fn order_of_statements() {
    refuses(4, &body("f (@) [] []"));
    refuses(4, "BLOCK main [] [] BEGIN f [] []; @END;");
    refuses(4, &body("@; f [] []"));
    refuses(4, &body("f [] [];@; f [] []"));
    refuses(4, &body("f [] [] @f [] []"));
    refuses(4, "BLOCK main [] [] BEGIN f [] @END;");
    refuses(4, &body("f @; g"));
    refuses(4, &body("f [] [] @[]"));
    refuses(4, &body("f [a(@)] []"));
    refuses(4, &body("f [a(1)@(2)] []"));
    refuses(4, &body("f [a(1@,2)] []"));
    refuses(4, &body("f [@1] []"));
    refuses(4, &body("f [a @b] []"));
    refuses(4, &body("f [a@+b] []"));
    refuses(4, &body("f (1) @(2) [] []"));
    refuses(4, &body("GENERATE @i = 0..1 BEGIN END"));
    refuses(4, &body("GENERATE @IF i BEGIN END"));
    refuses(4, &body("GENERATE FOR @1 = 0..1 BEGIN END"));
    refuses(4, &body("GENERATE FOR i @0..1 BEGIN END"));
    refuses(4, &body("GENERATE FOR i = 0 @BEGIN END"));
    refuses(4, &body("GENERATE FOR i = 0..1 @f [] []"));
    refuses(4, &body("GENERATE FOR i = 0..1 BEGIN f [] []; @END"));
    refuses(4, &body("GENERATE FOR i = 0..1 BEGIN END @GENERATE"));
    refuses(4, &body("@BEGIN END"));
}

#[test]
fn order_of_expressions() {
    refuses(4, &body("f (1 @2) [] []"));
    refuses(4, &body("f (1+@) [] []"));
    refuses(4, &body("f (1+@+1) [] []"));
    refuses(4, &body("f (@*1) [] []"));
    refuses(4, &body("f (@+1) [] []"));
    refuses(4, &body("f ((@)) [] []"));
    refuses(4, &body("f ((1@, 2)) [] []"));
    refuses(4, &body("f (a@(1)) [] []"));
    refuses(4, &body("f (-@) [] []"));
    refuses(4, &body("f (1@[) [] []"));
    refuses(7, &body("@f (1*-1--1, -(1+2)*3, --x) [] []"));
}

#[test]
fn the_65th_block() {
    let blocks = |count| many(count, " ", |number| format!("BLOCK b{number} [] [] BEGIN END;"));
    assert_eq!(refusal(&format!("{}{}", blocks(63), EMPTY)), (0, 0));
    refuses(5, &format!("{} @BLOCK ?", blocks(64)));
    refuses(5, &format!("{} @BLOCK", blocks(64)));
    refuses(4, &format!("{} @BLOC", blocks(64)));
    refuses(3, &format!("{} @? BLOCK", blocks(64)));
}

#[test]
fn the_49th_name() {
    let ports = |count| many(count, ",", |number| format!("p{number}:WIRE"));
    let vars = |count| many(count, "", |number| format!("VAR v{number}:WIRE;"));
    let nums = |count| many(count, "", |number| format!("VAR n{number}:NUM;"));
    assert_eq!(refusal(&format!("BLOCK main [{}] [] BEGIN END;", ports(48))), (0, 0));
    let full = format!("BLOCK main [{}] [] {}{}", ports(20), vars(20), nums(8));
    assert_eq!(refusal(&format!("{full} BEGIN END;")), (0, 0));
    refuses(5, &format!("{full} VAR @x ? BEGIN END;"));
    refuses(4, &format!("{full} VAR @VAR"));
    refuses(3, &format!("{full} VAR @1x"));
    // A repeated name counts again; 6 comes later.
    let same = many(48, ",", |_| "a:WIRE".into());
    refuses(5, &format!("BLOCK main [{same},@a:WIRE] [] BEGIN END;"));
    refuses(6, "BLOCK main [a:WIRE,@a:WIRE] [] BEGIN END;");
    // Generics count, the block's own name does not; each block counts anew.
    let generics = many(47, ",", |number| format!("g{number}"));
    refuses(5, &format!("BLOCK f ({generics}) [a:WIRE] [@b:WIRE] [] BEGIN END;"));
    refuses(5, &format!("BLOCK f ({generics},x,@y) [] [] BEGIN END;"));
    let two = format!("{full} BEGIN END; {} BEGIN END;", full.replace("main", "f"));
    assert_eq!(refusal(&two), (0, 0));
}

#[test]
fn the_9th_loop() {
    let loops = |count: usize, inside: &str| {
        let begins = "GENERATE FOR i=1..0 BEGIN ".repeat(count);
        let ends = " END".repeat(count);
        format!("BLOCK main [] [] VAR i:NUM; BEGIN {begins}{inside}{ends} END;")
    };
    assert_eq!(refusal(&loops(8, "")), (0, 0));
    refuses(5, &loops(8, "@GENERATE ?"));
    refuses(5, &loops(8, "f [] []; @GENERATE"));
    let beside = "GENERATE FOR i=1..0 BEGIN END; GENERATE FOR i=1..0 BEGIN END";
    assert_eq!(refusal(&loops(7, beside)), (0, 0));
    refuses(5, &loops(7, &format!("{beside}; GENERATE FOR i=1..0 BEGIN @GENERATE")));
}

#[test]
fn the_17th_level() {
    let call = |expression: &str| body(&format!("main [] []; g ({expression}) [] []"));
    let ok = |expression: &str| refusal(&call(expression)).0 == 7;
    let nested = |count| format!("{}1{}", "(".repeat(count), ")".repeat(count));
    assert!(ok(&nested(15)));
    refuses(5, &call(&format!("{}@(?", "(".repeat(15))));
    assert!(ok(&format!("{}1", "-".repeat(15))));
    refuses(5, &call(&format!("{}@-?", "-".repeat(15))));
    refuses(5, &call(&format!("{}@(1", "-(-(-(-(-(-(-(-")));
    // A joining minus opens nothing, `--x` opens two.
    assert!(ok(&format!("{}1-1-1*1-(1){}", "(".repeat(14), ")".repeat(14))));
    assert!(ok(&format!("{}--1-1{}", "(".repeat(13), ")".repeat(13))));
    refuses(5, &call(&format!("{}-@-1", "(".repeat(14))));
    refuses(5, &call(&format!("{}1-@-1", "(".repeat(15))));
    // For that factor's length: side by side they do not add up.
    assert!(ok(&format!("{0}+{0}*{0}-{0}", nested(15))));
    assert!(ok(&format!("-{0}*-{0}", nested(14))));
    // Brackets of subscripts, generics and VECTOR open nothing.
    assert_eq!(refusal(&body(&format!("f [a({})] []", nested(15)))).0, 7);
    refuses(5, &body(&format!("f [a({}@(", "(".repeat(15))));
    let vector =
        |inside: &str| format!("BLOCK main [a:VECTOR ({inside}..1) OF WIRE] [] BEGIN END;");
    assert_eq!(refusal(&vector(&nested(15))), (0, 0));
    refuses(5, &vector(&format!("{}@(", "(".repeat(15))));
    // At one word 3 before 4 before 5.
    refuses(3, &call(&format!("{}@?", "(".repeat(15))));
    refuses(4, &call(&format!("{}@)", "(".repeat(15))));
    refuses(4, &call(&format!("{}1@(", "(".repeat(15))));
}

#[test]
fn order_before_names() {
    // 4 at the very end comes before a 6, a 7 and an 8 at the front.
    refuses(4, "BLOCK and [a:WIRE,a:WIRE] [] BEGIN nix [] [] END@");
}
