//! Answers 6 to 9.
mod common;
use common::*;

#[test]
fn names_declared_twice() {
    refuses(6, "BLOCK f (n,@n) [] [] BEGIN END;");
    refuses(6, "BLOCK f (n) [@n:WIRE] [] BEGIN END;");
    refuses(6, "BLOCK f (n) [a:WIRE] [@a:WIRE] BEGIN END;");
    refuses(6, "BLOCK f [a:WIRE] [] VAR @a:NUM; BEGIN END;");
    refuses(6, "BLOCK f [] [] VAR i:NUM; VAR @i:NUM; BEGIN END;");
    refuses(6, "BLOCK f [] [] BEGIN END; BLOCK @f [] [] BEGIN END;");
    refuses(6, "BLOCK main [] [] BEGIN END; BLOCK @main (n) [] [] BEGIN END;");
    for name in ["connect", "not", "and", "or", "xor", "nand", "nor", "mux", "zero", "one"] {
        refuses(6, &format!("BLOCK @{name} [] [] BEGIN END;"));
    }
}

#[test]
fn two_name_spaces() {
    let text = "BLOCK main [and:WIRE] [main:WIRE] VAR f:WIRE;
        BEGIN and [and,and] [f]; f [f] [main] END;
        BLOCK f [f:WIRE] [not:WIRE] BEGIN not [f] [not] END;";
    let (netlist, _) = done(text);
    assert_eq!(netlist.gates, [gate("and", &[0, 0], 2), gate("not", &[2], 1)]);
    // A call of a name borne by both means the primitive.
    refuses(8, "BLOCK main [] [] BEGIN @and [] [] END; BLOCK and [] [] BEGIN END;");
    refuses(6, "BLOCK main [a:WIRE] [b:WIRE] BEGIN not [a] [b] END; BLOCK @not [] [] BEGIN END;");
}

#[test]
fn one_sweep_by_byte() {
    refuses(7, "BLOCK f [a:VECTOR (@x..0) OF WIRE,a:WIRE] [] BEGIN END;");
    refuses(7, "BLOCK f [] [] BEGIN @x [] [] END; BLOCK f [] [] BEGIN END;");
    refuses(6, "BLOCK f [] [] BEGIN END; BLOCK @f [] [] BEGIN x [] [] END;");
    refuses(6, "BLOCK @or (n,n) [] [] BEGIN END;");
    refuses(7, "BLOCK f [] [] VAR a:VECTOR (0..@z) OF WIRE; VAR a:NUM; BEGIN END;");
    refuses(8, "BLOCK f [] [] BEGIN @zero [] [] END; BLOCK main (n,n) [] [] BEGIN END;");
}

#[test]
fn the_first_of_two_counts() {
    // Calls mean the first block of the name; the second gets its 6 later.
    refuses(
        8,
        "BLOCK main [] [] BEGIN @f (1) [] [] END;
         BLOCK f [] [] BEGIN END; BLOCK f (n) [] [] BEGIN END;",
    );
    refuses(
        6,
        "BLOCK main [] [] BEGIN f [] [] END;
         BLOCK f [] [] BEGIN END; BLOCK @f (n) [] [] BEGIN END;",
    );
}

#[test]
fn names_in_expressions() {
    let text = |bound: &str, inside: &str| {
        format!(
            "BLOCK f (n) [w:WIRE,v:VECTOR (n..0) OF WIRE] [] VAR i:NUM; VAR j:NUM;
             BEGIN GENERATE FOR i={bound}..n BEGIN {inside} END END;
             BLOCK main [] [] BEGIN END;"
        )
    };
    assert_eq!(refusal(&text("n", "f (i+n) [w,v] []")), (0, 0));
    refuses(7, &text("@i", ""));
    refuses(7, &text("1-@i", ""));
    refuses(7, &text("0*(2--@w)", ""));
    refuses(7, &text("@v", ""));
    refuses(7, &text("@f", ""));
    refuses(7, &text("@j", ""));
    refuses(7, &text("0", "f (@j) [w,v] []"));
    refuses(7, &text("0", "GENERATE FOR j=i..@j BEGIN END"));
    assert_eq!(refusal(&text("0", "GENERATE FOR i=i..n-i BEGIN END")), (0, 0));
    refuses(7, &text("0", "GENERATE FOR j=1..0 BEGIN END; f (@j) [w,v] []"));
    refuses(7, &text("0", "f (n) [v(@w),v] []"));
    // In types generics only.
    refuses(7, "BLOCK f [w:WIRE,v:VECTOR (@w..0) OF WIRE] [] BEGIN END;");
    refuses(7, "BLOCK f [] [] VAR i:NUM; VAR v:VECTOR (0..@i) OF WIRE; BEGIN END;");
    refuses(7, "BLOCK f [v:VECTOR (@v..0) OF WIRE] [] BEGIN END;");
    refuses(7, "BLOCK f [v:VECTOR (@f..0) OF WIRE] [] BEGIN END;");
}

#[test]
fn loop_indices() {
    let text = |index: &str| {
        format!(
            "BLOCK f (n) [w:WIRE,v:VECTOR (n..0) OF WIRE] [] VAR i:NUM;
             BEGIN GENERATE FOR {index}=1..0 BEGIN END END; BLOCK main [] [] BEGIN END;"
        )
    };
    assert_eq!(refusal(&text("i")), (0, 0));
    for index in ["n", "w", "v", "f", "x", "main"] {
        refuses(7, &text(&format!("@{index}")));
    }
    // The index before the bounds.
    refuses(7, "BLOCK f [] [] BEGIN GENERATE FOR @x=y..z BEGIN END END;");
}

#[test]
fn calls() {
    let text = |call: &str| {
        format!(
            "BLOCK main [] [] BEGIN END;
             BLOCK g (n,m) [a:WIRE,b:VECTOR (n..0) OF WIRE] [c:VECTOR (m..0) OF WIRE] BEGIN END;
             BLOCK f (n) [w:WIRE,v:VECTOR (n..0) OF WIRE] [] VAR i:NUM; BEGIN {call} END;"
        )
    };
    assert_eq!(refusal(&text("g (1,2) [v(0),v] [v]")), (0, 0));
    refuses(7, &text("@x (y) [z] [u]"));
    refuses(7, &text("@w [] []"));
    refuses(7, &text("@n [] []"));
    // All three counts at the name, before any name inside.
    refuses(8, &text("@g (x) [y,z] [u]"));
    refuses(8, &text("@g (x,x,x) [y,z] [u]"));
    refuses(8, &text("@g [y,z] [u]"));
    refuses(8, &text("@g (x,x) [y] [u]"));
    refuses(8, &text("@g (x,x) [y,y,y] [u]"));
    refuses(8, &text("@g (x,x) [y,y] []"));
    refuses(8, &text("@g (x,x) [y,y] [z,z]"));
    refuses(8, &text("@and (x) [y,z] [u]"));
    refuses(8, &text("@and [y] [u]"));
    refuses(8, &text("@not [] [u]"));
    refuses(8, &text("@mux [u,u] [u]"));
    refuses(8, &text("@zero [u] [u]"));
    refuses(8, &text("@one [] []"));
    refuses(8, &text("@one [] [u,u]"));
    // Names in generics, inputs, outputs, by byte.
    refuses(7, &text("g (1,@w) [x,y] [z]"));
    refuses(7, &text("g (1,2) [@x,w] [z]"));
    refuses(8, &text("g (1,2) [w,@w] [z]"));
    refuses(7, &text("g (1,2) [w,v] [@z]"));
    refuses(8, &text("g (1,2) [@v,x] [w]"));
    refuses(8, &text("g (1,2) [w,v] [@v(x)]"));
    refuses(7, &text("g (1,2) [v(@x),w] [v]"));
    refuses(7, &text("g (1,2) [@n,v] [v]"));
    refuses(7, &text("g (1,2) [w,@n] [v]"));
    refuses(7, &text("g (1,2) [w,@n(0)] [v]"));
    refuses(7, &text("g (1,2) [@i(1),v] [v]"));
    refuses(7, &text("g (1,2) [@i,v] [v]"));
    refuses(7, &text("g (1,2) [@f,v] [v]"));
    // A subscript on a WIRE is 7 at its name, even where a vector is wanted,
    // and before the names in the subscript.
    refuses(7, &text("g (1,2) [@w(x),v] [v]"));
    refuses(7, &text("g (1,2) [w,@w(x)] [v]"));
    refuses(8, &text("g (1,2) [w,@v(x)] [v]"));
    refuses(8, &text("not [@v] [w]"));
    refuses(8, &text("not [w] [@v]"));
    refuses(7, &text("not [@w(0)] [w]"));
    refuses(7, &text("mux [w,v(n),v(@i)] [w]"));
}

#[test]
fn main_last_of_all() {
    refuses(9, "BLOCK Main [] [] BEGIN END; \n@");
    refuses(9, "BLOCK @main (n) [] [] BEGIN END; BLOCK f [] [] BEGIN END;");
    refuses(7, "BLOCK main (n) [] [] BEGIN END; BLOCK f [] [] BEGIN @x [] [] END;");
    refuses(6, "BLOCK f [] [] BEGIN END; BLOCK @f [] [] BEGIN END;");
    // 9 before unfolding.
    refuses(9, "BLOCK @main (n) [a:VECTOR (0..1) OF WIRE] [] BEGIN END;");
}

#[test]
fn an_unused_block_with_an_unknown_name() {
    refuses(7, "BLOCK main [] [] BEGIN END; BLOCK f [] [] BEGIN @nix [] [] END;");
    // .. but its values are never worked out.
    let text = "BLOCK main [] [] BEGIN END;
        BLOCK f [a:VECTOR (0..9) OF WIRE] [] BEGIN not [a(999999*999999)] [a(77)] END;";
    assert_eq!(refusal(text), (0, 0));
}

#[test]
fn main_may_be_called() {
    // Its locals afresh, faults of its declarations at the call.
    let text = "BLOCK main [a:WIRE] [b:WIRE] VAR c:WIRE; VAR i:NUM;
        BEGIN GENERATE FOR i=1..0 BEGIN main [a] [b] END; f [a] [b] END;
        BLOCK f [a:WIRE] [b:WIRE] BEGIN not [a] [b] END;";
    assert_eq!(contents(&done(text).0), (1, 1, 3, 1));
    refuses(14, "BLOCK main [] [] BEGIN @main [] [] END;");
    let vectors = many(3, "", |number| format!("VAR v{number}:VECTOR (255..0) OF WIRE;"));
    refuses(
        16,
        &format!(
            "BLOCK main [] [] {vectors} BEGIN f [] [] END;
        BLOCK f [] [] VAR w:WIRE; BEGIN @main [] [] END;"
        ),
    );
    refuses(
        13,
        "BLOCK main [a:VECTOR (1..0) OF WIRE] [] BEGIN f [] [] END;
        BLOCK f [] [] VAR b:VECTOR (0..0) OF WIRE; BEGIN @main [b] [] END;",
    );
    // A main input (18) is an input wire of the outermost main only.
    refuses(18, "BLOCK main [a:WIRE] [] BEGIN @one [] [a] END;");
    refuses(
        18,
        "BLOCK main [a:WIRE] [] BEGIN f [a] [] END;
        BLOCK f [a:WIRE] [] BEGIN @one [] [a] END;",
    );
    let driven_inside = "BLOCK main [] [] VAR l:WIRE; BEGIN f [l] [] END;
        BLOCK f [a:WIRE] [] BEGIN one [] [a] END;";
    assert_eq!(contents(&done(driven_inside).0), (0, 0, 1, 1));
}

#[test]
fn an_inner_main_has_no_main_inputs() {
    // Main has no generics, so a main that calls itself never ends but in a
    // refusal, and the outermost one reaches each statement first.
    refuses(
        14,
        "BLOCK main [a:WIRE] [] VAR l:WIRE; BEGIN f [l] [] END;
        BLOCK f [b:WIRE] [] BEGIN one [] [b]; @main [b] [] END;",
    );
    refuses(18, "BLOCK main [a:WIRE] [] VAR l:WIRE; BEGIN @one [] [a]; main [l] [] END;");
    refuses(14, "BLOCK main [a:WIRE] [] VAR l:WIRE; BEGIN @main [l] []; one [] [a] END;");
}
