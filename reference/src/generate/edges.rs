//! Texts at the limits, and texts with several faults at one place, which
//! show the order of the refusals.

use super::programs::program;
use super::random::Random;

pub fn text(random: &mut Random) -> Vec<u8> {
    match random.below(26) {
        0 => long_text(random),
        1 => blocks(random).into_bytes(),
        2 => names(random).into_bytes(),
        3 => loops(random).into_bytes(),
        4 => levels(random).into_bytes(),
        5 => values(random).into_bytes(),
        6 => vectors(random).into_bytes(),
        7 => depth(random).into_bytes(),
        8 => steps(random).into_bytes(),
        9..=10 => wires(random).into_bytes(),
        11..=12 => gates(random).into_bytes(),
        13 => drives(random).into_bytes(),
        14..=17 => call_faults(random).into_bytes(),
        18..=20 => name_faults(random).into_bytes(),
        21..=24 => statement_faults(random).into_bytes(),
        _ => mains(random).into_bytes(),
    }
}

fn many(count: usize, join: &str, item: impl Fn(usize) -> String) -> String {
    (0..count).map(item).collect::<Vec<_>>().join(join)
}

/// Sometimes this text, otherwise nothing.
fn maybe(random: &mut Random, percent: usize, text: &str) -> String {
    if random.chance(percent) {
        text.to_string()
    } else {
        String::new()
    }
}

/// 2: 16,384 bytes and one more; also just separators.
fn long_text(random: &mut Random) -> Vec<u8> {
    let length = random.between(16_382, 16_387) as usize;
    let mut text = match random.below(5) {
        0 => String::new(),
        1 => program(random) + " ?",
        2 => program(random).repeat(40),
        _ => program(random),
    }
    .into_bytes();
    if random.chance(10) {
        text.clear();
    }
    let length = if random.chance(15) { random.below(9) } else { length };
    text.resize(length, *random.pick(b"  \n\t\r;"));
    text
}

/// 5: the 65th block.
fn blocks(random: &mut Random) -> String {
    let count = random.between(62, 66) as usize;
    let main = random.below(count);
    let twice = if random.chance(20) { random.below(count) } else { count };
    let mut text = many(count, "\n", |number| match number {
        _ if number == main => "BLOCK main [] [] BEGIN b1 [] [] END;".into(),
        _ if number == twice => "BLOCK b1 [] [] BEGIN END;".into(),
        _ => format!("BLOCK b{number} [] [] BEGIN END;"),
    });
    text += random.word(&["", "", "", "\n", " BLOCK", " BLOCK ?", " ?", " x"]);
    text
}

/// 5: the 49th name.
fn names(random: &mut Random) -> String {
    let mut left = random.between(46, 50) as usize;
    let mut take = |most: usize, random: &mut Random| {
        let count = random.below(most + 1).min(left);
        left -= count;
        count
    };
    let generics = if random.chance(50) { take(10, random) } else { 0 };
    let (inputs, outputs) = (take(20, random), take(20, random));
    let nums = take(10, random);
    let locals = left;
    let again = random.chance(15);
    let name = |front: &str, number: usize| {
        if again && number == 3 {
            "a1".to_string()
        } else {
            format!("{front}{number}")
        }
    };
    let list = match generics {
        0 => String::new(),
        _ => format!("({})", many(generics, ",", |number| name("g", number))),
    };
    let ports = |front: &str, count| many(count, ",", |n| format!("{}:WIRE", name(front, n)));
    let nums = many(nums, "", |n| format!("VAR {}:NUM;", name("n", n)));
    let locals = many(locals, "", |n| format!("VAR {}:WIRE;", name("l", n)));
    let block = random.word(&["main", "f", "a1"]);
    let main = maybe(random, 80, "BLOCK main [] [] BEGIN END; ");
    let main = if block == "main" && random.chance(90) { String::new() } else { main };
    let bad = maybe(random, 10, " ?");
    format!(
        "{main}BLOCK {block} {list} [{}] [{}] {nums}{locals}{bad} BEGIN END;",
        ports("a", inputs),
        ports("b", outputs),
    )
}

/// 5: the 9th loop; the same index again in an inner loop.
fn loops(random: &mut Random) -> String {
    if random.chance(30) {
        return same_index(random);
    }
    let count = random.between(6, 10) as usize;
    let (last, index) = (random.below(3), random.word(&["i", "j"]));
    let mut text = String::from("BLOCK main [] [] VAR i:NUM; VAR j:NUM; BEGIN ");
    text += &maybe(random, 30, "GENERATE FOR i=1..0 BEGIN END; ");
    for depth in 0..count {
        text += &maybe(random, 20, "GENERATE FOR j=2..1 BEGIN END; ");
        let first = if depth > 0 && random.chance(30) { index } else { "0" };
        text += &format!("GENERATE FOR {index}={first}..{last} BEGIN ");
    }
    text += random.word(&["", "", "nix [] []", "?", "zero [] []", "GENERATE"]);
    text + &" END".repeat(count) + " END;"
}

/// "An inner loop may take the same index again; its bounds see the outer
/// value."
fn same_index(random: &mut Random) -> String {
    let (first, rounds) = (random.between(-2, 2), random.between(0, 3));
    let (times, more) = (random.between(4, 9), random.between(-1, 3));
    let before = maybe(random, 50, "one [] [v(i)]; ");
    let after = maybe(random, 50, "; zero [] [u(i)]");
    format!(
        "BLOCK main [] [v:VECTOR (99..-99) OF WIRE] VAR u:VECTOR (99..-99) OF WIRE; VAR i:NUM;
         BEGIN GENERATE FOR i={first}..{first}+{rounds} BEGIN {before}GENERATE FOR i=i*{times}+40
         ..i*{times}+40+{more} BEGIN not [u(i-1)] [v(i)] END{after} END END;"
    )
}

/// An expression nested this deep around a number.
fn nested(random: &mut Random, depth: usize) -> String {
    let (mut front, mut back) = (String::new(), String::new());
    for _ in 0..depth {
        match random.below(4) {
            0 => front += "-",
            1 => {
                front += "(1-";
                back.insert(0, ')');
            }
            2 => {
                front += "(";
                back.insert_str(0, "*1)");
            }
            _ => {
                front += "(";
                back.insert(0, ')');
            }
        }
    }
    // `(1-` is followed by a factor, so a minus after it still opens a level.
    format!("{front}1{back}")
}

/// 5: the 17th expression level.
fn levels(random: &mut Random) -> String {
    let depth = random.between(13, 17) as usize;
    let mut deep = nested(random, depth);
    deep = match random.below(5) {
        0 => format!("1+{deep}*{}", nested(random, 3)),
        1 => format!("{}-{deep}", nested(random, 5)),
        2 => format!("{deep}-1-1"),
        _ => deep,
    };
    let bad = random.word(&["", "", "", "?", ")", " 1"]);
    match random.below(5) {
        0 => format!(
            "BLOCK main [] [] BEGIN f ({deep}{bad}) [] [] END; BLOCK f (n) [] [] BEGIN END;"
        ),
        1 => format!("BLOCK main [v:VECTOR ({deep}+9{bad}..-9) OF WIRE] [] BEGIN END;"),
        2 => format!("BLOCK main [] [v:VECTOR (9..-9) OF WIRE] BEGIN one [] [v({deep}{bad})] END;"),
        3 => format!(
            "BLOCK main [] [] VAR i:NUM; BEGIN GENERATE FOR i={deep}..5{bad} BEGIN END END;"
        ),
        _ => format!("BLOCK main [] [] VAR v:VECTOR (9..{deep}{bad}) OF WIRE; BEGIN END;"),
    }
}

/// A number near one of the ends of the range, as an expression.
fn near_the_end(random: &mut Random) -> String {
    let (a, b) = (random.between(0, 12), random.between(0, 12));
    let near = random.between(999_990, 999_999);
    // 999,999 to 1,000,001, whole or by parts, on both sides.
    let over = random.between(-1, 1);
    match random.below(12) {
        0 => format!("999999+{}", over + 1),
        1 => format!("1000*1000+{over}"),
        2 => format!("-999999-{}", over + 1),
        3 => format!("-1000*1000-{over}"),
        4 => format!("1000*-(1000)-({over})"),
        5 => format!("-(999999+{})", over + 1),
        6 => format!("{near}+{a}-{b}"),
        7 => format!("-{near}-{a}+{b}"),
        8 => format!("{}*{}", random.between(990, 1010), random.between(990, 1010)),
        9 => format!("{}*-{}", random.between(995, 1005), random.between(995, 1005)),
        10 => format!("{a}*({near}+{b})"),
        _ => format!("100*100*{}*0", random.between(99, 101)),
    }
}

/// 10: P1 to P3 and around.
fn values(random: &mut Random) -> String {
    let value = near_the_end(random);
    match random.below(7) {
        0 => format!("BLOCK main [] [] BEGIN f ({value}) [] [] END; BLOCK f (n) [] [] BEGIN END;"),
        1 => format!(
            "BLOCK main [] [] BEGIN f ({value}) [] [] END;
             BLOCK f (n) [] [] VAR v:VECTOR (n+2..n) OF WIRE; BEGIN one [] [v(n+1)] END;"
        ),
        2 => format!("BLOCK main [a:VECTOR ({value}..{value}-0*3) OF WIRE] [] BEGIN END;"),
        3 => format!("BLOCK main [] [a:VECTOR (-999990..{value}) OF WIRE] BEGIN END;"),
        4 => format!(
            "BLOCK main [] [] VAR i:NUM; BEGIN GENERATE FOR i=999995..{value} BEGIN END END;"
        ),
        5 => format!(
            "BLOCK main [] [v:VECTOR (5..-9) OF WIRE] BEGIN one [] [v({value}-999995)] END;"
        ),
        _ => {
            let terms = random.between(2, 6);
            let sum: Vec<String> = (0..terms)
                .map(|_| {
                    let value = random.between(0, 4);
                    let join = random.word(&["+", "-", "*", "*-", "--", "+-"]);
                    format!("{value}{join}")
                })
                .collect();
            format!(
                "BLOCK main [] [v:VECTOR (127..-128) OF WIRE] BEGIN one [] [v({}2)] END;",
                sum.join("")
            )
        }
    }
}

/// 11: 256 and 257 wires, (0..1); 13 and 12 beside it.
fn vectors(random: &mut Random) -> String {
    let low = *random.pick(&[0, 0, 1, -1, -300, 5000, -999_999]);
    let length = *random.pick(&[-1, 0, 0, 1, 1, 2, 255, 256, 256, 257, 257, 258, 999_999]);
    let high = (low + length - 1).min(1_000_001);
    let bounds = format!("{high}..{low}");
    match random.below(5) {
        0 => format!("BLOCK main [v:VECTOR ({bounds}) OF WIRE] [] BEGIN END;"),
        1 => format!(
            "BLOCK main [] [] VAR v:VECTOR ({bounds}) OF WIRE; BEGIN one [] [v({high})] END;"
        ),
        2 => {
            let other = random.between(0, 2) + length;
            format!(
                "BLOCK main [v:VECTOR ({}..1) OF WIRE] [] BEGIN f [v] [] END;
                 BLOCK f [v:VECTOR ({bounds}) OF WIRE] [] BEGIN END;",
                other.clamp(1, 256)
            )
        }
        3 => format!(
            "BLOCK main [] [] BEGIN f ({high},{low}) [] [] END;
             BLOCK f (n,m) [] [] VAR v:VECTOR (n..m) OF WIRE; BEGIN END;"
        ),
        _ => {
            let index = *random.pick(&[low - 1, low, low + 1, high - 1, high, high + 1]);
            format!("BLOCK main [] [v:VECTOR ({bounds}) OF WIRE] BEGIN one [] [v({index})] END;")
        }
    }
}

/// 14: depth 16 and 17, with faults that come before or after.
fn depth(random: &mut Random) -> String {
    let depth = random.between(14, 18);
    let inside =
        random.word(&["", "", "one [] [a]", "one [] [a(1)]", "h (1000*1001) [] []", "x [] []"]);
    if random.chance(40) {
        let count = depth - 2;
        let generic = random.word(&["n-1", "n-1", "n-1", "n*1-1", "(n-1)*1000"]);
        return format!(
            "BLOCK main [] [] BEGIN f ({count}) [] [] END;
             BLOCK f (n) [] [] VAR a:WIRE; VAR i:NUM; VAR j:NUM;
             BEGIN GENERATE FOR i=1..n BEGIN GENERATE FOR j=n..i BEGIN f ({generic}) [] [] END END;
             GENERATE FOR i=n..0 BEGIN {} END END;",
            random.word(&["", "one [] [a]", "f (0) [] []", "h [] []"]),
        ) + "BLOCK h [] [] BEGIN END;";
    }
    let blocks = many(depth as usize - 2, "\n", |number| {
        format!("BLOCK b{} [] [] BEGIN b{} [] [] END;", number + 2, number + 3)
    });
    format!(
        "BLOCK main [] [] BEGIN b2 [] [] END; {blocks}
         BLOCK b{depth} [] [] VAR a:WIRE; BEGIN {inside} END; BLOCK h (n) [] [] BEGIN END;"
    )
}

/// 15: steps 20,000 and 20,001.
fn steps(random: &mut Random) -> String {
    let target = random.between(19_996, 20_002);
    let begin = match random.below(4) {
        // One loop: itself and its rounds.
        0 => format!("GENERATE FOR i=1..{} BEGIN END", target - 1),
        // A loop inside a loop: 1 + 98 (1 + 1 + 200) = 19,797 steps; then 1
        // and the rounds of the second loop.
        1 => format!(
            "GENERATE FOR i=1..98 BEGIN GENERATE FOR j=1..200 BEGIN END END;
             GENERATE FOR i=1..{} BEGIN END",
            target - 19_798
        ),
        // A called block: 1 + 6,664 (1 + 1 + 1) = 19,993 steps; then 1 and the
        // rounds of the second loop.
        2 => format!(
            "GENERATE FOR i=1..6664 BEGIN f (1) [] [] END; GENERATE FOR j=1..{} BEGIN END",
            target - 19_994
        ),
        _ => "GENERATE FOR j=-999999..1000*1000 BEGIN GENERATE FOR i=1..j BEGIN END END".into(),
    };
    let after = match random.below(8) {
        0 => "; one [] [o]",
        1 => "; one [] [a]",
        2 => "; f (1000*1001) [] []",
        3 => "; GENERATE FOR i=1..1 BEGIN END",
        4 => "; GENERATE FOR i=1000*1001..1 BEGIN END",
        5 => "; one [] [v(7)]",
        _ => "",
    };
    format!(
        "BLOCK main [a:WIRE] [o:WIRE] VAR v:VECTOR (1..0) OF WIRE; VAR i:NUM; VAR j:NUM;
         BEGIN {begin}{after} END;
         BLOCK f (n) [] [] VAR i:NUM; BEGIN GENERATE FOR i=n..0 BEGIN END END;"
    )
}

/// 16: wires 1,536 and 1,537, in main and in called blocks.
fn wires(random: &mut Random) -> String {
    let last = random.between(252, 256);
    match random.below(4) {
        // Main's own ports and locals.
        0 => {
            let kinds = ["IN", "OUT", "VAR"];
            let mut lists = [String::new(), String::new(), String::new()];
            for number in 0..6 {
                let list = random.below(kinds.len());
                let high = if number == 5 { last } else { 255 };
                let declared = format!("v{number}:VECTOR ({high}..0) OF WIRE");
                if list == 2 {
                    lists[2] += &format!("VAR {declared};");
                } else {
                    let comma = if lists[list].is_empty() { "" } else { "," };
                    lists[list] += &format!("{comma}{declared}");
                }
            }
            for _ in 0..random.below(4) {
                let name = random.word(&["x", "y", "z"]);
                let declared = format!("VAR {name}:{};", random.word(&["WIRE", "WIRE", "NUM"]));
                if !lists[2].contains(&declared[..6]) {
                    lists[2] += &declared;
                }
            }
            format!("BLOCK main [{}] [{}] {} BEGIN END;", lists[0], lists[1], lists[2])
        }
        // Locals of called blocks.
        1 => {
            let (length, used) = (random.between(1, 256), random.between(0, 3));
            let calls = (1536 - used) / length + random.between(-1, 1);
            let declared = many(used as usize, "", |number| format!("VAR l{number}:WIRE;"));
            format!(
                "BLOCK main [] [] {declared} VAR i:NUM;
                 BEGIN GENERATE FOR i=1..{calls} BEGIN f ({length}) [] [] END END;
                 BLOCK f (n) [] [] VAR v:VECTOR (n..1) OF WIRE; BEGIN END;"
            )
        }
        // A wire and a vector in turn, with a fault after.
        2 => {
            let rounds = random.between(5, 6);
            format!(
                "BLOCK main [] [] VAR i:NUM; VAR a:VECTOR ({last}..0) OF WIRE;
                 BEGIN GENERATE FOR i=1..{rounds} BEGIN f [] [] END; {} END;
                 BLOCK f [] [] VAR v:VECTOR (253..0) OF WIRE; VAR w:WIRE; VAR {}; BEGIN END;",
                random.word(&["f [] []", "one [] [a(257)]", "g [] []"]),
                random.word(&[
                    "x:WIRE",
                    "n:NUM",
                    "x:VECTOR (0..1) OF WIRE",
                    "x:VECTOR (1..0) OF WIRE"
                ]),
            ) + "BLOCK g [] [] VAR x:VECTOR (256..0) OF WIRE; BEGIN END;"
        }
        _ => {
            let count = random.between(1530, 1540);
            format!(
                "BLOCK main [] [] VAR i:NUM; BEGIN GENERATE FOR i=1..{count} BEGIN f [] [] END END;
                 BLOCK f [] [] VAR v:WIRE; BEGIN END;"
            )
        }
    }
}

/// 17: gates 1,024 and 1,025; both 17 and 18 is 17.
fn gates(random: &mut Random) -> String {
    let mut after = String::new();
    for _ in 0..random.below(5) {
        after += "; ";
        after += random.word(&[
            "one [] [w]",
            "not [w] [x]",
            "mux [w,x,v0(0)] [y]",
            "one [] [a]",
            "zero [] [v1(9)]",
            "one [] [v1(256)]",
            "f [w] [y]",
            "GENERATE FOR i=1..0 BEGIN END",
        ]);
    }
    let last = random.between(251, 255);
    let vectors = many(4, "", |number| format!("VAR v{number}:VECTOR (255..0) OF WIRE;"));
    format!(
        "BLOCK main [a:WIRE] [w:WIRE,x:WIRE,y:WIRE] {vectors} VAR i:NUM;
         BEGIN GENERATE FOR i=0..255 BEGIN not [a] [v0(i)]; or [v0(i),a] [v1(i)]; f [a] [v2(i)] END;
         GENERATE FOR i=0..{last} BEGIN one [] [v3(i)] END{after} END;
         BLOCK f [p:WIRE] [q:WIRE] BEGIN connect [p] [q] END;"
    )
}

/// 18: wires driven twice, main inputs, one wire tied to two ports.
fn drives(random: &mut Random) -> String {
    const CALLS: [&str; 14] = [
        "one [] [a]",
        "not [a] [o]",
        "not [p] [l]",
        "f [a] [o,p]",
        "f [o] [l,l]",
        "f [l] [p,q(0)]",
        "g [q] [q]",
        "g [v] [q]",
        "g [q] [v]",
        "h [o] [p]",
        "h [a] [a]",
        "not [l] [q(1)]",
        "GENERATE FOR i=0..1 BEGIN not [v(i)] [q(i)] END",
        "zero [] [v(0)]",
    ];
    let calls: Vec<&str> = (0..1 + random.below(4)).map(|_| random.word(&CALLS)).collect();
    format!(
        "BLOCK main [a:WIRE,v:VECTOR (1..0) OF WIRE] [o:WIRE,p:WIRE,q:VECTOR (1..0) OF WIRE]
         VAR l:WIRE; VAR i:NUM; BEGIN {} END;
         BLOCK f [x:WIRE] [y:WIRE,z:WIRE] BEGIN not [x] [y]; xor [x,y] [z] END;
         BLOCK g [x:VECTOR (9..8) OF WIRE] [y:VECTOR (0..-1) OF WIRE]
         BEGIN connect [x(8)] [y(-1)]; connect [x(9)] [y(0)] END;
         BLOCK h [x:WIRE] [y:WIRE] BEGIN END;",
        calls.join("; ")
    )
}

/// A value that fits, or now and then one of the others.
fn faulty(random: &mut Random, percent: usize, fits: &str, others: &[&'static str]) -> String {
    if random.chance(percent) {
        random.word(others).to_string()
    } else {
        fits.to_string()
    }
}

/// One call of a block (or a primitive) with up to three of the faults of
/// unfolding: 15; 14; generics; subscripts; each port's 10, 11, 13; locals;
/// 17; 18.
fn call_faults(random: &mut Random) -> String {
    const INDEX: [&str; 5] = ["4", "-1", "1000*1001", "999999", "999999+2-5"];
    const VALUE: [&str; 3] = ["1000*1001", "999999+2", "-999999-2"];
    const BOUNDS: [&str; 8] =
        ["2..0", "0..3", "300..0", "1000*m*1000..0", "0..999*m*999", "-1..0", "n+1..0", "4..m-3"];
    let primitive = random.chance(30);
    let slots = if primitive { 4 } else { 8 };
    let mut order: Vec<usize> = (0..slots).collect();
    random.shuffle(&mut order);
    let faults = &order[..*random.pick(&[0, 1, 2, 2, 2, 3])];
    let mut slot = |number: usize, fits: &str, others: &[&'static str]| {
        if faults.contains(&number) {
            random.word(others).to_string()
        } else {
            fits.to_string()
        }
    };
    let (s1, s2) = (slot(0, "0", &INDEX), slot(1, "3", &INDEX));
    let call = if primitive {
        let s3 = slot(2, "2", &INDEX);
        let output = slot(3, "w(2)", &["v(0)", "w(9)", "w(1)", "x"]);
        format!("mux [v({s1}),w({s2}),v({s3})] [{output}]")
    } else {
        let (n, m) = (slot(2, "3", &VALUE), slot(3, "2", &VALUE));
        format!("f ({n},{m}) [v({s1}),v] [w({s2}),w]")
    };
    let p1 = slot(4, "n..0", &BOUNDS);
    let p2 = slot(5, "n+m..m", &BOUNDS);
    let local = slot(6, "n..m", &BOUNDS);
    let inner = slot(7, "one [] [l(m)]", &["one [] [c]", "one [] [a]", "g [] []"]);
    // What comes before the call: steps, wires, gates and driven wires used.
    let before = match random.below(8) {
        0 => format!("GENERATE FOR i=1..{} BEGIN END; ", random.between(19_996, 19_999)),
        1 => format!("GENERATE FOR i=1..{} BEGIN h [] [] END; ", random.between(1_520, 1_524)),
        2 => format!("GENERATE FOR i=1..{} BEGIN k [] [] END; ", random.between(1_021, 1_024)),
        3 => "one [] [w(1)]; ".to_string(),
        _ => String::new(),
    };
    // How deep the call stands: in main, or down a chain of blocks.
    let ports = "[v:VECTOR (3..0) OF WIRE] [w:VECTOR (3..0) OF WIRE,x:WIRE]";
    let down = *random.pick(&[0, 0, 0, 13, 14, 15]);
    let mut text = String::new();
    for depth in 0..=down {
        let name = if depth == 0 { "main".into() } else { format!("d{depth}") };
        let body = if depth == down {
            format!("{before}{call}")
        } else {
            format!("d{} [v] [w,x]", depth + 1)
        };
        text += &format!("BLOCK {name} {ports} VAR i:NUM; BEGIN {body} END;\n");
    }
    text + &format!(
        "BLOCK f (n,m) [a:WIRE,b:VECTOR ({p1}) OF WIRE] [c:WIRE,d:VECTOR ({p2}) OF WIRE]
         VAR l:VECTOR ({local}) OF WIRE; VAR k:WIRE; BEGIN {inner} END;
         BLOCK g [] [] BEGIN END; BLOCK h [] [] VAR l:WIRE; BEGIN END;
         BLOCK k [] [] VAR l:WIRE; BEGIN one [] [l] END;"
    )
}

/// One text with any of the faults of names: 6, 7, 8 in every place.
fn name_faults(random: &mut Random) -> String {
    const ANY: [&str; 12] = ["a", "b", "u", "v", "n", "m", "i", "j", "f", "g", "x", "and"];
    let percent = *random.pick(&[1, 3, 6, 12]);
    let mut name = |wanted: &str| faulty(random, percent, wanted, &ANY);
    let declared: Vec<String> =
        ["n", "m", "a", "u", "b", "v", "l", "i", "j", "t"].map(&mut name).into();
    let [n, m, a, u, b, v, l, i, j, t] = &declared[..] else { unreachable!() };
    let used: Vec<String> = ["n", "m", "n", "m", "n", "i", "m", "i", "j", "i", "j", "i", "n", "j"]
        .map(&mut name)
        .into();
    let [n1, m1, n2, m2, n3, i1, m3, i2, j1, i3, j2, i4, n4, j3] = &used[..] else {
        unreachable!()
    };
    let wires: Vec<String> = ["a", "u", "b", "v", "l", "t", "a", "u"].map(&mut name).into();
    let [a1, u1, b1, v1, l1, t1, a2, u2] = &wires[..] else { unreachable!() };
    let (f, g, f1, g1) = (name("f"), name("g"), name("f"), name("g"));
    let (p1, p2) = (name("and"), name("not"));
    let wire = faulty(random, percent, "WIRE", &["VECTOR (n..0) OF WIRE", "VECTOR (x..a) OF WIRE"]);
    let vector = faulty(random, percent, "VECTOR (n..0) OF WIRE", &["WIRE"]);
    let sub =
        faulty(random, percent, &format!("{u1}({i3})"), &["u", "a(x)", "n(x)", "a(1)", "u(u)"]);
    let extra = maybe(random, percent, ",a");
    let generics = faulty(random, percent, &format!("({n3},{i1})"), &["", "(n)", "(n,m,i)", "(x)"]);
    let prime = maybe(random, percent, "(n)");
    let whole = faulty(random, percent, u2, &["u(0)", "a(0)", "u(x)", "a", "i", "i(0)"]);
    let main = random.word(&["main", "main", "main", "main", "Main", "f"]);
    let main_generics = maybe(random, percent, "(n)");
    let blocks = [
        format!(
            "BLOCK {f} ({n},{m}) [{a}:{wire},{u}:VECTOR ({n1}..0-{m1}) OF WIRE]
             [{b}:WIRE,{v}:{vector}] VAR {l}:WIRE; VAR {i}:NUM; VAR {j}:NUM;
             VAR {t}:VECTOR ({n2}..{m2}) OF WIRE;
             BEGIN GENERATE FOR {i2}={m3}..n BEGIN
             GENERATE FOR {j1}=0..{i4} BEGIN {p1} {prime} [{a1},{sub}{extra}] [{t1}({j2}+{n4})] END;
             {f1} {generics} [{l1},{whole}] [{b1},{v1}] END; {p2} [{a2}] [t({j3})] END;"
        ),
        format!("BLOCK {g} [a:WIRE] [] BEGIN {g1} [a] [] END;"),
        format!("BLOCK {main} {main_generics} [a:WIRE] [] BEGIN g [a] [] END;"),
    ];
    // With all names right, `t(j)` after the loops is 7: leave it out mostly.
    let mut blocks = blocks.map(|block| {
        if random.chance(80) {
            block.replace(&format!("; {p2} [{a2}] [t({j3})]"), "")
        } else {
            block
        }
    });
    random.shuffle(&mut blocks);
    blocks.join("\n")
}

/// A few statements, right ones and such as have one fault of names or more
/// than one, in a block with a name of every sort.
fn statement_faults(random: &mut Random) -> String {
    const RIGHT: [&str; 8] = [
        "g (n,n) [w,v] [v]",
        "g (1,0*n) [v(0),v] [v]",
        "not [w] [v(n)]",
        "mux [w,v(0),v(n)] [l]",
        "GENERATE FOR i=0..n BEGIN not [v(i)] [t(i)] END",
        "GENERATE FOR i=0..n BEGIN GENERATE FOR i=i..i+n BEGIN END END",
        "GENERATE FOR i=0..1 BEGIN GENERATE FOR j=i..n-i BEGIN g (n,n) [v(j-i),v] [v] END END",
        "GENERATE FOR j=1..0 BEGIN f (j) [w,v] [] END",
    ];
    const WRONG: [&str; 52] = [
        // The name of a call, then its counts.
        "nix (y) [z] [u]",
        "w [] []",
        "n [] []",
        "i [] []",
        "x [w(x)] [n]",
        "g (x) [y,z] [u]",
        "g (x,x,x) [w,v] [v]",
        "g [w,v] [v]",
        "g (x,x) [w] [v]",
        "g (x,x) [w,v,v] [v]",
        "g (x,x) [w,v] []",
        "g (x,x) [w,v] [z,v]",
        "and (1) [w,w] [l]",
        "and [w] [x]",
        "not [] [l]",
        "mux [w,w] [l]",
        "zero [x] [l]",
        "one [] []",
        "one [] [w,x]",
        // Names in generics; arguments and their shapes.
        "g (1,w) [x,v] [v]",
        "g (v,1) [w,v] [v]",
        "g (i,1) [w,v] [v]",
        "g (n,1) [x,w] [v]",
        "g (1,1) [w,w] [x]",
        "g (1,1) [v,x] [w]",
        "g (1,1) [w,v] [v(x)]",
        "g (1,1) [w,v] [v(0)]",
        "g (1,1) [v(x),w] [v]",
        "g (1,1) [n,v] [v]",
        "g (1,1) [w,n] [v]",
        "g (1,1) [w,n(0)] [v]",
        "g (1,1) [w,i(x)] [v]",
        "g (1,1) [i,v] [v]",
        "g (1,1) [f,v] [v]",
        // A subscript on a WIRE.
        "g (1,1) [w(x),v] [v]",
        "g (1,1) [w,w(x)] [v]",
        "g (1,1) [w,w(0)] [v]",
        "g (1,1) [w,v] [w(0)]",
        "not [w(0)] [l]",
        "not [w] [l(x)]",
        "not [v] [l]",
        "not [w] [v]",
        "not [v(v)] [l]",
        "or [v(w),w] [l]",
        "not [v(i)] [l]",
        // Loops.
        "GENERATE FOR i=i..2 BEGIN END",
        "GENERATE FOR i=0..i BEGIN END",
        "GENERATE FOR x=y..z BEGIN END",
        "GENERATE FOR n=0..1 BEGIN END",
        "GENERATE FOR w=x..1 BEGIN END",
        "GENERATE FOR i=j..1 BEGIN x [] [] END",
        "GENERATE FOR i=0..1 BEGIN GENERATE FOR j=i..j BEGIN END END",
    ];
    let mut statements: Vec<&str> = (0..random.below(4)).map(|_| random.word(&RIGHT)).collect();
    for _ in 0..1 + random.below(2) {
        statements.push(random.word(&WRONG));
    }
    random.shuffle(&mut statements);
    let (before, after) = statements.split_at(random.below(statements.len() + 1));
    let inside = match random.below(3) {
        0 => format!("GENERATE FOR i=n..0 BEGIN {} END", after.join("; ")),
        _ => after.join("; "),
    };
    let join = if before.is_empty() || inside.is_empty() { "" } else { "; " };
    let mut blocks = [
        "BLOCK main [] [] BEGIN END;".to_string(),
        "BLOCK g (n,m) [a:WIRE,b:VECTOR (n..0) OF WIRE] [c:VECTOR (m..0) OF WIRE] BEGIN END;"
            .into(),
        format!(
            "BLOCK f (n) [w:WIRE,v:VECTOR (n..0) OF WIRE] [] VAR i:NUM; VAR j:NUM; VAR l:WIRE;
             VAR t:VECTOR (n..0) OF WIRE; BEGIN {}{join}{inside} END;",
            before.join("; ")
        ),
    ];
    random.shuffle(&mut blocks);
    blocks.join("\n")
}

/// 9, and 6 to 8 before it.
fn mains(random: &mut Random) -> String {
    let mut blocks = vec![random.word(&[
        "BLOCK main [] [] BEGIN END;",
        "BLOCK main (n) [] [] BEGIN END;",
        "BLOCK Main [] [] BEGIN END;",
    ])];
    for _ in 0..random.below(3) {
        blocks.push(random.word(&[
            "BLOCK f [] [] BEGIN END;",
            "BLOCK f [] [] BEGIN END;",
            "BLOCK g [] [] BEGIN main [] [] END;",
            "BLOCK h [] [] BEGIN nix [] [] END;",
            "BLOCK xor [] [] BEGIN END;",
            "BLOCK main [a:VECTOR (0..1) OF WIRE] [] BEGIN END;",
            "BLOCK k [a:WIRE] [] BEGIN not [a(0)] [a] END;",
            "BLOCK k2 [] [] BEGIN one [] [] END;",
        ]));
    }
    random.shuffle(&mut blocks);
    let end = random.word(&["", "\n", " \t\r\n", "\n\n\n"]);
    blocks.join(" ") + end
}
