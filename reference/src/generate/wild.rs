//! Texts of the right order whose names and values are careless.

use super::random::Random;
use crate::netlist::Gate;

const BLOCKS: [&str; 5] = ["main", "f", "g", "h", "f2"];
const WIRES: [&str; 4] = ["a", "b", "c", "d"];
const VECTORS: [&str; 3] = ["u", "v", "w"];
const GENERICS: [&str; 2] = ["n", "m"];
const INDICES: [&str; 2] = ["i", "j"];

/// `care`: how many names in a hundred are of the sort that is wanted.
struct Wild<'a> {
    random: &'a mut Random,
    care: usize,
}

pub fn text(random: &mut Random) -> String {
    let care = *random.pick(&[80, 97, 99, 100, 100]);
    let mut wild = Wild { random, care };
    let mut names = BLOCKS.to_vec();
    wild.random.shuffle(&mut names);
    let count = 1 + wild.random.below(names.len());
    let mut blocks: Vec<String> = names[..count].iter().map(|name| wild.block(name)).collect();
    if !names[..count].contains(&"main") && wild.random.chance(90) {
        blocks.push(wild.block("main"));
    }
    blocks.join("\n")
}

impl Wild<'_> {
    /// Blocks all have the same ports (a wire and a vector each way), so that
    /// calls fit; main has no generics.
    fn block(&mut self, name: &str) -> String {
        let name = self.careful(name, &["and", "main", "f"]);
        let generics = if name == "main" && self.random.chance(95) { "" } else { "(n,m)" };
        let in_types: &[&str] = if generics.is_empty() { &[] } else { &GENERICS };
        let mut declared = Vec::new();
        for (name, wanted) in [("a", false), ("u", true), ("b", false), ("v", true), ("c", false)] {
            let name = self.careful(name, &["a", "b", "n", "i"]);
            declared.push(format!("{name}:{}", self.wires(wanted, in_types)));
        }
        let [a, u, b, v, c] = &declared[..] else { unreachable!() };
        let w = self.wires(true, in_types);
        let count = self.random.below(4);
        let body = self.statements(count, in_types, 2);
        format!(
            "BLOCK {name} {generics} [{a},{u}] [{b},{v}] VAR {c}; VAR d:WIRE; VAR w:{w};
             VAR i:NUM; VAR j:NUM; BEGIN {body} END;"
        )
    }

    /// The name that is wanted, or with no care another one.
    fn careful(&mut self, wanted: &str, others: &[&'static str]) -> String {
        if self.random.chance(self.care) {
            wanted.to_string()
        } else {
            self.random.word(others).to_string()
        }
    }

    fn name(&mut self, wanted: &[&'static str]) -> String {
        let name = self.random.word(wanted);
        self.careful(name, &["a", "u", "n", "i", "j", "f", "x", "main"])
    }

    fn wires(&mut self, vector: bool, numbers: &[&'static str]) -> String {
        if vector == self.random.chance(self.care) {
            let (high, low) = (self.random.between(0, 3), self.random.between(-2, 1));
            let (high, low) = (self.around(high, numbers), self.around(low, numbers));
            format!("VECTOR ({high}..{low}) OF WIRE")
        } else {
            "WIRE".into()
        }
    }

    /// An expression near a value.
    fn around(&mut self, value: i64, numbers: &[&'static str]) -> String {
        match self.random.below(20) {
            0..=2 if !numbers.is_empty() => format!("{}+{value}", self.name(numbers)),
            3 if !numbers.is_empty() => format!("{value}*{}", self.name(numbers)),
            4 => format!("({value}--1)"),
            5 if !numbers.is_empty() => format!("{value}+({0}-{0})", self.name(numbers)),
            _ => value.to_string(),
        }
    }

    fn statements(&mut self, count: usize, numbers: &[&'static str], depth: usize) -> String {
        let all: Vec<String> = (0..count).map(|_| self.statement(numbers, depth)).collect();
        all.join("; ")
    }

    fn statement(&mut self, numbers: &[&'static str], depth: usize) -> String {
        match self.random.below(10) {
            0..=2 if depth > 0 => self.generate(numbers, depth),
            3..=5 => self.call(numbers),
            _ => self.gate(numbers),
        }
    }

    fn generate(&mut self, numbers: &[&'static str], depth: usize) -> String {
        let index = self.random.word(&INDICES);
        let (first, last) = (self.random.between(0, 2), self.random.between(0, 3));
        let (first, last) = (self.around(first, numbers), self.around(last, numbers));
        let inside = [numbers, &[index]].concat();
        let count = self.random.below(3);
        let body = self.statements(count, &inside, depth - 1);
        let index = self.careful(index, &["n", "a", "x"]);
        format!("GENERATE FOR {index}={first}..{last} BEGIN {body} END")
    }

    fn call(&mut self, numbers: &[&'static str]) -> String {
        let called = self.name(&BLOCKS[1..]);
        let generics = if self.random.chance(self.care) {
            let (n, m) = (self.random.between(-1, 2), self.random.between(0, 3));
            format!("({},{})", self.around(n, numbers), self.around(m, numbers))
        } else {
            String::new()
        };
        let (a, b) = (self.wire(numbers), self.wire(numbers));
        let (u, v) = (self.name(&VECTORS), self.name(&VECTORS));
        format!("{called} {generics} [{a},{u}] [{b},{v}]")
    }

    fn gate(&mut self, numbers: &[&'static str]) -> String {
        let kind = self.random.below(10) as u16;
        let sloppy = !self.random.chance(self.care);
        let count = Gate::input_count(kind) + sloppy as usize;
        let inputs: Vec<String> = (0..count).map(|_| self.wire(numbers)).collect();
        format!("{} [{}] [{}]", Gate::name(kind), inputs.join(","), self.wire(numbers))
    }

    fn wire(&mut self, numbers: &[&'static str]) -> String {
        if self.random.chance(50) {
            return self.name(&WIRES);
        }
        let subscript = match numbers.len() {
            0 => self.random.between(0, 2).to_string(),
            _ if self.random.chance(40) => self.name(numbers),
            _ => {
                let value = self.random.between(-1, 3);
                self.around(value, numbers)
            }
        };
        format!("{}({subscript})", self.name(&VECTORS))
    }
}
