//! Random programs, most of them valid: blocks, generics, vectors, loops,
//! calls and recursion.
//!
//! A block here calls only blocks made after it (the text order is shuffled),
//! and recursive blocks made from patterns. Generics are 1 or more (0 or more
//! in the patterns), lengths are `generic + constant`, and each wire is driven
//! at most once in a block, so most texts are accepted; the others are tried
//! again a few times.

use super::random::Random;
use crate::flatten::pebble;
use crate::netlist::Gate;
use crate::words::{Word, Words};

/// A program, accepted nine times in ten or so.
pub fn program(random: &mut Random) -> String {
    let mut text = attempt(random);
    for _ in 0..4 {
        if !pebble(text.as_bytes()).starts_with(b"refused") || random.chance(5) {
            break;
        }
        text = attempt(random);
    }
    text
}

fn attempt(random: &mut Random) -> String {
    let mut signatures = vec![main_signature(random)];
    let own = random.below(5);
    for number in 0..own {
        signatures.push(signature(random, number));
    }
    let mut texts = Vec::new();
    for number in 0..random.below(3) {
        let (signature, text) = recursive(random, number);
        signatures.push(signature);
        texts.push(text);
    }
    for number in 0..=own {
        let (own_signature, others) = (&signatures[number], &signatures[number + 1..]);
        texts.push(Builder::new(random, own_signature, others).block());
    }
    random.shuffle(&mut texts);
    respaced(random, &texts.join("\n"))
}

/// `generic + more`, or `more` alone.
#[derive(Clone, Copy, PartialEq, Eq)]
struct Length {
    generic: Option<usize>,
    more: i64,
}

#[derive(Clone, Copy)]
enum Kind {
    Wire,
    Vector { low: i64, length: Length },
}

#[derive(Clone)]
struct Holder {
    name: String,
    kind: Kind,
}

struct Signature {
    name: String,
    generics: Vec<String>,
    inputs: Vec<Holder>,
    outputs: Vec<Holder>,
    /// Values for the generics lie in this range.
    least: i64,
    largest: i64,
}

fn main_signature(random: &mut Random) -> Signature {
    let mut signature = signature(random, 0);
    signature.name = "main".into();
    signature.generics.clear();
    for port in signature.inputs.iter_mut().chain(&mut signature.outputs) {
        if let Kind::Vector { length, .. } = &mut port.kind {
            *length = Length { generic: None, more: length.more.max(1) };
        }
    }
    signature
}

fn signature(random: &mut Random, number: usize) -> Signature {
    let name = match random.below(4) {
        0 => format!("b{number}"),
        1 => format!("Block_Number_{number:03}"),
        2 => format!("BEGIN{number}"),
        _ => format!("{}{number}", random.word(&["sum", "x", "and", "f_"])),
    };
    let mut names = Names::new();
    let generics = (0..random.below(3)).map(|_| names.fresh(random)).collect::<Vec<_>>();
    let inputs = ports(random, &mut names, generics.len(), 4);
    let outputs = ports(random, &mut names, generics.len(), 3);
    Signature { name, generics, inputs, outputs, least: 1, largest: 4 }
}

fn ports(random: &mut Random, names: &mut Names, generics: usize, most: usize) -> Vec<Holder> {
    let count = random.below(most + 1);
    (0..count).map(|_| Holder { name: names.fresh(random), kind: kind(random, generics) }).collect()
}

fn kind(random: &mut Random, generics: usize) -> Kind {
    if random.chance(50) {
        return Kind::Wire;
    }
    let low = if random.chance(60) { 0 } else { random.between(-5, 9) };
    let length = if generics > 0 && random.chance(60) {
        Length { generic: Some(random.below(generics)), more: random.between(0, 2) }
    } else {
        Length { generic: None, more: random.between(1, 5) }
    };
    Kind::Vector { low, length }
}

/// Names of one block, each given once. They may be those of
/// blocks and primitives.
struct Names {
    taken: Vec<String>,
}

impl Names {
    fn new() -> Self {
        Names { taken: vec!["i".into(), "j".into()] }
    }

    fn fresh(&mut self, random: &mut Random) -> String {
        const BASES: [&str; 16] = [
            "a",
            "b",
            "c",
            "n",
            "x",
            "y",
            "and",
            "main",
            "not",
            "b0",
            "sum1",
            "w_",
            "Wire",
            "sixteen_letters_",
            "t",
            "I",
        ];
        let base = random.word(&BASES);
        let mut name = base.to_string();
        let mut number = 0;
        while self.taken.contains(&name) {
            let digits = number.to_string();
            name = format!("{}{digits}", &base[..base.len().min(16 - digits.len())]);
            number += 1;
        }
        self.taken.push(name.clone());
        name
    }
}

/// A recursive block made from a pattern, `n` being 0 or more.
fn recursive(random: &mut Random, number: usize) -> (Signature, String) {
    let name = format!("rec{number}");
    let wire = |name: &str| Holder { name: name.into(), kind: Kind::Wire };
    let two = || Length { generic: Some(0), more: 2 };
    let vector =
        |name: &str| Holder { name: name.into(), kind: Kind::Vector { low: 0, length: two() } };
    let (p1, p2) = (random.word(&["not", "connect"]), binary(random));
    // Once if n >= 1, and once if n = 0.
    let some = |inside: &str| {
        format!("GENERATE FOR i=1..n BEGIN GENERATE FOR j=n..i BEGIN {inside} END END")
    };
    let none = |inside: &str| format!("GENERATE FOR i=n..0 BEGIN {inside} END");
    let (input, largest, rest) = match random.below(4) {
        // A chain.
        0 => (
            wire("a"),
            if random.chance(90) { 6 } else { 17 },
            format!(
                "(n) [a:WIRE] [o:WIRE] VAR l:WIRE; VAR i:NUM; VAR j:NUM; BEGIN {}; {} END;",
                some(&format!("{name} (n-1) [a] [l]; {p2} [l,a] [o]")),
                none(&format!("{p1} [a] [o]")),
            ),
        ),
        // A tree.
        1 => (
            wire("a"),
            if random.chance(90) { 4 } else { 11 },
            format!(
                "(n) [a:WIRE] [o:WIRE] VAR l:WIRE; VAR r:WIRE; VAR i:NUM; VAR j:NUM;
                 BEGIN {}; {} END;",
                none(&format!("{p1} [a] [o]")),
                some(&format!("{name} (n-1) [a] [l]; {name} (n-1) [l] [r]; {p2} [r,l] [o]")),
            ),
        ),
        // Two blocks that call each other.
        2 => (
            wire("a"),
            7,
            format!(
                "(n) [a:WIRE] [o:WIRE] VAR l:WIRE; VAR i:NUM; VAR j:NUM; BEGIN {}; {} END;
                 BLOCK {name}x (n,m) [o:WIRE] [] VAR a:WIRE;
                 BEGIN {name} (n-m) [a] [o]; {p1} [o] [a] END;",
                some(&format!("{name}x (n,1) [l] []; {p2} [l,a] [o]")),
                none(&format!("{p1} [a] [o]")),
            ),
        ),
        // A vector that gets shorter.
        _ => (
            vector("v"),
            5,
            format!(
                "(n) [v:VECTOR (n+1..0) OF WIRE] [o:WIRE]
                 VAR u:VECTOR (n..0) OF WIRE; VAR i:NUM; VAR j:NUM;
                 BEGIN GENERATE FOR i=0..n BEGIN {p2} [v(i),v(i+1)] [u(i)] END; {}; {} END;",
                some(&format!("{name} (n-1) [u] [o]")),
                none(&format!("{p1} [u(0)] [o]")),
            ),
        ),
    };
    let text = format!("BLOCK {name} {rest}");
    let signature = Signature {
        name,
        generics: vec!["n".into()],
        inputs: vec![input],
        outputs: vec![wire("o")],
        least: 0,
        largest,
    };
    (signature, text)
}

fn binary(random: &mut Random) -> &'static str {
    random.word(&["and", "or", "xor", "nand", "nor"])
}

/// Builds one block.
struct Builder<'a> {
    random: &'a mut Random,
    own: &'a Signature,
    others: &'a [Signature],
    names: Names,
    locals: Vec<Holder>,
    /// Outputs and locals that no statement drives yet.
    sinks: Vec<Holder>,
    statements: Vec<String>,
}

/// The loop around a statement that is being made: `i` runs over `length`
/// values from `low`.
#[derive(Clone, Copy)]
struct Around {
    low: i64,
    length: Length,
}

impl<'a> Builder<'a> {
    fn new(random: &'a mut Random, own: &'a Signature, others: &'a [Signature]) -> Self {
        let mut names = Names::new();
        names.taken.extend(own.generics.iter().cloned());
        names.taken.extend(own.inputs.iter().chain(&own.outputs).map(|port| port.name.clone()));
        Builder {
            random,
            own,
            others,
            names,
            locals: Vec::new(),
            sinks: own.outputs.clone(),
            statements: Vec::new(),
        }
    }

    fn block(mut self) -> String {
        for _ in 0..self.random.below(3) {
            let kind = kind(self.random, self.own.generics.len());
            self.local(kind);
        }
        let count = self.random.below(7);
        for _ in 0..count {
            self.statement();
        }
        self.random.shuffle(&mut self.statements);
        self.text()
    }

    fn text(self) -> String {
        let own = self.own;
        let Builder { random, locals, statements, .. } = self;
        let mut declare = |holder: &Holder| {
            format!("{}:{}", holder.name, type_text(random, &own.generics, holder.kind))
        };
        let inputs: Vec<String> = own.inputs.iter().map(&mut declare).collect();
        let outputs: Vec<String> = own.outputs.iter().map(&mut declare).collect();
        let mut vars: Vec<String> = locals.iter().map(&mut declare).collect();
        vars.push("i:NUM".into());
        vars.push("j:NUM".into());
        let generics = match own.generics.len() {
            0 => String::new(),
            _ => format!("({})", own.generics.join(",")),
        };
        let vars: String = vars.iter().map(|var| format!("VAR {var};\n")).collect();
        format!(
            "BLOCK {} {generics} [{}] [{}]\n{vars}BEGIN\n{}\nEND;\n",
            own.name,
            inputs.join(","),
            outputs.join(","),
            statements.join(";\n"),
        )
    }

    fn local(&mut self, kind: Kind) -> Holder {
        let holder = Holder { name: self.names.fresh(self.random), kind };
        self.locals.push(holder.clone());
        self.sinks.push(holder.clone());
        holder
    }

    fn statement(&mut self) {
        let statement = match self.random.below(10) {
            0..=3 if !self.others.is_empty() => self.call(),
            4 if !self.others.is_empty() => self.call_in_loop(),
            5 => self.idle_loop(),
            _ => self.drive(),
        };
        let statement = if self.random.chance(12) { self.once(statement) } else { statement };
        self.statements.push(statement);
    }

    /// Drives a sink by a gate, or by a loop of gates.
    fn drive(&mut self) -> String {
        let sink = match self.sinks.len() {
            0 => self.local(Kind::Wire),
            count => self.sinks[self.random.below(count)].clone(),
        };
        self.driven(&sink);
        let Kind::Vector { low, length } = sink.kind else {
            return self.gate(&sink.name, None);
        };
        if length.generic.is_none() && self.random.chance(40) {
            let wires = low..low + length.more;
            let gates: Vec<String> =
                wires.map(|index| self.gate(&format!("{}({index})", sink.name), None)).collect();
            return gates.join(";\n");
        }
        let around = Around { low, length };
        let gate = self.gate(&format!("{}(i)", sink.name), Some(around));
        self.generate(around, &gate)
    }

    fn driven(&mut self, sink: &Holder) {
        self.sinks.retain(|other| other.name != sink.name);
    }

    fn generate(&mut self, around: Around, inside: &str) -> String {
        let Around { low, length } = around;
        let first = constant(self.random, low);
        let last = self.affine(length, low - 1);
        format!("GENERATE FOR i={first}..{last} BEGIN {inside} END")
    }

    /// A loop that runs once, around a statement (whose own loop may take the
    /// index again).
    fn once(&mut self, statement: String) -> String {
        let value = self.random.between(-3, 3);
        let index = self.random.word(&["i", "j"]);
        let (first, last) = (constant(self.random, value), constant(self.random, value));
        format!("GENERATE FOR {index}={first}..{last} BEGIN {statement} END")
    }

    /// A loop that does nothing, or nothing but rounds.
    fn idle_loop(&mut self) -> String {
        if self.random.chance(50) {
            let source = self.source(None);
            let gate = self.gate(&source, None);
            return format!("GENERATE FOR j=0..-1 BEGIN {gate} END");
        }
        let last = self.random.between(0, 9);
        format!("GENERATE FOR i=0..{last} BEGIN GENERATE FOR i=i..{last} BEGIN END END")
    }

    fn gate(&mut self, output: &str, around: Option<Around>) -> String {
        let kind = self.random.below(10) as u16;
        let inputs: Vec<String> =
            (0..Gate::input_count(kind)).map(|_| self.source(around)).collect();
        format!("{} [{}] [{output}]", Gate::name(kind), inputs.join(","))
    }

    fn holders(&self) -> Vec<Holder> {
        let ports = self.own.inputs.iter().chain(&self.own.outputs);
        ports.chain(&self.locals).cloned().collect()
    }

    /// Any wire of the block.
    fn source(&mut self, around: Option<Around>) -> String {
        let holders = self.holders();
        let holder = match holders.len() {
            0 => self.local(Kind::Wire),
            count => holders[self.random.below(count)].clone(),
        };
        match holder.kind {
            Kind::Wire => holder.name,
            Kind::Vector { low, length } => {
                format!("{}({})", holder.name, self.subscript(low, length, around))
            }
        }
    }

    fn subscript(&mut self, low: i64, length: Length, around: Option<Around>) -> String {
        if let Some(around) = around.filter(|around| around.length == length) {
            if self.random.chance(70) {
                return plus(self.random, "i", low - around.low);
            }
        }
        if self.random.chance(30) {
            return self.affine(length, low - 1);
        }
        // A generic is 1 or more, so `more` is inside.
        let inside = if length.generic.is_some() { length.more } else { length.more - 1 };
        let up = self.random.between(0, inside);
        constant(self.random, low + up)
    }

    /// `length + more` as an expression.
    fn affine(&mut self, length: Length, more: i64) -> String {
        affine(self.random, &self.own.generics, length, more)
    }

    /// A call of another block.
    fn call(&mut self) -> String {
        let called = &self.others[self.random.below(self.others.len())];
        let generics = self.values(called);
        let inputs: Vec<String> =
            called.inputs.iter().map(|port| self.given(port, &generics)).collect();
        let outputs: Vec<String> =
            called.outputs.iter().map(|port| self.sink_for(port, &generics)).collect();
        self.call_text(called, &generics, &inputs, &outputs)
    }

    fn call_text(
        &mut self,
        called: &Signature,
        generics: &[Length],
        inputs: &[String],
        outputs: &[String],
    ) -> String {
        let values: Vec<String> = generics.iter().map(|&value| self.affine(value, 0)).collect();
        let values = match values.len() {
            0 => String::new(),
            _ => format!("({})", values.join(",")),
        };
        format!("{} {values} [{}] [{}]", called.name, inputs.join(","), outputs.join(","))
    }

    /// Values for the generics of a called block.
    fn values(&mut self, called: &Signature) -> Vec<Length> {
        let generics = self.own.generics.len();
        let mut values = Vec::new();
        for _ in &called.generics {
            let value = if generics > 0 && self.random.chance(40) {
                Length {
                    generic: Some(self.random.below(generics)),
                    more: self.random.between(0, 1),
                }
            } else {
                Length { generic: None, more: self.random.between(called.least, called.largest) }
            };
            values.push(value);
        }
        values
    }

    /// Something to tie to an input port.
    fn given(&mut self, port: &Holder, generics: &[Length]) -> String {
        let Kind::Vector { length, .. } = port.kind else {
            return self.source(None);
        };
        let wanted = seen_from_outside(length, generics);
        let fitting: Vec<Holder> =
            self.holders().into_iter().filter(|holder| has_length(holder, wanted)).collect();
        match fitting.len() {
            0 => self.vector(wanted).name,
            count => fitting[self.random.below(count)].name.clone(),
        }
    }

    fn vector(&mut self, length: Length) -> Holder {
        let low = self.random.between(-2, 2);
        self.local(Kind::Vector { low, length })
    }

    /// Something that nothing drives, to tie to an output port.
    fn sink_for(&mut self, port: &Holder, generics: &[Length]) -> String {
        let sink = match port.kind {
            Kind::Wire => {
                let found = self.sinks.iter().find(|sink| matches!(sink.kind, Kind::Wire)).cloned();
                found.unwrap_or_else(|| self.local(Kind::Wire))
            }
            Kind::Vector { length, .. } => self.vector_sink(seen_from_outside(length, generics)),
        };
        self.driven(&sink);
        sink.name
    }

    fn vector_sink(&mut self, wanted: Length) -> Holder {
        let found = self.sinks.iter().find(|sink| has_length(sink, wanted)).cloned();
        found.unwrap_or_else(|| self.vector(wanted))
    }

    /// A call in a loop, its outputs (wires only) being subscripted vectors.
    fn call_in_loop(&mut self) -> String {
        let called = &self.others[self.random.below(self.others.len())];
        if called.outputs.iter().any(|port| matches!(port.kind, Kind::Vector { .. })) {
            return self.call();
        }
        let length = Length { generic: None, more: self.random.between(1, 3) };
        let around = Around { low: self.random.between(-2, 2), length };
        let generics = self.values(called);
        let inputs: Vec<String> = called
            .inputs
            .iter()
            .map(|port| match port.kind {
                Kind::Wire => self.source(Some(around)),
                Kind::Vector { .. } => self.given(port, &generics),
            })
            .collect();
        let mut outputs = Vec::new();
        for _ in &called.outputs {
            let sink = self.vector_sink(length);
            self.driven(&sink);
            let Kind::Vector { low, .. } = sink.kind else { unreachable!() };
            let index = plus(self.random, "i", low - around.low);
            outputs.push(format!("{}({index})", sink.name));
        }
        let call = self.call_text(called, &generics, &inputs, &outputs);
        self.generate(around, &call)
    }
}

/// A length inside a called block, in terms of its caller.
fn seen_from_outside(length: Length, generics: &[Length]) -> Length {
    match length.generic {
        None => length,
        Some(generic) => {
            let value = generics[generic];
            Length { generic: value.generic, more: value.more + length.more }
        }
    }
}

fn has_length(holder: &Holder, wanted: Length) -> bool {
    matches!(holder.kind, Kind::Vector { length, .. } if length == wanted)
}

fn type_text(random: &mut Random, generics: &[String], kind: Kind) -> String {
    match kind {
        Kind::Wire => "WIRE".into(),
        Kind::Vector { low, length } => {
            let high = affine(random, generics, length, low - 1);
            let low = constant(random, low);
            format!("VECTOR ({high}..{low}) OF WIRE")
        }
    }
}

fn affine(random: &mut Random, generics: &[String], length: Length, more: i64) -> String {
    match length.generic {
        None => constant(random, length.more + more),
        Some(generic) => plus(random, &generics[generic], length.more + more),
    }
}

/// `name + value` as an expression.
pub fn plus(random: &mut Random, name: &str, value: i64) -> String {
    match random.below(8) {
        0 => format!("{}+{name}", constant(random, value)),
        1 => format!("({name})-({})", -value),
        2 => format!("{name}*1+{}", constant(random, value)),
        3 => {
            format!("-(-{name}-{})", value.abs() * value.signum().max(0))
                + &format!("-{}", value.abs() * (-value).signum().max(0))
        }
        _ if value < 0 => format!("{name}-{}", -value),
        _ if value == 0 => name.to_string(),
        _ => format!("{name}+{value}"),
    }
}

/// An expression of this value, most often just the number.
pub fn constant(random: &mut Random, value: i64) -> String {
    let other = random.between(1, 9);
    match random.below(14) {
        0 => format!("({value})"),
        1 => format!("-({})", -value),
        2 => format!("{}+{other}", value - other),
        3 => format!("{}-{other}", value + other),
        4 => format!("{other}*{}+{}", value / other, value % other),
        5 => format!("{}-{other}-{other}", value + 2 * other),
        6 if value >= 0 => format!("{value:04}"),
        7 => format!("--{value}"),
        _ => value.to_string(),
    }
}

/// The words of a text, or nothing if it holds a bad one.
pub fn words_of(text: &str) -> Option<Vec<String>> {
    let mut words = Words::new(text.as_bytes());
    let mut all = Vec::new();
    loop {
        let spotted = words.cut().ok()?;
        all.push(match spotted.word {
            Word::End => return Some(all),
            Word::Reserved(word) | Word::Mark(word) | Word::Name(word) => word.to_string(),
            Word::Number(_) => {
                let rest = &text[spotted.place..];
                let length = rest.bytes().take_while(u8::is_ascii_digit).count();
                rest[..length].to_string()
            }
        });
    }
}

/// The same words with other separators between them.
pub fn respaced(random: &mut Random, text: &str) -> String {
    let Some(words) = words_of(text) else {
        return text.to_string();
    };
    match random.below(5) {
        0 => joined(random, &words, &[""]),
        1 => joined(random, &words, &[" ", "\n"]),
        2 => joined(random, &words, &["", " ", "\t", "\r\n", "  "]),
        _ => text.to_string(),
    }
}

/// Joined by some of these separators, and by at least one where two runs
/// would grow together.
pub fn joined(random: &mut Random, words: &[String], separators: &[&'static str]) -> String {
    let is_run = |byte: Option<u8>| byte.is_some_and(|b| b.is_ascii_alphanumeric() || b == b'_');
    let mut text = String::new();
    for word in words {
        let separator = random.word(separators);
        if separator.is_empty() && is_run(text.bytes().last()) && is_run(word.bytes().next()) {
            text += " ";
        }
        text += separator;
        text += word;
    }
    text
}
