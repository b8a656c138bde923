//! "Unfolding": from the checked tree to gates, with the answers 10 to 18.
//!
//! Functions that give a bare `Why` judge one statement (or one declaration
//! of main); their caller adds the place: "the place is the statement being
//! unfolded, or for main's own declarations the declared name".

use std::collections::HashMap;

use crate::answer::{Refusal, Why};
use crate::grammar::{Argument, Block, Call, Declared, Expression, Factor, Join, Loop, Sort};
use crate::grammar::{Statement, Term};
use crate::names::{called, Called};
use crate::netlist::{Gate, Netlist, GATES, WIRES};

/// "each subexpression must lie in -1,000,000..1,000,000"
pub const LARGEST: i64 = 1_000_000;
/// "over 256 wires"
pub const VECTOR_WIRES: i64 = 256;
/// "a body at depth 17 (main is 1)"
pub const DEPTH: usize = 16;
/// "step 20,001"
pub const STEPS: u32 = 20_000;

#[derive(Debug)]
pub struct Unfolded {
    pub netlist: Netlist,
    pub steps: u32,
}

/// Unfolds main. The names of all the blocks have been checked.
pub fn unfold<'t>(blocks: &[Block<'t>], main: &Block<'t>) -> Result<Unfolded, Refusal> {
    let mut unfolding = Unfolding::new(blocks);
    let mut scope = Scope::new(Vec::new());

    // "Wires are numbered from 0: main's inputs in order, its outputs, its
    // locals."
    unfolding.declare_in_main(&main.inputs, &mut scope)?;
    unfolding.main_inputs = unfolding.wires;
    unfolding.declare_in_main(&main.outputs, &mut scope)?;
    let outputs = unfolding.wires - unfolding.main_inputs;
    unfolding.declare_in_main(&main.locals, &mut scope)?;

    unfolding.statements(&main.body, &mut scope, 1)?;

    let netlist = Netlist {
        inputs: unfolding.main_inputs,
        outputs,
        wires: unfolding.wires,
        gates: unfolding.gates,
    };
    Ok(Unfolded { netlist, steps: unfolding.steps })
}

/// The wire or wires that a name stands for in one use of a block.
#[derive(Clone, Copy, Debug)]
enum Held {
    Wire(usize),
    /// `first` is the wire of the lowest index, `low`: "lowest index first".
    Vector {
        low: i64,
        length: i64,
        first: usize,
    },
}

/// What the names of a block stand for in one use of it.
struct Scope<'t> {
    /// The generics and then the indices of the loops around, inner ones last.
    numbers: Vec<(&'t str, i64)>,
    wires: HashMap<&'t str, Held>,
}

impl<'t> Scope<'t> {
    fn new(generics: Vec<(&'t str, i64)>) -> Self {
        Scope { numbers: generics, wires: HashMap::new() }
    }

    /// The innermost loop's value counts: "An inner loop may take the same
    /// index again".
    fn number(&self, name: &str) -> i64 {
        let found = self.numbers.iter().rev().find(|(text, _)| *text == name);
        found.expect("a checked name").1
    }

    // Every left-grouped part is a subexpression.

    fn expression(&self, expression: &Expression) -> Result<i64, Why> {
        let mut value = self.term(&expression.first)?;
        for (join, term) in &expression.rest {
            let right = self.term(term)?;
            value = in_range(match join {
                Join::Plus => value + right,
                Join::Minus => value - right,
            })?;
        }
        Ok(value)
    }

    fn term(&self, term: &Term) -> Result<i64, Why> {
        let mut value = self.factor(&term.first)?;
        for factor in &term.rest {
            value = in_range(value * self.factor(factor)?)?;
        }
        Ok(value)
    }

    fn factor(&self, factor: &Factor) -> Result<i64, Why> {
        match factor {
            Factor::Number(value) => in_range(*value),
            Factor::Name(name) => in_range(self.number(name.text)),
            Factor::Minus(inside) => in_range(-self.factor(inside)?),
            Factor::Brackets(inside) => self.expression(inside),
        }
    }

    /// "first bound, second bound, 11": the lowest index and the length.
    fn bounds(&self, first: &Expression, second: &Expression) -> Result<(i64, i64), Why> {
        let a = self.expression(first)?;
        let b = self.expression(second)?;
        let length = a - b + 1;
        if a < b || length > VECTOR_WIRES {
            return Err(Why::BadVector);
        }
        Ok((b, length))
    }

    /// An argument's wire or wires. A subscript whole, its value
    /// (10) and then 12.
    fn argument(&self, argument: &Argument) -> Result<Held, Why> {
        let held = self.wires[argument.name.text];
        let Some(subscript) = &argument.subscript else {
            return Ok(held);
        };
        let Held::Vector { low, length, first } = held else {
            unreachable!("a subscript on a WIRE is 7");
        };
        let steps_up = self.expression(subscript)? - low;
        if steps_up < 0 || steps_up >= length {
            return Err(Why::BadSubscript);
        }
        Ok(Held::Wire(first + steps_up as usize))
    }
}

fn in_range(value: i64) -> Result<i64, Why> {
    if (-LARGEST..=LARGEST).contains(&value) {
        Ok(value)
    } else {
        Err(Why::OutOfRange)
    }
}

struct Unfolding<'a, 't> {
    blocks: &'a [Block<'t>],
    /// The input wires of the outermost main are 0..main_inputs.
    main_inputs: usize,
    wires: usize,
    gates: Vec<Gate>,
    /// "keep one mark for each of the 1,536 wires"
    driven: [bool; WIRES],
    steps: u32,
}

impl<'a, 't> Unfolding<'a, 't> {
    fn new(blocks: &'a [Block<'t>]) -> Self {
        Unfolding {
            blocks,
            main_inputs: 0,
            wires: 0,
            gates: Vec::new(),
            driven: [false; WIRES],
            steps: 0,
        }
    }

    // Declarations.

    fn declare_in_main(
        &mut self,
        declarations: &[Declared<'t>],
        scope: &mut Scope<'t>,
    ) -> Result<(), Refusal> {
        for declared in declarations {
            self.declare(declared, scope).map_err(|why| why.at(declared.name.place))?;
        }
        Ok(())
    }

    /// "A declaration: first bound, second bound, 11, 16." NUM takes nothing.
    fn declare(&mut self, declared: &Declared<'t>, scope: &mut Scope<'t>) -> Result<(), Why> {
        let held = match &declared.sort {
            Sort::Num => return Ok(()),
            Sort::Wire => Held::Wire(self.new_wires(1)?),
            Sort::Vector(first, second) => {
                let (low, length) = scope.bounds(first, second)?;
                Held::Vector { low, length, first: self.new_wires(length as usize)? }
            }
        };
        scope.wires.insert(declared.name.text, held);
        Ok(())
    }

    /// A vector that crosses wire 1,536 is 16 as a whole.
    fn new_wires(&mut self, count: usize) -> Result<usize, Why> {
        let first = self.wires;
        if first + count > WIRES {
            return Err(Why::TooManyWires);
        }
        self.wires += count;
        Ok(first)
    }

    // Statements: "statements are unfolded in text order".

    fn statements(
        &mut self,
        statements: &[Statement<'t>],
        scope: &mut Scope<'t>,
        depth: usize,
    ) -> Result<(), Refusal> {
        for statement in statements {
            match statement {
                Statement::Loop(repeated) => self.generate(repeated, scope, depth)?,
                Statement::Call(call) => self.call(call, scope, depth)?,
            }
        }
        Ok(())
    }

    /// "A step is one statement begun or one loop round begun."
    fn step(&mut self) -> Result<(), Why> {
        if self.steps >= STEPS {
            return Err(Why::TooManySteps);
        }
        self.steps += 1;
        Ok(())
    }

    /// "A loop: 15, bounds, then 15 at each round." "A loop with a > b does
    /// nothing; else its body is unfolded for a, a+1, .. b."
    fn generate(
        &mut self,
        repeated: &Loop<'t>,
        scope: &mut Scope<'t>,
        depth: usize,
    ) -> Result<(), Refusal> {
        let here = |why: Why| why.at(repeated.place);
        self.step().map_err(here)?;
        let first = scope.expression(&repeated.first).map_err(here)?;
        let last = scope.expression(&repeated.last).map_err(here)?;
        for index in first..=last {
            self.step().map_err(here)?;
            scope.numbers.push((repeated.index.text, index));
            self.statements(&repeated.body, scope, depth)?;
            scope.numbers.pop();
        }
        Ok(())
    }

    /// "A call: 15; for a block 14; generics; every subscript left to right ..;
    /// then for a block each port's bounds (10, 11) and 13, then its locals;
    /// for a primitive 17, then 18."
    fn call(&mut self, call: &Call<'t>, scope: &Scope<'t>, depth: usize) -> Result<(), Refusal> {
        let here = |why: Why| why.at(call.name.place);
        self.step().map_err(here)?;
        match called(self.blocks, call.name.text).expect("a checked name") {
            Called::Primitive(kind) => self.primitive(kind, call, scope).map_err(here),
            Called::Block(block) => {
                let mut inner = self.enter(block, call, scope, depth + 1).map_err(here)?;
                self.statements(&block.body, &mut inner, depth + 1)
            }
        }
    }

    /// "A call of a block evaluates its generics, ties each port to the wires
    /// given .., numbers that block's locals afresh".
    fn enter(
        &mut self,
        block: &Block<'t>,
        call: &Call<'t>,
        scope: &Scope<'t>,
        depth: usize,
    ) -> Result<Scope<'t>, Why> {
        if depth > DEPTH {
            return Err(Why::TooDeep);
        }
        let mut generics = Vec::new();
        for (name, value) in block.generics.iter().zip(&call.generics) {
            generics.push((name.text, scope.expression(value)?));
        }
        let given = arguments(call, scope)?;

        let mut inner = Scope::new(generics);
        let ports = block.inputs.iter().chain(&block.outputs);
        for (port, held) in ports.zip(given) {
            tie(port, held, &mut inner)?;
        }
        for local in &block.locals {
            self.declare(local, &mut inner)?;
        }
        Ok(inner)
    }

    /// "A primitive call adds one gate."
    fn primitive(&mut self, kind: u16, call: &Call, scope: &Scope) -> Result<(), Why> {
        let mut wires = Vec::new();
        for held in arguments(call, scope)? {
            let Held::Wire(wire) = held else {
                unreachable!("a vector where a wire is wanted is 8");
            };
            wires.push(wire as u16);
        }
        let output = wires.pop().expect("a primitive has one output");
        if self.gates.len() >= GATES {
            return Err(Why::TooManyGates);
        }
        self.drive(output as usize)?;
        self.gates.push(Gate::new(kind, &wires, output));
        Ok(())
    }

    /// 18: "a gate's output already driven, or a main input".
    fn drive(&mut self, wire: usize) -> Result<(), Why> {
        if wire < self.main_inputs || self.driven[wire] {
            return Err(Why::AlreadyDriven);
        }
        self.driven[wire] = true;
        Ok(())
    }
}

/// The wires given, inputs and then outputs: "every subscript left to right,
/// 10 before 12".
fn arguments(call: &Call, scope: &Scope) -> Result<Vec<Held>, Why> {
    let all = call.inputs.iter().chain(&call.outputs);
    all.map(|argument| scope.argument(argument)).collect()
}

/// "A sub-block's port gets no new wire": it is tied to the wires given,
/// "lowest index to lowest index".
fn tie<'t>(port: &Declared<'t>, held: Held, inner: &mut Scope<'t>) -> Result<(), Why> {
    let tied = match (&port.sort, held) {
        (Sort::Wire, Held::Wire(_)) => held,
        (Sort::Vector(first_bound, second_bound), Held::Vector { length: given, first, .. }) => {
            let (low, length) = inner.bounds(first_bound, second_bound)?;
            if length != given {
                return Err(Why::LengthsDiffer);
            }
            Held::Vector { low, length, first }
        }
        _ => unreachable!("the shapes have been checked"),
    };
    inner.wires.insert(port.name.text, tied);
    Ok(())
}
