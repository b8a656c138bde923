//! Answers 6 to 9. "Then 6 to 8 block by block in byte order, each at the
//! name it concerns; of two like names the first counts".
//!
//! One sweep over each block's names by byte position, the blocks
//! in text order, with no pass over all block names first.

use crate::answer::{Refusal, Why};
use crate::grammar::{Argument, Block, Call, Declared, Expression, Factor, Loop, Name, Sort};
use crate::grammar::{Statement, Term};
use crate::netlist::Gate;

/// What the name of a call means.
pub enum Called<'a, 't> {
    Primitive(u16),
    Block(&'a Block<'t>),
}

/// Blocks and primitives share a name space, and a name borne by
/// both means the primitive. Of two like blocks the first counts.
pub fn called<'a, 't>(blocks: &'a [Block<'t>], name: &str) -> Option<Called<'a, 't>> {
    if let Some(kind) = Gate::kind_named(name) {
        return Some(Called::Primitive(kind));
    }
    blocks.iter().find(|block| block.name.text == name).map(Called::Block)
}

/// Sweeps all the blocks and gives main.
pub fn check<'a, 't>(
    blocks: &'a [Block<'t>],
    text_length: usize,
) -> Result<&'a Block<'t>, Refusal> {
    for (number, block) in blocks.iter().enumerate() {
        check_block_name(&blocks[..number], block.name)?;
        Sweep { blocks, declared: Vec::new(), around: Vec::new() }.block(block)?;
    }
    find_main(blocks, text_length)
}

/// "a block name twice, or a block named as a primitive": 6.
fn check_block_name(before: &[Block], name: Name) -> Result<(), Refusal> {
    let taken = before.iter().any(|block| block.name.text == name.text);
    if taken || Gate::kind_named(name.text).is_some() {
        return Err(Why::NamedTwice.at(name.place));
    }
    Ok(())
}

/// "Then 9": "no main (place: text length) or main with generics (its name)".
fn find_main<'a, 't>(
    blocks: &'a [Block<'t>],
    text_length: usize,
) -> Result<&'a Block<'t>, Refusal> {
    let Some(main) = blocks.iter().find(|block| block.name.text == "main") else {
        return Err(Why::NoMain.at(text_length));
    };
    if !main.generics.is_empty() {
        return Err(Why::NoMain.at(main.name.place));
    }
    Ok(main)
}

/// What a declared name stands for.
#[derive(Clone, Copy, PartialEq, Eq, Debug)]
enum Meaning {
    Generic,
    Wire,
    Vector,
    Num,
}

impl Meaning {
    fn of(sort: &Sort) -> Self {
        match sort {
            Sort::Wire => Meaning::Wire,
            Sort::Vector(..) => Meaning::Vector,
            Sort::Num => Meaning::Num,
        }
    }
}

/// The sweep over one block.
struct Sweep<'a, 't> {
    blocks: &'a [Block<'t>],
    /// The block's names declared so far. These are a name space of
    /// their own, apart from blocks and primitives.
    declared: Vec<(&'t str, Meaning)>,
    /// The indices of the loops around the present statement.
    around: Vec<&'t str>,
}

impl<'a, 't> Sweep<'a, 't> {
    fn block(&mut self, block: &'a Block<'t>) -> Result<(), Refusal> {
        for &generic in &block.generics {
            self.declare(generic, Meaning::Generic)?;
        }
        for declared in block.inputs.iter().chain(&block.outputs).chain(&block.locals) {
            self.declaration(declared)?;
        }
        self.statements(&block.body)
    }

    // Declarations.

    fn declaration(&mut self, declared: &Declared<'t>) -> Result<(), Refusal> {
        self.declare(declared.name, Meaning::of(&declared.sort))?;
        if let Sort::Vector(first, second) = &declared.sort {
            // "in types, for a generic only": no loop is around a declaration.
            self.expression(first)?;
            self.expression(second)?;
        }
        Ok(())
    }

    /// 6 is at the second of two like names.
    fn declare(&mut self, name: Name<'t>, meaning: Meaning) -> Result<(), Refusal> {
        if self.meaning(name).is_some() {
            return Err(Why::NamedTwice.at(name.place));
        }
        self.declared.push((name.text, meaning));
        Ok(())
    }

    fn meaning(&self, name: Name) -> Option<Meaning> {
        let found = self.declared.iter().find(|(text, _)| *text == name.text);
        found.map(|&(_, meaning)| meaning)
    }

    // Statements.

    fn statements(&mut self, statements: &[Statement<'t>]) -> Result<(), Refusal> {
        for statement in statements {
            match statement {
                Statement::Loop(repeated) => self.generate(repeated)?,
                Statement::Call(call) => self.call(call)?,
            }
        }
        Ok(())
    }

    /// The index must be a declared NUM. The bounds do
    /// not see the loop's own index.
    fn generate(&mut self, repeated: &Loop<'t>) -> Result<(), Refusal> {
        if self.meaning(repeated.index) != Some(Meaning::Num) {
            return Err(Why::WrongName.at(repeated.index.place));
        }
        self.expression(&repeated.first)?;
        self.expression(&repeated.last)?;
        self.around.push(repeated.index.text);
        self.statements(&repeated.body)?;
        self.around.pop();
        Ok(())
    }

    /// "at a call's name 7, then its counts (8)"; then the names in
    /// generics, inputs and outputs by byte.
    fn call(&mut self, call: &Call<'t>) -> Result<(), Refusal> {
        let place = call.name.place;
        let called = called(self.blocks, call.name.text).ok_or(Why::WrongName.at(place))?;
        let wanted = Wanted::by(&called);
        if !wanted.counts_fit(call) {
            return Err(Why::WrongShape.at(place));
        }
        for generic in &call.generics {
            self.expression(generic)?;
        }
        let arguments = call.inputs.iter().chain(&call.outputs);
        let shapes = wanted.inputs.iter().chain(&wanted.outputs);
        for (argument, &shape) in arguments.zip(shapes) {
            self.argument(argument, shape)?;
        }
        Ok(())
    }

    /// "at an argument its name (7, a subscript on a WIRE included), its shape
    /// (8), then its subscript".
    fn argument(&self, argument: &Argument<'t>, wanted: Shape) -> Result<(), Refusal> {
        let place = argument.name.place;
        let given = match (self.meaning(argument.name), &argument.subscript) {
            (Some(Meaning::Wire), None) => Shape::Wire,
            (Some(Meaning::Vector), None) => Shape::Vector,
            (Some(Meaning::Vector), Some(_)) => Shape::Wire,
            // Unknown, a subscript on a WIRE, or a NUM or generic.
            _ => return Err(Why::WrongName.at(place)),
        };
        if given != wanted {
            return Err(Why::WrongShape.at(place));
        }
        match &argument.subscript {
            Some(subscript) => self.expression(subscript),
            None => Ok(()),
        }
    }

    // Expressions: "A name stands for a generic or for the index of a loop
    // around it".

    fn expression(&self, expression: &Expression<'t>) -> Result<(), Refusal> {
        self.term(&expression.first)?;
        expression.rest.iter().try_for_each(|(_, term)| self.term(term))
    }

    fn term(&self, term: &Term<'t>) -> Result<(), Refusal> {
        self.factor(&term.first)?;
        term.rest.iter().try_for_each(|factor| self.factor(factor))
    }

    fn factor(&self, factor: &Factor<'t>) -> Result<(), Refusal> {
        match factor {
            Factor::Number(_) => Ok(()),
            Factor::Name(name) => self.number_name(*name),
            Factor::Minus(inside) => self.factor(inside),
            Factor::Brackets(inside) => self.expression(inside),
        }
    }

    fn number_name(&self, name: Name<'t>) -> Result<(), Refusal> {
        let is_generic = self.meaning(name) == Some(Meaning::Generic);
        let is_index = self.around.contains(&name.text);
        if is_generic || is_index {
            Ok(())
        } else {
            Err(Why::WrongName.at(name.place))
        }
    }
}

#[derive(Clone, Copy, PartialEq, Eq, Debug)]
enum Shape {
    Wire,
    Vector,
}

/// What a called block or primitive wants to be given.
struct Wanted {
    generics: usize,
    inputs: Vec<Shape>,
    outputs: Vec<Shape>,
}

impl Wanted {
    fn by(called: &Called) -> Self {
        match called {
            Called::Primitive(kind) => Wanted {
                generics: 0,
                inputs: vec![Shape::Wire; Gate::input_count(*kind)],
                outputs: vec![Shape::Wire],
            },
            Called::Block(block) => Wanted {
                generics: block.generics.len(),
                inputs: shapes(&block.inputs),
                outputs: shapes(&block.outputs),
            },
        }
    }

    fn counts_fit(&self, call: &Call) -> bool {
        call.generics.len() == self.generics
            && call.inputs.len() == self.inputs.len()
            && call.outputs.len() == self.outputs.len()
    }
}

fn shapes(ports: &[Declared]) -> Vec<Shape> {
    let shape = |port: &Declared| match port.sort {
        Sort::Vector(..) => Shape::Vector,
        _ => Shape::Wire,
    };
    ports.iter().map(shape).collect()
}
