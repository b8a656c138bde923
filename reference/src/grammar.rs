//! "Words and order of words", second and third paragraph: the order of the
//! words, answers 4 and 5, and the tree that the later parts walk over.

use crate::answer::{Refusal, Why};
use crate::words::{Spotted, Word, Words};

/// "a 65th block"
pub const BLOCKS: usize = 64;
/// "49th name declared in a block (its own name not counted)"
pub const NAMES: usize = 48;
/// "9th loop .. inside one another"
pub const LOOPS: usize = 8;
/// "17th expression level inside one another"
pub const LEVELS: usize = 16;

#[derive(Clone, Copy, Debug)]
pub struct Name<'t> {
    pub text: &'t str,
    pub place: usize,
}

/// "A block: BLOCK, its name, optionally one or more generic names in round
/// brackets, the inputs in square brackets, the outputs likewise, then
/// declarations, BEGIN, statements, END and `;`."
#[derive(Debug)]
pub struct Block<'t> {
    pub name: Name<'t>,
    pub generics: Vec<Name<'t>>,
    pub inputs: Vec<Declared<'t>>,
    pub outputs: Vec<Declared<'t>>,
    pub locals: Vec<Declared<'t>>,
    pub body: Vec<Statement<'t>>,
}

/// A port or a VAR.
#[derive(Debug)]
pub struct Declared<'t> {
    pub name: Name<'t>,
    pub sort: Sort<'t>,
}

/// "A type is WIRE or `VECTOR (a..b) OF WIRE`"; "a type or NUM (a loop index)".
#[derive(Debug)]
pub enum Sort<'t> {
    Wire,
    Vector(Expression<'t>, Expression<'t>),
    Num,
}

#[derive(Debug)]
pub enum Statement<'t> {
    Loop(Loop<'t>),
    Call(Call<'t>),
}

/// "A loop is `GENERATE FOR i = a..b BEGIN` statements `END`."
#[derive(Debug)]
pub struct Loop<'t> {
    pub place: usize,
    pub index: Name<'t>,
    pub first: Expression<'t>,
    pub last: Expression<'t>,
    pub body: Vec<Statement<'t>>,
}

/// "A call is a name, optionally one or more expressions in round brackets,
/// then inputs and outputs in square brackets"
#[derive(Debug)]
pub struct Call<'t> {
    pub name: Name<'t>,
    pub generics: Vec<Expression<'t>>,
    pub inputs: Vec<Argument<'t>>,
    pub outputs: Vec<Argument<'t>>,
}

/// "names or .. names with one subscript in round brackets"
#[derive(Debug)]
pub struct Argument<'t> {
    pub name: Name<'t>,
    pub subscript: Option<Expression<'t>>,
}

/// "An expression is terms joined by `+` or `-`"
#[derive(Debug)]
pub struct Expression<'t> {
    pub first: Term<'t>,
    pub rest: Vec<(Join, Term<'t>)>,
}

#[derive(Clone, Copy, PartialEq, Eq, Debug)]
pub enum Join {
    Plus,
    Minus,
}

/// "a term is factors joined by `*`"
#[derive(Debug)]
pub struct Term<'t> {
    pub first: Factor<'t>,
    pub rest: Vec<Factor<'t>>,
}

/// "a factor is a number, a name, a minus before a factor, or an expression
/// in brackets"
#[derive(Debug)]
pub enum Factor<'t> {
    Number(i64),
    Name(Name<'t>),
    Minus(Box<Factor<'t>>),
    Brackets(Box<Expression<'t>>),
}

/// Reads a whole text: "A text is one or more blocks."
pub fn read(text: &[u8]) -> Result<Vec<Block<'_>>, Refusal> {
    let mut reader = Reader { words: Words::new(text), ahead: None, names: 0 };
    let mut blocks = vec![reader.block(0)?];
    while reader.peek()?.word != Word::End {
        let block = reader.block(blocks.len())?;
        blocks.push(block);
    }
    Ok(blocks)
}

struct Reader<'t> {
    words: Words<'t>,
    /// The word after the one last taken, once it has been looked at.
    ahead: Option<Spotted<'t>>,
    /// How many names the present block has declared.
    names: usize,
}

impl<'t> Reader<'t> {
    // Single words.

    fn peek(&mut self) -> Result<Spotted<'t>, Refusal> {
        if let Some(spotted) = self.ahead {
            return Ok(spotted);
        }
        let spotted = self.words.cut()?;
        self.ahead = Some(spotted);
        Ok(spotted)
    }

    fn take(&mut self) -> Result<Spotted<'t>, Refusal> {
        let spotted = self.peek()?;
        self.ahead = None;
        Ok(spotted)
    }

    fn is_next(&mut self, word: Word<'static>) -> Result<bool, Refusal> {
        Ok(self.peek()?.word == word)
    }

    /// Takes this word, or refuses with 4 at what stands there instead.
    fn expect(&mut self, word: Word<'static>) -> Result<usize, Refusal> {
        let found = self.take()?;
        if found.word == word {
            Ok(found.place)
        } else {
            Err(Why::WrongOrder.at(found.place))
        }
    }

    fn mark(&mut self, mark: &'static str) -> Result<usize, Refusal> {
        self.expect(Word::Mark(mark))
    }

    fn reserved(&mut self, reserved: &'static str) -> Result<usize, Refusal> {
        self.expect(Word::Reserved(reserved))
    }

    fn name(&mut self) -> Result<Name<'t>, Refusal> {
        let found = self.take()?;
        match found.word {
            Word::Name(text) => Ok(Name { text, place: found.place }),
            _ => Err(Why::WrongOrder.at(found.place)),
        }
    }

    /// A name that the block declares. Generics, ports and all VARs
    /// count, a repeated name again; the 49th is refused at that word.
    fn declared_name(&mut self) -> Result<Name<'t>, Refusal> {
        let name = self.name()?;
        self.names += 1;
        if self.names > NAMES {
            return Err(Why::TooMany.at(name.place));
        }
        Ok(name)
    }

    /// Items divided by commas, up to and with the closing mark; at least one.
    fn items<T>(
        &mut self,
        close: &'static str,
        mut item: impl FnMut(&mut Self) -> Result<T, Refusal>,
    ) -> Result<Vec<T>, Refusal> {
        let mut items = vec![item(self)?];
        while self.is_next(Word::Mark(","))? {
            self.take()?;
            items.push(item(self)?);
        }
        self.mark(close)?;
        Ok(items)
    }

    /// "optionally one or more .. in round brackets"
    fn round_list<T>(
        &mut self,
        item: impl FnMut(&mut Self) -> Result<T, Refusal>,
    ) -> Result<Vec<T>, Refusal> {
        if !self.is_next(Word::Mark("("))? {
            return Ok(Vec::new());
        }
        self.take()?;
        self.items(")", item)
    }

    /// A list in square brackets, which may be empty.
    fn square_list<T>(
        &mut self,
        item: impl FnMut(&mut Self) -> Result<T, Refusal>,
    ) -> Result<Vec<T>, Refusal> {
        self.mark("[")?;
        if self.is_next(Word::Mark("]"))? {
            self.take()?;
            return Ok(Vec::new());
        }
        self.items("]", item)
    }

    // Blocks and declarations.

    fn block(&mut self, blocks_before: usize) -> Result<Block<'t>, Refusal> {
        let place = self.reserved("BLOCK")?;
        if blocks_before >= BLOCKS {
            return Err(Why::TooMany.at(place));
        }
        self.names = 0;
        let name = self.name()?;
        let generics = self.round_list(Self::declared_name)?;
        let inputs = self.square_list(Self::port)?;
        let outputs = self.square_list(Self::port)?;
        let locals = self.declarations()?;
        self.reserved("BEGIN")?;
        let body = self.statements(0)?;
        self.reserved("END")?;
        self.mark(";")?;
        Ok(Block { name, generics, inputs, outputs, locals, body })
    }

    /// "Each port is a name, a colon and a type"
    fn port(&mut self) -> Result<Declared<'t>, Refusal> {
        let name = self.declared_name()?;
        self.mark(":")?;
        let sort = self.wires()?;
        Ok(Declared { name, sort })
    }

    fn declarations(&mut self) -> Result<Vec<Declared<'t>>, Refusal> {
        let mut locals = Vec::new();
        while self.is_next(Word::Reserved("VAR"))? {
            locals.push(self.declaration()?);
        }
        Ok(locals)
    }

    /// "A declaration is VAR, a name, a colon, a type or NUM .., and `;`."
    fn declaration(&mut self) -> Result<Declared<'t>, Refusal> {
        self.reserved("VAR")?;
        let name = self.declared_name()?;
        self.mark(":")?;
        let sort = if self.is_next(Word::Reserved("NUM"))? {
            self.take()?;
            Sort::Num
        } else {
            self.wires()?
        };
        self.mark(";")?;
        Ok(Declared { name, sort })
    }

    /// "A type is WIRE or `VECTOR (a..b) OF WIRE`."
    fn wires(&mut self) -> Result<Sort<'t>, Refusal> {
        let found = self.take()?;
        match found.word {
            Word::Reserved("WIRE") => Ok(Sort::Wire),
            Word::Reserved("VECTOR") => {
                self.mark("(")?;
                let (first, second) = self.bounds()?;
                self.mark(")")?;
                self.reserved("OF")?;
                self.reserved("WIRE")?;
                Ok(Sort::Vector(first, second))
            }
            _ => Err(Why::WrongOrder.at(found.place)),
        }
    }

    /// `a..b`
    fn bounds(&mut self) -> Result<(Expression<'t>, Expression<'t>), Refusal> {
        let first = self.expression(1)?;
        self.mark("..")?;
        let second = self.expression(1)?;
        Ok((first, second))
    }

    // Statements.

    /// "Statements are divided by `;` with none before END; there may be none."
    /// Leaves the END to its owner.
    fn statements(&mut self, loops_around: usize) -> Result<Vec<Statement<'t>>, Refusal> {
        let mut statements = Vec::new();
        if self.is_next(Word::Reserved("END"))? {
            return Ok(statements);
        }
        statements.push(self.statement(loops_around)?);
        while self.is_next(Word::Mark(";"))? {
            self.take()?;
            statements.push(self.statement(loops_around)?);
        }
        Ok(statements)
    }

    fn statement(&mut self, loops_around: usize) -> Result<Statement<'t>, Refusal> {
        if self.is_next(Word::Reserved("GENERATE"))? {
            Ok(Statement::Loop(self.generate(loops_around)?))
        } else {
            Ok(Statement::Call(self.call()?))
        }
    }

    fn generate(&mut self, loops_around: usize) -> Result<Loop<'t>, Refusal> {
        let place = self.reserved("GENERATE")?;
        if loops_around >= LOOPS {
            return Err(Why::TooMany.at(place));
        }
        self.reserved("FOR")?;
        let index = self.name()?;
        self.mark("=")?;
        let (first, last) = self.bounds()?;
        self.reserved("BEGIN")?;
        let body = self.statements(loops_around + 1)?;
        self.reserved("END")?;
        Ok(Loop { place, index, first, last, body })
    }

    fn call(&mut self) -> Result<Call<'t>, Refusal> {
        let name = self.name()?;
        let generics = self.round_list(|reader| reader.expression(1))?;
        let inputs = self.square_list(Self::argument)?;
        let outputs = self.square_list(Self::argument)?;
        Ok(Call { name, generics, inputs, outputs })
    }

    fn argument(&mut self) -> Result<Argument<'t>, Refusal> {
        let name = self.name()?;
        if !self.is_next(Word::Mark("("))? {
            return Ok(Argument { name, subscript: None });
        }
        self.take()?;
        let subscript = self.expression(1)?;
        self.mark(")")?;
        Ok(Argument { name, subscript: Some(subscript) })
    }

    // Expressions. "An expression starts at level 1; only a bracket or minus
    // that begins a factor opens another, for that factor's length."

    fn expression(&mut self, level: usize) -> Result<Expression<'t>, Refusal> {
        let first = self.term(level)?;
        let mut rest = Vec::new();
        loop {
            let join = match self.peek()?.word {
                Word::Mark("+") => Join::Plus,
                Word::Mark("-") => Join::Minus,
                _ => return Ok(Expression { first, rest }),
            };
            self.take()?;
            rest.push((join, self.term(level)?));
        }
    }

    fn term(&mut self, level: usize) -> Result<Term<'t>, Refusal> {
        let first = self.factor(level)?;
        let mut rest = Vec::new();
        while self.is_next(Word::Mark("*"))? {
            self.take()?;
            rest.push(self.factor(level)?);
        }
        Ok(Term { first, rest })
    }

    fn factor(&mut self, level: usize) -> Result<Factor<'t>, Refusal> {
        let found = self.take()?;
        match found.word {
            Word::Number(value) => Ok(Factor::Number(value)),
            Word::Name(text) => Ok(Factor::Name(Name { text, place: found.place })),
            Word::Mark("-") => {
                let level = open_level(level, found.place)?;
                Ok(Factor::Minus(Box::new(self.factor(level)?)))
            }
            Word::Mark("(") => {
                let level = open_level(level, found.place)?;
                let inside = self.expression(level)?;
                self.mark(")")?;
                Ok(Factor::Brackets(Box::new(inside)))
            }
            _ => Err(Why::WrongOrder.at(found.place)),
        }
    }
}

/// 15 levels inside the first are accepted; the 16th is refused at
/// its bracket or minus.
fn open_level(level: usize, place: usize) -> Result<usize, Refusal> {
    if level >= LEVELS {
        Err(Why::TooMany.at(place))
    } else {
        Ok(level + 1)
    }
}
