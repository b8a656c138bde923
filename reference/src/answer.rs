//! "Numbers of the answers": why something is refused, and where.

/// The table of 01, one case per row.
#[derive(Clone, Copy, PartialEq, Eq, Debug)]
pub enum Why {
    /// "a lent buffer is shorter than its least size"
    ShortBuffer = 1,
    /// "text longer than 16,384 bytes"
    LongText = 2,
    /// "a byte or word of no kind above; place: its first byte"
    NoWord = 3,
    /// "a word, or the end, where the order forbids it"
    WrongOrder = 4,
    /// "a 65th block, 49th name declared in a block .., 9th loop or 17th
    /// expression level inside one another"
    TooMany = 5,
    /// "a name declared twice in one block, a block name twice, or a block
    /// named as a primitive"
    NamedTwice = 6,
    /// "a name unknown or of the wrong sort there; a subscript on a WIRE"
    WrongName = 7,
    /// "wrong number of generics, inputs or outputs; a vector where a wire is
    /// wanted or the reverse"
    WrongShape = 8,
    /// "no main (place: text length) or main with generics (its name)"
    NoMain = 9,
    /// "a value out of range"
    OutOfRange = 10,
    /// "a vector with a < b or over 256 wires"
    BadVector = 11,
    /// "a subscript outside its vector"
    BadSubscript = 12,
    /// "vectors of different lengths tied"
    LengthsDiffer = 13,
    /// "a body at depth 17 (main is 1)"
    TooDeep = 14,
    /// "step 20,001"
    TooManySteps = 15,
    /// "wire 1,537"
    TooManyWires = 16,
    /// "gate 1,025"
    TooManyGates = 17,
    /// "a gate's output already driven, or a main input"
    AlreadyDriven = 18,
    /// "a netlist not well formed; a flat text that no well-formed netlist is
    /// written as"
    NotWellFormed = 19,
    /// "run inputs of the wrong count, or a byte over 1"
    WrongInputs = 20,
}

impl Why {
    pub fn number(self) -> u8 {
        self as u8
    }

    pub fn at(self, place: usize) -> Refusal {
        Refusal { why: self, place }
    }

    /// "Place is a byte offset, 0 for 0, 1, 2, 19 and 20" (20 and 19 never
    /// show a place at all in the jobs that give them).
    pub fn nowhere(self) -> Refusal {
        self.at(0)
    }
}

/// A refusal with its place.
#[derive(Clone, Copy, PartialEq, Eq, Debug)]
pub struct Refusal {
    pub why: Why,
    pub place: usize,
}
