//! "The netlist: a table of contents of four words (inputs, outputs, wires,
//! gates), then five words per gate", and when it is well formed.

/// "wires at most 1,536"
pub const WIRES: usize = 1536;
/// "gates at most 1,024"
pub const GATES: usize = 1024;
/// "a table of contents of four words"
pub const CONTENTS: usize = 4;
/// "five words per gate: kind, three inputs, output"
pub const RECORD: usize = 5;
/// "an unused input slot is 65,535"
pub const UNUSED: u16 = 65_535;
/// "Least sizes: netlist 5,124 words"
pub const LEAST_NETLIST: usize = 5_124;

#[derive(Clone, Copy, PartialEq, Eq, Debug)]
pub struct Gate {
    pub kind: u16,
    pub slots: [u16; 3],
    pub output: u16,
}

/// The table "Primitives": "Kind numbers belong to the gate type as named
/// constants."
impl Gate {
    pub const CONNECT: u16 = 0;
    pub const NOT: u16 = 1;
    pub const AND: u16 = 2;
    pub const OR: u16 = 3;
    pub const XOR: u16 = 4;
    pub const NAND: u16 = 5;
    pub const NOR: u16 = 6;
    pub const MUX: u16 = 7;
    pub const ZERO: u16 = 8;
    pub const ONE: u16 = 9;

    /// The names, by kind.
    pub const NAMES: [&'static str; 10] =
        ["connect", "not", "and", "or", "xor", "nand", "nor", "mux", "zero", "one"];

    pub fn kind_named(name: &str) -> Option<u16> {
        (Gate::CONNECT..=Gate::ONE).find(|&kind| Gate::name(kind) == name)
    }

    pub fn name(kind: u16) -> &'static str {
        Gate::NAMES[kind as usize]
    }

    pub fn input_count(kind: u16) -> usize {
        match kind {
            Gate::ZERO | Gate::ONE => 0,
            Gate::CONNECT | Gate::NOT => 1,
            Gate::MUX => 3,
            _ => 2,
        }
    }

    /// The column "output", for the bits of the kind's inputs.
    pub fn output_bit(kind: u16, bits: &[bool]) -> bool {
        match (kind, bits) {
            (Gate::CONNECT, &[a]) => a,
            (Gate::NOT, &[a]) => !a,
            (Gate::AND, &[a, b]) => a && b,
            (Gate::OR, &[a, b]) => a || b,
            (Gate::XOR, &[a, b]) => a != b,
            (Gate::NAND, &[a, b]) => !(a && b),
            (Gate::NOR, &[a, b]) => !(a || b),
            (Gate::MUX, &[c, u, v]) => {
                if c {
                    v
                } else {
                    u
                }
            }
            (Gate::ZERO, &[]) => false,
            (Gate::ONE, &[]) => true,
            _ => unreachable!("no such kind, or the wrong number of bits"),
        }
    }

    pub fn new(kind: u16, inputs: &[u16], output: u16) -> Self {
        assert_eq!(inputs.len(), Gate::input_count(kind));
        let mut slots = [UNUSED; 3];
        slots[..inputs.len()].copy_from_slice(inputs);
        Gate { kind, slots, output }
    }

    /// "the kind's input slots (the first ones)"
    pub fn inputs(&self) -> &[u16] {
        &self.slots[..Gate::input_count(self.kind)]
    }

    fn unused_slots(&self) -> &[u16] {
        &self.slots[Gate::input_count(self.kind)..]
    }
}

#[derive(Clone, PartialEq, Eq, Debug)]
pub struct Netlist {
    pub inputs: usize,
    pub outputs: usize,
    pub wires: usize,
    pub gates: Vec<Gate>,
}

impl Netlist {
    /// The netlist that lies in these words, if it is well formed.
    /// Too short for its records is 19; words after them are free.
    pub fn from_words(words: &[u16]) -> Option<Netlist> {
        let contents = words.get(..CONTENTS)?;
        let [inputs, outputs, wires, gates] = [0, 1, 2, 3].map(|at| contents[at] as usize);
        let records = words.get(CONTENTS..CONTENTS + RECORD * gates)?;
        let gates = records.chunks(RECORD).map(gate_of_record).collect();
        let netlist = Netlist { inputs, outputs, wires, gates };
        netlist.is_well_formed().then_some(netlist)
    }

    pub fn to_words(&self) -> Vec<u16> {
        let contents = [self.inputs, self.outputs, self.wires, self.gates.len()];
        let mut words: Vec<u16> = contents.map(|count| count as u16).to_vec();
        for gate in &self.gates {
            words.push(gate.kind);
            words.extend(gate.slots);
            words.push(gate.output);
        }
        words
    }

    /// "It is well formed if .."
    pub fn is_well_formed(&self) -> bool {
        self.counts_fit() && self.gates.iter().all(|gate| self.gate_fits(gate)) && self.drives_fit()
    }

    /// "inputs plus outputs are at most wires, wires at most 1,536, gates at
    /// most 1,024"
    fn counts_fit(&self) -> bool {
        self.inputs + self.outputs <= self.wires && self.wires <= WIRES && self.gates.len() <= GATES
    }

    /// "every kind is at most 9, the kind's input slots (the first ones) and
    /// the output are below wires, the other slots are 65,535"
    fn gate_fits(&self, gate: &Gate) -> bool {
        gate.kind <= Gate::ONE
            && gate.inputs().iter().all(|&wire| (wire as usize) < self.wires)
            && (gate.output as usize) < self.wires
            && gate.unused_slots().iter().all(|&slot| slot == UNUSED)
    }

    /// "no main input is a gate's output and no wire is the output of two gates"
    fn drives_fit(&self) -> bool {
        let mut driven = vec![false; self.wires];
        driven[..self.inputs].fill(true);
        for gate in &self.gates {
            if driven[gate.output as usize] {
                return false;
            }
            driven[gate.output as usize] = true;
        }
        true
    }
}

fn gate_of_record(record: &[u16]) -> Gate {
    Gate { kind: record[0], slots: [record[1], record[2], record[3]], output: record[4] }
}
