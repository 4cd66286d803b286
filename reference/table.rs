//! Truth tables of a few input and output bits.

use std::error::Error;
use std::fmt;
use std::ops::RangeInclusive;

/// How many input bits a table has, and how many output bits.
pub const BIT_COUNTS: RangeInclusive<usize> = 1..=4;

/// An entry for each argument: 2^inputs of them, each below 2^outputs.
#[derive(Clone, Debug, PartialEq, Eq)]
pub struct TruthTable {
    inputs: usize,
    outputs: usize,
    entries: Vec<u8>,
}

impl TruthTable {
    pub fn new(inputs: usize, outputs: usize, entries: Vec<u8>) -> Result<Self, Fault> {
        let counts_fit = BIT_COUNTS.contains(&inputs) && BIT_COUNTS.contains(&outputs);
        if !counts_fit || entries.len() != 1 << inputs {
            return Err(Fault::Shape);
        }
        let large = |&entry: &u8| usize::from(entry) >= 1 << outputs;
        if let Some(index) = entries.iter().position(large) {
            return Err(Fault::LargeEntry { index });
        }
        Ok(TruthTable {
            inputs,
            outputs,
            entries,
        })
    }

    /// How many input bits there are.
    pub fn inputs(&self) -> usize {
        self.inputs
    }

    /// How many output bits there are.
    pub fn outputs(&self) -> usize {
        self.outputs
    }

    pub fn entries(&self) -> &[u8] {
        &self.entries
    }

    /// Bit `output` of the entry at `argument`.
    pub fn bit(&self, output: usize, argument: usize) -> u8 {
        self.entries[argument] >> output & 1
    }

    /// The table bits of a look-up whose bit at each argument is bit `output`
    /// of the entry at the XOR of this argument and `shift`.
    pub fn shifted_column(&self, output: usize, shift: usize) -> u16 {
        (0..self.entries.len())
            .map(|argument| u16::from(self.bit(output, argument ^ shift)) << argument)
            .sum()
    }
}

/// The S-box of the PRESENT cipher, four bits to four bits.
pub fn present_table() -> TruthTable {
    const ENTRIES: [u8; 16] = [12, 5, 6, 11, 9, 0, 10, 13, 3, 14, 15, 8, 4, 7, 1, 2];
    TruthTable {
        inputs: 4,
        outputs: 4,
        entries: ENTRIES.to_vec(),
    }
}

/// Why a table was refused.
#[derive(Clone, Copy, Debug, PartialEq, Eq)]
pub enum Fault {
    /// A count of bits or the number of entries does not fit.
    Shape,
    /// An entry has too many bits; the lowest such index counts.
    LargeEntry { index: usize },
}

impl Fault {
    pub fn cause(&self) -> u8 {
        match *self {
            Fault::Shape => 1,
            Fault::LargeEntry { .. } => 2,
        }
    }

    /// Every fault of a table belongs to the netlist layer.
    pub fn layer(&self) -> u8 {
        2
    }

    pub fn place(&self) -> u64 {
        match *self {
            Fault::Shape => 0,
            Fault::LargeEntry { index } => index as u64,
        }
    }
}

impl fmt::Display for Fault {
    fn fmt(&self, f: &mut fmt::Formatter<'_>) -> fmt::Result {
        let (cause, layer, place) = (self.cause(), self.layer(), self.place());
        write!(f, "refused {cause} layer {layer} place {place}")
    }
}

impl Error for Fault {}
