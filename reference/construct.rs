//! The two constructions that make a masked block from a truth table.

use std::error::Error;
use std::fmt;

use crate::block::Block;
use crate::netlist::{Cell, Kind, Netlist};
use crate::table::TruthTable;

/// The most masks that a block of the low-latency construction has.
const MAX_LOW_LATENCY_MASKS: usize = 8;

/// A way to make a block from a table.
#[derive(Clone, Copy, Debug, PartialEq, Eq)]
pub enum Construction {
    Ghpc,
    /// The form with fewer registers and more masks.
    GhpcLl,
}

impl Construction {
    /// Every construction, in the order of the vectors.
    pub const ALL: [Construction; 2] = [Construction::Ghpc, Construction::GhpcLl];

    pub fn name(self) -> &'static str {
        match self {
            Construction::Ghpc => "ghpc",
            Construction::GhpcLl => "ghpc_ll",
        }
    }

    pub fn from_name(name: &str) -> Option<Construction> {
        Self::ALL
            .into_iter()
            .find(|construction| construction.name() == name)
    }

    /// Makes the block that computes `table`.
    pub fn block(self, table: &TruthTable) -> Result<Block, Fault> {
        let (cells, outputs) = match self {
            Construction::Ghpc => ghpc(table),
            Construction::GhpcLl => ghpc_ll(table)?,
        };
        let netlist = Netlist::new(table.inputs(), cells).expect("each operand is an earlier wire");
        let block = Block::new(table.clone(), netlist, outputs);
        Ok(block.expect("each output of the table has two wires"))
    }
}

/// Why no block was made from a lawful table.
#[derive(Clone, Copy, Debug, PartialEq, Eq)]
pub enum Fault {
    /// The construction would need more masks than it may have.
    TooManyMasks,
}

impl Fault {
    pub fn cause(&self) -> u8 {
        match *self {
            Fault::TooManyMasks => 3,
        }
    }

    /// Every fault of a construction belongs to the netlist layer.
    pub fn layer(&self) -> u8 {
        2
    }

    pub fn place(&self) -> u64 {
        match *self {
            Fault::TooManyMasks => 0,
        }
    }
}

impl fmt::Display for Fault {
    fn fmt(&self, f: &mut fmt::Formatter<'_>) -> fmt::Result {
        let (cause, layer, place) = (self.cause(), self.layer(), self.place());
        write!(f, "refused {cause} layer {layer} place {place}")
    }
}

impl Error for Fault {}

/// The cells of a block, and the wires of each output.
type Parts = (Vec<Cell>, Vec<(u16, u16)>);

/// One mask for each output, and two registers on the way of every product.
fn ghpc(table: &TruthTable) -> Parts {
    let mut builder = Builder::new(table);
    let masks = builder.masks(table.outputs());
    let selectors = builder.selectors();
    let mut outputs = Vec::with_capacity(masks.len());
    for (output, &mask) in masks.iter().enumerate() {
        let mut products = Vec::with_capacity(selectors.len());
        for (shift, selector) in selectors.iter().enumerate() {
            let column = table.shifted_column(output, shift);
            let product = builder.product(column, mask, selector);
            products.push(builder.reg(product));
        }
        let domain_1 = builder.sum(&products);
        let once = builder.reg(mask);
        let domain_0 = builder.reg(once);
        outputs.push((domain_0, domain_1));
    }
    (builder.cells, outputs)
}

/// One mask for each output and selector, and one register on every way.
fn ghpc_ll(table: &TruthTable) -> Result<Parts, Fault> {
    let mask_count = table.outputs() * table.entries().len();
    if mask_count > MAX_LOW_LATENCY_MASKS {
        return Err(Fault::TooManyMasks);
    }
    let mut builder = Builder::new(table);
    let masks = builder.masks(mask_count);
    let selectors = builder.selectors();
    let mut outputs = Vec::with_capacity(table.outputs());
    for (output, masks) in masks.chunks_exact(selectors.len()).enumerate() {
        let mut products = Vec::with_capacity(selectors.len());
        let mut chosen_masks = Vec::with_capacity(selectors.len());
        for (shift, (selector, &mask)) in selectors.iter().zip(masks).enumerate() {
            let column = table.shifted_column(output, shift);
            products.push(builder.product(column, mask, selector));
            chosen_masks.push(builder.and(selector.look_up, mask));
        }
        let domain_1 = builder.sum(&products);
        let chosen_mask = builder.sum(&chosen_masks);
        let domain_0 = builder.reg(chosen_mask);
        outputs.push((domain_0, domain_1));
    }
    Ok((builder.cells, outputs))
}

/// The wires that tell whether the shares of domain 1 make one number.
struct Selector {
    look_up: u16,
    reg: u16,
}

/// Which share of each input a look-up reads.
#[derive(Clone, Copy)]
enum Domain {
    Zero,
    One,
}

/// A growing list of cells. Each call that adds a cell returns its wire.
struct Builder {
    inputs: usize,
    cells: Vec<Cell>,
}

impl Builder {
    /// An empty list with room for either construction's cells.
    fn new(table: &TruthTable) -> Self {
        let entries = table.entries().len();
        Builder {
            inputs: table.inputs(),
            cells: Vec::with_capacity(entries * (2 + 8 * table.outputs())),
        }
    }

    fn push(&mut self, cell: Cell) -> u16 {
        let wire = 2 * self.inputs + self.cells.len();
        self.cells.push(cell);
        wire as u16
    }

    fn reg(&mut self, operand: u16) -> u16 {
        self.push(Cell {
            kind: Kind::Reg,
            table: 0,
            operands: [operand, 0, 0, 0],
        })
    }

    fn and(&mut self, left: u16, right: u16) -> u16 {
        self.push(Cell {
            kind: Kind::And,
            table: 0,
            operands: [left, right, 0, 0],
        })
    }

    fn xor(&mut self, left: u16, right: u16) -> u16 {
        self.push(Cell {
            kind: Kind::Xor,
            table: 0,
            operands: [left, right, 0, 0],
        })
    }

    /// A look-up over the shares of one domain, in input order.
    fn look_up(&mut self, domain: Domain, table: u16) -> u16 {
        let mut operands = [0; 4];
        for (input, operand) in operands[..self.inputs].iter_mut().enumerate() {
            *operand = (2 * input + domain as usize) as u16;
        }
        let kind = Kind::look_up(self.inputs);
        self.push(Cell {
            kind,
            table,
            operands,
        })
    }

    fn masks(&mut self, count: usize) -> Vec<u16> {
        (0..count).map(|_| self.push(Cell::MASK)).collect()
    }

    /// For each number of as many bits as there are inputs, the look-up over
    /// domain 1 that is 1 at this number alone, and its register.
    fn selectors(&mut self) -> Vec<Selector> {
        (0..1 << self.inputs)
            .map(|number| {
                let look_up = self.look_up(Domain::One, 1 << number);
                let reg = self.reg(look_up);
                Selector { look_up, reg }
            })
            .collect()
    }

    /// Looks `column` up over domain 0, masks and stores it, and keeps it if
    /// it is selected.
    fn product(&mut self, column: u16, mask: u16, selector: &Selector) -> u16 {
        let look_up = self.look_up(Domain::Zero, column);
        let masked = self.xor(look_up, mask);
        let stored = self.reg(masked);
        self.and(selector.reg, stored)
    }

    /// The XOR of all `wires`, joined from the first one on.
    fn sum(&mut self, wires: &[u16]) -> u16 {
        wires
            .iter()
            .copied()
            .reduce(|sum, wire| self.xor(sum, wire))
            .expect("a table has entries")
    }
}
