//! Netlists of two-share logic: which lists of cells are lawful, what the
//! wires carry, what a probe sees, and the register count of each wire.

use std::error::Error;
use std::fmt;

/// The most inputs a netlist has.
pub const MAX_INPUTS: usize = 8;
/// The most wires a netlist has, input shares included.
pub const MAX_WIRES: usize = 4096;

/// What a cell does with its operands.
#[derive(Clone, Copy, Debug, PartialEq, Eq)]
pub enum Kind {
    Mask,
    Not,
    And,
    Xor,
    Reg,
    LookUp1,
    LookUp2,
    LookUp3,
    LookUp4,
}

impl Kind {
    /// Every kind, at the index that is its number.
    pub const ALL: [Kind; 9] = [
        Kind::Mask,
        Kind::Not,
        Kind::And,
        Kind::Xor,
        Kind::Reg,
        Kind::LookUp1,
        Kind::LookUp2,
        Kind::LookUp3,
        Kind::LookUp4,
    ];

    pub fn number(self) -> usize {
        self as usize
    }

    /// The look-up of `count` operands, from 1 to 4.
    pub fn look_up(count: usize) -> Kind {
        Kind::ALL[Kind::Reg.number() + count]
    }

    /// How many operands a cell of this kind uses.
    pub fn operand_count(self) -> usize {
        match self {
            Kind::Mask => 0,
            Kind::Not | Kind::Reg | Kind::LookUp1 => 1,
            Kind::And | Kind::Xor | Kind::LookUp2 => 2,
            Kind::LookUp3 => 3,
            Kind::LookUp4 => 4,
        }
    }

    pub fn is_look_up(self) -> bool {
        matches!(
            self,
            Kind::LookUp1 | Kind::LookUp2 | Kind::LookUp3 | Kind::LookUp4
        )
    }

    /// Tables of this kind are below this number. A look-up of k operands
    /// has 2^k table bits; any other kind has the table zero.
    pub fn table_limit(self) -> u32 {
        if self.is_look_up() {
            1 << (1 << self.operand_count())
        } else {
            1
        }
    }
}

/// One cell: the parts that its kind does not use are zero.
#[derive(Clone, Copy, Debug, PartialEq, Eq)]
pub struct Cell {
    pub kind: Kind,
    pub table: u16,
    pub operands: [u16; 4],
}

impl Cell {
    pub const MASK: Cell = Cell {
        kind: Kind::Mask,
        table: 0,
        operands: [0; 4],
    };

    /// The operands that the kind uses.
    pub fn used_operands(&self) -> impl Iterator<Item = usize> + '_ {
        let used = &self.operands[..self.kind.operand_count()];
        used.iter().copied().map(usize::from)
    }

    /// Bit number `argument` of the table.
    fn table_bit(&self, argument: u8) -> u8 {
        (self.table >> argument & 1) as u8
    }

    /// Whether this cell may drive `wire`.
    fn is_lawful_at(&self, wire: usize) -> bool {
        let (used, unused) = self.operands.split_at(self.kind.operand_count());
        used.iter().all(|&operand| usize::from(operand) < wire)
            && unused.iter().all(|&operand| operand == 0)
            && u32::from(self.table) < self.kind.table_limit()
    }
}

/// Whether `cells` make a netlist of `inputs` inputs.
pub fn is_lawful(inputs: usize, cells: &[Cell]) -> bool {
    (1..=MAX_INPUTS).contains(&inputs)
        && 2 * inputs + cells.len() <= MAX_WIRES
        && (2 * inputs..)
            .zip(cells)
            .all(|(wire, cell)| cell.is_lawful_at(wire))
}

/// A lawful list of cells over two shares of each input.
pub struct Netlist {
    inputs: usize,
    masks: usize,
    cells: Vec<Cell>,
}

impl Netlist {
    pub fn new(inputs: usize, cells: Vec<Cell>) -> Result<Self, Unlawful> {
        if !is_lawful(inputs, &cells) {
            return Err(Unlawful);
        }
        let masks = cells.iter().filter(|cell| cell.kind == Kind::Mask).count();
        Ok(Netlist {
            inputs,
            masks,
            cells,
        })
    }

    pub fn inputs(&self) -> usize {
        self.inputs
    }

    /// How many MASK cells there are.
    pub fn masks(&self) -> usize {
        self.masks
    }

    pub fn cells(&self) -> &[Cell] {
        &self.cells
    }

    /// How many input shares there are; the first cell drives this wire.
    pub fn shares(&self) -> usize {
        2 * self.inputs
    }

    pub fn wires(&self) -> usize {
        self.shares() + self.cells.len()
    }

    /// How many bytes settling takes: one for each input share and MASK.
    pub fn given_bytes(&self) -> usize {
        self.shares() + self.masks
    }

    /// The cells in wire order, each with the wire that it drives.
    fn driven(&self) -> impl DoubleEndedIterator<Item = (usize, &Cell)> {
        (self.shares()..self.wires()).zip(&self.cells)
    }
}

/// The answer to a list of cells that is not lawful.
#[derive(Clone, Copy, Debug, PartialEq, Eq)]
pub struct Unlawful;

impl fmt::Display for Unlawful {
    fn fmt(&self, f: &mut fmt::Formatter<'_>) -> fmt::Result {
        f.write_str("the cells make no lawful netlist")
    }
}

impl Error for Unlawful {}

/// Why a query was refused.
#[derive(Clone, Copy, Debug, PartialEq, Eq)]
pub enum Fault {
    /// The probed wire is past the last one.
    FarWire { wire: u64 },
    /// Settling needs another number of bytes.
    WrongByteCount { given: usize },
    /// A byte is neither 0 nor 1; the lowest such index counts.
    LargeByte { index: usize },
    /// The output buffer has fewer elements than there are wires.
    ShortBuffer { needed: usize },
}

impl Fault {
    pub fn cause(&self) -> u8 {
        match *self {
            Fault::FarWire { .. } => 17,
            Fault::WrongByteCount { .. } => 18,
            Fault::LargeByte { .. } => 19,
            Fault::ShortBuffer { .. } => 20,
        }
    }

    /// Every fault of a query belongs to the netlist layer.
    pub fn layer(&self) -> u8 {
        2
    }

    pub fn place(&self) -> u64 {
        match *self {
            Fault::FarWire { wire } => wire,
            Fault::WrongByteCount { given } => given as u64,
            Fault::LargeByte { index } => index as u64,
            Fault::ShortBuffer { needed } => needed as u64,
        }
    }
}

impl fmt::Display for Fault {
    fn fmt(&self, f: &mut fmt::Formatter<'_>) -> fmt::Result {
        let (cause, layer, place) = (self.cause(), self.layer(), self.place());
        write!(f, "refused {cause} layer {layer} place {place}")
    }
}

impl Error for Fault {}

/// The part of `out` that a query on `net` writes: one element for each wire.
fn written_part<'a, T>(net: &Netlist, out: &'a mut [T]) -> Result<&'a mut [T], Fault> {
    let needed = net.wires();
    out.get_mut(..needed).ok_or(Fault::ShortBuffer { needed })
}

/// Writes the value of each wire. `given` holds the input shares in wire
/// order and then the MASKs in wire order, a byte of 0 or 1 for each.
pub fn settle(net: &Netlist, given: &[u8], out: &mut [u8]) -> Result<(), Fault> {
    let values = written_part(net, out)?;
    if given.len() != net.given_bytes() {
        return Err(Fault::WrongByteCount { given: given.len() });
    }
    if let Some(index) = given.iter().position(|&byte| byte > 1) {
        return Err(Fault::LargeByte { index });
    }

    let (shares, masks) = given.split_at(net.shares());
    let mut masks = masks.iter().copied();
    values[..shares.len()].copy_from_slice(shares);
    for (wire, cell) in net.driven() {
        let value = |operand: usize| values[usize::from(cell.operands[operand])];
        values[wire] = match cell.kind {
            Kind::Mask => masks.next().expect("a byte was given for each MASK"),
            Kind::Not => value(0) ^ 1,
            Kind::And => value(0) & value(1),
            Kind::Xor => value(0) ^ value(1),
            Kind::Reg => value(0),
            Kind::LookUp1 => cell.table_bit(value(0)),
            Kind::LookUp2 => cell.table_bit(value(0) | value(1) << 1),
            Kind::LookUp3 => cell.table_bit(value(0) | value(1) << 1 | value(2) << 2),
            Kind::LookUp4 => {
                cell.table_bit(value(0) | value(1) << 1 | value(2) << 2 | value(3) << 3)
            }
        };
    }
    Ok(())
}

/// Writes 1 for each wire that a probe on `wire` sees and 0 for the others.
/// A probe stops at input shares, MASKs and REGs; any other cell hands it on
/// to its operands.
pub fn probe(net: &Netlist, wire: u64, out: &mut [u8]) -> Result<(), Fault> {
    let seen = written_part(net, out)?;
    let probed = usize::try_from(wire)
        .ok()
        .filter(|&probed| probed < seen.len())
        .ok_or(Fault::FarWire { wire })?;

    seen.fill(0);
    seen[probed] = 1;
    // Operands have smaller numbers, so going down meets each wire after
    // every cell that could hand the probe on to it.
    for (wire, cell) in net.driven().rev() {
        if seen[wire] == 1 && !matches!(cell.kind, Kind::Mask | Kind::Reg) {
            seen[wire] = 0;
            cell.used_operands().for_each(|operand| seen[operand] = 1);
        }
    }
    Ok(())
}

/// Writes the register count of each wire: 0 for an input share or a MASK,
/// one more than the operand's for a REG, the largest of the operands' for
/// any other cell.
pub fn count_registers(net: &Netlist, out: &mut [u16]) -> Result<(), Fault> {
    let counts = written_part(net, out)?;
    counts[..net.shares()].fill(0);
    for (wire, cell) in net.driven() {
        let largest = cell.used_operands().map(|operand| counts[operand]).max();
        counts[wire] = match (cell.kind, largest) {
            (Kind::Mask, _) | (_, None) => 0,
            (Kind::Reg, Some(count)) => count + 1,
            (_, Some(count)) => count,
        };
    }
    Ok(())
}
