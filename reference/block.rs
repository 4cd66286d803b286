//! Blocks: a netlist together with the table that it is meant to compute and
//! the wires that carry the outputs.

use std::error::Error;
use std::fmt;

use crate::netlist::Netlist;
use crate::table::TruthTable;

/// The netlist has the table's inputs, and each of the table's outputs has a
/// wire in domain 0 and one in domain 1.
pub struct Block {
    table: TruthTable,
    netlist: Netlist,
    outputs: Vec<(u16, u16)>,
}

impl Block {
    pub fn new(
        table: TruthTable,
        netlist: Netlist,
        outputs: Vec<(u16, u16)>,
    ) -> Result<Self, Unlawful> {
        let is_wire = |wire: u16| usize::from(wire) < netlist.wires();
        let lawful = netlist.inputs() == table.inputs()
            && outputs.len() == table.outputs()
            && outputs.iter().all(|&(d0, d1)| is_wire(d0) && is_wire(d1));
        if !lawful {
            return Err(Unlawful);
        }
        Ok(Block {
            table,
            netlist,
            outputs,
        })
    }

    pub fn table(&self) -> &TruthTable {
        &self.table
    }

    pub fn netlist(&self) -> &Netlist {
        &self.netlist
    }

    /// The wires of each output, that of domain 0 first.
    pub fn outputs(&self) -> &[(u16, u16)] {
        &self.outputs
    }
}

/// The answer to parts that do not belong together.
#[derive(Clone, Copy, Debug, PartialEq, Eq)]
pub struct Unlawful;

impl fmt::Display for Unlawful {
    fn fmt(&self, f: &mut fmt::Formatter<'_>) -> fmt::Result {
        f.write_str("the parts make no lawful block")
    }
}

impl Error for Unlawful {}
