//! What the tour of generated blocks prints.

use std::io::Write;

use crate::block::Block;
use crate::construct::Construction;
use crate::file;
use crate::inspect::answer;
use crate::table::TruthTable;
use crate::vectors_generated::latency;
use crate::vectors_netlist::Outcome;

/// How many claims the list of worked blocks has.
const CLAIMS: usize = 18;

/// Writes the lines.
pub fn write_lines(out: &mut impl Write) -> Outcome {
    let table = TruthTable::new(2, 1, vec![0, 0, 0, 1])?;
    let block = Construction::Ghpc.block(&table)?;
    writeln!(out, "GHPC of the table 0 0 0 1: {}", sizes(&block)?)?;
    let file = file::write(&block);
    writeln!(out, "bytes of its file: {}", file.len())?;
    let read = file::read(&file)?;
    writeln!(out, "the file read again: accepted")?;
    let settled = answer(&["settle", "1001", "1"], &file);
    writeln!(out, "its shares 1001 and mask 1 settle to: {settled}")?;
    let seen = answer(&["probe", "35"], &file);
    writeln!(out, "a probe on its wire 35 sees: {seen}")?;
    let again = file::write(&read);
    let told = if again == file {
        "the same bytes"
    } else {
        "other bytes"
    };
    writeln!(out, "bytes written back: {}, {told}", again.len())?;
    let block = Construction::GhpcLl.block(&table)?;
    writeln!(out, "GHPC_LL of the table 0 0 0 1: {}", sizes(&block)?)?;
    writeln!(out, "claims on blocks worked out by hand: {CLAIMS}")?;
    Ok(())
}

/// A block that is accepted, in numbers. Every block of a construction is.
fn sizes(block: &Block) -> Outcome<String> {
    let net = block.netlist();
    let (wires, masks, latency) = (net.wires(), net.masks(), latency(block)?);
    Ok(format!(
        "accepted, {wires} wires, {masks} masks, latency {latency}"
    ))
}
