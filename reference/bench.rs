//! Work done many times over, to be timed from outside.

use std::error::Error;
use std::hint::black_box;

use crate::construct::Construction;
use crate::file;
use crate::hash::fnv1a;
use crate::netlist::{settle, Netlist, MAX_WIRES};
use crate::numbers::Numbers;
use crate::table::{present_table, TruthTable};
use crate::vectors_files::draw_block;
use crate::vectors_netlist::{draw_bits, draw_cells};

const NETLIST_SEED: u64 = 7;
const INPUTS: usize = 8;
const CELLS: usize = 4000;

const FILE_SEED: u64 = 9;

/// Settles `repeats` times, with the first given byte toggled before each
/// call. Returns the sum of all wires' values over all calls plus the hash of
/// the final values.
pub fn settle_repeatedly(repeats: u64) -> Result<u64, Box<dyn Error>> {
    let mut numbers = Numbers::new(NETLIST_SEED);
    let net = Netlist::new(INPUTS, draw_cells(&mut numbers, INPUTS, CELLS))?;
    let mut given = draw_bits(&mut numbers, net.given_bytes());
    let mut values = vec![0; net.wires()];
    let mut sum = 0u64;
    for _ in 0..repeats {
        given[0] ^= 1;
        settle(black_box(&net), black_box(&given), black_box(&mut values))?;
        sum = sum.wrapping_add(total(&values));
    }
    Ok(sum.wrapping_add(fnv1a(&values)))
}

/// The sum of the bytes.
fn total(bytes: &[u8]) -> u64 {
    bytes.iter().copied().map(u64::from).sum()
}

/// A lawful file as long as any can be: it has one input and four outputs. A
/// further input would add at most eight entries and leave room for two cells
/// fewer, which are 28 bytes.
pub fn longest_file() -> Result<Vec<u8>, Box<dyn Error>> {
    let table = TruthTable::new(1, 4, vec![0, 15])?;
    let block = draw_block(&mut Numbers::new(FILE_SEED), table, MAX_WIRES - 2)?;
    Ok(file::write(&block))
}

/// Reads the longest file `repeats` times. Returns the sum of the numbers of
/// wires.
pub fn read_repeatedly(repeats: u64) -> Result<u64, Box<dyn Error>> {
    let bytes = longest_file()?;
    let mut sum = 0u64;
    for _ in 0..repeats {
        let block = black_box(file::read(black_box(&bytes))?);
        sum = sum.wrapping_add(block.netlist().wires() as u64);
    }
    Ok(sum)
}

/// Does the same with a check that builds no block.
pub fn check_repeatedly(repeats: u64) -> Result<u64, Box<dyn Error>> {
    let bytes = longest_file()?;
    let mut sum = 0u64;
    for _ in 0..repeats {
        let wires = file::check(black_box(&bytes))?;
        sum = sum.wrapping_add(wires as u64);
    }
    Ok(sum)
}

/// Makes the GHPC block of the PRESENT table and writes its file, `repeats`
/// times. Returns the sum of the files' lengths and of one byte of each.
pub fn generate_repeatedly(repeats: u64) -> Result<u64, Box<dyn Error>> {
    let table = present_table();
    let mut file = Vec::new();
    let mut sum = 0u64;
    for turn in 0..repeats {
        let block = Construction::Ghpc.block(black_box(&table))?;
        file.clear();
        file::write_to(&block, black_box(&mut file));
        let length = file.len() as u64;
        let byte = file[(turn % length * 7 % length) as usize];
        sum = sum.wrapping_add(length + u64::from(byte));
    }
    Ok(sum)
}
