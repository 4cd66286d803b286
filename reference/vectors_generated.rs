//! Vectors for the constructions: sums over the files of all small tables,
//! blocks of drawn tables and of a cipher's in full, and words.

use std::io::Write;

use crate::block::Block;
use crate::construct::Construction;
use crate::file;
use crate::generate::{self, generate, Answer};
use crate::hash::{fnv1a, Fnv1a};
use crate::netlist::{count_registers, probe, settle, Netlist};
use crate::numbers::Numbers;
use crate::table::{present_table, TruthTable, BIT_COUNTS};
use crate::vectors_files::draw_bytes;
use crate::vectors_netlist::{draw_bits, spaced, Outcome};

const SEED: u64 = 3;
/// Up to this many inputs, every table counts.
const SMALL_INPUTS: usize = 2;

/// The lists of words, each joined by single spaces.
const WORDS: [&str; 26] = [
    "",
    "ghpc",
    "ghpc 2",
    "ghpc 2 1",
    "ghpc 2 1 0 0 0 1",
    "ghpc_ll 2 1 0 0 0 1",
    "ghpc 2 1 0 0 0",
    "ghpc 2 1 0 0 0 1 0",
    "ghpc 2 1 0 0 0 2",
    "ghpc 2 1 0 2 0 2",
    "ghpc 2 1 0 0 0 256",
    "ghpc 2 1 0 0 0 300",
    "ghpc 2 1 0 0 0 x",
    "ghpc 2 1 0 0 0 -1",
    "ghpc 2 1 0 0 0 +1",
    "ghpc 0 1 0",
    "ghpc 5 1 0",
    "ghpc 1 5 0 1",
    "ghpc 99999999999999999999999 1 0",
    "ghpc_ll 2 3 0 0 0 1",
    "ghpc_ll 2 3 0 0 0 8",
    "ghpc_ll 2 2 0 1 2 3",
    "ghpc_ll 4 1 0 0 0 0 0 0 0 0 0 0 0 0 0 0 0 1",
    "GHPC 2 1 0 0 0 1",
    "hpc2 2 1 0 0 0 1",
    "ghpc 01 1 0 1",
];

/// Writes all vectors.
pub fn write_vectors(out: &mut impl Write) -> Outcome {
    for construction in Construction::ALL {
        for inputs in 1..=SMALL_INPUTS {
            for outputs in BIT_COUNTS {
                write_all_tables(out, construction, inputs, outputs)?;
            }
        }
    }
    let mut numbers = Numbers::new(SEED);
    for inputs in BIT_COUNTS {
        for outputs in BIT_COUNTS {
            let entries = draw_bytes(&mut numbers, 1 << inputs, 1 << outputs);
            let table = TruthTable::new(inputs, outputs, entries)?;
            write_samples(out, &table, &mut numbers)?;
        }
    }
    write_samples(out, &present_table(), &mut numbers)?;
    WORDS.iter().try_for_each(|line| write_words(out, line))
}

/// Writes a summary of the files of all tables of one size.
fn write_all_tables(
    out: &mut impl Write,
    construction: Construction,
    inputs: usize,
    outputs: usize,
) -> Outcome {
    write!(out, "all {} {inputs} {outputs} ", construction.name())?;
    let (mut tables, mut bytes, mut digest) = (0u64, 0, Fnv1a::new());
    let mut file = Vec::new();
    let mut entries = vec![0; 1 << inputs];
    loop {
        let table = TruthTable::new(inputs, outputs, entries.clone())?;
        let block = match construction.block(&table) {
            Ok(block) => block,
            // Only the size of a table decides whether it is refused.
            Err(fault) => {
                writeln!(out, "{fault}")?;
                return Ok(());
            }
        };
        file.clear();
        file::write_to(&block, &mut file);
        tables += 1;
        bytes += file.len();
        digest.add(&file);
        if !count_up(&mut entries, outputs) {
            break;
        }
    }
    let digest = digest.value();
    writeln!(out, "tables {tables} bytes {bytes} digest {digest}")?;
    Ok(())
}

/// Steps to the next list of entries of `outputs` bits each; the last entry
/// varies fastest. Returns whether there is a next one.
fn count_up(entries: &mut [u8], outputs: usize) -> bool {
    let largest = (1 << outputs) - 1;
    for entry in entries.iter_mut().rev() {
        if *entry < largest {
            *entry += 1;
            return true;
        }
        *entry = 0;
    }
    false
}

/// Writes the blocks that the constructions make from `table`.
fn write_samples(out: &mut impl Write, table: &TruthTable, numbers: &mut Numbers) -> Outcome {
    let (inputs, outputs) = (table.inputs(), table.outputs());
    for construction in Construction::ALL {
        let (name, entries) = (construction.name(), spaced(table.entries()));
        writeln!(out, "sample {name} {inputs} {outputs} {entries}")?;
        match construction.block(table) {
            Ok(block) => write_block(out, &block, numbers)?,
            Err(fault) => writeln!(out, "{fault}")?,
        }
    }
    Ok(())
}

/// Writes a block's sizes, its file, a drawn settling and a drawn probe, and
/// the outputs that were settled together with what the table says.
fn write_block(out: &mut impl Write, block: &Block, numbers: &mut Numbers) -> Outcome {
    let net = block.netlist();
    let (wires, masks, latency) = (net.wires(), net.masks(), latency(block)?);
    writeln!(out, "wires {wires} masks {masks} latency {latency}")?;
    let file = file::write(block);
    writeln!(out, "file {} {}", file.len(), hexadecimal(&file))?;

    let given = draw_bits(numbers, net.given_bytes());
    let mut values = vec![0; wires];
    settle(net, &given, &mut values)?;
    let digits: String = values.iter().map(u8::to_string).collect();
    writeln!(out, "settled {digits}")?;

    let wire = numbers.index_below(wires);
    let mut seen = vec![0; wires];
    probe(net, wire as u64, &mut seen)?;
    let seen = spaced((0..wires).filter(|&wire| seen[wire] == 1));
    writeln!(out, "probe {wire} sees {seen}")?;

    let settled = spaced(settled_outputs(block, &values));
    let argument = plain_input(net, &values);
    let table = block.table();
    let due = spaced((0..table.outputs()).map(|output| table.bit(output, argument)));
    writeln!(out, "outputs {settled} table {due}")?;
    Ok(())
}

/// The largest register count at the output wires.
pub fn latency(block: &Block) -> Outcome<u16> {
    let mut counts = vec![0; block.netlist().wires()];
    count_registers(block.netlist(), &mut counts)?;
    let largest = block
        .outputs()
        .iter()
        .flat_map(|&(d0, d1)| [counts[usize::from(d0)], counts[usize::from(d1)]])
        .max();
    Ok(largest.unwrap_or(0))
}

/// Each output bit, recombined from the values of its two wires.
fn settled_outputs<'a>(block: &'a Block, values: &'a [u8]) -> impl Iterator<Item = u8> + 'a {
    block
        .outputs()
        .iter()
        .map(|&(d0, d1)| values[usize::from(d0)] ^ values[usize::from(d1)])
}

/// The number whose bits are the inputs, recombined from their shares.
fn plain_input(net: &Netlist, values: &[u8]) -> usize {
    values[..net.shares()]
        .chunks_exact(2)
        .enumerate()
        .map(|(input, shares)| usize::from(shares[0] ^ shares[1]) << input)
        .sum()
}

/// The bytes in lowercase hexadecimal, two digits each.
pub fn hexadecimal(bytes: &[u8]) -> String {
    bytes.iter().map(|byte| format!("{byte:02x}")).collect()
}

/// Writes a list of words and what they are answered with.
fn write_words(out: &mut impl Write, line: &str) -> Outcome {
    let words: Vec<&str> = line.split_whitespace().collect();
    writeln!(out, "words {line}")?;
    match generate(&words) {
        Answer::File(file) => writeln!(out, "file {} sum {}", file.len(), fnv1a(&file))?,
        Answer::Refused(refusal) => writeln!(out, "{refusal}")?,
        Answer::Usage => writeln!(out, "{}", generate::USAGE)?,
    }
    Ok(())
}
