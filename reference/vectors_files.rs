//! Vectors for block files: short byte strings, drawn blocks with their files
//! and damaged copies of these, a few named files, and truth tables.

use std::io::Write;
use std::ops::Range;

use crate::block::Block;
use crate::file::{read, write};
use crate::hash::fnv1a;
use crate::netlist::{Cell, Netlist, MAX_WIRES};
use crate::numbers::Numbers;
use crate::table::TruthTable;
use crate::vectors_netlist::{draw_cells, with_byte, Outcome};

const SEED: u64 = 2;
const BLOCKS: usize = 40;
const TABLES: usize = 400;
/// A file with fewer bytes is cut at every length.
const SMALL_FILE: usize = 400;
/// At how many drawn lengths any other file is cut.
const DRAWN_CUTS: usize = 40;
const DRAWN_CHANGES: usize = 60;
/// The headers of this many fields are damaged.
const DAMAGED_HEADERS: usize = 12;

/// The smallest block's file: the one output is the one input.
const IDENTITY: [u8; 17] = [1, 0, 2, 1, 1, 2, 0, 2, 0, 1, 4, 0, 4, 0, 0, 0, 1];
/// The place of the second entry in that file.
const IDENTITY_ENTRY: usize = 9;

/// Writes all vectors.
pub fn write_vectors(out: &mut impl Write) -> Outcome {
    write_short_strings(out)?;
    let mut numbers = Numbers::new(SEED);
    for index in 0..BLOCKS {
        let block = draw_numbered_block(&mut numbers, index)?;
        let file = write_block(out, index, &block)?;
        for copy in damaged_copies(&file, &mut numbers) {
            let answer = verdict(&copy.bytes)?;
            writeln!(out, "{} {} {answer}", copy.label, copy.place)?;
        }
    }
    write_limit(out)?;
    write_named(out)?;
    write_tables(out, &mut numbers)
}

/// Writes a summary of what reading answers to all strings of each length up
/// to two, and to some of length three.
fn write_short_strings(out: &mut impl Write) -> Outcome {
    let all: Vec<u8> = (0..=255).collect();
    let tags: Vec<u8> = (0..=5).collect();
    let some: Vec<u8> = (0..=255)
        .filter(|&byte| byte < 5 || byte % 5 == 0)
        .collect();
    let choices: [&[&[u8]]; 4] = [&[], &[&all], &[&all, &all], &[&tags, &some, &some]];
    for (length, choices) in choices.into_iter().enumerate() {
        let (mut accepted, mut refused, mut sum) = (0, 0, 0u64);
        for (index, string) in (0u64..).zip(strings(choices)) {
            sum = sum.wrapping_add(index % 1000);
            match read(&string) {
                Ok(_) => accepted += 1,
                Err(fault) => {
                    refused += 1;
                    sum = sum.wrapping_add(u64::from(fault.cause()) * 31 + fault.place() * 7);
                }
            }
        }
        writeln!(
            out,
            "length {length} accepted {accepted} refused {refused} sum {sum}"
        )?;
    }
    Ok(())
}

/// Every string of one byte from each choice; the last byte varies fastest.
fn strings(choices: &[&[u8]]) -> Vec<Vec<u8>> {
    let empty = vec![Vec::new()];
    choices.iter().fold(empty, |starts, choice| {
        let longer = |start: &Vec<u8>| -> Vec<Vec<u8>> {
            choice
                .iter()
                .map(|&byte| [start.as_slice(), &[byte]].concat())
                .collect()
        };
        starts.iter().flat_map(longer).collect()
    })
}

/// Draws block number `index`; each eighth one has many cells.
fn draw_numbered_block(numbers: &mut Numbers, index: usize) -> Outcome<Block> {
    let table = draw_lawful_table(numbers)?;
    let count = if index % 8 == 7 {
        150 + numbers.index_below(250)
    } else {
        numbers.index_below(20)
    };
    draw_block(numbers, table, count)
}

/// Draws the sizes of a table and then its entries.
pub fn draw_lawful_table(numbers: &mut Numbers) -> Outcome<TruthTable> {
    let inputs = 1 + numbers.index_below(4);
    let outputs = 1 + numbers.index_below(4);
    let entries = draw_bytes(numbers, 1 << inputs, 1 << outputs);
    Ok(TruthTable::new(inputs, outputs, entries)?)
}

/// Draws `count` cells and then the outputs of a block for `table`.
pub fn draw_block(numbers: &mut Numbers, table: TruthTable, count: usize) -> Outcome<Block> {
    let cells = draw_cells(numbers, table.inputs(), count);
    let netlist = Netlist::new(table.inputs(), cells)?;
    let mut wire = || numbers.index_below(netlist.wires()) as u16;
    let outputs = (0..table.outputs()).map(|_| (wire(), wire())).collect();
    Ok(Block::new(table, netlist, outputs)?)
}

/// Draws `count` bytes below `limit`.
pub fn draw_bytes(numbers: &mut Numbers, count: usize, limit: u64) -> Vec<u8> {
    (0..count).map(|_| numbers.below(limit) as u8).collect()
}

/// Writes what is in the block and that its file is read. Returns the file.
fn write_block(out: &mut impl Write, index: usize, block: &Block) -> Outcome<Vec<u8>> {
    let (inputs, outputs) = (block.table().inputs(), block.table().outputs());
    let cells = block.netlist().cells().len();
    let file = write(block);
    let (len, sum) = (file.len(), fnv1a(&file));
    writeln!(
        out,
        "block {index} inputs {inputs} outputs {outputs} cells {cells} bytes {len} sum {sum}"
    )?;
    match read(&file) {
        Ok(_) => writeln!(out, "file accepted")?,
        Err(fault) => writeln!(out, "file {fault}")?,
    }
    Ok(file)
}

/// What reading answers: a refusal, or the sum of what the block read is
/// written as, which must be the same bytes.
fn verdict(bytes: &[u8]) -> Outcome<String> {
    let block = match read(bytes) {
        Ok(block) => block,
        Err(fault) => return Ok(fault.to_string()),
    };
    let written = write(&block);
    if written != bytes {
        return Err("an accepted file was not written back as it was".into());
    }
    Ok(format!("accepted sum {}", fnv1a(&written)))
}

/// A damaged copy of a file. Some damaged files are lawful all the same.
struct Damaged {
    label: &'static str,
    place: usize,
    bytes: Vec<u8>,
}

impl Damaged {
    fn new(label: &'static str, place: usize, bytes: Vec<u8>) -> Self {
        Damaged {
            label,
            place,
            bytes,
        }
    }
}

/// All damaged copies of a lawful file, in the order of the vectors.
fn damaged_copies(file: &[u8], numbers: &mut Numbers) -> Vec<Damaged> {
    let fields = fields(file);
    let mut copies = cuts(file, numbers);
    copies.extend(byte_changes(file, numbers));
    copies.extend(header_changes(file, &fields));
    copies.extend(extensions(file));
    copies.extend(field_swaps(file, &fields));
    let doubled = [&file[fields[0].clone()], file].concat();
    copies.push(Damaged::new("double", 0, doubled));
    copies
}

/// Where the fields of a lawful file are.
fn fields(file: &[u8]) -> Vec<Range<usize>> {
    let mut fields = Vec::new();
    let mut start = 0;
    while let [_, high, low, ..] = file[start..] {
        let end = start + 3 + usize::from(u16::from_be_bytes([high, low]));
        fields.push(start..end);
        start = end;
    }
    fields
}

/// The file cut to fewer bytes.
fn cuts(file: &[u8], numbers: &mut Numbers) -> Vec<Damaged> {
    let cut = |len: usize| Damaged::new("cut", len, file[..len].to_vec());
    if file.len() < SMALL_FILE {
        (0..file.len()).map(cut).collect()
    } else {
        (0..DRAWN_CUTS)
            .map(|_| cut(numbers.index_below(file.len())))
            .collect()
    }
}

/// The file with one byte set to a drawn value, perhaps the one it had.
fn byte_changes(file: &[u8], numbers: &mut Numbers) -> Vec<Damaged> {
    let change = |_| {
        let at = numbers.index_below(file.len());
        let value = numbers.below(256) as u8;
        Damaged::new("byte", at, with_byte(file, at, value))
    };
    (0..DRAWN_CHANGES).map(change).collect()
}

/// The file with one more in a tag or in one of the length bytes.
fn header_changes(file: &[u8], fields: &[Range<usize>]) -> Vec<Damaged> {
    let increment = |label, at: usize| {
        let value = file[at].wrapping_add(1);
        Damaged::new(label, at, with_byte(file, at, value))
    };
    fields
        .iter()
        .take(DAMAGED_HEADERS)
        .flat_map(|field| (field.start..).zip(["tag", "high", "low"]))
        .map(|(at, label)| increment(label, at))
        .collect()
}

/// The file with bytes after its end.
fn extensions(file: &[u8]) -> [Damaged; 3] {
    let tails: [&[u8]; 3] = [&[0], &[4], file];
    tails.map(|tail| Damaged::new("extra", file.len(), [file, tail].concat()))
}

/// The file with its first two fields swapped, and with its first two cells
/// swapped if it has two.
fn field_swaps(file: &[u8], fields: &[Range<usize>]) -> Vec<Damaged> {
    let swap = |first: &Range<usize>, second: &Range<usize>| {
        let (before, after) = (&file[..first.start], &file[second.end..]);
        let parts = [before, &file[second.clone()], &file[first.clone()], after];
        Damaged::new("swap", first.start, parts.concat())
    };
    let mut copies = vec![swap(&fields[0], &fields[1])];
    // All fields but the first two and the last are cells.
    if let [_, _, first, second, _, ..] = fields {
        copies.push(swap(first, second));
    }
    copies
}

/// Writes the answers to a file of as many cells as there may be, and to one
/// of one more.
fn write_limit(out: &mut impl Write) -> Outcome {
    let table = TruthTable::new(1, 1, vec![0, 1])?;
    let netlist = Netlist::new(1, vec![Cell::MASK; MAX_WIRES - 2])?;
    let file = write(&Block::new(table, netlist, vec![(0, 1)])?);
    writeln!(out, "limit bytes {} {}", file.len(), verdict(&file)?)?;

    let fields = fields(&file);
    let [.., cell, outputs] = fields.as_slice() else {
        return Err("the longest list of cells has no cell".into());
    };
    let (start, end) = file.split_at(outputs.start);
    let one_more = [start, &file[cell.clone()], end].concat();
    writeln!(out, "limit one-more {}", verdict(&one_more)?)?;
    Ok(())
}

/// Writes the answers to a few files in full.
fn write_named(out: &mut impl Write) -> Outcome {
    let large_entry = with_byte(&IDENTITY, IDENTITY_ENTRY, 2);
    let files: [(&str, &[u8]); 3] = [
        ("identity", &IDENTITY),
        ("identity-entry", &large_entry),
        ("empty", &[]),
    ];
    for (label, file) in files {
        writeln!(out, "{label} {}", verdict(file)?)?;
    }
    Ok(())
}

/// Writes which drawn tables are accepted, and the outputs of those that are.
fn write_tables(out: &mut impl Write, numbers: &mut Numbers) -> Outcome {
    for turn in 0..TABLES {
        let (inputs, outputs, entries) = draw_table(numbers, turn);
        write!(out, "table {inputs} {outputs} {} ", entries.len())?;
        match TruthTable::new(inputs, outputs, entries) {
            Ok(table) => writeln!(out, "accepted{}", columns(&table))?,
            Err(fault) => writeln!(out, "{fault}")?,
        }
    }
    Ok(())
}

/// Draws sizes and entries: in even turns anything, in odd ones a lawful table, and of these in every second one entry more.
fn draw_table(numbers: &mut Numbers, turn: usize) -> (usize, usize, Vec<u8>) {
    if turn % 2 == 0 {
        let inputs = numbers.index_below(6);
        let outputs = numbers.index_below(6);
        let count = numbers.index_below(20);
        return (inputs, outputs, draw_bytes(numbers, count, 20));
    }
    let inputs = 1 + numbers.index_below(4);
    let outputs = 1 + numbers.index_below(4);
    let mut entries = draw_bytes(numbers, 1 << inputs, 1 << outputs);
    if turn % 4 == 3 {
        let index = numbers.index_below(entries.len());
        entries[index] = draw_bytes(numbers, 1, 20)[0];
    }
    (inputs, outputs, entries)
}

/// Each output at every argument in ascending order, a word of bits for each output.
fn columns(table: &TruthTable) -> String {
    let mut text = String::new();
    for output in 0..table.outputs() {
        text.push(' ');
        for entry in table.entries() {
            text.push(if entry >> output & 1 == 1 { '1' } else { '0' });
        }
    }
    text
}
