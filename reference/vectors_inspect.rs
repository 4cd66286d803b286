//! Vectors for what a person is shown of a block file: drawn blocks' files
//! and a generated one, with questions and their answers.

use std::io::Write;

use crate::block::Block;
use crate::construct::Construction;
use crate::file;
use crate::inspect::answer;
use crate::numbers::Numbers;
use crate::table::TruthTable;
use crate::vectors_files::{draw_block, draw_lawful_table};
use crate::vectors_generated::hexadecimal;
use crate::vectors_netlist::{draw_bits, Outcome};

const SEED: u64 = 4;
const BLOCKS: usize = 12;

/// Writes all vectors.
pub fn write_vectors(out: &mut impl Write) -> Outcome {
    let mut numbers = Numbers::new(SEED);
    for index in 0..BLOCKS {
        let table = draw_lawful_table(&mut numbers)?;
        let count = numbers.index_below(20);
        let block = draw_block(&mut numbers, table, count)?;
        write_block(out, &index.to_string(), &block, &mut numbers)?;
    }
    let and = TruthTable::new(2, 1, vec![0, 0, 0, 1])?;
    let block = Construction::Ghpc.block(&and)?;
    write_block(out, "ghpc", &block, &mut numbers)
}

/// Writes a block's file, the answers to all questions about it, and what a
/// file without its last byte is answered with.
fn write_block(out: &mut impl Write, label: &str, block: &Block, numbers: &mut Numbers) -> Outcome {
    let file = file::write(block);
    writeln!(out, "block {label} file {}", hexadecimal(&file))?;
    for line in draw_questions(block, numbers) {
        let words: Vec<&str> = line.split_whitespace().collect();
        writeln!(out, "ask {line}\n{}", answer(&words, &file))?;
    }
    let cut = &file[..file.len() - 1];
    writeln!(out, "cut list\n{}", answer(&["list"], cut))?;
    Ok(())
}

/// The questions, each as its words joined by single spaces.
fn draw_questions(block: &Block, numbers: &mut Numbers) -> [String; 12] {
    let net = block.netlist();
    let shares = draw_digits(numbers, net.shares());
    let masks = draw_digits(numbers, net.masks());
    let wire = numbers.index_below(net.wires());

    let few = &shares[..shares.len() - 1];
    let no_bit = format!("x{}", &shares[1..]);
    [
        "list".to_string(),
        "counts".to_string(),
        settle_line(&shares, &masks),
        settle_line(few, ""),
        settle_line(&no_bit, &masks),
        format!("probe {wire}"),
        format!("probe {}", net.wires()),
        "probe".to_string(),
        "probe x".to_string(),
        "probe 1 2".to_string(),
        "look".to_string(),
        String::new(),
    ]
}

/// The words that settle; there is none for the masks if there is no mask.
fn settle_line(shares: &str, masks: &str) -> String {
    if masks.is_empty() {
        format!("settle {shares}")
    } else {
        format!("settle {shares} {masks}")
    }
}

/// Draws `count` digits of 0 or 1.
fn draw_digits(numbers: &mut Numbers, count: usize) -> String {
    draw_bits(numbers, count)
        .iter()
        .map(u8::to_string)
        .collect()
}
