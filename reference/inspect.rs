//! What a person is shown of a block file: its parts, and the answers to the
//! queries on its netlist.

use std::fmt;

use crate::block::Block;
use crate::file;
use crate::netlist::{self, count_registers, probe, settle, Cell, Kind, Netlist};
use crate::vectors_netlist::spaced;

/// What is answered to words that ask no question.
pub const USAGE: &str = "usage: inspect list | settle BITS [BITS] | probe WIRE | counts   \
    (a block file on standard input)";

/// What words ask of a file.
enum Question {
    List,
    Settle(Vec<u8>),
    Probe(usize),
    Counts,
}

impl Question {
    fn from_words(words: &[&str]) -> Option<Question> {
        match words {
            ["list", ..] => Some(Question::List),
            ["settle", bits @ ..] => Some(Question::Settle(typed_bits(bits))),
            ["probe", wire] => wire.parse().ok().map(Question::Probe),
            ["counts", ..] => Some(Question::Counts),
            _ => None,
        }
    }

    fn answer(&self, file: &[u8]) -> Result<String, Refusal> {
        let block = file::read(file)?;
        let net = block.netlist();
        let answer = match self {
            Question::List => listing(&block),
            Question::Settle(bits) => settled_line(net, bits)?,
            Question::Probe(wire) => seen_line(net, *wire)?,
            Question::Counts => counts_line(net)?,
        };
        Ok(answer)
    }
}

/// Why a question has no answer.
enum Refusal {
    File(file::Fault),
    Query(netlist::Fault),
}

impl From<file::Fault> for Refusal {
    fn from(fault: file::Fault) -> Self {
        Refusal::File(fault)
    }
}

impl From<netlist::Fault> for Refusal {
    fn from(fault: netlist::Fault) -> Self {
        Refusal::Query(fault)
    }
}

impl fmt::Display for Refusal {
    fn fmt(&self, f: &mut fmt::Formatter<'_>) -> fmt::Result {
        match self {
            Refusal::File(fault) => fault.fmt(f),
            Refusal::Query(fault) => fault.fmt(f),
        }
    }
}

/// Answers `words` about `file`, in lines without the end of the last one.
pub fn answer(words: &[&str], file: &[u8]) -> String {
    let Some(question) = Question::from_words(words) else {
        return USAGE.to_string();
    };
    question
        .answer(file)
        .unwrap_or_else(|refusal| refusal.to_string())
}

/// The bits of all words as one list. What is no bit becomes a byte that
/// settling refuses.
fn typed_bits(words: &[&str]) -> Vec<u8> {
    words
        .iter()
        .flat_map(|word| word.chars())
        .map(|digit| match digit {
            '0' => 0,
            '1' => 1,
            _ => 2,
        })
        .collect()
}

fn settled_line(net: &Netlist, bits: &[u8]) -> Result<String, netlist::Fault> {
    let mut values = vec![0; net.wires()];
    settle(net, bits, &mut values)?;
    Ok(values.iter().map(u8::to_string).collect())
}

fn seen_line(net: &Netlist, wire: usize) -> Result<String, netlist::Fault> {
    let mut seen = vec![0; net.wires()];
    probe(net, wire as u64, &mut seen)?;
    Ok(spaced((0..net.wires()).filter(|&wire| seen[wire] == 1)))
}

fn counts_line(net: &Netlist) -> Result<String, netlist::Fault> {
    let mut counts = vec![0; net.wires()];
    count_registers(net, &mut counts)?;
    Ok(spaced(counts))
}

/// A line for the sizes, one for the table, one for each cell and one for
/// each output.
fn listing(block: &Block) -> String {
    let table = block.table();
    let (inputs, outputs) = (table.inputs(), table.outputs());
    let mut lines = vec![
        format!("inputs {inputs} outputs {outputs}"),
        format!("table {}", spaced(table.entries())),
    ];
    let net = block.netlist();
    for (wire, cell) in (net.shares()..).zip(net.cells()) {
        lines.push(cell_line(wire, cell));
    }
    for (output, (d0, d1)) in block.outputs().iter().enumerate() {
        lines.push(format!("output {output} wires {d0} {d1}"));
    }
    lines.join("\n")
}

fn cell_line(wire: usize, cell: &Cell) -> String {
    let mut line = format!("wire {wire} {}", kind_word(cell.kind));
    if cell.kind.is_look_up() {
        line += &format!(" {:x}", cell.table);
    }
    for operand in cell.used_operands() {
        line += &format!(" {operand}");
    }
    line
}

/// The word of a kind. Look-ups share one; their operands tell them apart.
fn kind_word(kind: Kind) -> &'static str {
    match kind {
        Kind::Mask => "mask",
        Kind::Not => "not",
        Kind::And => "and",
        Kind::Xor => "xor",
        Kind::Reg => "reg",
        Kind::LookUp1 | Kind::LookUp2 | Kind::LookUp3 | Kind::LookUp4 => "look",
    }
}
