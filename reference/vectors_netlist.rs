//! Vectors for netlists: drawn netlists with the answers to their queries,
//! queries that are refused, and damaged lists of cells.

use std::error::Error;
use std::io::Write;

use crate::netlist::{count_registers, is_lawful, probe, settle, Cell, Fault, Kind, Netlist};
use crate::numbers::Numbers;

pub type Outcome<T = ()> = Result<T, Box<dyn Error>>;

const SEED: u64 = 1;
const NETLISTS: usize = 320;
/// How many elements a buffer has past those that a query writes.
const EXTRA: usize = 3;

/// Writes all vectors.
pub fn write_vectors(out: &mut impl Write) -> Outcome {
    let mut numbers = Numbers::new(SEED);
    for index in 0..NETLISTS {
        let net = draw_netlist(&mut numbers, index)?;
        write_header(out, index, &net)?;
        let given = write_answers(out, &net, &mut numbers)?;
        write_refusals(out, &net, &given, &mut numbers)?;
        write_lawfulness(out, &net, &mut numbers)?;
    }
    write_long_lists(out)
}

/// Draws netlist number `index`; each sixteenth one is long.
fn draw_netlist(numbers: &mut Numbers, index: usize) -> Outcome<Netlist> {
    let inputs = 1 + numbers.index_below(8);
    let count = if index % 16 == 15 {
        200 + numbers.index_below(401)
    } else {
        numbers.index_below(41)
    };
    Ok(Netlist::new(inputs, draw_cells(numbers, inputs, count))?)
}

/// Draws `count` cells for a netlist of `inputs` inputs, in wire order.
pub fn draw_cells(numbers: &mut Numbers, inputs: usize, count: usize) -> Vec<Cell> {
    (2 * inputs..)
        .take(count)
        .map(|wire| draw_cell(numbers, wire))
        .collect()
}

/// Draws the cell of `wire`: the kind, then the table of a look-up, then each
/// operand in use.
fn draw_cell(numbers: &mut Numbers, wire: usize) -> Cell {
    let kind = Kind::ALL[numbers.index_below(Kind::ALL.len())];
    let table = if kind.is_look_up() {
        numbers.below(kind.table_limit().into()) as u16
    } else {
        0
    };
    let mut operands = [0; 4];
    for operand in &mut operands[..kind.operand_count()] {
        *operand = numbers.index_below(wire) as u16;
    }
    Cell {
        kind,
        table,
        operands,
    }
}

/// Draws `count` bytes of 0 or 1.
pub fn draw_bits(numbers: &mut Numbers, count: usize) -> Vec<u8> {
    (0..count).map(|_| numbers.below(2) as u8).collect()
}

/// A buffer filled beforehand, so that what a query changes can be told.
struct Buffer<T> {
    elements: Vec<T>,
    filler: T,
}

impl Buffer<u8> {
    fn of_bytes(len: usize) -> Self {
        Buffer::filled(len, 0xA5)
    }
}

impl Buffer<u16> {
    fn of_counts(len: usize) -> Self {
        Buffer::filled(len, 0xA5A5)
    }
}

impl<T: Copy + PartialEq> Buffer<T> {
    fn filled(len: usize, filler: T) -> Self {
        Buffer {
            elements: vec![filler; len],
            filler,
        }
    }

    /// Whether every element from index `start` on is as it was.
    fn is_kept_from(&self, start: usize) -> bool {
        self.elements[start..]
            .iter()
            .all(|&element| element == self.filler)
    }
}

fn write_header(out: &mut impl Write, index: usize, net: &Netlist) -> Outcome {
    let (inputs, wires, masks) = (net.inputs(), net.wires(), net.masks());
    writeln!(
        out,
        "netlist {index} inputs {inputs} wires {wires} masks {masks}"
    )?;
    Ok(())
}

/// Writes two settlings, two probes and the counts, and whether the memory
/// past them was kept. Returns the bytes given to the second settling.
fn write_answers(out: &mut impl Write, net: &Netlist, numbers: &mut Numbers) -> Outcome<Vec<u8>> {
    let first = draw_bits(numbers, net.given_bytes());
    let mut kept = write_settling(out, net, &first)?;
    let second = draw_bits(numbers, net.given_bytes());
    kept &= write_settling(out, net, &second)?;
    for _ in 0..2 {
        let wire = numbers.index_below(net.wires());
        kept &= write_probe(out, net, wire as u64)?;
    }
    kept &= write_counts(out, net)?;
    writeln!(out, "rest {}", kept_or_changed(kept))?;
    Ok(second)
}

fn write_settling(out: &mut impl Write, net: &Netlist, given: &[u8]) -> Outcome<bool> {
    let wires = net.wires();
    let mut buffer = Buffer::of_bytes(wires + EXTRA);
    settle(net, given, &mut buffer.elements)?;
    let digits: String = buffer.elements[..wires].iter().map(u8::to_string).collect();
    writeln!(out, "settled {digits}")?;
    Ok(buffer.is_kept_from(wires))
}

fn write_probe(out: &mut impl Write, net: &Netlist, wire: u64) -> Outcome<bool> {
    let wires = net.wires();
    let mut buffer = Buffer::of_bytes(wires + EXTRA);
    probe(net, wire, &mut buffer.elements)?;
    let seen = (0..wires).filter(|&wire| buffer.elements[wire] == 1);
    writeln!(out, "probe {wire} sees {}", spaced(seen))?;
    Ok(buffer.is_kept_from(wires))
}

fn write_counts(out: &mut impl Write, net: &Netlist) -> Outcome<bool> {
    let wires = net.wires();
    let mut buffer = Buffer::of_counts(wires + EXTRA);
    count_registers(net, &mut buffer.elements)?;
    writeln!(out, "counts {}", spaced(&buffer.elements[..wires]))?;
    Ok(buffer.is_kept_from(wires))
}

/// A query to be refused, with its own argument.
enum Query {
    Settle(Vec<u8>),
    Probe(u64),
    Count,
}

impl Query {
    /// Asks with a buffer of `len` elements. Returns the answer and whether
    /// the whole buffer was kept.
    fn ask(&self, net: &Netlist, len: usize) -> (Result<(), Fault>, bool) {
        match self {
            Query::Settle(given) => {
                let mut buffer = Buffer::of_bytes(len);
                let answer = settle(net, given, &mut buffer.elements);
                (answer, buffer.is_kept_from(0))
            }
            Query::Probe(wire) => {
                let mut buffer = Buffer::of_bytes(len);
                let answer = probe(net, *wire, &mut buffer.elements);
                (answer, buffer.is_kept_from(0))
            }
            Query::Count => {
                let mut buffer = Buffer::of_counts(len);
                let answer = count_registers(net, &mut buffer.elements);
                (answer, buffer.is_kept_from(0))
            }
        }
    }
}

/// Writes the ten refusals, and whether all their buffers were kept.
fn write_refusals(
    out: &mut impl Write,
    net: &Netlist,
    given: &[u8],
    numbers: &mut Numbers,
) -> Outcome {
    let mut all_kept = true;
    for (label, query, len) in draw_refusals(net, given, numbers) {
        let (answer, kept) = query.ask(net, len);
        match answer {
            Err(fault) => writeln!(out, "{label} {fault}")?,
            Ok(()) => writeln!(out, "{label} accepted")?,
        }
        all_kept &= kept;
    }
    writeln!(out, "buffers {}", kept_or_changed(all_kept))?;
    Ok(())
}

/// The queries to be refused, each with its label and the length of its
/// buffer. `given` are bytes that settling accepts.
fn draw_refusals(
    net: &Netlist,
    given: &[u8],
    numbers: &mut Numbers,
) -> [(&'static str, Query, usize); 10] {
    let index = numbers.index_below(given.len());
    let value = 2 + numbers.below(254) as u8;
    let far = net.wires() as u64 + numbers.below(100_000);

    let few = given[..given.len() - 1].to_vec();
    let few_and_large = with_byte(&few, 0, 2);
    let many = [given, &[9; 3]].concat();
    let large = with_byte(given, index, value);
    let two_large = with_byte(&large, 0, 255);

    let short = net.wires() - 1;
    let ample = net.wires() + EXTRA;
    [
        ("short-settle", Query::Settle(given.to_vec()), short),
        ("short-first", Query::Settle(few_and_large), short),
        ("few-bytes", Query::Settle(few), ample),
        ("many-bytes", Query::Settle(many), ample),
        ("large-byte", Query::Settle(large), ample),
        ("two-large", Query::Settle(two_large), ample),
        ("far-wire", Query::Probe(far), ample),
        ("largest-wire", Query::Probe(u64::MAX), ample),
        ("short-probe", Query::Probe(far), short),
        ("short-count", Query::Count, short),
    ]
}

/// A copy of `bytes` with `value` at `index`.
pub fn with_byte(bytes: &[u8], index: usize, value: u8) -> Vec<u8> {
    let mut copy = bytes.to_vec();
    copy[index] = value;
    copy
}

/// One way to damage a cell. Some damaged cells are lawful all the same.
#[derive(Clone, Copy)]
enum Damage {
    OwnWire,
    UnusedOperand,
    WideTable,
    NextKind,
}

impl Damage {
    /// Every way, in the order of the vectors.
    const ALL: [Damage; 4] = [
        Damage::OwnWire,
        Damage::UnusedOperand,
        Damage::WideTable,
        Damage::NextKind,
    ];

    fn label(self) -> &'static str {
        match self {
            Damage::OwnWire => "own-wire",
            Damage::UnusedOperand => "unused-d",
            Damage::WideTable => "wide-table",
            Damage::NextKind => "kind",
        }
    }

    /// Damages `cell`, which drives `wire`, whatever its kind.
    fn apply(self, cell: &mut Cell, wire: usize) {
        match self {
            Damage::OwnWire => cell.operands[0] = wire as u16,
            Damage::UnusedOperand => cell.operands[3] = u16::from(cell.operands[3] == 0),
            Damage::WideTable => cell.table = u16::MAX,
            Damage::NextKind => {
                cell.kind = Kind::ALL[(cell.kind.number() + 1) % Kind::ALL.len()];
            }
        }
    }
}

/// Writes whether the netlist and its damaged copies are lawful. Each copy
/// has one damage only.
fn write_lawfulness(out: &mut impl Write, net: &Netlist, numbers: &mut Numbers) -> Outcome {
    let cells = net.cells();
    writeln!(out, "lawful {}", yes_or_no(is_lawful(net.inputs(), cells)))?;
    for inputs in [0, 9] {
        let lawful = yes_or_no(is_lawful(inputs, cells));
        writeln!(out, "damaged inputs-{inputs} lawful {lawful}")?;
    }
    if cells.is_empty() {
        return Ok(());
    }
    for damage in Damage::ALL {
        let index = numbers.index_below(cells.len());
        let mut damaged = cells.to_vec();
        damage.apply(&mut damaged[index], net.shares() + index);
        let lawful = yes_or_no(is_lawful(net.inputs(), &damaged));
        writeln!(out, "damaged {} lawful {lawful}", damage.label())?;
    }
    Ok(())
}

/// Writes whether lists of MASKs about as long as the most wires are lawful.
fn write_long_lists(out: &mut impl Write) -> Outcome {
    let lists = [
        ("masks", 1, 4094),
        ("masks", 1, 4095),
        ("masks", 1, 4096),
        ("wide", 8, 4080),
        ("wide", 8, 4081),
    ];
    for (label, inputs, count) in lists {
        let lawful = yes_or_no(is_lawful(inputs, &vec![Cell::MASK; count]));
        writeln!(out, "{label} {count} lawful {lawful}")?;
    }
    Ok(())
}

/// The items in decimal, joined by single spaces.
pub fn spaced<T: ToString>(items: impl IntoIterator<Item = T>) -> String {
    let words: Vec<String> = items.into_iter().map(|item| item.to_string()).collect();
    words.join(" ")
}

fn yes_or_no(lawful: bool) -> &'static str {
    if lawful {
        "yes"
    } else {
        "no"
    }
}

fn kept_or_changed(kept: bool) -> &'static str {
    if kept {
        "kept"
    } else {
        "changed"
    }
}
