//! Block files: fields of a tag, a length and a payload. Every two-byte
//! number has its high byte first.

use std::error::Error;
use std::fmt;

use crate::block::Block;
use crate::netlist::{Cell, Kind, Netlist, MAX_WIRES};
use crate::table::{TruthTable, BIT_COUNTS};

/// A tag byte and two length bytes.
const HEADER_BYTES: usize = 3;
/// The two numbers of bits.
const SIZES_BYTES: usize = 2;
/// A kind, a table and four operands.
const CELL_BYTES: usize = 11;
/// Two wires for each output.
const OUTPUT_BYTES: usize = 4;

/// What a field holds.
#[derive(Clone, Copy, Debug, PartialEq, Eq)]
enum Tag {
    Sizes = 1,
    Entries = 2,
    Cell = 3,
    Outputs = 4,
}

impl Tag {
    fn from_byte(byte: u8) -> Option<Tag> {
        match byte {
            1 => Some(Tag::Sizes),
            2 => Some(Tag::Entries),
            3 => Some(Tag::Cell),
            4 => Some(Tag::Outputs),
            _ => None,
        }
    }
}

/// What is wrong with a file.
#[derive(Clone, Copy, Debug, PartialEq, Eq)]
enum Flaw {
    /// The file ends too early.
    Cut,
    /// A field has a tag that is not due.
    Tag,
    /// A field has a wrong length.
    Length,
    /// A value is out of bounds, or an unused part is not zero.
    Value,
    /// There are bytes after the last field.
    Extra,
}

/// Why a file was refused, and at which of its bytes.
#[derive(Clone, Copy, Debug, PartialEq, Eq)]
pub struct Fault {
    flaw: Flaw,
    place: usize,
}

impl Fault {
    fn new(flaw: Flaw, place: usize) -> Self {
        Fault { flaw, place }
    }

    pub fn cause(&self) -> u8 {
        match self.flaw {
            Flaw::Cut => 4,
            Flaw::Tag => 5,
            Flaw::Length => 6,
            Flaw::Value => 7,
            Flaw::Extra => 8,
        }
    }

    /// Every fault of a file belongs to the field layer.
    pub fn layer(&self) -> u8 {
        1
    }

    pub fn place(&self) -> u64 {
        self.place as u64
    }
}

impl fmt::Display for Fault {
    fn fmt(&self, f: &mut fmt::Formatter<'_>) -> fmt::Result {
        let (cause, layer, place) = (self.cause(), self.layer(), self.place());
        write!(f, "refused {cause} layer {layer} place {place}")
    }
}

impl Error for Fault {}

/// Reads the block that `bytes` are the file of.
pub fn read(bytes: &[u8]) -> Result<Block, Fault> {
    let mut cells = Vec::new();
    let frame = scan(bytes, |cell| cells.push(cell))?;
    Ok(frame.block(cells).expect("the scan tested every bound"))
}

/// Tests a file without building its block. Returns the number of wires.
pub fn check(bytes: &[u8]) -> Result<usize, Fault> {
    Ok(scan(bytes, |_| ())?.wires)
}

/// Goes through a file front to back and hands over each cell.
fn scan(bytes: &[u8], mut on_cell: impl FnMut(Cell)) -> Result<Frame<'_>, Fault> {
    let mut cursor = Cursor { bytes, at: 0 };
    let (inputs, outputs) = parse_sizes(&cursor.field(Tag::Sizes, SIZES_BYTES)?)?;
    let entries = cursor.field(Tag::Entries, 1 << inputs)?;
    test_entries(&entries, outputs)?;

    let mut wires = 2 * inputs;
    loop {
        let header = cursor.header()?;
        match header.tag {
            Some(Tag::Cell) if wires < MAX_WIRES => {
                on_cell(parse_cell(&cursor.payload(header, CELL_BYTES)?, wires)?);
                wires += 1;
            }
            Some(Tag::Outputs) => {
                let output_wires = cursor.payload(header, OUTPUT_BYTES * outputs)?;
                test_outputs(&output_wires, wires)?;
                cursor.end()?;
                return Ok(Frame {
                    inputs,
                    outputs,
                    entries: entries.bytes,
                    wires,
                    output_wires: output_wires.bytes,
                });
            }
            _ => return Err(cursor.wrong_tag()),
        }
    }
}

/// A lawful file without its cells.
struct Frame<'a> {
    inputs: usize,
    outputs: usize,
    entries: &'a [u8],
    wires: usize,
    output_wires: &'a [u8],
}

impl Frame<'_> {
    fn block(&self, cells: Vec<Cell>) -> Result<Block, Box<dyn Error>> {
        let table = TruthTable::new(self.inputs, self.outputs, self.entries.to_vec())?;
        let netlist = Netlist::new(self.inputs, cells)?;
        let outputs = self
            .output_wires
            .chunks_exact(OUTPUT_BYTES)
            .map(|pair| (number_at(pair, 0), number_at(pair, 2)))
            .collect();
        Ok(Block::new(table, netlist, outputs)?)
    }
}

/// The tag of a field, unless no field has it, and the length it states.
struct Header {
    tag: Option<Tag>,
    length: usize,
}

/// A file and the place in it where the next field is due.
struct Cursor<'a> {
    bytes: &'a [u8],
    at: usize,
}

impl<'a> Cursor<'a> {
    /// The header of the next field. The cursor stays before it.
    fn header(&self) -> Result<Header, Fault> {
        match self.bytes[self.at..] {
            [tag, high, low, ..] => Ok(Header {
                tag: Tag::from_byte(tag),
                length: u16::from_be_bytes([high, low]).into(),
            }),
            _ => Err(self.cut()),
        }
    }

    /// The payload of the next field, whose header is `header` and whose
    /// payload must have `length` bytes. The cursor passes the field.
    fn payload(&mut self, header: Header, length: usize) -> Result<Payload<'a>, Fault> {
        if header.length != length {
            return Err(Fault::new(Flaw::Length, self.at + 1));
        }
        let start = self.at + HEADER_BYTES;
        let end = start + length;
        let bytes = self.bytes.get(start..end).ok_or_else(|| self.cut())?;
        self.at = end;
        Ok(Payload { bytes, start })
    }

    /// The payload of the next field, where only `tag` is due.
    fn field(&mut self, tag: Tag, length: usize) -> Result<Payload<'a>, Fault> {
        let header = self.header()?;
        if header.tag != Some(tag) {
            return Err(self.wrong_tag());
        }
        self.payload(header, length)
    }

    /// Tests that the file ends here.
    fn end(&self) -> Result<(), Fault> {
        if self.at < self.bytes.len() {
            return Err(Fault::new(Flaw::Extra, self.at));
        }
        Ok(())
    }

    fn cut(&self) -> Fault {
        Fault::new(Flaw::Cut, self.bytes.len())
    }

    fn wrong_tag(&self) -> Fault {
        Fault::new(Flaw::Tag, self.at)
    }
}

/// The payload of a field, and the place of its first byte in the file.
struct Payload<'a> {
    bytes: &'a [u8],
    start: usize,
}

impl Payload<'_> {
    /// The two-byte number at `offset`, which must be below `limit`.
    fn number_below(&self, offset: usize, limit: usize) -> Result<u16, Fault> {
        let number = number_at(self.bytes, offset);
        if usize::from(number) < limit {
            Ok(number)
        } else {
            Err(self.wrong_value(offset))
        }
    }

    /// The fault of a value that starts at `offset`.
    fn wrong_value(&self, offset: usize) -> Fault {
        Fault::new(Flaw::Value, self.start + offset)
    }
}

fn number_at(bytes: &[u8], offset: usize) -> u16 {
    u16::from_be_bytes([bytes[offset], bytes[offset + 1]])
}

/// The number of input bits and the number of output bits.
fn parse_sizes(payload: &Payload) -> Result<(usize, usize), Fault> {
    let size = |offset: usize| {
        let size = usize::from(payload.bytes[offset]);
        if BIT_COUNTS.contains(&size) {
            Ok(size)
        } else {
            Err(payload.wrong_value(offset))
        }
    };
    Ok((size(0)?, size(1)?))
}

fn test_entries(payload: &Payload, outputs: usize) -> Result<(), Fault> {
    let large = |&entry: &u8| usize::from(entry) >= 1 << outputs;
    match payload.bytes.iter().position(large) {
        Some(index) => Err(payload.wrong_value(index)),
        None => Ok(()),
    }
}

/// The cell that drives `wire`. An operand in use is below that wire; one
/// that is not in use is zero.
fn parse_cell(payload: &Payload, wire: usize) -> Result<Cell, Fault> {
    let kind = Kind::ALL
        .get(usize::from(payload.bytes[0]))
        .copied()
        .ok_or_else(|| payload.wrong_value(0))?;
    let table = payload.number_below(1, kind.table_limit() as usize)?;
    let mut operands = [0; 4];
    for (index, operand) in operands.iter_mut().enumerate() {
        let used = index < kind.operand_count();
        *operand = payload.number_below(3 + 2 * index, if used { wire } else { 1 })?;
    }
    Ok(Cell {
        kind,
        table,
        operands,
    })
}

fn test_outputs(payload: &Payload, wires: usize) -> Result<(), Fault> {
    (0..payload.bytes.len())
        .step_by(2)
        .try_for_each(|offset| payload.number_below(offset, wires).map(drop))
}

/// The file of a block.
pub fn write(block: &Block) -> Vec<u8> {
    let mut file = Vec::new();
    write_to(block, &mut file);
    file
}

/// Appends the file of a block to `file`.
pub fn write_to(block: &Block, file: &mut Vec<u8>) {
    let table = block.table();
    let cells = block.netlist().cells();
    let payloads = SIZES_BYTES + table.entries().len() + OUTPUT_BYTES * table.outputs();
    file.reserve(3 * HEADER_BYTES + payloads + cells.len() * (HEADER_BYTES + CELL_BYTES));

    push_header(file, Tag::Sizes, SIZES_BYTES);
    file.extend([table.inputs() as u8, table.outputs() as u8]);
    push_header(file, Tag::Entries, table.entries().len());
    file.extend(table.entries());
    for cell in cells {
        push_header(file, Tag::Cell, CELL_BYTES);
        file.extend(cell_bytes(cell));
    }
    push_header(file, Tag::Outputs, OUTPUT_BYTES * table.outputs());
    for &(d0, d1) in block.outputs() {
        file.extend(d0.to_be_bytes());
        file.extend(d1.to_be_bytes());
    }
}

fn push_header(file: &mut Vec<u8>, tag: Tag, length: usize) {
    let [high, low] = (length as u16).to_be_bytes();
    file.extend([tag as u8, high, low]);
}

fn cell_bytes(cell: &Cell) -> [u8; CELL_BYTES] {
    let mut bytes = [0; CELL_BYTES];
    bytes[0] = cell.kind.number() as u8;
    bytes[1..3].copy_from_slice(&cell.table.to_be_bytes());
    for (place, operand) in bytes[3..].chunks_exact_mut(2).zip(cell.operands) {
        place.copy_from_slice(&operand.to_be_bytes());
    }
    bytes
}
