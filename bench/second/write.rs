//! Writes the image of each raw record's parts into its buffer: the number, the length and the buffer afterwards, record by record. The arguments name files of
//! records, and bench/README.md has what a record is.

// A circuit is made only to see whether there is one.
#[allow(dead_code)]
mod circuit;
mod image;
mod writer;

use std::io::{self, BufWriter, Write};
use writer::{Curve, Element, Parts};

const RECORD: usize = 1_334;

/// The fields of a record that are not taken yet.
struct Fields<'a>(&'a [u8]);

impl Fields<'_> {
    fn bytes<const WIDTH: usize>(&mut self) -> [u8; WIDTH] {
        let (field, rest) = self.0.split_first_chunk().expect("a record is whole");
        self.0 = rest;
        *field
    }

    fn byte(&mut self) -> u8 {
        u8::from_le_bytes(self.bytes())
    }

    fn word(&mut self) -> u32 {
        u32::from_le_bytes(self.bytes())
    }

    fn signed(&mut self) -> i32 {
        i32::from_le_bytes(self.bytes())
    }
}

fn element(fields: &mut Fields) -> Element {
    Element { kind: fields.byte(), p: fields.byte(), q: fields.byte(), curve: fields.byte(), value: fields.word() }
}

fn curve(fields: &mut Fields) -> Curve {
    let count = fields.byte();
    let slopes = (0..17).map(|_| fields.word()).collect();
    let breakpoints = (0..16).map(|_| fields.signed()).collect();
    Curve { count, slopes, breakpoints }
}

/// Fields of a struct are taken in the order in which they are written here.
fn parts(fields: &mut Fields) -> Parts {
    Parts {
        nodes: fields.byte(),
        driven: fields.byte(),
        output: fields.byte(),
        rate: fields.word(),
        element_count: fields.byte(),
        curve_count: fields.byte(),
        elements: (0..32).map(|_| element(fields)).collect(),
        curves: (0..8).map(|_| curve(fields)).collect(),
    }
}

fn answer(record: &[u8], answers: &mut impl Write) -> io::Result<()> {
    let mut fields = Fields(record);
    let room = u16::from_le_bytes(fields.bytes()) as usize;
    let [given, version, _parts_own] = fields.bytes();
    let parts = parts(&mut fields);
    // Every byte is unlike its neighbours, so that one that is lost or moved is seen.
    let mut buffer: Vec<u8> = (0..room).map(|place| ((7 * place + 165) % 256) as u8).collect();
    let written = writer::write((given != 0).then_some(version), &parts, &mut buffer);
    let (number, length) = written.map_or_else(|number| (number, 0), |length| (0, length as u64));
    answers.write_all(&number.to_le_bytes())?;
    answers.write_all(&length.to_le_bytes())?;
    answers.write_all(&buffer)
}

fn main() -> io::Result<()> {
    let mut answers = BufWriter::new(io::stdout().lock());
    for name in std::env::args_os().skip(1) {
        // A file that can't be read counts as empty.
        let records = std::fs::read(name).unwrap_or_default();
        for record in records.chunks_exact(RECORD) {
            answer(record, &mut answers)?;
        }
    }
    answers.flush()
}
