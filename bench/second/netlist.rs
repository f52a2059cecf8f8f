//! Reads netlists: of each two arguments the first names a text and the second a file for its image. In front of a text may stand `-` and a number, the version
//! of this text and all after it. Writes the parts that the text describes, and how far its voltages are to be trusted, or what refuses it.

mod circuit;
mod drawn;
mod image;
mod ohms;
mod schematic;
mod words;
mod writer;

use circuit::{Circuit, Element, Kind, Part};
use drawn::{Drawn, Refusal};
use schematic::Fault;
use std::ffi::OsStr;
use std::fs;
use std::io::{self, BufWriter, Write};
use std::path::Path;

/// An element's line; a diode has a curve where the others have a value and a conductance.
fn put_element(lines: &mut impl Write, part: &Part, element: &Element) -> io::Result<()> {
    let Part { p, q, curve, value, .. } = part;
    let conductance = element.conductance;
    let letter = match element.kind {
        Kind::Resistor => 'R',
        Kind::Capacitor => 'C',
        Kind::Inductor => 'L',
        Kind::Diode => return writeln!(lines, "D {p} {q} {curve}"),
    };
    writeln!(lines, "{letter} {p} {q} {value} {conductance}")
}

/// A node's held conductance and its steepest sum.
fn sums(circuit: &Circuit, node: usize) -> (i128, i128) {
    let (mut held, mut steepest) = (circuit.leak, circuit.leak);
    for element in circuit.elements.iter().filter(|one| one.p == node || one.q == node) {
        let other = if element.p == node { element.q } else { element.p };
        if element.kind == Kind::Diode {
            steepest += circuit.curves[element.curve].slopes.iter().max().copied().unwrap_or(0);
        } else {
            steepest += element.conductance;
            held += if other <= circuit.driven { element.conductance } else { 0 };
        }
    }
    (held, steepest)
}

fn put(lines: &mut impl Write, drawn: &Drawn) -> io::Result<()> {
    let Drawn { header, circuit, .. } = drawn;
    writeln!(lines, "version {}\nnodes {}\ndrives {}\noutput {}", header.version, header.nodes, header.driven, header.output)?;
    writeln!(lines, "rate {}\nelements {}\ncurves {}", header.rate, header.elements, header.curves)?;
    for (part, element) in drawn.parts.iter().zip(&circuit.elements) {
        put_element(lines, part, element)?;
    }
    for curve in &circuit.curves {
        words::put(lines, "slopes", &curve.slopes)?;
        words::put(lines, "breakpoints", &curve.breakpoints)?;
    }
    let mut greatest = 0;
    for node in circuit.driven + 1..=circuit.nodes {
        let (held, steepest) = sums(circuit, node);
        let least = (steepest + held - 1) / held;
        writeln!(lines, "{node} {held} {steepest} {least}")?;
        greatest = greatest.max(least);
    }
    writeln!(lines, "greatest {greatest}")
}

/// Gives the file these bytes, all of them; where that fails, it stays as it was, and so does what is no regular file.
fn replace(file: &Path, bytes: &[u8]) -> io::Result<()> {
    if fs::symlink_metadata(file).is_ok_and(|known| !known.is_file()) {
        return Err(io::Error::other("not a regular file"));
    }
    let mut beside = file.as_os_str().to_owned();
    beside.push(".part");
    fs::write(&beside, bytes).and_then(|()| fs::rename(&beside, file)).inspect_err(|_| {
        let _ = fs::remove_file(&beside);
    })
}

/// Writes a circuit's image to the file, or says why it can't.
fn keep(drawn: &Drawn, file: &Path) {
    let mut image = [0; image::LONGEST];
    let length = drawn.write(&mut image).expect("parts that were judged have an image");
    if let Err(error) = replace(file, &image[..length]) {
        eprintln!("{}: {error}", file.display());
    }
}

/// The version that a word in a text's place asks for, if it is no text's name.
fn asked(word: &OsStr) -> Option<i128> {
    words::whole(word.as_encoded_bytes().strip_prefix(b"-")?)
}

fn main() -> io::Result<()> {
    let mut lines = BufWriter::new(io::stdout().lock());
    let mut version = drawn::VERSION;
    let mut arguments = std::env::args_os().skip(1);
    while let Some(word) = arguments.next() {
        if let Some(other) = asked(&word) {
            version = other;
            continue;
        }
        let image = arguments.next();
        // A file that can't be read counts as empty.
        let text = fs::read(&word).unwrap_or_default();
        match drawn::read_in(version, &text) {
            Ok(drawn) => {
                put(&mut lines, &drawn)?;
                // A text alone, or with `-`, is only shown.
                if let Some(file) = image.filter(|name| name != "-") {
                    keep(&drawn, Path::new(&file));
                }
            }
            Err(Refusal::Text(Fault { number, line })) => writeln!(lines, "refused {number} line {line}")?,
            Err(Refusal::Parts(number)) => writeln!(lines, "refused {number}")?,
        }
    }
    lines.flush()
}
