//! Writes each image that is named as a netlist, which is read back to the same parts in its version, or says why there is none. A netlist can't say a version,
//! so a comment does.

// Nothing is played here: of a circuit only its judgement and its curves are wanted.
#[allow(dead_code)]
mod circuit;
#[allow(dead_code)]
mod image;

use circuit::{Curve, Header, Kind, Part};
use std::io::{self, BufWriter, Write};

enum Refusal {
    Image(u64),
    /// A netlist has the nodes up to the highest that it names; the image has this many.
    Unnamed(i128),
}

/// All that an accepted image says.
struct Drawing {
    header: Header,
    parts: Vec<Part>,
    curves: Vec<Curve>,
}

fn accepted(image: &[u8]) -> Result<Drawing, u64> {
    let (header, curves, parts) = image::fields(image)?;
    let curves = circuit::circuit(&header, curves, &parts)?.curves;
    Ok(Drawing { header, parts, curves })
}

fn read(image: &[u8]) -> Result<Drawing, Refusal> {
    let drawing = accepted(image).map_err(Refusal::Image)?;
    let Header { nodes, output, .. } = drawing.header;
    let names = |node| node == output || drawing.parts.iter().any(|part| part.p == node || part.q == node);
    if names(nodes) { Ok(drawing) } else { Err(Refusal::Unnamed(nodes)) }
}

fn put_part(lines: &mut impl Write, number: usize, part: &Part) -> io::Result<()> {
    let &Part { kind, p, q, curve, value } = part;
    let (letter, last) = match kind {
        Kind::Resistor => ('R', value),
        Kind::Capacitor => ('C', value),
        Kind::Inductor => ('L', value),
        Kind::Diode => ('D', curve),
    };
    writeln!(lines, "{letter}{number} {p} {q} {last}")
}

/// Slopes and breakpoints in turn; there is one slope more.
fn put_curve(lines: &mut impl Write, curve: &Curve) -> io::Result<()> {
    let Curve { slopes, breakpoints } = curve;
    write!(lines, "curve {}", slopes[0])?;
    breakpoints.iter().zip(&slopes[1..]).try_for_each(|(breakpoint, slope)| write!(lines, " {breakpoint} {slope}"))?;
    writeln!(lines)
}

fn put(lines: &mut impl Write, drawing: &Drawing) -> io::Result<()> {
    let Header { version, driven, output, rate, .. } = drawing.header;
    writeln!(lines, "; version {version}\ndrives {driven}\noutput {output}\nrate {rate}")?;
    for (part, number) in drawing.parts.iter().zip(1..) {
        put_part(lines, number, part)?;
    }
    drawing.curves.iter().try_for_each(|curve| put_curve(lines, curve))
}

fn main() -> io::Result<()> {
    let mut lines = BufWriter::new(io::stdout().lock());
    for name in std::env::args_os().skip(1) {
        // A file that can't be read counts as empty.
        let image = std::fs::read(name).unwrap_or_default();
        match read(&image) {
            Ok(drawing) => put(&mut lines, &drawing)?,
            Err(Refusal::Image(number)) => writeln!(lines, "refused {number}")?,
            Err(Refusal::Unnamed(nodes)) => writeln!(lines, "unnamed {nodes}")?,
        }
    }
    lines.flush()
}
