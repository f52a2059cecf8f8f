//! A netlist's text as a circuit, with what refuses it, and as its image.

use crate::circuit::{self, Circuit, Curve, Header, Part};
use crate::schematic::{self, Fault, Netlist};
use crate::writer;

/// The version that a netlist is read in; its text can't say one.
pub const VERSION: i128 = 2;

pub enum Refusal {
    Text(Fault),
    Parts(u64),
}

/// A circuit with what it does not keep of its netlist.
pub struct Drawn {
    pub header: Header,
    pub circuit: Circuit,
    pub parts: Vec<Part>,
}

/// A netlist as a circuit, by the rules for an image's parts; 3 is left for curves of a wrong size.
fn judged(netlist: Netlist) -> Result<Drawn, u64> {
    let Netlist { driven, output, rate, curves, parts } = netlist;
    let nodes = parts.iter().flat_map(|part| [part.p, part.q]).fold(output, i128::max);
    let header = Header { version: VERSION, elements: parts.len(), curves: curves.len(), nodes, driven, rate, output };
    if !header.fits() {
        return Err(2);
    }
    if !curves.iter().all(|curve| (1..=16).contains(&curve.breakpoints.len())) {
        return Err(3);
    }
    if !curves.iter().all(Curve::fits) {
        return Err(4);
    }
    Ok(Drawn { circuit: circuit::circuit(&header, curves, &parts)?, header, parts })
}

pub fn read(text: &[u8]) -> Result<Drawn, Refusal> {
    judged(schematic::read(text).map_err(Refusal::Text)?).map_err(Refusal::Parts)
}

/// The same in another version, which is looked at only where nothing else refuses the text.
pub fn read_in(version: i128, text: &[u8]) -> Result<Drawn, Refusal> {
    let Drawn { header, circuit, parts } = read(text)?;
    let header = Header { version, ..header };
    if !header.fits() {
        return Err(Refusal::Parts(2));
    }
    Ok(Drawn { header, circuit: Circuit { leak: circuit::leak(version), ..circuit }, parts })
}

/// The same parts in the image's widths, which they fit, since they have been judged.
fn in_widths(drawn: &Drawn) -> writer::Parts {
    let element = |part: &Part| writer::Element {
        kind: part.kind as u8,
        p: part.p as u8,
        q: part.q as u8,
        curve: part.curve as u8,
        value: part.value as u32,
    };
    let curve = |curve: &Curve| writer::Curve {
        count: curve.breakpoints.len() as u8,
        slopes: curve.slopes.iter().map(|&slope| slope as u32).collect(),
        breakpoints: curve.breakpoints.iter().map(|&volts| volts as i32).collect(),
    };
    let circuit = &drawn.circuit;
    writer::Parts {
        nodes: circuit.nodes as u8,
        driven: circuit.driven as u8,
        output: circuit.output as u8,
        rate: drawn.header.rate as u32,
        element_count: drawn.parts.len() as u8,
        curve_count: circuit.curves.len() as u8,
        elements: drawn.parts.iter().map(element).collect(),
        curves: circuit.curves.iter().map(curve).collect(),
    }
}

impl Drawn {
    /// Writes its image, of its own version, into the buffer, as `writer::write` does.
    pub fn write(&self, buffer: &mut [u8]) -> Result<usize, u64> {
        writer::write(Some(self.header.version as u8), &in_widths(self), buffer)
    }
}
