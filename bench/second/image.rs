//! An image's bytes as a circuit, or the number of its refusal (1 to 6).
//! Each number is decided over the whole image before the next is looked at, so the lowest one that applies is given.

use crate::circuit::{self, Circuit, Curve, Header, Kind, Part};

/// As many bytes may an image have.
pub const LONGEST: usize = 1_360;
const TRAILER: usize = 16;
const RECORD: usize = 8;

/// The whole number that `bytes` are, lowest byte first.
fn whole(bytes: &[u8]) -> i128 {
    bytes.iter().rev().fold(0, |above, &byte| above * 256 + byte as i128)
}

/// The same, taken as a two's complement number of its own width.
pub fn signed(bytes: &[u8]) -> i128 {
    let value = whole(bytes);
    let span = 1 << (8 * bytes.len());
    if 2 * value < span { value } else { value - span }
}

struct Trailer {
    to_elements: usize,
    to_curves: usize,
    header: Header,
}

/// The trailer's fields, or 2. The two distances are handed on unread: they belong to number 3.
fn trailer(bytes: &[u8]) -> Result<Trailer, u64> {
    let header = Header {
        version: bytes[13] as i128,
        elements: bytes[4] as usize,
        curves: bytes[5] as usize,
        nodes: bytes[6] as i128,
        driven: bytes[7] as i128,
        rate: whole(&bytes[8..12]),
        output: bytes[12] as i128,
    };
    if !header.fits() || whole(&bytes[14..16]) != 16 {
        return Err(2);
    }
    Ok(Trailer { to_elements: whole(&bytes[0..2]) as usize, to_curves: whole(&bytes[2..4]) as usize, header })
}

/// Cuts the curve bytes into one piece for each curve, or gives 3 unless they are used up exactly.
fn split(mut bytes: &[u8], curves: usize) -> Result<Vec<&[u8]>, u64> {
    let mut pieces = Vec::new();
    for _ in 0..curves {
        let breakpoints = *bytes.first().ok_or(3u64)? as usize;
        let length = 8 + 8 * breakpoints;
        if !(1..=16).contains(&breakpoints) || bytes.len() < length {
            return Err(3);
        }
        let (piece, rest) = bytes.split_at(length);
        pieces.push(piece);
        bytes = rest;
    }
    if bytes.is_empty() { Ok(pieces) } else { Err(3) }
}

/// One curve from its own bytes, or 4.
fn curve(bytes: &[u8]) -> Result<Curve, u64> {
    let count = bytes[0] as usize;
    let (slopes, breakpoints) = bytes[4..].split_at(4 * (count + 1));
    let curve = Curve { slopes: slopes.chunks(4).map(whole).collect(), breakpoints: breakpoints.chunks(4).map(signed).collect() };
    if bytes[1..4] == [0, 0, 0] && curve.fits() { Ok(curve) } else { Err(4) }
}

/// One element's fields from its record, or 5 where there is no such kind.
fn part(bytes: &[u8]) -> Result<Part, u64> {
    let kind = match bytes[0] {
        1 => Kind::Resistor,
        2 => Kind::Capacitor,
        3 => Kind::Inductor,
        4 => Kind::Diode,
        _ => return Err(5),
    };
    Ok(Part { kind, p: bytes[1] as i128, q: bytes[2] as i128, curve: bytes[3] as i128, value: whole(&bytes[4..8]) })
}

/// What `image` says of the whole circuit, its curves and its parts, or the lowest number that refuses them. What is left of 5, and 6, the circuit decides.
pub fn fields(image: &[u8]) -> Result<(Header, Vec<Curve>, Vec<Part>), u64> {
    if image.len() < 24 || image.len() > LONGEST {
        return Err(1);
    }
    let (body, end) = image.split_at(image.len() - TRAILER);
    let Trailer { to_elements, to_curves, header } = trailer(end)?;
    if to_elements != body.len() || RECORD * header.elements + to_curves != body.len() {
        return Err(3);
    }
    let (records, curve_bytes) = body.split_at(RECORD * header.elements);
    let pieces = split(curve_bytes, header.curves)?;
    let curves = pieces.into_iter().map(curve).collect::<Result<Vec<_>, _>>()?;
    let parts = records.chunks(RECORD).map(part).collect::<Result<Vec<_>, _>>()?;
    Ok((header, curves, parts))
}

/// The circuit that `image` describes, or the lowest number that refuses it.
pub fn read(image: &[u8]) -> Result<Circuit, u64> {
    let (header, curves, parts) = fields(image)?;
    circuit::circuit(&header, curves, &parts)
}
