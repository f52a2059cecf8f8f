//! A netlist's text as the parts that it names, by document 02's fourth request: each line is cut into words, which are judged one by one.
//! Of parts nothing is judged here but their values; numbers 2 to 6 are for the whole.

use crate::circuit::{Curve, Kind, Part};
use crate::{ohms, words};

pub struct Netlist {
    pub driven: i128,
    pub output: i128,
    pub rate: i128,
    pub curves: Vec<Curve>,
    pub parts: Vec<Part>,
}

/// 14 or 15, and on which line.
pub struct Fault {
    pub number: u64,
    pub line: usize,
}

const OUTSIDE: u64 = 14;
const VALUE: u64 = 15;

fn plain(word: &[u8]) -> Result<i128, u64> {
    words::whole(word).ok_or(OUTSIDE)
}

/// Keeps the one number of a line that may stand only once.
fn once(place: &mut Option<i128>, fields: &[&[u8]]) -> Result<(), u64> {
    let ([word], None) = (fields, &place) else { return Err(OUTSIDE) };
    *place = Some(plain(word)?);
    Ok(())
}

/// Slopes with breakpoints between them, so an odd number of words.
fn curve(fields: &[&[u8]]) -> Result<Curve, u64> {
    if fields.len() % 2 == 0 {
        return Err(OUTSIDE);
    }
    let slopes = fields.iter().step_by(2).map(|word| plain(word)).collect::<Result<_, _>>()?;
    let breakpoints = fields.iter().skip(1).step_by(2).map(|word| words::signed(word).ok_or(OUTSIDE)).collect::<Result<_, _>>()?;
    Ok(Curve { slopes, breakpoints })
}

/// An element by its name, nodes and value; the value comes last, so that what else is wrong has been found when it is judged.
fn part(name: &[u8], fields: &[&[u8]]) -> Result<Part, u64> {
    let kind = match name[0] {
        b'R' => Kind::Resistor,
        b'C' => Kind::Capacitor,
        b'L' => Kind::Inductor,
        b'D' => Kind::Diode,
        _ => return Err(OUTSIDE),
    };
    let named = name.iter().all(|&byte| byte.is_ascii_alphanumeric() || byte == b'_');
    let (true, [p, q, value @ ..]) = (named, fields) else { return Err(OUTSIDE) };
    let (p, q) = (plain(p)?, plain(q)?);
    let (curve, value) = match (kind, value) {
        (Kind::Resistor, words) => (0, ohms::value(words).ok_or(OUTSIDE)?.ok_or(VALUE)?),
        (Kind::Diode, [word]) => (plain(word)?, 0),
        (_, [word]) => (0, ohms::stage(plain(word)?).ok_or(VALUE)?),
        _ => return Err(OUTSIDE),
    };
    Ok(Part { kind, p, q, curve, value })
}

/// What the lines so far have named; of those that stand once, drives, output and rate in turn.
#[derive(Default)]
struct Named {
    once: [Option<i128>; 3],
    curves: Vec<Curve>,
    parts: Vec<Part>,
}

impl Named {
    fn take(&mut self, line: &[&[u8]]) -> Result<(), u64> {
        match line {
            [] => {}
            [b"drives", fields @ ..] => once(&mut self.once[0], fields)?,
            [b"output", fields @ ..] => once(&mut self.once[1], fields)?,
            [b"rate", fields @ ..] => once(&mut self.once[2], fields)?,
            [b"curve", fields @ ..] => self.curves.push(curve(fields)?),
            [name, fields @ ..] => self.parts.push(part(name, fields)?),
        }
        Ok(())
    }
}

/// What a text names, or its first fault.
pub fn read(text: &[u8]) -> Result<Netlist, Fault> {
    if text.len() > words::MOST_BYTES {
        return Err(Fault { number: OUTSIDE, line: 0 });
    }
    let mut named = Named::default();
    let mut line = 1;
    for words in words::lines(text) {
        named.take(&words).map_err(|number| Fault { number, line })?;
        line += 1;
    }
    // A line that is missing is missed where the text ends.
    let Named { once: [Some(driven), Some(output), Some(rate)], curves, parts } = named else {
        return Err(Fault { number: OUTSIDE, line });
    };
    Ok(Netlist { driven, output, rate, curves, parts })
}
