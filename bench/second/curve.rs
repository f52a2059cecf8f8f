//! Makes a curve of each text of measured pairs that is named: a line of slopes and one of breakpoints, or the number that refuses it.

mod measured;
mod words;

use measured::Pair;
use std::io::{self, BufWriter, Write};
use words::{MOST_BYTES, put};

/// The number that a word is, or 12.
fn number(word: &[u8]) -> Result<i128, u64> {
    words::signed(word).ok_or(12)
}

/// The pairs of a text, not yet judged, or 12.
fn read(text: &[u8]) -> Result<Vec<Pair>, u64> {
    if text.len() > MOST_BYTES {
        return Err(12);
    }
    let mut pairs = Vec::new();
    for line in words::lines(text) {
        match line[..] {
            [] => {}
            [volts, current] => pairs.push((number(volts)?, number(current)?)),
            _ => return Err(12),
        }
    }
    Ok(pairs)
}

fn main() -> io::Result<()> {
    let mut lines = BufWriter::new(io::stdout().lock());
    for name in std::env::args_os().skip(1) {
        // A file that can't be read counts as empty.
        let text = std::fs::read(name).unwrap_or_default();
        match read(&text).and_then(|pairs| measured::curve(&pairs)) {
            Ok(curve) => {
                put(&mut lines, "slopes", &curve.slopes)?;
                put(&mut lines, "breakpoints", &curve.breakpoints)?;
            }
            Err(number) => writeln!(lines, "refused {number}")?,
        }
    }
    lines.flush()
}
