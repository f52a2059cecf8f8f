//! Texts as measured pairs and netlists have them, lines of words with a comment or none, and numbers as words.

use std::io::{self, Write};

/// As many may a text have.
pub const MOST_BYTES: usize = 65_535;

fn blank(byte: &u8) -> bool {
    matches!(byte, b' ' | b'\t' | b'\r')
}

/// The words of each line before its comment. A line feed ends a line and begins none.
pub fn lines(text: &[u8]) -> impl Iterator<Item = Vec<&[u8]>> {
    text.split_inclusive(|&byte| byte == b'\n').map(|line| {
        let end = line.iter().position(|byte| matches!(byte, b';' | b'\n')).unwrap_or(line.len());
        line[..end].split(blank).filter(|word| !word.is_empty()).collect()
    })
}

/// The number that a word of digits is. One too long for i128 becomes the end of it, which breaks the same rules.
pub fn whole(word: &[u8]) -> Option<i128> {
    let next = |above: i128, digit: &u8| above.saturating_mul(10).saturating_add((digit - b'0') as i128);
    let digits = !word.is_empty() && word.iter().all(u8::is_ascii_digit);
    digits.then(|| word.iter().fold(0, next))
}

/// The same with a minus before the digits, or without.
pub fn signed(word: &[u8]) -> Option<i128> {
    let (sign, digits) = word.strip_prefix(b"-").map_or((1, word), |digits| (-1, digits));
    whole(digits).map(|size| sign * size)
}

/// Writes a line: a name and numbers.
pub fn put(lines: &mut impl Write, name: &str, numbers: &[i128]) -> io::Result<()> {
    write!(lines, "{name}")?;
    numbers.iter().try_for_each(|number| write!(lines, " {number}"))?;
    writeln!(lines)
}
