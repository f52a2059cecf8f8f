//! Renders an image file and a drive file: one line per sample, then how it ended.

mod block;
mod circuit;
mod image;
mod network;
mod search;
mod start;

use std::io::{self, BufWriter, Write};

/// A file's bytes; none where it can't be read or wasn't named.
fn contents(name: Option<String>) -> Vec<u8> {
    name.and_then(|name| std::fs::read(name).ok()).unwrap_or_default()
}

fn main() -> io::Result<()> {
    let mut names = std::env::args().skip(1);
    let (image, drives) = (contents(names.next()), contents(names.next()));
    let mut lines = BufWriter::new(io::stdout().lock());
    let set = image::read(&image).map_or(0, |circuit| 4 * circuit.driven);
    let samples = drives.len().checked_div(set).unwrap_or(0);

    let mut state = [0; block::STATE_BYTES];
    let mut done = 0;
    // An image with no samples still goes through one empty block, which is where it may be refused.
    loop {
        let n = (samples - done).min(block::MOST_SAMPLES as usize);
        let mut outputs = vec![0; 4 * n];
        let outcome = block::block(&image, &mut state, n as u64, &drives[done * set..], &mut outputs);
        let count = outcome.count as usize;
        for place in outputs.chunks(4).take(count) {
            writeln!(lines, "{}", image::signed(place))?;
        }
        done += count;
        if outcome.number != 0 {
            return writeln!(lines, "refused {} after {done}", outcome.number);
        }
        if done == samples {
            return writeln!(lines, "end {done}");
        }
    }
}
