//! A block: an image, a state, a number of samples and their drives in; a number, a count, outputs and the state after it out.

use crate::circuit::{Circuit, Kind, MOST_ELEMENTS};
use crate::image::{self, signed};
use crate::network::Network;
use crate::search;

pub const MOST_SAMPLES: u64 = 4_096;
pub const STATE_BYTES: usize = 8 * MOST_ELEMENTS;
const TOP: i128 = 1 << 25;
const DRIVE_LIMIT: i128 = 1 << 24;
const STORED_LIMIT: i128 = 1 << 57;

pub struct Outcome {
    pub number: u64,
    pub count: u64,
}

/// The stored currents that the state's bytes hold, or 7.
fn stored_currents(circuit: &Circuit, state: &[u8]) -> Result<Vec<i128>, u64> {
    if state.len() != STATE_BYTES {
        return Err(7);
    }
    let stored: Vec<i128> = state.chunks(8).map(signed).collect();
    let fits = |(index, &x): (usize, &i128)| match circuit.elements.get(index).map(|element| element.kind) {
        Some(Kind::Capacitor | Kind::Inductor) => x.abs() <= STORED_LIMIT,
        Some(Kind::Resistor | Kind::Diode) | None => x == 0,
    };
    if stored.iter().enumerate().all(fits) { Ok(stored) } else { Err(7) }
}

/// One sample: the output voltage and the stored currents after it, or 9, 10 or 11.
fn play(network: &Network, stored: &[i128], drives: &[i128]) -> Result<(i128, Vec<i128>), u64> {
    if drives.iter().any(|volts| volts.abs() > DRIVE_LIMIT) {
        return Err(9);
    }
    let node = search::voltages(network, stored, drives, TOP).ok_or(10u64)?;
    let after = network.advance(stored, &node);
    if after.iter().any(|x| x.abs() > STORED_LIMIT) {
        return Err(11);
    }
    Ok((node[network.circuit.output], after))
}

/// What numbers 1 to 8 decide: the circuit and its stored currents, if a block may begin.
fn admit(image: &[u8], state: &[u8], n: u64, drives: &[u8], outputs: &[u8]) -> Result<(Circuit, Vec<i128>), u64> {
    let circuit = image::read(image)?;
    let stored = stored_currents(&circuit, state)?;
    let short = |bytes: &[u8], places: u128| ((bytes.len() / 4) as u128) < places;
    if n > MOST_SAMPLES || short(drives, n as u128 * circuit.driven as u128) || short(outputs, n as u128) {
        return Err(8);
    }
    Ok((circuit, stored))
}

/// Plays a block. State and outputs are written sample by sample, so a refused sample leaves what the earlier ones wrote.
pub fn block(image: &[u8], state: &mut [u8], n: u64, drives: &[u8], outputs: &mut [u8]) -> Outcome {
    let (circuit, mut stored) = match admit(image, state, n, drives, outputs) {
        Ok(admitted) => admitted,
        Err(number) => return Outcome { number, count: 0 },
    };
    let network = Network::new(&circuit);
    for count in 0..n {
        let first = 4 * circuit.driven * count as usize;
        let now: Vec<i128> = drives[first..first + 4 * circuit.driven].chunks(4).map(signed).collect();
        let (output, after) = match play(&network, &stored, &now) {
            Ok(played) => played,
            Err(number) => return Outcome { number, count },
        };
        outputs[4 * count as usize..][..4].copy_from_slice(&(output as i32).to_le_bytes());
        for (place, x) in state.chunks_mut(8).zip(&after) {
            place.copy_from_slice(&(*x as i64).to_le_bytes());
        }
        stored = after;
    }
    Outcome { number: 0, count: n }
}
