//! A place to start from, in f64: where all net currents about vanish. It saves time and decides nothing: the search that starts there
//! ends at the same voltages from anywhere.

use crate::circuit::{Circuit, Curve, Kind};

const ROUNDS: usize = 30;
/// In microvolts: beyond nearly all that stored currents can bring about, and near enough for i128. Differences are then below 2^54, the net
/// currents of 32 elements below 2^90, so that the leak makes them low within 2^91; and at such voltages currents are below 2^127.
const FARTHEST: f64 = (1u64 << 52) as f64;

/// The straight line that a curve follows at `volts`: its slope, and its current at zero volts.
fn tangent(curve: &Curve, volts: f64) -> (f64, f64) {
    let slope = |index: usize| curve.slopes[index] as f64;
    let stretch = |volts: f64| curve.breakpoints.iter().filter(|&&point| point as f64 <= volts).count();
    let bend = |index: usize| (slope(index) - slope(index + 1)) * curve.breakpoints[index] as f64;
    let (here, zero) = (stretch(volts), stretch(0.0));
    let at_zero = if here >= zero { (zero..here).map(bend).sum() } else { -(here..zero).map(bend).sum::<f64>() };
    (slope(here), at_zero)
}

/// Elimination with partial pivoting, above and below; a row's last entry is its right side.
fn solved(mut rows: Vec<Vec<f64>>) -> Vec<f64> {
    let count = rows.len();
    for column in 0..count {
        let larger = |&one: &usize, &other: &usize| rows[one][column].abs().total_cmp(&rows[other][column].abs());
        let pivot = (column..count).max_by(larger).unwrap_or(column);
        rows.swap(column, pivot);
        let pivot_row = rows[column].clone();
        for (_, row) in rows.iter_mut().enumerate().filter(|(index, row)| *index != column && row[column] != 0.0) {
            let factor = row[column] / pivot_row[column];
            row.iter_mut().zip(&pivot_row).for_each(|(one, other)| *one -= factor * other);
        }
    }
    rows.iter().enumerate().map(|(index, row)| row[count] / row[index]).collect()
}

/// The linear system of one Newton round from `node`, a row for each free node.
fn system(circuit: &Circuit, stored: &[i128], node: &[f64]) -> Vec<Vec<f64>> {
    let free = circuit.nodes - circuit.driven;
    let row_of = |at: usize| at.checked_sub(circuit.driven + 1);
    let mut rows = vec![vec![0.0; free + 1]; free];
    rows.iter_mut().enumerate().for_each(|(index, row)| row[index] = circuit.leak as f64);
    for (element, &x) in circuit.elements.iter().zip(stored) {
        let (slope, at_zero) = match element.kind {
            Kind::Diode => tangent(&circuit.curves[element.curve], node[element.p] - node[element.q]),
            _ => (element.conductance as f64, -x as f64),
        };
        for (here, there, sign) in [(element.p, element.q, 1.0), (element.q, element.p, -1.0)] {
            let Some(row) = row_of(here) else { continue };
            rows[row][row] += slope;
            rows[row][free] -= sign * at_zero;
            match row_of(there) {
                Some(column) => rows[row][column] -= slope,
                None => rows[row][free] += slope * node[there],
            }
        }
    }
    rows
}

/// Ground, the drives, and for the free nodes where Newton's rounds come to rest or are cut off, rounded down.
pub fn voltages(circuit: &Circuit, stored: &[i128], drives: &[i128]) -> Vec<i128> {
    let first_free = circuit.driven + 1;
    let mut node = vec![0.0; circuit.nodes + 1];
    node.iter_mut().skip(1).zip(drives).for_each(|(place, &volts)| *place = volts as f64);
    for _ in 0..ROUNDS {
        let next = solved(system(circuit, stored, &node));
        let moved = node[first_free..].iter().zip(&next).any(|(old, new)| (old - new).abs() > 0.001);
        node[first_free..].copy_from_slice(&next);
        if !moved {
            break;
        }
    }
    // A NaN becomes 0 here, as good a place as any.
    node.iter().map(|&volts| volts.floor().clamp(-FARTHEST, FARTHEST) as i128).collect()
}
