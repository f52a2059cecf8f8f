//! A curve from measured pairs, by document 02's first request. A slope is found by trying which one passes the measurement, without division.

/// Microvolts and femtoamperes.
pub type Pair = (i128, i128);

pub struct Curve {
    pub slopes: Vec<i128>,
    pub breakpoints: Vec<i128>,
}

const MOST_VOLTS: i128 = 1 << 26;
const MOST_CURRENT: i128 = 1 << 56;
const MOST_SLOPE: i128 = 1 << 30;

/// The rules of number 12, which only compare, so that a pair may be of any size.
fn legal(pairs: &[Pair]) -> bool {
    (2..=17).contains(&pairs.len())
        && pairs[0] == (0, 0)
        && pairs.windows(2).all(|two| two[0].0 < two[1].0 && two[0].1 <= two[1].1)
        && pairs.iter().all(|&(volts, current)| volts <= MOST_VOLTS && current <= MOST_CURRENT)
}

/// The largest slope that over `width` microvolts gains at most `gain` femtoamperes, which are not below zero.
fn largest_slope(width: i128, gain: i128) -> i128 {
    let passes = |slope: i128| slope * width > gain;
    let mut step = 1;
    while !passes(step) {
        step *= 2;
    }
    // From here on `slope` doesn't pass, and `slope + step` does.
    let mut slope = 0;
    while step > 1 {
        step /= 2;
        if !passes(slope + step) {
            slope += step;
        }
    }
    slope
}

/// The curve of these pairs, or 12 or 13. A stretch begins at the current that the curve itself has reached, so it makes up for what the ones
/// before it fell short.
pub fn curve(pairs: &[Pair]) -> Result<Curve, u64> {
    if !legal(pairs) {
        return Err(12);
    }
    let mut slopes = vec![0];
    let mut reached = 0;
    for two in pairs.windows(2) {
        let width = two[1].0 - two[0].0;
        let slope = largest_slope(width, two[1].1 - reached);
        if slope > MOST_SLOPE {
            return Err(13);
        }
        slopes.push(slope);
        reached += slope * width;
    }
    // The last pair bends nothing: its stretch's slope goes on.
    let breakpoints = pairs[..pairs.len() - 1].iter().map(|pair| pair.0).collect();
    Ok(Curve { slopes, breakpoints })
}
