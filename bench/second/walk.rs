//! Holds curves from measured pairs against brute force on small random lists: slopes are counted up from 0, and a curve is walked microvolt by
//! microvolt, a slope being what one of them adds.

use crate::brute::Dice;
use crate::measured::{self, Curve, Pair};

/// What the curve gains from `volts` to the next microvolt.
fn gain(curve: &Curve, volts: i128) -> i128 {
    curve.slopes[curve.breakpoints.iter().filter(|&&point| point <= volts).count()]
}

/// A list whose stretches are narrow enough to be walked, its currents in steps of at most `most`.
fn list(dice: &mut Dice, most: i64) -> Vec<Pair> {
    let mut pairs: Vec<Pair> = vec![(0, 0)];
    for index in 0..dice.roll(1, 16) as usize {
        let (volts, current) = pairs[index];
        pairs.push((volts + dice.roll(1, 9) as i128, current + dice.roll(0, most) as i128));
    }
    pairs
}

/// So many random lists; how many, and how many of their slopes the measured difference alone would have made smaller.
pub fn lists(dice: &mut Dice, rounds: usize) -> (usize, usize) {
    let mut made_up = 0;
    for round in 0..rounds {
        let most = dice.one_of([2, 12, 300]);
        let pairs = list(dice, most);
        let curve = measured::curve(&pairs).unwrap_or_else(|number| panic!("round {round}: refused {number}"));
        assert_eq!((curve.slopes.len(), curve.breakpoints.len()), (pairs.len(), pairs.len() - 1), "round {round}");
        let mut now = 0;
        for (two, &slope) in pairs.windows(2).zip(&curve.slopes[1..]) {
            let ((from, before), (to, wanted)) = (two[0], two[1]);
            let largest = |start: i128| {
                let fits = |slope: &i128| (from..to).fold(start, |current, _| current + slope) <= wanted;
                (0..).take_while(fits).last()
            };
            assert_eq!(Some(slope), largest(now), "round {round}");
            made_up += (Some(slope) > largest(before)) as usize;
            now = (from..to).fold(now, |current, volts| current + gain(&curve, volts));
            assert!(now <= wanted && wanted < now + (to - from), "round {round}: {now} for {wanted} at {to}");
        }
        let last = pairs[pairs.len() - 1].0;
        assert_eq!((gain(&curve, -1), gain(&curve, last)), (0, gain(&curve, last - 1)), "round {round}");
    }
    (rounds, made_up)
}
