//! Rows of document 01's table and bench cases that no rendering meets: a state to begin with, lengths that do not fit.

use crate::block::{block, STATE_BYTES};

/// The capacitor of 10,000 pF alone on a free node, at 48,000 Hz, no drives.
const ALONE: [u8; 24] =
    [2, 1, 0, 0, 0x10, 0x27, 0, 0, 8, 0, 0, 0, 1, 0, 1, 0, 0x80, 0xBB, 0, 0, 1, 1, 16, 0];
const VERSION_OF_ALONE: usize = 21;

/// The whole example: 1000 ohm from driven node 1 to free node 2, 1000 ohm from 2 to ground.
const EXAMPLE: [u8; 32] = [
    1, 1, 2, 0, 0xE8, 3, 0, 0, 1, 2, 0, 0, 0xE8, 3, 0, 0, 16, 0, 0, 0, 2, 0, 2, 1, 0x80, 0xBB, 0, 0, 2, 1, 16, 0,
];

fn state_with(place: usize, stored: i64) -> [u8; STATE_BYTES] {
    let mut state = [0; STATE_BYTES];
    state[8 * place..][..8].copy_from_slice(&stored.to_le_bytes());
    state
}

/// A sample's number, its output and its stored current afterwards.
type Sample = (u64, i32, i64);

/// One sample of the capacitor alone, in an image of this version.
fn alone(version: u8, stored: i64) -> Sample {
    let mut image = ALONE;
    image[VERSION_OF_ALONE] = version;
    let mut state = state_with(0, stored);
    let mut output = [0; 4];
    let outcome = block(&image, &mut state, 1, &[], &mut output);
    (outcome.number, i32::from_le_bytes(output), i64::from_le_bytes(state[..8].try_into().unwrap()))
}

/// A block of the example: its number and count.
fn example(state: &mut [u8], n: u64, drives: usize, outputs: usize) -> (u64, u64) {
    let mut places = vec![0xA5; outputs];
    let outcome = block(&EXAMPLE, state, n, &vec![0; drives], &mut places);
    assert!(places[4 * outcome.count as usize..].iter().all(|&byte| byte == 0xA5), "a place past the count was written");
    (outcome.number, outcome.count)
}

/// What the highest and the lowest stored current that the rail lets pass come to, and those one beyond: found and wanted. The stored current
/// afterwards is 2 x 960,000 nS x volts - the one before.
fn at_the_rail(version: u8, high: i64, low: i64) -> [(Sample, Sample); 4] {
    [
        (alone(version, high), (0, 33_554_431, 1_920_000 * 33_554_431 - high)),
        (alone(version, high + 1), (10, 0, high + 1)),
        (alone(version, low), (0, -33_554_432, 1_920_000 * -33_554_432 - low)),
        (alone(version, low - 1), (10, 0, low - 1)),
    ]
}

pub fn check() -> usize {
    // The rail is reached at 33,554,432 times the capacitor's 960,000 nS and the leak; document 01 has the numbers of version 1.
    let versions = [
        at_the_rail(1, 32_212_288_274_431, -32_212_288_274_432),
        at_the_rail(2, 32_212_590_264_319, -32_212_590_264_320),
    ];
    let beyond = [
        (alone(1, 1 << 57), (10, 0, 1 << 57)),
        (alone(1, (1 << 57) + 1), (7, 0, (1 << 57) + 1)),
        (alone(1, i64::MIN), (7, 0, i64::MIN)),
    ];
    let rails = [versions.concat(), beyond.to_vec()].concat();
    let fresh = || [0; STATE_BYTES];
    let lengths = [
        (example(&mut fresh(), 0, 0, 0), (0, 0)),
        (example(&mut fresh(), 4_096, 4 * 4_096, 4 * 4_096), (0, 4_096)),
        (example(&mut fresh(), 4_096, 4 * 4_096 + 3, 4 * 4_096 + 9), (0, 4_096)),
        (example(&mut fresh(), 4_097, 4 * 5_000, 4 * 5_000), (8, 0)),
        (example(&mut fresh(), u64::MAX, 8, 8), (8, 0)),
        (example(&mut fresh(), 3, 11, 12), (8, 0)),
        (example(&mut fresh(), 3, 12, 11), (8, 0)),
        (example(&mut fresh()[1..], 1, 4, 4), (7, 0)),
        (example(&mut [], 5_000, 4, 4), (7, 0)),
        (example(&mut state_with(0, 1), 1, 4, 4), (7, 0)),
        (example(&mut state_with(31, -1), 1, 4, 4), (7, 0)),
    ];
    rails.iter().for_each(|(found, wanted)| assert_eq!(found, wanted));
    lengths.iter().for_each(|(found, wanted)| assert_eq!(found, wanted));
    rails.len() + lengths.len()
}
