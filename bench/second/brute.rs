//! Holds the second program's samples against brute force on random circuits, and its net currents, which go by each node's elements, against a
//! look at all.
//!
//! Three references of a sample, none with sets or steps, all with their own currents (a curve's is a sum of hinges):
//! - in a small range, all assignments are gone through, as the definition of the answer says;
//! - with small currents, nodes are lowered by one microvolt while a net current is above zero;
//! - with real parts, one node after the other falls from the top to the highest voltage that its net current allows, found by bisection over
//!   the whole range, until none falls any more.

use crate::{block, image, network, search};

/// One element as the reference sees it. `slopes` is empty for all but a diode.
#[derive(Clone, Default)]
struct Part {
    kind: u8,
    p: usize,
    q: usize,
    curve: u8,
    value: u32,
    conductance: i64,
    slopes: Vec<i64>,
    breakpoints: Vec<i64>,
}

#[derive(Default)]
struct Reference {
    version: u8,
    nodes: usize,
    driven: usize,
    parts: Vec<Part>,
}

const RATE: u32 = 8_000;
const TOP: i64 = 33_554_432;

/// What random circuits are made of. Of three numbers one is drawn first, so that weak and stiff parts meet.
struct Parts {
    most_conductance: [i64; 3],
    most_picofarads: [i64; 3],
    microhenries: [i64; 2],
    most_slope: [i64; 3],
}

/// From one nanosiemens to links that are stiff against the leak.
const SMALL: Parts = Parts {
    most_conductance: [3, 60, 20_000],
    most_picofarads: [1, 3, 5],
    microhenries: [400_000_000, 4_200_000_000],
    most_slope: [2, 40, 900],
};

/// Those of pedals.
const REAL: Parts = Parts {
    most_conductance: [10_000, 1_000_000, 100_000_000],
    most_picofarads: [1_000, 100_000, 10_000_000],
    microhenries: [1_000, 10_000_000],
    most_slope: [1_000, 1_000_000, 500_000_000],
};

/// A small generator of numbers with a fixed beginning (xorshift, 64 bits).
pub struct Dice(pub u64);

impl Dice {
    /// A whole number from `low` to `high`.
    pub fn roll(&mut self, low: i64, high: i64) -> i64 {
        self.0 ^= self.0 << 13;
        self.0 ^= self.0 >> 7;
        self.0 ^= self.0 << 17;
        low + (self.0 >> 8) as i64 % (high - low + 1)
    }

    pub fn one_of(&mut self, numbers: [i64; 3]) -> i64 {
        numbers[self.roll(0, 2) as usize]
    }

    fn roll_up_to(&mut self, most: [i64; 3]) -> i64 {
        let most = self.one_of(most);
        self.roll(1, most)
    }
}

/// Of the whole numbers around a quotient the one that misses it least, and of two that miss it alike the greater.
fn nearest(over: i64, under: i64) -> i64 {
    let around = over / under;
    (around..=around + 1).min_by_key(|&one| ((one * under - over).abs(), -one)).unwrap()
}

impl Part {
    fn current(&self, volts: i64, stored: i64) -> i64 {
        if self.kind != 4 {
            return self.conductance * volts - stored;
        }
        // The first slope throughout, and at each breakpoint a hinge that adds the change of slope above it.
        let hinge = |(index, &point): (usize, &i64)| {
            (self.slopes[index + 1] - self.slopes[index]) * ((volts - point).max(0) - (-point).max(0))
        };
        self.slopes[0] * volts + self.breakpoints.iter().enumerate().map(hinge).sum::<i64>()
    }
}

impl Reference {
    /// Of every free node, in nanosiemens.
    fn leak(&self) -> i64 {
        [1, 10][self.version as usize - 1]
    }

    fn net(&self, at: usize, node: &[i64], stored: &[i64]) -> i64 {
        let mut sum = self.leak() * node[at];
        for (part, &x) in self.parts.iter().zip(stored) {
            let current = part.current(node[part.p] - node[part.q], x);
            sum += if part.p == at { current } else { 0 };
            sum -= if part.q == at { current } else { 0 };
        }
        sum
    }

    fn low(&self, node: &[i64], stored: &[i64]) -> bool {
        (self.driven + 1..=self.nodes).all(|at| self.net(at, node, stored) <= 0)
    }

    /// The definition itself, over every assignment from `-top` to `top`.
    fn by_definition(&self, drives: &[i64], stored: &[i64], top: i64) -> Option<Vec<i64>> {
        let mut node = vec![-top; self.nodes + 1];
        node[0] = 0;
        node[1..=self.driven].copy_from_slice(drives);
        let mut greatest: Option<Vec<i64>> = None;
        loop {
            if self.low(&node, stored) {
                let so_far = greatest.get_or_insert_with(|| node.clone());
                so_far.iter_mut().zip(&node).for_each(|(most, &volts)| *most = volts.max(*most));
            }
            let Some(next) = (self.driven + 1..=self.nodes).find(|&at| node[at] < top) else { break };
            node[self.driven + 1..next].fill(-top);
            node[next] += 1;
        }
        let found = greatest?;
        assert!(self.low(&found, stored), "the highest voltages of all low assignments are not low together");
        (!found[self.driven + 1..].contains(&top)).then_some(found)
    }

    /// By lowering one microvolt at a time. No low assignment has a node above `roof`: its highest node, if higher than ground
    /// and drives, lets no current in but what is stored, and its leak alone would carry more than that out.
    fn by_microvolts(&self, drives: &[i64], stored: &[i64]) -> Vec<i64> {
        let roof = drives.iter().fold(0, |most, &volts| most.max(volts)) + stored.iter().map(|x| x.abs()).sum::<i64>();
        let mut node = vec![roof; self.nodes + 1];
        node[0] = 0;
        node[1..=self.driven].copy_from_slice(drives);
        while let Some(at) = (self.driven + 1..=self.nodes).find(|&at| self.net(at, &node, stored) > 0) {
            node[at] -= 1;
        }
        node
    }

    /// By bisection, one node after the other from the top. None if that takes too many turns; within it, none for the rail.
    fn by_bisection(&self, drives: &[i64], stored: &[i64]) -> Option<Option<Vec<i64>>> {
        let mut node = vec![TOP; self.nodes + 1];
        node[0] = 0;
        node[1..=self.driven].copy_from_slice(drives);
        for _ in 0..500 {
            let mut fell = false;
            for at in self.driven + 1..=self.nodes {
                // The highest voltage that is allowed lies from `low` to `high`, if it is in range.
                let (mut low, mut high) = (-TOP - 1, node[at]);
                let before = node[at];
                while low < high {
                    node[at] = low + (high - low + 1) / 2;
                    if self.net(at, &node, stored) <= 0 { low = node[at] } else { high = node[at] - 1 }
                }
                if low < -TOP {
                    return Some(None);
                }
                node[at] = low;
                fell |= low < before;
            }
            if !fell {
                return Some((!node[self.driven + 1..].contains(&TOP)).then_some(node));
            }
        }
        None
    }

    fn advance(&self, node: &[i64], stored: &mut [i64]) {
        for (part, x) in self.parts.iter().zip(stored) {
            let twice = 2 * part.conductance * (node[part.p] - node[part.q]);
            *x = [0, 0, twice - *x, *x - twice, 0][part.kind as usize];
        }
    }

    fn image(&self) -> Vec<u8> {
        let mut bytes = Vec::new();
        for part in &self.parts {
            bytes.extend([part.kind, part.p as u8, part.q as u8, part.curve]);
            bytes.extend(part.value.to_le_bytes());
        }
        let records = bytes.len();
        let diodes: Vec<&Part> = self.parts.iter().filter(|part| part.kind == 4).collect();
        for diode in &diodes {
            bytes.extend([diode.breakpoints.len() as u8, 0, 0, 0]);
            diode.slopes.iter().for_each(|&slope| bytes.extend((slope as u32).to_le_bytes()));
            diode.breakpoints.iter().for_each(|&volts| bytes.extend((volts as i32).to_le_bytes()));
        }
        let (body, counts) = (bytes.len(), [self.parts.len() as u8, diodes.len() as u8, self.nodes as u8, self.driven as u8]);
        bytes.extend((body as u16).to_le_bytes());
        bytes.extend(((body - records) as u16).to_le_bytes());
        bytes.extend(counts);
        bytes.extend(RATE.to_le_bytes());
        bytes.extend([self.nodes as u8, self.version, 16, 0]);
        bytes
    }

    /// A circuit of either version and of `free` free nodes, its curves bent within `width` microvolts.
    fn random(dice: &mut Dice, free: usize, parts: &Parts, width: i64) -> Reference {
        let driven = dice.roll(0, 2) as usize;
        let mut made = Reference { version: dice.roll(1, 2) as u8, nodes: driven + free, driven, parts: Vec::new() };
        let mut curves = 0;
        for _ in 0..dice.roll(1, 3 * free as i64 + 2) {
            let p = dice.roll(0, made.nodes as i64) as usize;
            let q = (p + dice.roll(1, made.nodes as i64) as usize) % (made.nodes + 1);
            let kind = dice.roll(1, if curves < 8 { 4 } else { 3 }) as u8;
            let mut part = Part { kind, p, q, ..Part::default() };
            let rate = RATE as i64;
            let value = match kind {
                1 => 1_000_000_000 / dice.roll_up_to(parts.most_conductance),
                2 => dice.roll_up_to(parts.most_picofarads),
                3 => dice.roll(parts.microhenries[0], parts.microhenries[1]),
                _ => 0,
            };
            part.value = value as u32;
            part.conductance = match kind {
                1 => nearest(1_000_000_000, value),
                2 => nearest(2 * value * rate, 1000),
                3 => nearest(1_000_000_000_000_000, 2 * value * rate),
                _ => 0,
            };
            if kind == 4 {
                part.curve = curves;
                curves += 1;
                let mut at = -dice.roll(0, width);
                for _ in 0..dice.roll(1, 5) {
                    part.breakpoints.push(at);
                    at += dice.roll(1, width / 2 + 1);
                }
                let steep = dice.one_of(parts.most_slope);
                part.slopes = (0..=part.breakpoints.len()).map(|_| dice.roll(0, steep)).collect();
            }
            made.parts.push(part);
        }
        made
    }

    fn random_stored(&self, dice: &mut Dice, most: i64) -> Vec<i64> {
        let one = |part: &Part| if part.kind == 2 || part.kind == 3 { dice.roll(-most, most) } else { 0 };
        self.parts.iter().map(one).collect()
    }
}

fn wide(numbers: &[i64]) -> Vec<i128> {
    numbers.iter().map(|&one| one as i128).collect()
}

/// Net currents of every node, ground and driven ones too: by the node's own elements against a look at all; how many.
pub fn nets(dice: &mut Dice, rounds: usize) -> usize {
    let mut nets = 0;
    for round in 0..rounds {
        let made = Reference::random(dice, 1 + round % 4, &SMALL, 100);
        let circuit = image::read(&made.image()).unwrap_or_else(|number| panic!("image refused {number}"));
        let network = network::Network::new(&circuit);
        let node: Vec<i64> = (0..=made.nodes).map(|_| dice.roll(-150, 150)).collect();
        let stored = made.random_stored(dice, 300);
        for at in 0..=made.nodes {
            assert_eq!(network.net(at, &wide(&stored), &wide(&node)), made.net(at, &node, &stored) as i128, "round {round}, node {at}");
            nets += 1;
        }
    }
    nets
}

/// Samples in a small range against the definition; how many, and how many of them the rail refused.
pub fn small_ranges(dice: &mut Dice, rounds: usize) -> (usize, usize) {
    let (mut samples, mut refused) = (0, 0);
    for round in 0..rounds {
        let free = 1 + round % 4;
        let top = [300, 40, 12, 6][free - 1];
        let made = Reference::random(dice, free, &SMALL, top);
        let circuit = image::read(&made.image()).unwrap_or_else(|number| panic!("image refused {number}"));
        let network = network::Network::new(&circuit);
        for _ in 0..4 {
            let drives: Vec<i64> = (0..made.driven).map(|_| dice.roll(-top, top)).collect();
            let stored = made.random_stored(dice, 30 * top);
            let expected = made.by_definition(&drives, &stored, top);
            let found = search::voltages(&network, &wide(&stored), &wide(&drives), top as i128);
            assert_eq!(found, expected.as_deref().map(wide), "round {round}");
            samples += 1;
            refused += expected.is_none() as usize;
        }
    }
    (samples, refused)
}

/// Blocks with small currents against lowering by microvolts; how many samples.
pub fn small_currents(dice: &mut Dice, rounds: usize) -> usize {
    let mut samples = 0;
    for round in 0..rounds {
        let made = Reference::random(dice, 1 + round % 4, &SMALL, 100);
        let n = 6;
        let drives: Vec<i64> = (0..n * made.driven).map(|_| dice.roll(-150, 150)).collect();
        let mut stored = made.random_stored(dice, 300);
        let mut state = [0; block::STATE_BYTES];
        state.chunks_mut(8).zip(&stored).for_each(|(place, x)| place.copy_from_slice(&x.to_le_bytes()));
        let drive_bytes: Vec<u8> = drives.iter().flat_map(|&volts| (volts as i32).to_le_bytes()).collect();
        let mut outputs = vec![0; 4 * n];
        let outcome = block::block(&made.image(), &mut state, n as u64, &drive_bytes, &mut outputs);
        assert_eq!((outcome.number, outcome.count), (0, n as u64), "round {round}");
        for index in 0..n {
            let node = made.by_microvolts(&drives[index * made.driven..][..made.driven], &stored);
            made.advance(&node, &mut stored);
            let output = image::signed(&outputs[4 * index..][..4]);
            assert_eq!(output, node[made.nodes] as i128, "round {round}, sample {index}");
        }
        let after: Vec<i128> = state.chunks(8).map(image::signed).take(stored.len()).collect();
        assert_eq!(after, wide(&stored), "round {round}");
        samples += n;
    }
    samples
}

/// Samples of real size against bisection: how many, how many of them the rail refused, and how many circuits took too many turns.
pub fn real_sizes(dice: &mut Dice, rounds: usize) -> (usize, usize, usize) {
    let (mut samples, mut refused, mut given_up) = (0, 0, 0);
    for round in 0..rounds {
        let made = Reference::random(dice, 1 + round % 10, &REAL, 2_000_000);
        let circuit = image::read(&made.image()).unwrap_or_else(|number| panic!("image refused {number}"));
        let network = network::Network::new(&circuit);
        let most = dice.one_of([1_000_000, 10_000_000_000, 10_000_000_000_000]);
        let mut stored = made.random_stored(dice, most);
        for _ in 0..3 {
            let drives: Vec<i64> = (0..made.driven).map(|_| dice.roll(-TOP / 2, TOP / 2)).collect();
            let Some(expected) = made.by_bisection(&drives, &stored) else {
                given_up += 1;
                break;
            };
            let found = search::voltages(&network, &wide(&stored), &wide(&drives), TOP as i128);
            assert_eq!(found, expected.as_deref().map(wide), "round {round}");
            samples += 1;
            let Some(node) = expected else {
                refused += 1;
                break;
            };
            made.advance(&node, &mut stored);
        }
    }
    (samples, refused, given_up)
}
