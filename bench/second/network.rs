//! A circuit's currents: of a curve, of an element, out of a node; and what its elements store after a sample.

use crate::circuit::{Circuit, Curve, Element, Kind};

/// The current of a curve: its slopes added up over the way from zero to `volts`.
fn curve_current(curve: &Curve, volts: i128) -> i128 {
    let (mut below, to) = (volts.min(0), volts.max(0));
    let mut sum = 0;
    for (index, slope) in curve.slopes.iter().enumerate() {
        let until = curve.breakpoints.get(index).map_or(to, |&end| end.clamp(below, to));
        sum += slope * (until - below);
        below = until;
    }
    if volts < 0 { -sum } else { sum }
}

/// One end of an element: the current that leaves the node there is `sign` times the element's.
struct End<'a> {
    element: &'a Element,
    index: usize,
    sign: i128,
}

/// A circuit by its nodes. It knows nothing of a sample and lasts for a block.
pub struct Network<'a> {
    pub circuit: &'a Circuit,
    ends: Vec<Vec<End<'a>>>,
}

impl<'a> Network<'a> {
    pub fn new(circuit: &'a Circuit) -> Self {
        let mut ends: Vec<Vec<End>> = (0..=circuit.nodes).map(|_| Vec::new()).collect();
        for (index, element) in circuit.elements.iter().enumerate() {
            ends[element.p].push(End { element, index, sign: 1 });
            ends[element.q].push(End { element, index, sign: -1 });
        }
        Network { circuit, ends }
    }

    pub fn free(&self) -> std::ops::RangeInclusive<usize> {
        self.circuit.driven + 1..=self.circuit.nodes
    }

    /// What leaves p and enters q through one element.
    fn current(&self, element: &Element, stored: i128, node: &[i128]) -> i128 {
        let volts = node[element.p] - node[element.q];
        match element.kind {
            Kind::Diode => curve_current(&self.circuit.curves[element.curve], volts),
            _ => element.conductance * volts - stored,
        }
    }

    /// The sum of all currents leaving a node.
    pub fn net(&self, at: usize, stored: &[i128], node: &[i128]) -> i128 {
        let leaving = |end: &End| end.sign * self.current(end.element, stored[end.index], node);
        self.circuit.leak * node[at] + self.ends[at].iter().map(leaving).sum::<i128>()
    }

    /// The stored currents after a sample.
    pub fn advance(&self, stored: &[i128], node: &[i128]) -> Vec<i128> {
        let next = |(index, &x): (usize, &i128)| {
            let Some(element) = self.circuit.elements.get(index) else { return 0 };
            let twice = 2 * element.conductance * (node[element.p] - node[element.q]);
            match element.kind {
                Kind::Capacitor => twice - x,
                Kind::Inductor => x - twice,
                Kind::Resistor | Kind::Diode => 0,
            }
        };
        stored.iter().enumerate().map(next).collect()
    }
}
