//! A circuit's parts, and the rules that an image and a netlist share: numbers 2, 4, 5 and 6.
//! Fields are as wide as they come, so that a number of any length is judged for what it is.

pub const MOST_ELEMENTS: usize = 32;

/// By the image's number for it.
#[derive(Clone, Copy, PartialEq)]
pub enum Kind {
    Resistor = 1,
    Capacitor,
    Inductor,
    Diode,
}

/// What is said of the circuit as a whole.
pub struct Header {
    pub version: i128,
    pub elements: usize,
    pub curves: usize,
    pub nodes: i128,
    pub driven: i128,
    pub rate: i128,
    pub output: i128,
}

/// An element as it is given. The curve is 0 but for a diode, whose value is 0.
pub struct Part {
    pub kind: Kind,
    pub p: i128,
    pub q: i128,
    pub curve: i128,
    pub value: i128,
}

pub struct Element {
    pub kind: Kind,
    pub p: usize,
    pub q: usize,
    /// Of the curves, for a diode; 0 otherwise.
    pub curve: usize,
    /// In nanosiemens; 0 for a diode.
    pub conductance: i128,
}

pub struct Curve {
    pub slopes: Vec<i128>,
    pub breakpoints: Vec<i128>,
}

pub struct Circuit {
    /// Of every free node to ground, in nanosiemens.
    pub leak: i128,
    pub nodes: usize,
    pub driven: usize,
    pub output: usize,
    pub elements: Vec<Element>,
    pub curves: Vec<Curve>,
}

impl Header {
    /// The rule of number 2. Document 01 has version 1 alone, and document 02's sixth request lets version 2 in.
    pub fn fits(&self) -> bool {
        (1..=2).contains(&self.version)
            && (1..=MOST_ELEMENTS).contains(&self.elements)
            && self.curves <= 8
            && (1..=15).contains(&self.nodes)
            && (0..=self.nodes).contains(&self.driven)
            && (8_000..=192_000).contains(&self.rate)
            && (1..=self.nodes).contains(&self.output)
    }
}

impl Curve {
    /// The rule of number 4.
    pub fn fits(&self) -> bool {
        self.slopes.iter().all(|&slope| slope <= 1 << 30)
            && self.breakpoints.iter().all(|volts| (-(1 << 26)..=1 << 26).contains(volts))
            && self.breakpoints.windows(2).all(|pair| pair[0] < pair[1])
    }
}

/// A free node's leak in images of this version: document 01's, and since version 2 the stiffer one of document 02.
pub fn leak(version: i128) -> i128 {
    if version == 1 { 1 } else { 10 }
}

/// The whole number nearest to `over / under`: the one below, until the middle between it and the next is reached.
fn nearest(over: i128, under: i128) -> i128 {
    let below = over / under;
    let middle_twice = (2 * below + 1) * under;
    if 2 * over < middle_twice { below } else { below + 1 }
}

/// An element, its conductance not yet judged, or 5.
fn element(part: &Part, header: &Header) -> Result<Element, u64> {
    let &Part { kind, p, q, curve, value } = part;
    let suits = if kind == Kind::Diode { curve < header.curves as i128 && value == 0 } else { curve == 0 && value >= 1 };
    if !suits || p == q || p > header.nodes || q > header.nodes {
        return Err(5);
    }
    let conductance = match kind {
        Kind::Resistor => nearest(1_000_000_000, value),
        Kind::Capacitor => nearest(2 * value * header.rate, 1_000),
        Kind::Inductor => nearest(1_000_000_000_000_000, 2 * value * header.rate),
        Kind::Diode => 0,
    };
    Ok(Element { kind, p: p as usize, q: q as usize, curve: curve as usize, conductance })
}

/// The circuit of these parts, or 5 or 6; header and curves have passed their rules.
pub fn circuit(header: &Header, curves: Vec<Curve>, parts: &[Part]) -> Result<Circuit, u64> {
    let elements = parts.iter().map(|part| element(part, header)).collect::<Result<Vec<_>, _>>()?;
    let outside = |one: &Element| one.kind != Kind::Diode && !(1..=1 << 30).contains(&one.conductance);
    if elements.iter().any(outside) {
        return Err(6);
    }
    let (nodes, driven, output) = (header.nodes as usize, header.driven as usize, header.output as usize);
    Ok(Circuit { leak: leak(header.version), nodes, driven, output, elements, curves })
}
