//! The image of a circuit's parts, put together by document 01's words, and written into a lent buffer as document 02's fifth and sixth requests have it.

use crate::image;

/// The version of an image for which none is given.
const UNLESS_GIVEN: u8 = 2;

/// Parts in fields of the image's widths. A count may go past what there is, and what stands past a count is not looked at. Of which version their image is
/// to be, they don't say.
pub struct Parts {
    pub nodes: u8,
    pub driven: u8,
    pub output: u8,
    pub rate: u32,
    pub element_count: u8,
    pub curve_count: u8,
    pub elements: Vec<Element>,
    pub curves: Vec<Curve>,
}

pub struct Element {
    pub kind: u8,
    pub p: u8,
    pub q: u8,
    pub curve: u8,
    pub value: u32,
}

/// The count is of the breakpoints; there is one slope more.
pub struct Curve {
    pub count: u8,
    pub slopes: Vec<u32>,
    pub breakpoints: Vec<i32>,
}

impl Element {
    fn bytes(&self) -> Vec<u8> {
        [[self.kind, self.p, self.q, self.curve], self.value.to_le_bytes()].concat()
    }
}

impl Curve {
    fn bytes(&self) -> Vec<u8> {
        let count = self.count as usize;
        let slopes = self.slopes.iter().take(count + 1).flat_map(|slope| slope.to_le_bytes());
        let breakpoints = self.breakpoints.iter().take(count).flat_map(|volts| volts.to_le_bytes());
        [self.count, 0, 0, 0].into_iter().chain(slopes).chain(breakpoints).collect()
    }
}

/// The parts' bytes: elements, curves, trailer.
fn together(version: u8, parts: &Parts) -> Vec<u8> {
    let mut bytes: Vec<u8> = parts.elements.iter().take(parts.element_count as usize).flat_map(Element::bytes).collect();
    let first_curve = bytes.len();
    bytes.extend(parts.curves.iter().take(parts.curve_count as usize).flat_map(Curve::bytes));
    let trailer = bytes.len();
    for distance in [trailer, trailer - first_curve] {
        bytes.extend((distance as u16).to_le_bytes());
    }
    bytes.extend([parts.element_count, parts.curve_count, parts.nodes, parts.driven]);
    bytes.extend(parts.rate.to_le_bytes());
    bytes.extend([parts.output, version]);
    bytes.extend(16u16.to_le_bytes());
    bytes
}

/// Writes the image into the buffer, in the version that is given, and gives its length, or gives the number that refuses it and writes nothing.
pub fn write(given: Option<u8>, parts: &Parts, buffer: &mut [u8]) -> Result<usize, u64> {
    let bytes = together(given.unwrap_or(UNLESS_GIVEN), parts);
    // Parts are judged by reading what they are as an image. That is too short only where there is no element, which of parts is 2.
    image::read(&bytes).map_err(|number| number.max(2))?;
    buffer.get_mut(..bytes.len()).ok_or(16u64)?.copy_from_slice(&bytes);
    Ok(bytes.len())
}
