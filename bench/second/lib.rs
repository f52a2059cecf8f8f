//! The block, and a netlist's image, for a host written in C.

mod block;
mod circuit;
mod drawn;
mod image;
mod network;
mod ohms;
mod schematic;
mod search;
mod start;
// What it writes is for programs alone.
#[allow(dead_code)]
mod words;
mod writer;

use drawn::{Drawn, Refusal};
use schematic::Fault;

/// A part of the host's memory; a length of zero may come with any pointer.
unsafe fn lent<'a>(bytes: *const u8, length: usize) -> &'a [u8] {
    if length == 0 { &[] } else { unsafe { std::slice::from_raw_parts(bytes, length) } }
}

/// The same, to be written.
unsafe fn lent_mut<'a>(bytes: *mut u8, length: usize) -> &'a mut [u8] {
    if length == 0 { &mut [] } else { unsafe { std::slice::from_raw_parts_mut(bytes, length) } }
}

/// Number x 65,536 + count.
///
/// # Safety
/// Each pointer holds as many bytes as its length says, and the two that are written overlap with nothing.
#[unsafe(no_mangle)]
pub unsafe extern "C" fn second_block(
    image: *const u8,
    image_length: usize,
    state: *mut u8,
    state_length: usize,
    n: u64,
    drives: *const u8,
    drives_length: usize,
    outputs: *mut u8,
    outputs_length: usize,
) -> u64 {
    let (image, drives) = unsafe { (lent(image, image_length), lent(drives, drives_length)) };
    let (state, outputs) = unsafe { (lent_mut(state, state_length), lent_mut(outputs, outputs_length)) };
    let outcome = block::block(image, state, n, drives, outputs);
    outcome.number * 65_536 + outcome.count
}

/// Writes the image of what was read: number x 2^32 + count.
fn written(read: Result<Drawn, Refusal>, image: &mut [u8]) -> u64 {
    let (number, count) = match read {
        Ok(drawn) => drawn.write(image).map_or_else(|number| (number, 0), |length| (0, length)),
        Err(Refusal::Text(Fault { number, line })) => (number, line),
        Err(Refusal::Parts(number)) => (number, 0),
    };
    (number << 32) + count as u64
}

/// The image in the version that a netlist is read in.
///
/// # Safety
/// As for `second_block`.
#[unsafe(no_mangle)]
pub unsafe extern "C" fn second_image(text: *const u8, text_length: usize, image: *mut u8, image_length: usize) -> u64 {
    let (text, image) = unsafe { (lent(text, text_length), lent_mut(image, image_length)) };
    written(drawn::read(text), image)
}

/// The image in a version.
///
/// # Safety
/// As for `second_block`.
#[unsafe(no_mangle)]
pub unsafe extern "C" fn second_image_version(version: u32, text: *const u8, text_length: usize, image: *mut u8, image_length: usize) -> u64 {
    let (text, image) = unsafe { (lent(text, text_length), lent_mut(image, image_length)) };
    written(drawn::read_in(version as i128, text), image)
}
