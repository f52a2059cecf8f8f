//! Tests the second program: document 01's rows that no rendering meets, and brute force on random circuits and measured lists.
//! An argument is the number of them for each kind of brute force.

mod block;
mod brute;
mod circuit;
mod image;
mod measured;
mod network;
mod rows;
mod search;
mod start;
mod walk;

fn main() {
    let rounds = std::env::args().nth(1).and_then(|word| word.parse().ok()).unwrap_or(500);
    println!("{} rows", rows::check());
    let mut dice = brute::Dice(0x9E37_79B9_7F4A_7C15);
    let (samples, refused) = brute::small_ranges(&mut dice, rounds);
    println!("{samples} samples by definition, {refused} of them refused by the rail");
    println!("{} samples by microvolts, with state", brute::small_currents(&mut dice, rounds));
    let (samples, refused, given_up) = brute::real_sizes(&mut dice, rounds);
    println!("{samples} samples by bisection, {refused} of them refused by the rail; {given_up} circuits given up");
    let (lists, made_up) = walk::lists(&mut dice, rounds);
    println!("{lists} measured lists walked, {made_up} slopes in them make up for a shortfall");
    println!("{} net currents, each by the elements that touch its node and by all", brute::nets(&mut dice, rounds));
}
