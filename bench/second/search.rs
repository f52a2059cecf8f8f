//! The voltages of one sample, found from below.
//!
//! An assignment of whole voltages to the free nodes is low if no net current is above zero; the greatest low one is wanted.
//! A node's net current rises with its own voltage, falls with every other, and falls if all free nodes are lowered
//! alike (by the leak at least). So:
//!
//! - Lowering all free nodes alike ends in a low assignment. The search starts there, and every move keeps it low.
//! - With a step of s: which free nodes can rise by s together? Raise them all, and put back, again and again, a node whose net
//!   current is then above zero. Such a node is in no set that can rise, because with fewer others raised it has more.
//!   When none has to go back, those still raised are the greatest set that can rise. It is lifted as far as it goes.
//! - When no set can rise, the step is halved. At step 1 that is the end.
//!
//! Why the end v is the greatest low assignment: let a low w stand above v somewhere, most of all by m, and by m on the set T.
//! Lower w by m - 1 at all free nodes: it stays low, and now it stands 1 above v on T and nowhere else above v. A node of T
//! has the same voltage in that as in v raised by 1 on T, and the other nodes are no higher, so v raised by 1 on T is low
//! at T; elsewhere it is low because v is. Then T could rise, and the search would not have ended.
//!
//! So only two things count: that every move ends low, and that the last look finds no set. Where it starts, steps above 1, long lifts and
//! repeated movements save time. The range is no part of it; `voltages` says why it need not be.

use crate::network::Network;
use crate::start;

/// So many lifts at one step are looked back on for a movement to repeat.
const TRAIL: usize = 8;

/// A network in one sample.
struct Search<'a> {
    network: &'a Network<'a>,
    stored: &'a [i128],
}

fn lifted(node: &[i128], set: impl Iterator<Item = usize>, by: i128) -> Vec<i128> {
    let mut moved = node.to_vec();
    set.for_each(|one| moved[one] += by);
    moved
}

impl Search<'_> {
    fn low_at(&self, mut set: impl Iterator<Item = usize>, node: &[i128]) -> bool {
        set.all(|one| self.network.net(one, self.stored, node) <= 0)
    }

    fn low(&self, node: &[i128]) -> bool {
        self.low_at(self.network.free(), node)
    }

    /// The greatest set of free nodes that can rise by `step` together from a low assignment, maybe empty.
    fn risers(&self, node: &[i128], step: i128) -> Vec<usize> {
        let mut raised = lifted(node, self.network.free(), step);
        let mut set: Vec<usize> = self.network.free().collect();
        loop {
            let before = set.len();
            set.retain(|&one| {
                let stays = self.network.net(one, self.stored, &raised) <= 0;
                if !stays {
                    raised[one] = node[one];
                }
                stays
            });
            if set.len() == before {
                return set;
            }
        }
    }

    /// `node` with `set`, which can rise by `step`, lifted as many steps as it can. More steps lower no net current of the set, so
    /// the number is found by doubling and halving; nodes outside the set only become lower.
    fn lift(&self, node: &[i128], set: &[usize], step: i128) -> Vec<i128> {
        let after = |steps: i128| lifted(node, set.iter().copied(), steps * step);
        let can = |steps: i128| self.low_at(set.iter().copied(), &after(steps));
        let mut jump = 1;
        while can(2 * jump) {
            jump *= 2;
        }
        let mut steps = jump;
        while jump > 1 {
            jump /= 2;
            if can(steps + jump) {
                steps += jump;
            }
        }
        after(steps)
    }

    /// Where the same few sets take turns, their joint movement is repeated while that stays low.
    fn repeated(&self, trail: &[Vec<i128>], node: Vec<i128>) -> Vec<i128> {
        for past in trail.iter().rev() {
            let after = |times: i128| -> Vec<i128> {
                node.iter().zip(past).map(|(now, then)| now + times * (now - then)).collect()
            };
            let mut times = 1;
            while self.low(&after(times)) {
                times *= 2;
            }
            if times > 1 {
                return after(times / 2);
            }
        }
        node
    }

    /// The greatest low assignment over all whole numbers, or a lower one that is low and has a node at or above `top`.
    fn greatest_low(&self, start: &[i128], top: i128) -> Vec<i128> {
        let mut node = start.to_vec();
        let mut step = 1;
        while !self.low(&node) {
            node = lifted(start, self.network.free(), -step);
            step *= 2;
        }
        let mut trail = Vec::new();
        while self.network.free().all(|one| node[one] < top) {
            let set = self.risers(&node, step);
            if !set.is_empty() {
                trail.push(node.clone());
                node = self.lift(&node, &set, step);
                if trail.len() == TRAIL {
                    node = self.repeated(&trail, node);
                    trail.clear();
                }
            } else if step > 1 {
                step /= 2;
                trail.clear();
            } else {
                break;
            }
        }
        node
    }
}

/// The voltages of ground and every node, or none where the rail refuses the sample: nothing in the range from `-top` to `top` is low, or
/// the greatest that is has a node at `top`.
///
/// Let v be the greatest low assignment over all whole numbers. If it is within the range and below its top, it is the answer. If a
/// node of it is below the range, that node is so in every low assignment, and none is in range. If a node of it is at the top or above,
/// as it is once any low assignment has one there: a greatest low one in range that kept below the top would not be v, so a set of its nodes
/// could rise by 1 (as the head of this file says) and stay in range, and it would not be the greatest; so there is none in range, or
/// it touches the top.
pub fn voltages(network: &Network, stored: &[i128], drives: &[i128], top: i128) -> Option<Vec<i128>> {
    let start = start::voltages(network.circuit, stored, drives);
    let node = Search { network, stored }.greatest_low(&start, top);
    let accepted = network.free().all(|one| (-top..top).contains(&node[one]));
    accepted.then_some(node)
}
