//! Prices, settling a leaf, passing a centre action.

use crate::edges::Graph;
use crate::star::Star;
use std::cmp::Reverse;
use std::collections::BinaryHeap;
use std::fmt::Debug;

/// A price. The search runs with 32 bits while no price can outgrow them, which almost always is to its end: twice as many stand in a
/// vector, and signed ones compare without a detour.
pub trait Price: Copy + Ord + Debug {
    /// Unreachable: above every price.
    const MARK: Self;
    const ZERO: Self;
    /// Where 32 bits no longer do, the search starts again with 64.
    const LARGEST: u64;
    fn plus(self, cost: u16) -> Self;
    fn wide(self) -> u64;
}

impl Price for i32 {
    const MARK: i32 = i32::MAX;
    const ZERO: i32 = 0;
    const LARGEST: u64 = i32::MAX as u64 - 1;
    #[inline(always)]
    fn plus(self, cost: u16) -> i32 {
        self + cost as i32
    }
    #[inline(always)]
    fn wide(self) -> u64 {
        self as u64
    }
}

impl Price for u64 {
    const MARK: u64 = u64::MAX;
    const ZERO: u64 = 0;
    const LARGEST: u64 = u64::MAX - 1;
    #[inline(always)]
    fn plus(self, cost: u16) -> u64 {
        self + cost as u64
    }
    #[inline(always)]
    fn wide(self) -> u64 {
        self
    }
}

/// States whose price was lowered and whose edges are still to be followed. Empty between uses, so that its room is used again.
pub type Waiting<P> = BinaryHeap<Reverse<(P, u16)>>;

/// Lowers a leaf's prices until each is the cheapest way. One sweep over all states, then the lowered ones, the cheapest first: most
/// layers begin almost settled, and the sweep finds little to do.
pub fn settle<P: Price>(prices: &mut [P], graph: Graph, waiting: &mut Waiting<P>) {
    for s in 0..prices.len() {
        let p = prices[s];
        if p == P::MARK {
            continue;
        }
        for e in graph.of(s) {
            let q = p.plus(e.cost);
            if q < prices[e.to as usize] {
                prices[e.to as usize] = q;
                // A state further on is swept with its new price.
                if e.to as usize <= s {
                    waiting.push(Reverse((q, e.to)));
                }
            }
        }
    }
    while let Some(Reverse((p, s))) = waiting.pop() {
        if prices[s as usize] != p {
            continue;
        }
        for e in graph.of(s as usize) {
            let q = p.plus(e.cost);
            if q < prices[e.to as usize] {
                prices[e.to as usize] = q;
                waiting.push(Reverse((q, e.to)));
            }
        }
    }
}

/// What passes over a centre action in a leaf that it names: the least price and the signature, no price where nothing passes.
#[inline]
pub fn pass<P: Price>(star: &Star, action: usize, leaf: usize, before: &[P], after: &mut [P]) -> (P, u64) {
    after[star.base[leaf]..star.base[leaf + 1]].fill(P::MARK);
    let mut least = P::MARK;
    let mut signature = 0;
    for m in star.moves(action, leaf) {
        let p = before[m.from as usize];
        if p < after[m.to as usize] {
            after[m.to as usize] = p;
            least = least.min(p);
            signature |= star.bit[m.to as usize];
        }
    }
    (least, signature)
}

/// A layer's begin after a centre action whose centre conditions hold: false where a leaf has no state left.
pub fn begin<P: Price>(star: &Star, action: usize, before: &[P], after: &mut [P]) -> bool {
    after.copy_from_slice(before);
    let touches = star.actions[action].touches;
    (0..star.leaves).filter(|l| touches >> l & 1 == 1).all(|l| pass(star, action, l, before, after).0 != P::MARK)
}

/// The first layer before it is settled.
pub fn first<P: Price>(star: &Star) -> Vec<P> {
    let mut prices = vec![P::MARK; star.states()];
    star.initial[..star.leaves].iter().for_each(|&s| prices[s] = P::ZERO);
    prices
}
