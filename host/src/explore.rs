//! The exploration: the same choices, drops and counts as written, by less work.
//!
//! - A successor's key and whether it is dominated are found from its layer's begin. Settling lowers no leaf's least price, so the key is
//!   the same; and a kept node with the same centre is settled under the same leaf actions, so it is nowhere above the begin exactly where it
//!   is nowhere above the settled layer. So only nodes that are kept get settled.
//! - Kept nodes stand in chains by centre. An entry holds what rules most nodes out without a look at their prices; signatures stand by
//!   themselves, since most entries fall by them.
//! - Most successors are dominated, and most of them by a node that was met with the same signature before: that node is tried first.
//! - Centre states are numbered as they are met; what applies in one, where it leads and which leaf actions it enables is found once.

use crate::edges::{same, Edges, Mixed, SetNumber, NONE};
use crate::layer::{first, pass, settle, Price, Waiting};
use crate::star::{Centre, Star};
use std::cmp::Reverse;
use std::collections::{BinaryHeap, HashMap};

pub struct Node<P> {
    pub centre: u32,
    pub parent: u32,
    pub action: u8,
    pub paid: u32,
    depth: u32,
    key: u64,
    signature: u64,
    /// Each leaf's least price.
    least: [P; 8],
}

/// What dominance asks of a kept node after its signature and before its prices.
#[derive(Clone, Copy)]
struct Entry {
    key: u64,
    paid: u32,
    node: u32,
}

/// The kept nodes of one centre state.
#[derive(Default)]
struct Chain {
    /// Behind the last one 0, which has no state that another has.
    signatures: Vec<[u64; FEW]>,
    entries: Vec<Entry>,
}

impl Chain {
    fn push(&mut self, signature: u64, entry: Entry) {
        let i = self.entries.len();
        if i.is_multiple_of(FEW) {
            self.signatures.push([0; FEW]);
        }
        self.signatures[i / FEW][i % FEW] = signature;
        self.entries.push(entry);
    }

    fn swap(&mut self, i: usize, j: usize) {
        self.entries.swap(i, j);
        let other = self.signatures[i / FEW][i % FEW];
        self.signatures[i / FEW][i % FEW] = std::mem::replace(&mut self.signatures[j / FEW][j % FEW], other);
    }
}

/// A centre action that applies in a centre state as far as the centre goes.
#[derive(Clone, Copy)]
struct Way {
    next: u32,
    cost: u16,
    action: u8,
}

struct CentreState {
    centre: Centre,
    /// Its ways, once one of its nodes has been expanded.
    ways: Option<(u32, u32)>,
    chain: Chain,
}

#[derive(Clone, Copy, PartialEq, Eq, Debug)]
pub enum Stop {
    Finished,
    TableFull,
    BudgetSpent,
    /// A price might outgrow its type.
    TooWide,
}

pub struct Search<'a, P> {
    pub star: &'a Star,
    pub edges: Edges,
    pub nodes: Vec<Node<P>>,
    /// The nodes' prices, one row behind the other, each as long as `made`.
    rows: Vec<P>,
    /// The least goal cost and its first node.
    pub best: Option<(u64, u32)>,
    pub begun: u32,
    centres: Vec<CentreState>,
    /// Each kept centre's enabled leaf actions, by leaf.
    sets: Vec<[SetNumber; 8]>,
    numbers: HashMap<Centre, u32, Mixed>,
    ways: Vec<Way>,
    centre_actions: Vec<u8>,
    /// The unexpanded nodes: the key, then the node in the lowest bits.
    open: BinaryHeap<Reverse<u64>>,
    /// The node that dominated, or was kept, when this centre and signature were last met; a later pair with the same hash takes the place.
    recent: Vec<u16>,
    /// The successor under test, before it is kept.
    made: Vec<P>,
    waiting: Waiting<P>,
    room: usize,
}

const NODE_BITS: u32 = 12;
const RECENT: usize = 8192;
const NOBODY: u16 = u16::MAX;
/// So many signatures are tested before a branch.
const FEW: usize = 4;

impl<'a, P: Price> Search<'a, P> {
    pub fn new(star: &'a Star, room: usize) -> Self {
        let length = star.states().next_multiple_of(AT_ONCE);
        let mut made = first(star);
        made.resize(length, P::MARK);
        let centre_actions = (0..star.actions.len()).filter(|&a| star.actions[a].is_centre).map(|a| a as u8).collect();
        let mut s = Search {
            star,
            edges: Edges::new(star),
            nodes: Vec::new(),
            rows: Vec::with_capacity(room * length),
            best: None,
            begun: 0,
            centres: Vec::new(),
            sets: Vec::new(),
            numbers: HashMap::default(),
            ways: Vec::new(),
            centre_actions,
            open: BinaryHeap::new(),
            recent: vec![NOBODY; RECENT],
            made,
            waiting: Waiting::new(),
            room,
        };
        let centre = s.number(star.centre);
        let signature = star.initial[..star.leaves].iter().fold(0, |set, &x| set | star.bit[x]);
        let root = Node { centre, parent: 0, action: 0, paid: 0, depth: 0, key: 0, signature, least: [P::ZERO; 8] };
        s.keep(root, u8::MAX, None);
        s
    }

    pub fn row(&self, node: usize) -> &[P] {
        &self.rows[node * self.made.len()..][..self.star.states()]
    }

    pub fn centre_of(&self, node: usize) -> Centre {
        self.centres[self.nodes[node].centre as usize].centre
    }

    fn number(&mut self, centre: Centre) -> u32 {
        let next = self.centres.len() as u32;
        let n = *self.numbers.entry(centre).or_insert(next);
        if n == next {
            self.centres.push(CentreState { centre, ways: None, chain: Chain::default() });
            self.sets.push([NONE; 8]);
        }
        n
    }

    fn ways_from(&mut self, number: u32) -> (usize, usize) {
        if let Some((start, end)) = self.centres[number as usize].ways {
            return (start as usize, end as usize);
        }
        let centre = self.centres[number as usize].centre;
        let start = self.ways.len();
        for i in 0..self.centre_actions.len() {
            let action = self.centre_actions[i];
            let act = &self.star.actions[action as usize];
            if act.needs.holds(centre) {
                let (cost, next) = (act.cost as u16, act.sets.set(centre));
                let next = self.number(next);
                self.ways.push(Way { next, cost, action });
            }
        }
        let end = self.ways.len();
        self.centres[number as usize].ways = Some((start as u32, end as u32));
        (start, end)
    }

    fn bound(&self) -> u64 {
        self.best.map_or(u64::MAX, |b| b.0)
    }

    pub fn run(&mut self, budget: u32) -> Stop {
        loop {
            let Some(&Reverse(top)) = self.open.peek() else { return Stop::Finished };
            if top >> NODE_BITS >= self.bound() {
                return Stop::Finished;
            }
            if self.begun == budget {
                return Stop::BudgetSpent;
            }
            self.open.pop();
            self.begun += 1;
            if let Some(stop) = self.expand((top & ((1 << NODE_BITS) - 1)) as usize) {
                return stop;
            }
        }
    }

    fn expand(&mut self, u: usize) -> Option<Stop> {
        let star = self.star;
        let length = self.made.len();
        let (start, end) = self.ways_from(self.nodes[u].centre);
        'ways: for i in start..end {
            let way = self.ways[i];
            let n = &self.nodes[u];
            // No leaf's least price falls over a centre action: many ways end here, before anything is made.
            if n.key + way.cost as u64 >= self.bound() {
                continue;
            }
            let action = way.action as usize;
            let touches = star.actions[action].touches;
            let from_bits = &star.from_bits[action * star.leaves..][..star.leaves];
            let mut key = n.key + way.cost as u64;
            let mut signature = n.signature;
            let mut least = n.least;
            let row = &self.rows[u * length..][..length];
            self.made.copy_from_slice(row);
            let mut left = touches;
            while left != 0 {
                let l = left.trailing_zeros() as usize;
                left &= left - 1;
                if from_bits[l] & n.signature == 0 {
                    continue 'ways;
                }
                let (p, bits) = pass(star, action, l, row, &mut self.made);
                if p == P::MARK {
                    continue 'ways;
                }
                key += p.wide() - least[l].wide();
                least[l] = p;
                signature = signature & !star.leaf_bits[l] | bits;
            }
            if key >= self.bound() {
                continue;
            }
            let paid = n.paid + way.cost as u32;
            let depth = n.depth + 1;
            if self.dominated(way.next, paid, key, signature) {
                continue;
            }
            if self.nodes.len() == self.room {
                return Some(Stop::TableFull);
            }
            if (depth as u64 + 1) * star.layer_rise > P::LARGEST {
                return Some(Stop::TooWide);
            }
            let node = Node { centre: way.next, parent: u as u32, action: way.action, paid, depth, key, signature, least };
            self.keep(node, touches, Some(u));
        }
        None
    }

    /// The place in `recent` of a centre and a signature.
    fn recent_place(centre: u32, signature: u64) -> usize {
        let mixed = (signature ^ (centre as u64).rotate_left(40)).wrapping_mul(0x9E37_79B9_7F4A_7C15);
        (mixed ^ mixed >> 32) as usize % RECENT
    }

    /// Whether a kept node makes `made` needless.
    fn dominated(&mut self, centre: u32, paid: u32, key: u64, signature: u64) -> bool {
        let length = self.made.len();
        let row = |node: usize| self.rows[node * length..][..length].as_chunks::<AT_ONCE>().0;
        let made = self.made.as_chunks::<AT_ONCE>().0;
        let place = Self::recent_place(centre, signature);
        let first = self.recent[place];
        if let Some(n) = self.nodes.get(first as usize) {
            if n.centre == centre && n.paid <= paid && n.key <= key && first_above(row(first as usize), made).is_none() {
                return true;
            }
        }
        let chain = &mut self.centres[centre as usize].chain;
        // Where one node was above, the next one is likely to be too.
        let mut above = 0;
        for k in 0..chain.signatures.len() {
            let few = chain.signatures[k];
            if few.iter().fold(true, |lack, s| lack & (signature & !s != 0)) {
                continue;
            }
            for i in (0..FEW).filter(|&i| signature & !few[i] == 0).map(|i| k * FEW + i) {
                let e = chain.entries[i];
                if e.paid > paid || e.key > key {
                    continue;
                }
                let kept = row(e.node as usize);
                if some_above(&kept[above], &made[above]) {
                    continue;
                }
                match first_above(kept, made) {
                    Some(piece) => above = piece,
                    None => {
                        self.recent[place] = e.node as u16;
                        // What dominated once does so again: nearer to the front it is found sooner.
                        chain.swap(i, i / 2);
                        return true;
                    }
                }
            }
        }
        false
    }

    /// Settles `made` and keeps it. A leaf that the action does not name, under the same leaf actions as before, is settled already.
    fn keep(&mut self, mut node: Node<P>, touches: u8, parent: Option<usize>) {
        let star = self.star;
        let number = node.centre as usize;
        let centre = self.centres[number].centre;
        let met = Self::recent_place(node.centre, node.signature);
        if self.centres[number].chain.entries.is_empty() {
            for l in 0..star.leaves {
                self.sets[number][l] = self.edges.set(star, l, centre);
            }
        }
        let sets = self.sets[number];
        let before = parent.map(|u| self.sets[self.nodes[u].centre as usize]);
        for l in 0..star.leaves {
            if touches >> l & 1 == 0 && before.is_some_and(|b| same(b[l], sets[l])) {
                continue;
            }
            let span = star.base[l]..star.base[l + 1];
            let prices = &mut self.made[span.clone()];
            let waiting = &mut self.waiting;
            if self.edges.with(star, l, sets[l], centre, |graph| settle(prices, graph, waiting)).is_some() {
                let reached = self.made[span.clone()].iter().zip(&star.bit[span]);
                let bits = reached.fold(0, |set, (&p, bit)| set | if p != P::MARK { *bit } else { 0 });
                node.signature = node.signature & !star.leaf_bits[l] | bits;
            }
        }
        let u = self.nodes.len() as u32;
        self.recent[met] = u as u16;
        self.rows.extend_from_slice(&self.made);
        self.centres[number].chain.push(node.signature, Entry { key: node.key, paid: node.paid, node: u });
        self.open.push(Reverse(node.key << NODE_BITS | u as u64));
        if let Some(cost) = self.goal_cost(&node, centre) {
            if cost < self.bound() {
                self.best = Some((cost, u));
            }
        }
        self.nodes.push(node);
    }

    fn goal_cost(&self, node: &Node<P>, centre: Centre) -> Option<u64> {
        let star = self.star;
        if !star.goal_centre.holds(centre) {
            return None;
        }
        let mut cost = node.paid as u64;
        for l in 0..star.leaves {
            let least = if star.goal_leaves >> l & 1 == 0 {
                node.least[l]
            } else {
                let goals = (star.base[l]..star.base[l + 1]).filter(|&s| star.goal[s]);
                goals.map(|s| self.made[s]).min().unwrap_or(P::MARK)
            };
            if least == P::MARK {
                return None;
            }
            cost += least.wide();
        }
        Some(cost)
    }
}

/// So many prices are compared without a branch between them. Rows are filled up to a multiple with prices that are never above.
const AT_ONCE: usize = 8;

#[inline(always)]
fn some_above<P: Price>(a: &[P; AT_ONCE], b: &[P; AT_ONCE]) -> bool {
    (0..AT_ONCE).fold(false, |above, k| above | (a[k] > b[k]))
}

/// The first piece of `a` that is somewhere above `b`.
#[inline]
fn first_above<P: Price>(a: &[[P; AT_ONCE]], b: &[[P; AT_ONCE]]) -> Option<usize> {
    a.iter().zip(b).position(|(p, q)| some_above(p, q))
}
