//! What settling goes by: a leaf's moves by their source, under one set of leaf actions. Made once for each set that is met.

use crate::star::{Centre, Star};
use std::collections::HashMap;
use std::hash::{BuildHasherDefault, Hasher};

/// A hash for keys that are whole words already: the standard one is made to withstand chosen keys, which costs more than the rest of a step.
#[derive(Default)]
pub struct Mix(u64);

impl Hasher for Mix {
    fn finish(&self) -> u64 {
        self.0 ^ self.0 >> 29
    }
    fn write(&mut self, bytes: &[u8]) {
        bytes.iter().for_each(|&b| self.write_u64(b as u64));
    }
    fn write_u64(&mut self, x: u64) {
        self.0 = (self.0.rotate_left(23) ^ x).wrapping_mul(0x9E37_79B9_7F4A_7C15);
    }
    fn write_u128(&mut self, x: u128) {
        self.write_u64(x as u64);
        self.write_u64((x >> 64) as u64);
    }
    fn write_usize(&mut self, x: usize) {
        self.write_u64(x as u64);
    }
}

pub type Mixed = BuildHasherDefault<Mix>;

#[derive(Clone, Copy)]
pub struct Edge {
    /// The leaf state after it, counted in its leaf.
    pub to: u16,
    pub cost: u16,
}

/// A leaf under one set of leaf actions: where its states' edges stand.
#[derive(Clone, Copy)]
struct Set {
    starts: u32,
    edges: u32,
}

/// The number of a leaf's set of enabled leaf actions. `NONE` has no edge that leads anywhere.
pub type SetNumber = u32;
pub const NONE: SetNumber = 0;
/// A set that was met when the store was full: its edges are made anew at each use.
const SCRATCH: SetNumber = u32::MAX;
const ROOM: usize = 1 << 24;

/// Whether two numbers are surely of the same set.
pub fn same(a: SetNumber, b: SetNumber) -> bool {
    a == b && a != SCRATCH
}

pub struct Edges {
    /// Each leaf's own actions, the cheapest first: of two edges between the same states only the first is stored.
    own: Vec<Vec<u8>>,
    known: HashMap<(u64, u128, u128), SetNumber, Mixed>,
    sets: Vec<Set>,
    starts: Vec<u32>,
    edges: Vec<Edge>,
    made: Vec<(u16, Edge)>,
    seen: Vec<u64>,
}

/// A leaf's edges by source.
pub struct Graph<'a> {
    starts: &'a [u32],
    edges: &'a [Edge],
}

impl Graph<'_> {
    #[inline]
    pub fn of(&self, state: usize) -> &[Edge] {
        &self.edges[self.starts[state] as usize..self.starts[state + 1] as usize]
    }
}

impl Edges {
    pub fn new(star: &Star) -> Edges {
        let mut own = vec![Vec::new(); star.leaves];
        for (a, act) in star.actions.iter().enumerate().filter(|(_, act)| !act.is_centre) {
            own[act.touches.trailing_zeros() as usize].push(a as u8);
        }
        own.iter_mut().for_each(|list| list.sort_by_key(|&a| star.actions[a as usize].cost));
        let none = Set { starts: 0, edges: 0 };
        Edges { own, known: HashMap::default(), sets: vec![none], starts: Vec::new(), edges: Vec::new(), made: Vec::new(), seen: Vec::new() }
    }

    /// The number of the set of leaf l's actions that a centre state enables.
    pub fn set(&mut self, star: &Star, l: usize, centre: Centre) -> SetNumber {
        let mut on = [0u128; 2];
        for &a in &self.own[l] {
            if star.actions[a as usize].needs.holds(centre) {
                on[a as usize / 128] |= 1 << (a % 128);
            }
        }
        if on == [0, 0] {
            return NONE;
        }
        let key = (l as u64, on[0], on[1]);
        if let Some(&n) = self.known.get(&key) {
            return n;
        }
        if self.edges.len() > ROOM {
            return SCRATCH;
        }
        let number = match self.make(star, l, centre) {
            None => NONE,
            Some(set) => {
                self.sets.push(set);
                self.sets.len() as u32 - 1
            }
        };
        self.known.insert(key, number);
        number
    }

    /// Puts a set's edges behind the others; nothing where no edge leads to another state.
    fn make(&mut self, star: &Star, l: usize, centre: Centre) -> Option<Set> {
        let base = star.base[l];
        let count = star.base[l + 1] - base;
        self.made.clear();
        self.seen.clear();
        self.seen.resize((count * count).div_ceil(64), 0);
        let first = self.starts.len();
        self.starts.resize(first + count + 1, 0);
        for &a in &self.own[l] {
            let act = &star.actions[a as usize];
            if !act.needs.holds(centre) {
                continue;
            }
            for m in star.moves(a as usize, l) {
                let (from, to) = (m.from as usize - base, m.to as usize - base);
                let at = from * count + to;
                if from != to && self.seen[at / 64] >> (at % 64) & 1 == 0 {
                    self.seen[at / 64] |= 1 << (at % 64);
                    self.starts[first + from] += 1;
                    self.made.push((from as u16, Edge { to: to as u16, cost: act.cost as u16 }));
                }
            }
        }
        if self.made.is_empty() {
            self.starts.truncate(first);
            return None;
        }
        // Counts to ends, then each edge into the place before its source's last one: ends become starts.
        let starts = &mut self.starts[first..];
        let mut sum = 0;
        for s in starts.iter_mut() {
            sum += *s;
            *s = sum;
        }
        let at = self.edges.len();
        self.edges.resize(at + self.made.len(), Edge { to: 0, cost: 0 });
        for &(from, edge) in self.made.iter().rev() {
            starts[from as usize] -= 1;
            self.edges[at + starts[from as usize] as usize] = edge;
        }
        Some(Set { starts: first as u32, edges: at as u32 })
    }

    /// Calls `f` with the edges of a set of leaf l.
    pub fn with<R>(&mut self, star: &Star, l: usize, number: SetNumber, centre: Centre, f: impl FnOnce(Graph) -> R) -> Option<R> {
        if number == NONE {
            return None;
        }
        if number != SCRATCH {
            return Some(f(self.graph(star, l, self.sets[number as usize])));
        }
        let (starts, edges) = (self.starts.len(), self.edges.len());
        let set = self.make(star, l, centre)?;
        let r = f(self.graph(star, l, set));
        self.starts.truncate(starts);
        self.edges.truncate(edges);
        Some(r)
    }

    fn graph(&self, star: &Star, l: usize, set: Set) -> Graph<'_> {
        let count = star.base[l + 1] - star.base[l];
        Graph { starts: &self.starts[set.starts as usize..][..count + 1], edges: &self.edges[set.edges as usize..] }
    }
}
