//! A task as one centre and its leaves, in tables made once for a call. Behind this file nobody looks at a variable.

use crate::record::{Action, Pair, Task};

/// A centre state: four bits for each variable, at the variable's own place.
pub type Centre = u128;

/// Some of a centre's bits and what they are: a condition, or an effect.
#[derive(Clone, Copy, Default)]
pub struct Fixed {
    mask: Centre,
    bits: Centre,
}

impl Fixed {
    #[inline]
    pub fn holds(&self, centre: Centre) -> bool {
        centre & self.mask == self.bits
    }

    #[inline]
    pub fn set(&self, centre: Centre) -> Centre {
        centre & !self.mask | self.bits
    }
}

/// What an action does in one leaf: from each state that meets its conditions to the state after it. States count over all leaves.
#[derive(Clone, Copy)]
pub struct Move {
    pub from: u16,
    pub to: u16,
}

pub struct Act {
    pub cost: u32,
    pub needs: Fixed,
    pub sets: Fixed,
    /// The leaves that it names, one bit each, from leaf 1 at bit 0.
    pub touches: u8,
    pub is_centre: bool,
}

pub struct Star {
    pub leaves: usize,
    /// Leaf l's states are `base[l]..base[l + 1]`; leaves count from 0 here.
    pub base: [usize; 9],
    pub initial: [usize; 8],
    pub centre: Centre,
    pub goal_centre: Fixed,
    /// For each state whether it meets the leaf's goal, and for each leaf whether it has one.
    pub goal: Vec<bool>,
    pub goal_leaves: u8,
    pub actions: Vec<Act>,
    moves: Vec<Move>,
    /// Where the moves of action a in leaf l start: at `a * leaves + l`.
    starts: Vec<u32>,
    /// Each state's bit in a signature. A leaf has its own bits, so a signature can be made leaf by leaf.
    pub bit: Vec<u64>,
    pub leaf_bits: [u64; 8],
    /// The bits of the states that an action's moves in a leaf start from, at `a * leaves + l`.
    pub from_bits: Vec<u64>,
    /// A price rises by no more than this in a layer.
    pub layer_rise: u64,
}

/// A leaf's variables, with the worth of one step of each in the leaf state's number.
struct Leaf {
    variables: Vec<(u8, u16, u16)>, // variable, size, worth
}

impl Star {
    pub fn states(&self) -> usize {
        self.base[self.leaves]
    }

    #[inline]
    pub fn moves(&self, action: usize, leaf: usize) -> &[Move] {
        let at = action * self.leaves + leaf;
        &self.moves[self.starts[at] as usize..self.starts[at + 1] as usize]
    }

    /// The one leaf of a leaf action.
    pub fn leaf_of(&self, action: usize) -> usize {
        self.actions[action].touches.trailing_zeros() as usize
    }

    pub fn new(t: &Task) -> Star {
        let leaves = t.leaves;
        let mut base = [0; 9];
        let mut initial = [0; 8];
        let mut shapes = Vec::with_capacity(leaves);
        for l in 0..leaves {
            let (leaf, count, first) = shape(t, l);
            initial[l] = base[l] + first;
            base[l + 1] = base[l] + count;
            shapes.push(leaf);
        }
        let states = base[leaves];

        let mut goal = Vec::with_capacity(states);
        let mut goal_leaves = 0;
        let mut scratch = Vec::new();
        for l in 0..leaves {
            let asked = on_leaf(t, t.goal(), l).count() > 0;
            goal.resize(base[l + 1], !asked);
            if asked {
                goal_leaves |= 1 << l;
                scratch.clear();
                leaf_moves(&shapes[l], base[l], t.goal(), &[], &mut scratch);
                scratch.iter().for_each(|m| goal[m.from as usize] = true);
            }
        }

        let (bit, leaf_bits) = signature_bits(&base, leaves);
        let mut moves = Vec::new();
        let mut starts = Vec::with_capacity(t.actions.len() * leaves + 1);
        let mut from_bits = Vec::with_capacity(t.actions.len() * leaves);
        let mut actions = Vec::with_capacity(t.actions.len());
        let mut layer_rise = 0;
        for a in &t.actions {
            let touches = ((a.on | a.asks) >> 1) as u8;
            for l in 0..leaves {
                starts.push(moves.len() as u32);
                if touches >> l & 1 == 1 {
                    leaf_moves(&shapes[l], base[l], t.conditions(a), t.effects(a), &mut moves);
                }
                let own = &moves[starts[starts.len() - 1] as usize..];
                from_bits.push(own.iter().fold(0, |set, m| set | bit[m.from as usize]));
            }
            if !a.is_centre() {
                let l = touches.trailing_zeros() as usize;
                layer_rise = layer_rise.max((base[l + 1] - base[l] - 1) as u64 * a.cost as u64);
            }
            actions.push(act(t, a, touches));
        }
        starts.push(moves.len() as u32);

        let centre = t.variables.iter().enumerate().filter(|(_, v)| v.factor == 0).fold(0, |c, (v, x)| c | (x.initial as Centre) << (4 * v));
        let goal_centre = fixed(t, t.goal());
        Star { leaves, base, initial, centre, goal_centre, goal, goal_leaves, actions, moves, starts, bit, leaf_bits, from_bits, layer_rise }
    }
}

fn act(t: &Task, a: &Action, touches: u8) -> Act {
    let needs = fixed(t, t.conditions(a));
    let sets = fixed(t, t.effects(a));
    Act { cost: a.cost as u32, needs, sets, touches, is_centre: a.is_centre() }
}

/// The centre's part of a list of pairs.
fn fixed(t: &Task, pairs: &[Pair]) -> Fixed {
    let mut f = Fixed::default();
    for p in pairs.iter().filter(|p| t.variables[p.variable as usize].factor == 0) {
        f.mask |= 15 << (4 * p.variable);
        f.bits |= (p.value as Centre) << (4 * p.variable);
    }
    f
}

fn on_leaf<'a>(t: &'a Task, pairs: &'a [Pair], l: usize) -> impl Iterator<Item = &'a Pair> {
    pairs.iter().filter(move |p| t.variables[p.variable as usize].factor as usize == l + 1)
}

/// A leaf's variables, the number of its states and its initial state: mixed radix, the first variable the most significant.
fn shape(t: &Task, l: usize) -> (Leaf, usize, usize) {
    let mut variables: Vec<(u8, u16, u16)> = Vec::new();
    let mut worth = 1;
    let mut first = 0;
    for (v, x) in t.variables.iter().enumerate().rev().filter(|(_, x)| x.factor as usize == l + 1) {
        variables.push((v as u8, x.size as u16, worth));
        first += x.initial as usize * worth as usize;
        worth *= x.size as u16;
    }
    variables.reverse();
    (Leaf { variables }, worth as usize, first)
}

fn value_in(pairs: &[Pair], variable: u8) -> Option<u16> {
    pairs.iter().find(|p| p.variable == variable).map(|p| p.value as u16)
}

/// All moves of an action in a leaf, by rising state, put behind `out`. Only states that meet the conditions are ever made: each variable
/// that the conditions leave open multiplies the list.
fn leaf_moves(leaf: &Leaf, base: usize, conditions: &[Pair], effects: &[Pair], out: &mut Vec<Move>) {
    let start = out.len();
    out.push(Move { from: base as u16, to: base as u16 });
    for &(variable, size, worth) in &leaf.variables {
        let asked = value_in(conditions, variable);
        let set = value_in(effects, variable);
        if let Some(x) = asked {
            for m in &mut out[start..] {
                m.from += x * worth;
                m.to += set.unwrap_or(x) * worth;
            }
            continue;
        }
        // From the back, so that a move is read before its own place is written over.
        let count = out.len() - start;
        out.resize(start + count * size as usize, Move { from: 0, to: 0 });
        for i in (0..count).rev() {
            let m = out[start + i];
            for x in (0..size).rev() {
                let to = m.to + set.unwrap_or(x) * worth;
                out[start + i * size as usize + x as usize] = Move { from: m.from + x * worth, to };
            }
        }
    }
}

/// One bit for each state where 64 are enough; else each leaf has its share, and neighbours stand under one bit.
fn signature_bits(base: &[usize; 9], leaves: usize) -> (Vec<u64>, [u64; 8]) {
    let states = base[leaves];
    let mut bit = Vec::with_capacity(states);
    let mut leaf_bits = [0; 8];
    let mut offset = 0;
    for l in 0..leaves {
        let count = base[l + 1] - base[l];
        let share = if states <= 64 { count } else { 1 + (64 - leaves) * count / states };
        for s in 0..count {
            let b = 1 << (offset + s * share / count);
            leaf_bits[l] |= b;
            bit.push(b);
        }
        offset += share;
    }
    (bit, leaf_bits)
}
