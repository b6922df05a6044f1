//! The task record: bytes to a task, or one of the refusals 1 to 11.

use crate::drive::TIMES;
use std::ops::Range;

/// A refusal's number, as the paper counts them.
pub type Refusal = u32;

#[derive(Clone, Copy, Debug)]
pub struct Variable {
    pub size: u8,
    pub factor: u8,
    pub initial: u8,
}

#[derive(Clone, Copy, Debug)]
pub struct Pair {
    pub variable: u8,
    pub value: u8,
}

/// An action's pairs stand in the task's one list: reading a record allocates three times, not twice for each action.
#[derive(Clone, Debug)]
pub struct Action {
    pub cost: u16,
    conditions: Range<u32>,
    effects: Range<u32>,
    /// The factors that the effects name, one bit each.
    pub on: u16,
    /// The factors that the conditions name.
    pub asks: u16,
}

#[derive(Debug)]
pub struct Task {
    pub variables: Vec<Variable>,
    pub leaves: usize,
    pub actions: Vec<Action>,
    goal: Range<u32>,
    pairs: Vec<Pair>,
}

impl Task {
    fn span(&self, r: &Range<u32>) -> &[Pair] {
        &self.pairs[r.start as usize..r.end as usize]
    }

    pub fn goal(&self) -> &[Pair] {
        self.span(&self.goal)
    }

    pub fn conditions(&self, a: &Action) -> &[Pair] {
        self.span(&a.conditions)
    }

    pub fn effects(&self, a: &Action) -> &[Pair] {
        self.span(&a.effects)
    }

    /// The number of states of a leaf, counted no further than is asked for here.
    fn leaf_states(&self, leaf: u8) -> u32 {
        let sizes = self.variables.iter().filter(|v| v.factor == leaf).map(|v| v.size as u32);
        sizes.fold(1, |n, s| (n * s).min(257))
    }
}

impl Action {
    pub fn is_centre(&self) -> bool {
        self.on & 1 == 1
    }
}

struct Bits<'a> {
    bytes: &'a [u8],
    at: usize,
}

impl Bits<'_> {
    fn left(&self) -> usize {
        self.bytes.len() * 8 - self.at
    }

    /// The next field of at most 12 bits.
    #[inline(always)]
    fn take(&mut self, width: usize) -> Result<u32, Refusal> {
        refuse(1, width > self.left())?;
        Ok(self.next(width))
    }

    /// The next field where the record is known to hold it.
    #[inline(always)]
    fn next(&mut self, width: usize) -> u32 {
        let byte = self.at / 8;
        // Four bytes hold any field with the bits before it; only the record's end has fewer.
        let window = match self.bytes.get(byte..byte + 4) {
            Some(four) => u32::from_be_bytes([four[0], four[1], four[2], four[3]]),
            None => (0..4).fold(0, |w, k| w << 8 | *self.bytes.get(byte + k).unwrap_or(&0) as u32),
        };
        let field = (window << (self.at % 8)) >> (32 - width);
        self.at += width;
        field
    }

    /// Zero bits fill the last byte, and nothing follows.
    fn ends(&self) -> bool {
        let left = self.left();
        left < 8 && (left == 0 || self.bytes[self.at / 8] << (8 - left) == 0)
    }
}

fn refuse(number: Refusal, fault: bool) -> Result<(), Refusal> {
    if fault {
        Err(number)
    } else {
        Ok(())
    }
}

const PAIR_BITS: usize = 9;

/// Reads `count` pairs onto the end of the list: where they stand, and the factors that they name.
fn pairs(bits: &mut Bits, variables: &[Variable], count: u32, list: &mut Vec<Pair>) -> Result<(Range<u32>, u16), Refusal> {
    let start = list.len() as u32;
    let mut next = 0;
    let mut factors = 0;
    // Where the record holds the whole list, 1 cannot be met in it, and a pair is read in one piece.
    let whole = bits.left() >= count as usize * PAIR_BITS;
    for _ in 0..count {
        let pair = if whole { bits.next(PAIR_BITS) } else { bits.take(5)? << 4 };
        let variable = pair >> 4;
        refuse(5, variable < next || variable as usize >= variables.len())?;
        let of = variables[variable as usize];
        let value = if whole { pair & 15 } else { bits.take(4)? };
        refuse(6, value >= of.size as u32)?;
        next = variable + 1;
        factors |= 1 << of.factor;
        list.push(Pair { variable: variable as u8, value: value as u8 });
    }
    Ok((start..list.len() as u32, factors))
}

fn fields(bits: &mut Bits) -> Result<Task, Refusal> {
    let n = bits.take(5)? as usize + 1;
    let leaves = bits.take(3)? as usize + 1;
    let m = bits.take(8)? as usize;
    let mut variables = Vec::with_capacity(n);
    for _ in 0..n {
        let size = bits.take(4)? + 1;
        refuse(2, size == 1)?;
        let factor = bits.take(4)?;
        refuse(3, factor as usize > leaves)?;
        let initial = bits.take(4)?;
        refuse(4, initial >= size)?;
        variables.push(Variable { size: size as u8, factor: factor as u8, initial: initial as u8 });
    }
    // The record's length bounds the list.
    let mut list = Vec::with_capacity((bits.bytes.len() * 8 / PAIR_BITS).min(256 * 64));
    let count = bits.take(6)?;
    let (goal, _) = pairs(bits, &variables, count, &mut list)?;
    let mut actions = Vec::with_capacity(m);
    for _ in 0..m {
        let handling = bits.take(12)?;
        let distance = bits.take(10)?;
        let count = bits.take(6)?;
        let (conditions, asks) = pairs(bits, &variables, count, &mut list)?;
        let count = bits.take(6)?;
        refuse(7, count == 0)?;
        let (effects, on) = pairs(bits, &variables, count, &mut list)?;
        let cost = handling as u16 + TIMES[distance as usize];
        actions.push(Action { cost, conditions, effects, on, asks });
    }
    Ok(Task { variables, leaves, actions, goal, pairs: list })
}

/// Refusals 9, 10 and 11, each over the whole task.
fn whole(t: &Task) -> Result<(), Refusal> {
    let named = t.variables.iter().fold(0u32, |set, v| set | 1 << v.factor);
    refuse(9, named != (2 << t.leaves) - 1)?;
    let mut all = 0;
    let mut largest = 0;
    for leaf in 1..=t.leaves {
        let states = t.leaf_states(leaf as u8);
        largest = largest.max(states);
        all += states;
    }
    refuse(10, largest > 256 || all > 1024)?;
    // A leaf action has its effects in one leaf and asks nothing of another.
    let star = |a: &Action| a.is_centre() || (a.on.count_ones() == 1 && a.asks & !(a.on | 1) == 0);
    refuse(11, !t.actions.iter().all(star))
}

/// The task, or the first refusal that the record meets.
pub fn read(record: &[u8]) -> Result<Task, Refusal> {
    let mut bits = Bits { bytes: record, at: 0 };
    let t = fields(&mut bits)?;
    refuse(8, !bits.ends())?;
    whole(&t)?;
    Ok(t)
}
