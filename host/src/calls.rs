//! Calls to compare planners with: valid tasks of many shapes, damaged ones, and every refusal.

use crate::depot::{benchmark, fetch, large_leaves, order, Trays};
use crate::draft::{pack, Draft, Field, Kind, Pair, Step};
use crate::plain::Walk;
use crate::random::Random;
use crate::record::read;
use crate::star::Star;

#[derive(Debug)]
pub enum Call {
    Plan { record: Vec<u8>, nodes: u32, budget: u32, room: usize, words: usize },
    Prices { record: Vec<u8>, path: Vec<u8>, lent: usize },
    Words { record: Vec<u8>, nodes: u32 },
}

impl Call {
    /// The call as bytes, for another program: a letter, then numbers of four bytes, the most significant first, and byte strings with their
    /// length before them.
    pub fn frame(&self) -> Vec<u8> {
        let mut out = Vec::new();
        let number = |out: &mut Vec<u8>, x: usize| out.extend((x as u32).to_be_bytes());
        let bytes = |out: &mut Vec<u8>, b: &[u8]| {
            number(out, b.len());
            out.extend(b);
        };
        match self {
            Call::Plan { record, nodes, budget, room, words } => {
                out.push(b'p');
                bytes(&mut out, record);
                [*nodes as usize, *budget as usize, *room, *words].iter().for_each(|&x| number(&mut out, x));
            }
            Call::Prices { record, path, lent } => {
                out.push(b'c');
                bytes(&mut out, record);
                bytes(&mut out, path);
                number(&mut out, *lent);
            }
            Call::Words { record, nodes } => {
                out.push(b'w');
                bytes(&mut out, record);
                number(&mut out, *nodes as usize);
            }
        }
        out
    }
}

/// The benchmark's tasks as calls of the planner.
pub fn benchmark_calls() -> Vec<Call> {
    let plan = |d: &Draft| Call::Plan { record: d.record(), nodes: 4096, budget: u32::MAX, room: 1 << 21, words: 4097 * (40 + d.leaf_states()) };
    benchmark().iter().map(|(_, d)| plan(d)).collect()
}

pub fn call(r: &mut Random) -> Call {
    match r.below(20) {
        0..=12 => plan_call(r),
        13..=18 => prices_call(r),
        _ => Call::Words { record: any_record(r).0, nodes: r.pick(&[0, 1, 2, 17, 4096, 4097, u32::MAX]) },
    }
}

fn plan_call(r: &mut Random) -> Call {
    let (record, states) = any_record(r);
    // Many nodes mean many words to fill and to look at: they are kept for some of the calls.
    let nodes = match r.below(400) {
        0..=11 => 0,
        12..=15 => 4097,
        16..=19 => u32::MAX - r.below(3) as u32,
        20..=21 => 4096,
        22..=23 => r.from(300, 4095) as u32,
        24..=59 => 1,
        60..=119 => r.from(2, 5) as u32,
        120..=249 => r.from(6, 40) as u32,
        _ => r.from(40, 150) as u32,
    };
    let budget = match r.below(20) {
        0 => 0,
        1..=4 => r.from(1, 8) as u32,
        5..=8 => r.from(9, 200) as u32,
        9..=12 => 4096,
        _ => u32::MAX - r.below(2) as u32,
    };
    let room = match r.below(20) {
        0 => 0,
        1..=3 => r.from(1, 6),
        4..=6 => r.from(7, 30),
        _ => r.from(40, 600),
    };
    let enough = (nodes.min(4096) as usize + 1) * (40 + states);
    let words = match r.below(40) {
        0 => 0,
        1 => enough - 1,
        2 => r.below(enough),
        3..=20 => enough,
        _ => enough + r.from(1, 50),
    };
    Call::Plan { record, nodes, budget, room, words }
}

fn prices_call(r: &mut Random) -> Call {
    let (record, states) = any_record(r);
    let path = path(r, &record);
    let lent = match r.below(20) {
        0 => r.below(states),
        1 => states - 1,
        2..=12 => states,
        _ => states + r.from(1, 40),
    };
    Call::Prices { record, path, lent }
}

/// A path for a record: mostly one that applies, to its end or up to its last entries.
fn path(r: &mut Random, record: &[u8]) -> Vec<u8> {
    let Ok(task) = read(record) else { return (0..r.below(6)).map(|_| r.below(256) as u8).collect() };
    let star = Star::new(&task);
    let centre: Vec<u8> = (0..task.actions.len()).filter(|&a| task.actions[a].is_centre()).map(|a| a as u8).collect();
    let mut path = Vec::new();
    if !centre.is_empty() {
        let long = if r.percent(3) { 300 } else { r.pick(&[0, 1, 2, 3, 5, 9, 15, 40]) };
        let mut walk = Walk::new(&star);
        for _ in 0..long {
            // A few tries find an action that applies where there is one.
            let Some(a) = (0..12).map(|_| r.pick(&centre)).find(|&a| walk.step(a as usize)) else { break };
            path.push(a);
        }
        if r.percent(12) {
            path.push(r.pick(&centre));
        }
        if r.percent(1) {
            let most = r.pick(&[4094, 4095, 4096, 4097, 5000]);
            let a = r.pick(&centre);
            path.resize(most, a);
        }
    }
    if r.percent(4) {
        let other = if r.percent(50) { task.actions.len() as u8 } else { r.below(256) as u8 };
        path.insert(r.below(path.len() + 1), other);
    }
    path
}

/// A record, and about how many leaf states its task has (the exact number where it is accepted).
fn any_record(r: &mut Random) -> (Vec<u8>, usize) {
    if r.percent(2) {
        let length = r.pick(&[0, 1, 2, 5, 20, 60, 200]);
        return ((0..length).map(|_| r.word() as u8).collect(), r.from(1, 60));
    }
    let draft = any_draft(r);
    let states = draft.leaf_states();
    let record = if r.percent(22) { damaged(r, &draft) } else { draft.record() };
    let states = match read(&record) {
        Ok(t) => Star::new(&t).states(),
        Err(_) => states.min(1024),
    };
    (record, states)
}

fn any_draft(r: &mut Random) -> Draft {
    match r.below(200) {
        0 => fetch(),
        1..=14 => {
            let trays = r.pick(&[Trays::Enough, Trays::Loads(1), Trays::Loads(1), Trays::Loads(2)]);
            let (stops, pairs) = (r.from(2, 6), r.from(1, 5));
            order(r, stops, pairs, trays)
        }
        15 => {
            let (leaves, states) = (r.from(1, 3), r.pick(&[64, 128, 256]));
            large_leaves(r, leaves, states)
        }
        16 => wide(r),
        _ => star(r),
    }
}

/// Some of the variables, each with a value, by rising number.
fn pairs(r: &mut Random, d: &Draft, over: &[usize], least: usize, most: usize) -> Vec<Pair> {
    let count = r.from(least, most).min(over.len());
    let mut some = over.to_vec();
    r.shuffle(&mut some);
    some.truncate(count);
    some.into_iter().map(|v| (v, r.below(d.variables[v].0))).collect()
}

fn of_factors(d: &Draft, test: impl Fn(usize) -> bool) -> Vec<usize> {
    (0..d.variables.len()).filter(|&v| test(d.variables[v].1)).collect()
}

/// A random star task: like the ones that the model draws, with more shapes.
fn star(r: &mut Random) -> Draft {
    let leaves = r.pick(&[1, 1, 1, 2, 2, 3, 4, 5, 8]);
    let largest = r.pick(&[2, 3, 3, 4, 4, 6, 16]);
    let mut factors: Vec<usize> = (0..=leaves).collect();
    for _ in 0..r.pick(&[0, 1, 2, 3, 4, 4, 8]) {
        let most = if r.percent(40) { 0 } else { leaves };
        factors.push(r.from(0, most));
    }
    r.shuffle(&mut factors);
    let mut d = Draft { leaves, ..Draft::default() };
    let mut states = vec![1; leaves + 1];
    for f in factors {
        // A leaf that has enough states gets small variables.
        let size = if states[f] > 12 { 2 } else { r.from(2, largest) };
        states[f] *= size;
        let initial = if r.percent(50) { 0 } else { r.below(size) };
        d.variables.push((size, f, initial));
    }
    let handlings = match r.below(5) {
        0 => vec![0, 1, 2],
        1 => vec![0, 0, 1],
        2 => vec![1, 10, 100],
        3 => (0..4).map(|_| r.below(4096)).collect(),
        _ => vec![4095],
    };
    let distances = match r.below(4) {
        0 => vec![0, 1, 400, 401, 1023],
        1 => (0..3).map(|_| r.below(1024)).collect(),
        _ => vec![0],
    };
    let centre_share = r.pick(&[15, 25, 40, 60]);
    for _ in 0..r.pick(&[0, 1, 3, 6, 10, 16, 16, 25, 25, 40]) {
        let (c, e) = if r.percent(centre_share) { centre_action(r, &d) } else { leaf_action(r, &d) };
        add(&mut d, r.pick(&handlings), r.pick(&distances), c, e);
    }
    let all: Vec<usize> = (0..d.variables.len()).collect();
    let most = r.pick(&[0, 1, 2, 2, 3, 6]);
    d.goal = pairs(r, &d, &all, most.min(1), most);
    d.goal.sort();
    d
}

fn add(d: &mut Draft, handling: usize, distance: usize, mut conditions: Vec<Pair>, mut effects: Vec<Pair>) {
    conditions.sort();
    effects.sort();
    d.steps.push(Step { handling, distance, conditions, effects });
}

fn centre_action(r: &mut Random, d: &Draft) -> (Vec<Pair>, Vec<Pair>) {
    let centre = of_factors(d, |f| f == 0);
    let others = of_factors(d, |f| f != 0);
    let mut e = pairs(r, d, &centre, 1, 2);
    if r.percent(50) {
        let most = r.pick(&[1, 2, 4]);
        e.extend(pairs(r, d, &others, 0, most));
    }
    let most = r.pick(&[0, 1, 1, 2]);
    let mut c = pairs(r, d, &centre, 0, most);
    if r.percent(50) {
        let most = r.pick(&[1, 1, 2, 3]);
        c.extend(pairs(r, d, &others, 0, most));
    }
    (c, e)
}

fn leaf_action(r: &mut Random, d: &Draft) -> (Vec<Pair>, Vec<Pair>) {
    let leaf = r.from(1, d.leaves);
    let own = of_factors(d, |f| f == leaf);
    let most = r.pick(&[1, 1, 2, 3]);
    let e = pairs(r, d, &own, 1, most);
    let most = r.pick(&[0, 1, 1, 2]);
    let mut c = pairs(r, d, &own, 0, most);
    if r.percent(50) {
        let centre = of_factors(d, |f| f == 0);
        let most = r.pick(&[1, 1, 2]);
        c.extend(pairs(r, d, &centre, 0, most));
    }
    (c, e)
}

/// All 32 variables, most of them in the centre, and up to 255 actions with long lists.
fn wide(r: &mut Random) -> Draft {
    let leaves = r.from(1, 8);
    let mut d = Draft { leaves, ..Draft::default() };
    let mut factors: Vec<usize> = (0..32).map(|v| if v <= leaves { v } else { 0 }).collect();
    r.shuffle(&mut factors);
    for f in factors {
        let size = r.from(2, 16);
        d.variables.push((size, f, r.below(size)));
    }
    for _ in 0..r.pick(&[20, 100, 255]) {
        let (mut c, mut e) = if r.percent(60) { centre_action(r, &d) } else { leaf_action(r, &d) };
        if r.percent(10) {
            let all: Vec<usize> = (0..32).collect();
            c = pairs(r, &d, &all, 20, 32);
            e = pairs(r, &d, &all, 31, 32);
        }
        let (handling, distance) = (r.below(4096), r.below(1024));
        add(&mut d, handling, distance, c, e);
    }
    let all: Vec<usize> = (0..32).collect();
    d.goal = pairs(r, &d, &all, 0, 4);
    d.goal.sort();
    d
}

/// The longest record: 32 variables, 255 actions, every list of 32 pairs.
pub fn longest() -> Vec<u8> {
    let all = |value: usize| (0..32).map(|v| (v, value)).collect::<Vec<_>>();
    let mut d = Draft { leaves: 8, goal: all(1), ..Draft::default() };
    d.variables = (0..32).map(|v| (2, if v < 9 { v } else { 0 }, 0)).collect();
    d.steps = (0..255).map(|k| Step { handling: 4095, distance: 1023, conditions: all(k % 2), effects: all(1 - k % 2) }).collect();
    d.record()
}

/// A record with a fault: in one field, over the whole, or at its end.
fn damaged(r: &mut Random, draft: &Draft) -> Vec<u8> {
    let mut d = draft.clone();
    match r.below(14) {
        0 => cut(r, &d.record()),
        1 => flipped(r, d.record()),
        2 => fault(r, &d, Kind::Size, |_, _| 0),
        3 => fault(r, &d, Kind::Factor, |_, r| r.from(0, 15)),
        4 => fault(r, &d, Kind::Initial, |_, r| r.from(0, 15)),
        5 | 6 => fault(r, &d, Kind::Variable, |x, r| if r.percent(50) { x.saturating_sub(1) } else { r.below(32) }),
        7 => fault(r, &d, Kind::Value, |_, r| r.below(16)),
        8 => fault(r, &d, Kind::EffectCount, |_, r| r.pick(&[0, 0, 0, 33, 63])),
        9 => ended_badly(r, d.record()),
        10 => {
            // A leaf, or the centre, loses all its variables to another factor.
            let (from, to) = (r.from(0, d.leaves), r.from(0, d.leaves));
            d.variables.iter_mut().filter(|v| v.1 == from).for_each(|v| v.1 = to);
            d.record()
        }
        11 => {
            // Leaves that are too large, or nearly.
            let size = r.pick(&[7, 8, 16, 16]);
            d.variables.iter_mut().for_each(|v| v.0 = v.0.max(size));
            while d.variables.len() < 32 && r.percent(90) {
                d.variables.push((size, r.from(1, d.leaves), 0));
            }
            d.record()
        }
        12 => {
            // An action that is neither: effects in two leaves, or a condition on another leaf.
            let others = of_factors(&d, |f| f != 0);
            let (c, e) = (pairs(r, &d, &others, 0, 3), pairs(r, &d, &others, 1, 3));
            add(&mut d, 1, 1, c, e);
            d.record()
        }
        _ => {
            let once = flipped(r, d.record());
            flipped(r, once)
        }
    }
}

fn cut(r: &mut Random, record: &[u8]) -> Vec<u8> {
    record[..r.below(record.len())].to_vec()
}

fn flipped(r: &mut Random, mut record: Vec<u8>) -> Vec<u8> {
    let at = r.below(record.len());
    record[at] ^= 1 << r.below(8);
    record
}

/// Fill bits that are not zero, or bytes behind the last field.
fn ended_badly(r: &mut Random, mut record: Vec<u8>) -> Vec<u8> {
    if r.percent(50) {
        *record.last_mut().expect("a record has a head") |= 1 << r.below(7);
    } else {
        record.extend((0..r.from(1, 3)).map(|_| r.pick(&[0u8, 0, 1, 0x80])));
    }
    record
}

/// One field of a kind changed; sometimes the record is cut short behind it too, to see which fault is said.
fn fault(r: &mut Random, d: &Draft, kind: Kind, change: impl Fn(usize, &mut Random) -> usize) -> Vec<u8> {
    let mut fields: Vec<Field> = d.fields();
    let of_kind: Vec<usize> = (0..fields.len()).filter(|&k| fields[k].kind == kind).collect();
    if !of_kind.is_empty() {
        let at = r.pick(&of_kind);
        fields[at].value = change(fields[at].value, r) & ((1 << fields[at].width) - 1);
        if r.percent(15) {
            fields.truncate(at + r.from(1, 3));
        }
    }
    pack(&fields)
}
