//! Depot tasks: a carriage on a rail, pairs of skis to fetch and to bring; and star tasks with large leaves.

use crate::draft::{Draft, Step};
use crate::random::Random;

fn step(handling: usize, distance: usize, mut conditions: Vec<(usize, usize)>, mut effects: Vec<(usize, usize)>) -> Step {
    conditions.sort();
    effects.sort();
    Step { handling, distance, conditions, effects }
}

/// The paper's example: one pair to fetch.
pub fn fetch() -> Draft {
    Draft {
        leaves: 1,
        variables: vec![(2, 0, 0), (3, 1, 0)],
        goal: vec![(1, 2)],
        steps: vec![
            step(0, 400, vec![(0, 0)], vec![(0, 1)]),
            step(0, 400, vec![(0, 1)], vec![(0, 0)]),
            step(500, 0, vec![(0, 1), (1, 0)], vec![(1, 1)]),
            step(300, 0, vec![(0, 0), (1, 1)], vec![(1, 2)]),
        ],
    }
}

/// How the carriage carries.
#[derive(Clone, Copy, PartialEq, Eq, Debug)]
pub enum Trays {
    /// As many pairs as there are: taking and giving are leaf actions, as in the paper's example.
    Enough,
    /// This many at a time: the load belongs to the centre, so taking and giving are centre actions.
    Loads(usize),
}

/// A carriage on a rail of `stops` stops, stop 0 the hatch, and a leaf for each pair: at a stop or on a tray. Half of the pairs are to be
/// fetched to the hatch, half to be brought from it. A pair is taken at its start and given at its end, and nowhere else.
pub fn order(r: &mut Random, stops: usize, pairs: usize, trays: Trays) -> Draft {
    let mut at: Vec<usize> = (0..stops).map(|_| r.below(1000)).collect();
    at.sort();
    let tray = stops;
    let mut d = Draft { leaves: pairs, variables: vec![(stops, 0, 0)], ..Draft::default() };
    let load = 1;
    if let Trays::Loads(most) = trays {
        d.variables.push((most + 1, 0, 0));
    }
    let first = d.variables.len();
    for i in 0..stops {
        for j in (0..stops).filter(|&j| j != i) {
            d.steps.push(step(0, at[j].abs_diff(at[i]), vec![(0, i)], vec![(0, j)]));
        }
    }
    for p in 0..pairs {
        let rack = r.from(1, stops - 1);
        let (start, end) = if r.percent(50) { (rack, 0) } else { (0, rack) };
        let skis = first + p;
        d.variables.push((stops + 1, p + 1, start));
        d.goal.push((skis, end));
        let (take, give) = (400 + r.below(200), 250 + r.below(100));
        let take_pair = (vec![(0, start), (skis, start)], vec![(skis, tray)]);
        let give_pair = (vec![(0, end), (skis, tray)], vec![(skis, end)]);
        match trays {
            Trays::Enough => {
                d.steps.push(step(take, 0, take_pair.0, take_pair.1));
                d.steps.push(step(give, 0, give_pair.0, give_pair.1));
            }
            Trays::Loads(most) => {
                for n in 0..most {
                    let with = |(c, e): &(Vec<_>, Vec<_>), before, after, handling| {
                        step(handling, 0, [&c[..], &[(load, before)]].concat(), [&e[..], &[(load, after)]].concat())
                    };
                    d.steps.push(with(&take_pair, n, n + 1, take));
                    d.steps.push(with(&give_pair, n + 1, n, give));
                }
            }
        }
    }
    d
}

/// A star task with leaves of `states` states each (a power of 2, 64 to 256): a centre of a few variables, leaf actions that step through
/// the leaves under conditions on the centre, and centre actions that move one leaf's variable too.
pub fn large_leaves(r: &mut Random, leaves: usize, states: usize) -> Draft {
    let centre = [4, 4];
    let mut d = Draft { leaves, ..Draft::default() };
    d.variables.extend(centre.iter().map(|&size| (size, 0, 0)));
    let mut of_leaf = vec![Vec::new(); leaves];
    for (l, own) in of_leaf.iter_mut().enumerate() {
        let sizes = if states == 64 {
            vec![8, 8]
        } else if states == 128 {
            vec![16, 8]
        } else {
            vec![16, 16]
        };
        for size in sizes {
            own.push(d.variables.len());
            d.variables.push((size, l + 1, 0));
        }
    }
    for (v, &size) in centre.iter().enumerate() {
        for x in 0..size {
            let y = (x + 1) % size;
            let mut back = step(r.below(50), r.below(400), vec![(v, y)], vec![(v, x)]);
            d.steps.push(step(r.below(50), r.below(400), vec![(v, x)], vec![(v, y)]));
            if r.percent(50) {
                let own = &of_leaf[r.below(leaves)];
                let w = own[r.below(own.len())];
                back.effects.push((w, r.below(d.variables[w].0)));
                back.effects.sort();
            }
            d.steps.push(back);
        }
    }
    for own in &of_leaf {
        for &v in own {
            for _ in 0..10 {
                let size = d.variables[v].0;
                let x = r.below(size);
                let y = (x + r.from(1, 3)) % size;
                let mut conditions = vec![(v, x)];
                if r.percent(70) {
                    let c = r.below(centre.len());
                    conditions.push((c, r.below(centre[c])));
                }
                d.steps.push(step(r.below(300), 0, conditions, vec![(v, y)]));
            }
        }
    }
    // The goal is where a walk comes to, so that there is a plan.
    let end = walked(r, &d, 80);
    d.goal = of_leaf.concat().into_iter().map(|v| (v, end[v])).collect();
    d.goal.sort();
    d
}

/// The values after so many tries of a random action, from the initial state.
fn walked(r: &mut Random, d: &Draft, tries: usize) -> Vec<usize> {
    let mut state: Vec<usize> = d.variables.iter().map(|v| v.2).collect();
    for _ in 0..tries * d.steps.len() {
        let s = &d.steps[r.below(d.steps.len())];
        if s.conditions.iter().all(|&(v, x)| state[v] == x) {
            s.effects.iter().for_each(|&(v, x)| state[v] = x);
        }
    }
    state
}

/// The deepest path and the dearest prices: a centre that counts to 4,095, and at each count a leaf of 256 states that has to go from its first
/// state to its last at the dearest cost. Its prices outgrow 32 bits.
pub fn deepest() -> Draft {
    let mut d = Draft { leaves: 1, goal: vec![(0, 15), (1, 15), (2, 15)], ..Draft::default() };
    d.variables = vec![(16, 0, 0), (16, 0, 0), (16, 0, 0), (16, 1, 0), (16, 1, 0)];
    // Digit v goes up and all digits behind it, which are at their last value, go back to 0.
    let mut count = |v: usize, digits: std::ops::Range<usize>, asks: &[(usize, usize)], sets: &[(usize, usize)]| {
        for x in 0..15 {
            let conditions = digits.clone().filter(|&w| w >= v).map(|w| (w, if w == v { x } else { 15 }));
            let effects = digits.clone().filter(|&w| w >= v).map(|w| (w, if w == v { x + 1 } else { 0 }));
            d.steps.push(step(4095, 1023, conditions.chain(asks.iter().copied()).collect(), effects.chain(sets.iter().copied()).collect()));
        }
    };
    (0..3).for_each(|v| count(v, 0..3, &[(3, 15), (4, 15)], &[(3, 0), (4, 0)]));
    (3..5).for_each(|v| count(v, 3..5, &[], &[]));
    d
}

/// The benchmark's tasks, with their names: orders of 3 to 8 stops and 2 to 8 pairs, then large leaves, then the deepest.
pub fn benchmark() -> Vec<(String, Draft)> {
    let mut tasks = Vec::new();
    for (trays, name) in [(Trays::Enough, "trays enough"), (Trays::Loads(1), "1 tray"), (Trays::Loads(2), "2 trays")] {
        for (stops, pairs) in [(3, 2), (3, 3), (4, 3), (4, 4), (5, 4), (5, 5), (6, 5), (6, 6), (7, 6), (7, 8), (8, 8)] {
            let mut r = Random::new((stops * 10 + pairs) as u64);
            tasks.push((format!("{stops} stops {pairs} pairs {name}"), order(&mut r, stops, pairs, trays)));
        }
    }
    for (leaves, states) in [(1, 64), (2, 64), (4, 64), (8, 64), (1, 128), (2, 128), (4, 128), (8, 128), (1, 256), (2, 256), (4, 256)] {
        let mut r = Random::new((leaves * 1000 + states) as u64);
        tasks.push((format!("{leaves} leaves of {states}"), large_leaves(&mut r, leaves, states)));
    }
    tasks.push(("deepest".into(), deepest()));
    tasks
}
