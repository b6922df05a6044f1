//! A uniform-cost search over whole states, from the record's own task and nothing of the star: what a planner would do without leaves.

use crate::record::Task;
use std::cmp::Reverse;
use std::collections::BinaryHeap;

/// The least cost, none where the goal is out of reach; and the number of states expanded.
pub fn least_cost(t: &Task) -> (Option<u64>, usize) {
    let mut worth = vec![1usize; t.variables.len() + 1];
    for (v, x) in t.variables.iter().enumerate() {
        worth[v + 1] = worth[v] * x.size as usize;
    }
    let value = |state: usize, v: u8| state / worth[v as usize] % t.variables[v as usize].size as usize;
    let holds = |state, pairs: &[crate::record::Pair]| pairs.iter().all(|p| value(state, p.variable) == p.value as usize);
    let start = t.variables.iter().enumerate().map(|(v, x)| x.initial as usize * worth[v]).sum();
    let mut cost = vec![u64::MAX; worth[t.variables.len()]];
    let mut open = BinaryHeap::new();
    cost[start] = 0;
    open.push(Reverse((0u64, start)));
    let mut expanded = 0;
    while let Some(Reverse((c, state))) = open.pop() {
        if c != cost[state] {
            continue;
        }
        if holds(state, t.goal()) {
            return (Some(c), expanded);
        }
        expanded += 1;
        for a in t.actions.iter().filter(|a| holds(state, t.conditions(a))) {
            let set = |s: usize, p: &crate::record::Pair| {
                s - value(s, p.variable) * worth[p.variable as usize] + p.value as usize * worth[p.variable as usize]
            };
            let next = t.effects(a).iter().fold(state, set);
            let n = c + a.cost as u64;
            if n < cost[next] {
                cost[next] = n;
                open.push(Reverse((n, next)));
            }
        }
    }
    (None, expanded)
}
