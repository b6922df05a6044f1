//! The plan: each leaf's way back through the layers of best's path.

use crate::explore::Search;
use crate::layer::{begin, first, Price};
use crate::star::{Move, Star};

const FAR: u16 = u16::MAX;

/// The plan's actions, the first first.
pub fn plan<P: Price>(search: &Search<P>, best: u32) -> Vec<u8> {
    let star = search.star;
    let own = own_actions(star);
    let mut u = best as usize;
    let mut state: Vec<usize> = (0..star.leaves).map(|l| goal_state(star, search.row(u), l)).collect();
    let mut start = vec![P::MARK; star.states()];
    let mut back = Vec::new(); // the last action first
    loop {
        let node = &search.nodes[u];
        let action = node.action as usize;
        let parent = node.parent as usize;
        if u == 0 {
            start = first(star);
        } else {
            begin(star, action, search.row(parent), &mut start);
        }
        let centre = search.centre_of(u);
        for l in (0..star.leaves).rev() {
            let enabled: Vec<usize> = own[l].iter().copied().filter(|&a| star.actions[a].needs.holds(centre)).collect();
            state[l] = in_layer(star, l, &enabled, &start, search.row(u), state[l], &mut back);
        }
        if u == 0 {
            back.reverse();
            return back;
        }
        for l in 0..star.leaves {
            if star.actions[action].touches >> l & 1 == 1 {
                let gave = |s: usize, to: usize| to == state[l] && search.row(parent)[s] == start[state[l]];
                let m = star.moves(action, l).iter().find(|m| gave(m.from as usize, m.to as usize));
                state[l] = m.expect("a passed price came from somewhere").from as usize;
            }
        }
        back.push(node.action);
        u = parent;
    }
}

/// Each leaf's actions by rising number.
fn own_actions(star: &Star) -> Vec<Vec<usize>> {
    let mut own = vec![Vec::new(); star.leaves];
    (0..star.actions.len()).filter(|&a| !star.actions[a].is_centre).for_each(|a| own[star.leaf_of(a)].push(a));
    own
}

/// The lowest goal state of least price.
fn goal_state<P: Price>(star: &Star, row: &[P], l: usize) -> usize {
    (star.base[l]..star.base[l + 1]).filter(|&s| star.goal[s]).min_by_key(|&s| row[s]).expect("best has a goal state in each leaf")
}

/// An edge that gives its end's price: by this action, between states counted in their leaf.
#[derive(Clone, Copy)]
struct Tight {
    action: u8,
    from: u16,
    to: u16,
}

/// Walks back in one layer, from a state to the state that the layer began with; the actions go behind `back`, the last first.
fn in_layer<P: Price>(star: &Star, l: usize, enabled: &[usize], start: &[P], row: &[P], state: usize, back: &mut Vec<u8>) -> usize {
    if start[state] == row[state] {
        return state;
    }
    let span = star.base[l]..star.base[l + 1];
    let tight = tight_edges(star, l, enabled, row);
    let depth = depths(&tight, &start[span.clone()], &row[span.clone()]);
    // By end, and for each end by action and then by source, as they were found.
    let into = Grouped::new(&tight, span.len(), |e| e.to);
    let mut at = state - span.start;
    while depth[at] != 0 {
        let edge = into.of(at).iter().find(|e| depth[e.from as usize] == depth[at] - 1).expect("a depth above 0 has a state before it");
        back.push(edge.action);
        at = edge.from as usize;
    }
    span.start + at
}

/// All tight edges, by rising action and then by rising source.
fn tight_edges<P: Price>(star: &Star, l: usize, enabled: &[usize], row: &[P]) -> Vec<Tight> {
    let base = star.base[l] as u16;
    let mut tight = Vec::new();
    for &a in enabled {
        let cost = star.actions[a].cost as u16;
        let gives = |m: &&Move| row[m.from as usize] != P::MARK && row[m.from as usize].plus(cost) == row[m.to as usize];
        tight.extend(star.moves(a, l).iter().filter(gives).map(|m| Tight { action: a as u8, from: m.from - base, to: m.to - base }));
    }
    tight
}

/// For each state of the leaf the fewest leaf actions, since the layer began, that give its price: breadth first over the tight edges.
fn depths<P: Price>(tight: &[Tight], start: &[P], row: &[P]) -> Vec<u16> {
    let out = Grouped::new(tight, row.len(), |e| e.from);
    let kept = |s: usize| row[s] != P::MARK && start[s] == row[s];
    let mut depth: Vec<u16> = (0..row.len()).map(|s| if kept(s) { 0 } else { FAR }).collect();
    let mut queue: Vec<usize> = (0..row.len()).filter(|&s| depth[s] == 0).collect();
    let mut next = 0;
    while next < queue.len() {
        let s = queue[next];
        next += 1;
        for e in out.of(s) {
            if depth[e.to as usize] == FAR {
                depth[e.to as usize] = depth[s] + 1;
                queue.push(e.to as usize);
            }
        }
    }
    depth
}

/// Edges by one of their ends; those of one end in their old order.
struct Grouped {
    starts: Vec<u32>,
    edges: Vec<Tight>,
}

impl Grouped {
    fn new(edges: &[Tight], count: usize, end: impl Fn(&Tight) -> u16) -> Grouped {
        let mut starts = vec![0; count + 1];
        edges.iter().for_each(|e| starts[end(e) as usize] += 1);
        let mut sum = 0;
        for s in &mut starts {
            sum += *s;
            *s = sum;
        }
        let mut grouped = edges.to_vec();
        for e in edges.iter().rev() {
            let place = &mut starts[end(e) as usize];
            *place -= 1;
            grouped[*place as usize] = *e;
        }
        Grouped { starts, edges: grouped }
    }

    fn of(&self, state: usize) -> &[Tight] {
        &self.edges[self.starts[state] as usize..self.starts[state + 1] as usize]
    }
}
