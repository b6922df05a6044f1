//! The functions that stand beside the proved library's.

use crate::edges::Edges;
use crate::explore::{Search, Stop};
use crate::layer::{begin, first, settle, Price, Waiting};
use crate::record::{read, Refusal};
use crate::star::{Centre, Star};
use crate::wayback;

pub const UNSOLVABLE: u32 = 255;

/// A planner's answer: 0 for a plan, 255 for "unsolvable", else the refusal's number; then the plan's length and cost, expansions and nodes.
#[derive(Clone, Copy, Debug, Default, PartialEq, Eq)]
pub struct Answer {
    pub number: u32,
    pub length: u64,
    pub cost: u64,
    pub expanded: u64,
    pub kept: u64,
}

fn words(star: &Star, nodes: u32) -> u64 {
    (nodes as u64 + 1) * (40 + star.states() as u64)
}

/// The words of 64 bits that the planner's table needs; 0 where the record or the number of nodes is refused.
pub fn table_words(record: &[u8], nodes: u32) -> u64 {
    match read(record) {
        Ok(t) if (1..=4096).contains(&nodes) => words(&Star::new(&t), nodes),
        _ => 0,
    }
}

/// The bytes of a plan buffer that is long enough for every plan of so many nodes: in each layer no leaf has more actions than states, and a centre action
/// goes on to the next. 0 where the record or the number of nodes is refused.
pub fn plan_bytes(record: &[u8], nodes: u32) -> u64 {
    match read(record) {
        Ok(t) if (1..=4096).contains(&nodes) => nodes as u64 * (Star::new(&t).states() as u64 + 1),
        _ => 0,
    }
}

/// Plans a task. `table_words` is the length of the table that the other planner is lent; this one uses its own memory.
pub fn plan(record: &[u8], nodes: u32, budget: u32, plan: &mut [u8], table_words: u64) -> Answer {
    let refused = |number| Answer { number, ..Answer::default() };
    let task = match read(record) {
        Ok(task) => task,
        Err(number) => return refused(number),
    };
    if nodes == 0 || nodes > 4096 {
        return refused(20);
    }
    let star = Star::new(&task);
    if table_words < words(&star, nodes) {
        return refused(21);
    }
    let narrow = search::<i32>(&star, nodes, budget, plan);
    narrow.or_else(|| search::<u64>(&star, nodes, budget, plan)).expect("64 bits hold every price")
}

/// Nothing where prices of this type may not do.
fn search<P: Price>(star: &Star, nodes: u32, budget: u32, plan: &mut [u8]) -> Option<Answer> {
    let mut search = Search::<P>::new(star, nodes as usize);
    let stop = search.run(budget);
    let counts = Answer { expanded: search.begun as u64, kept: search.nodes.len() as u64, ..Answer::default() };
    let number = match stop {
        Stop::TooWide => return None,
        Stop::TableFull => 22,
        Stop::BudgetSpent => 23,
        Stop::Finished => match search.best {
            None => UNSOLVABLE,
            Some((cost, node)) => {
                let found = wayback::plan(&search, node);
                if let Some(front) = plan.get_mut(..found.len()) {
                    front.copy_from_slice(&found);
                    return Some(Answer { length: found.len() as u64, cost, ..counts });
                }
                24
            }
        },
    };
    Some(Answer { number, ..counts })
}

/// A centre and its settled prices, walked along a path.
pub struct Walk<'a> {
    star: &'a Star,
    edges: Edges,
    centre: Centre,
    pub prices: Vec<u64>,
    next: Vec<u64>,
    waiting: Waiting<u64>,
}

impl<'a> Walk<'a> {
    pub fn new(star: &'a Star) -> Self {
        let prices = first(star);
        let next = prices.clone();
        let mut w = Walk { star, edges: Edges::new(star), centre: star.centre, prices, next, waiting: Waiting::new() };
        w.settle();
        w
    }

    fn settle(&mut self) {
        for l in 0..self.star.leaves {
            let set = self.edges.set(self.star, l, self.centre);
            let prices = &mut self.prices[self.star.base[l]..self.star.base[l + 1]];
            let waiting = &mut self.waiting;
            self.edges.with(self.star, l, set, self.centre, |graph| settle(prices, graph, waiting));
        }
    }

    /// Goes over a centre action; false, and nothing changed, where it does not apply.
    pub fn step(&mut self, action: usize) -> bool {
        let act = &self.star.actions[action];
        if !act.needs.holds(self.centre) || !begin(self.star, action, &self.prices, &mut self.next) {
            return false;
        }
        std::mem::swap(&mut self.prices, &mut self.next);
        self.centre = act.sets.set(self.centre);
        self.settle();
        true
    }
}

/// Prices after a path of centre actions, at the front of `out`: 0, or the refusal's number.
pub fn prices(record: &[u8], path: &[u8], out: &mut [u64]) -> Refusal {
    let task = match read(record) {
        Ok(task) => task,
        Err(number) => return number,
    };
    let centre = |&a: &u8| task.actions.get(a as usize).is_some_and(|a| a.is_centre());
    if path.len() > 4095 || !path.iter().all(centre) {
        return 12;
    }
    let star = Star::new(&task);
    let Some(out) = out.get_mut(..star.states()) else { return 21 };
    let mut walk = Walk::new(&star);
    if !path.iter().all(|&a| walk.step(a as usize)) {
        return 13;
    }
    out.copy_from_slice(&walk.prices);
    0
}
