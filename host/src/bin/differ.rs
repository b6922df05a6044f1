//! The differential test: generated calls through both planners, every answer word, plan byte, price and table word compared.
//!
//! differ [SEED] [CALLS]: first the benchmark's tasks, then so many generated calls. Built without `proved` it runs the plain planner alone and looks at its buffers only.

use depot_host::calls::{benchmark_calls, call, Call};
use depot_host::lent::{Filled, Lent};
use depot_host::plain::{self, Answer, UNSOLVABLE};
use depot_host::random::Random;
use std::collections::BTreeMap;
use std::process::exit;

/// A planner under test: the proved library, or the plain one in its place.
mod tested {
    #[cfg(feature = "proved")]
    pub use depot_host::ffi::{plan, plan_bytes, prices, table_words};

    #[cfg(not(feature = "proved"))]
    pub fn plan(record: &[u8], nodes: u32, budget: u32, plan: &mut [u8], table: &mut [u64], answer: &mut [u64]) -> u32 {
        let a = depot_host::plain::plan(record, nodes, budget, plan, table.len() as u64);
        if super::explored(a.number) {
            table[..table_words(record, nodes) as usize].fill(0);
        }
        if let Some(front) = answer.get_mut(..4) {
            front.copy_from_slice(&[a.length, a.cost, a.expanded, a.kept]);
        }
        a.number
    }

    #[cfg(not(feature = "proved"))]
    pub use depot_host::plain::{plan_bytes, prices, table_words};
}

/// Whether the exploration began: then the table's words are 0 afterwards.
fn explored(number: u32) -> bool {
    number == 0 || number >= 22
}

const ANSWER: usize = 4;

/// How many answer words are lent: mostly more than are written, and nothing behind those may change; sometimes too few to write any.
fn answer_lent(room: usize) -> usize {
    [9, 9, 4, 9, 9, 3, 9, 0][room % 8]
}

#[derive(Default)]
struct Buffers {
    plan: Lent<u8>,
    own_plan: Vec<u8>,
    table: Lent<u64>,
    answer: Lent<u64>,
    prices: Lent<u64>,
    own_prices: Vec<u64>,
}

fn untouched<T: Filled>(name: &str, lent: &Lent<T>, front: usize) -> Result<(), String> {
    lent.written_outside(front).map_or(Ok(()), |at| Err(format!("{name} written at {at}, outside its first {front}")))
}

fn equal<T: PartialEq + std::fmt::Debug>(name: &str, tested: T, plain: T) -> Result<(), String> {
    if tested == plain {
        return Ok(());
    }
    Err(format!("{name}: tested {tested:?}, plain {plain:?}"))
}

impl Buffers {
    /// The answer's kind and number, or what differs.
    fn compare(&mut self, call: &Call) -> Result<(&'static str, u32), String> {
        match call {
            Call::Plan { record, nodes, budget, room, words } => {
                self.own_plan.clear();
                self.own_plan.resize(*room, 0);
                let wanted = plain::plan(record, *nodes, *budget, &mut self.own_plan, *words as u64);
                let (plan, table, answer) = (self.plan.lend(*room), self.table.lend(*words), self.answer.lend(answer_lent(*room)));
                let number = tested::plan(record, *nodes, *budget, plan, table, answer);
                equal("number", number, wanted.number)?;
                if number == 24 {
                    equal("24 with a buffer that is long enough", *room as u64 >= tested::plan_bytes(record, *nodes), false)?;
                }
                let mut told = 0;
                if let [length, cost, expanded, kept, ..] = *self.answer.words() {
                    equal("answer", Answer { number, length, cost, expanded, kept }, wanted)?;
                    told = ANSWER;
                }
                let length = wanted.length as usize;
                equal("plan", &self.plan.words()[..length], &self.own_plan[..length])?;
                let zeroed = if explored(number) { plain::table_words(record, *nodes) as usize } else { 0 };
                equal("table's first word that is not 0", self.table.words()[..zeroed].iter().position(|&w| w != 0), None)?;
                untouched("plan", &self.plan, length)?;
                untouched("table", &self.table, zeroed)?;
                untouched("answer", &self.answer, told)?;
                Ok(("plan", number))
            }
            Call::Prices { record, path, lent } => {
                self.own_prices.clear();
                self.own_prices.resize(*lent, 0);
                let wanted = plain::prices(record, path, &mut self.own_prices);
                let number = tested::prices(record, path, self.prices.lend(*lent));
                equal("number", number, wanted)?;
                // Leaf states are what is left of a table's row without its 40 words; a table for one node has two rows.
                let states = if number == 0 { (plain::table_words(record, 1) / 2 - 40) as usize } else { 0 };
                equal("prices", &self.prices.words()[..states], &self.own_prices[..states])?;
                untouched("prices", &self.prices, states)?;
                Ok(("prices", number))
            }
            Call::Words { record, nodes } => {
                equal("words", tested::table_words(record, *nodes), plain::table_words(record, *nodes))?;
                equal("bytes", tested::plan_bytes(record, *nodes), plain::plan_bytes(record, *nodes))?;
                Ok(("sizes", 0))
            }
        }
    }
}

fn main() {
    let mut numbers = std::env::args().skip(1).map(|x| x.parse::<u64>().expect("a number"));
    let seed = numbers.next().unwrap_or(1);
    let many = numbers.next().unwrap_or(200_000);
    let mut r = Random::new(seed);
    let mut buffers = Buffers::default();
    let mut met: BTreeMap<(&str, u32), u64> = BTreeMap::new();
    let first = benchmark_calls();
    let many = many + first.len() as u64;
    for (k, c) in first.into_iter().chain(std::iter::repeat_with(|| call(&mut r))).take(many as usize).enumerate() {
        match buffers.compare(&c) {
            Ok(kind) => *met.entry(kind).or_default() += 1,
            Err(what) => {
                println!("seed {seed}, call {k}: {what}\n{c:?}");
                exit(1);
            }
        }
    }
    let with = if cfg!(feature = "proved") { "proved and plain planner" } else { "plain planner alone" };
    println!("{with}: {many} calls with seed {seed}, no difference");
    for ((kind, number), count) in met {
        match (kind, number) {
            ("sizes", _) => println!("  table words and plan bytes {count}"),
            (_, 0) => println!("  {kind:7} answered {count}"),
            (_, UNSOLVABLE) => println!("  {kind:7} none     {count}"),
            _ => println!("  {kind:7} {number:<8} {count}"),
        }
    }
}
