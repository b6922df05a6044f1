//! The benchmark: both planners on the same tasks in one run, and a uniform-cost search over whole states beside them where it has under two
//! million. Every call has 4,096 nodes and any budget. Times are the least of several calls; tables are not cleared between calls (a planner
//! leaves its words 0). The plain planner works in memory of its own; since the words of a lent table are 0 after a search, whoever plans, its
//! time has the zeroing of a table of the same length in it, and a column shows that part.
//!
//! bench [PART] [CALLS]: only tasks whose name holds PART; so many calls of each planner, for a profile.

use depot_host::calls::longest;
use depot_host::depot::benchmark;
use depot_host::draft::Draft;
use depot_host::plain::{self, Answer};
use depot_host::record::read;
use depot_host::uniform::least_cost;
use std::hint::black_box;
use std::time::{Duration, Instant};

const NODES: u32 = 4096;
const WHOLE: usize = 2_000_000;

/// The least time of several calls of each, in microseconds: as many as were asked for, else at least 3 and as many as a fifth of a second
/// for each holds. The calls take turns, so that what else the machine does meets all of them.
fn times<const N: usize>(mut calls: [&mut dyn FnMut(); N]) -> [f64; N] {
    let asked: Option<usize> = std::env::args().nth(2).map(|x| x.parse().expect("a number of calls"));
    let begun = Instant::now();
    let mut least = [Duration::MAX; N];
    let mut rounds = 0;
    let enough = |rounds| rounds >= 3 && (begun.elapsed() > Duration::from_millis(200 * N as u64) || rounds >= 10_000);
    while asked.map_or(!enough(rounds), |n| rounds < n) {
        for (call, least) in calls.iter_mut().zip(&mut least) {
            let start = Instant::now();
            call();
            *least = start.elapsed().min(*least);
        }
        rounds += 1;
    }
    least.map(|d| d.as_nanos() as f64 / 1000.0)
}

/// Both planners' times on a record whose answer and plan are known; one alone without the proved library.
#[cfg(feature = "proved")]
fn plan_times(record: &[u8], wanted: &Answer, wanted_plan: &[u8], mut plain: impl FnMut()) -> (f64, Option<f64>) {
    use depot_host::ffi;
    let mut plan = vec![0; wanted_plan.len()];
    let mut table = vec![0; plain::table_words(record, NODES) as usize];
    let mut answer = [0; ffi::ANSWER_WORDS];
    let number = ffi::plan(record, NODES, u32::MAX, &mut plan, &mut table, &mut answer);
    let length = wanted.length as usize;
    assert_eq!((&ffi::answer_of(number, &answer), &plan[..length]), (wanted, &wanted_plan[..length]), "the planners differ");
    let mut proved = || {
        black_box(ffi::plan(black_box(record), NODES, u32::MAX, &mut plan, &mut table, &mut answer));
    };
    let [a, b] = times([&mut plain, &mut proved]);
    (a, Some(b))
}

#[cfg(not(feature = "proved"))]
fn plan_times(_: &[u8], _: &Answer, _: &[u8], mut plain: impl FnMut()) -> (f64, Option<f64>) {
    (times([&mut plain])[0], None)
}

/// Reading alone has no function of its own in the proved library; counting the table's words reads the record and little else.
#[cfg(feature = "proved")]
fn read_times(record: &[u8], mut plain: impl FnMut()) -> (f64, Option<f64>) {
    let mut proved = || {
        black_box(depot_host::ffi::table_words(black_box(record), 1));
    };
    let [a, b] = times([&mut plain, &mut proved]);
    (a, Some(b))
}

#[cfg(not(feature = "proved"))]
fn read_times(_: &[u8], mut plain: impl FnMut()) -> (f64, Option<f64>) {
    (times([&mut plain])[0], None)
}

fn shown(x: Option<f64>) -> String {
    x.map_or("-".into(), |x| format!("{x:.1}"))
}

fn one(name: &str, draft: &Draft) {
    let record = draft.record();
    let mut plan = vec![0; 1 << 21];
    let words = plain::table_words(&record, NODES);
    let a = plain::plan(&record, NODES, u32::MAX, &mut plan, words);
    let mut again = plan.clone();
    let mut table = vec![0u64; words as usize];
    let (plain_time, proved_time) = plan_times(&record, &a, &plan, || {
        black_box(plain::plan(black_box(&record), NODES, u32::MAX, &mut again, words));
        black_box(&mut table).fill(0);
    });
    let zeroing = times([&mut || black_box(&mut table).fill(0)])[0];
    let ratio = proved_time.map_or("-".into(), |p| format!("{:.2}", p / plain_time));
    let task = read(&record).expect("a benchmark's task is accepted");
    let mut uniform = String::from("-");
    if draft.whole_states().is_some_and(|n| n < WHOLE) {
        let (cost, expanded) = least_cost(&task);
        assert!(a.number == 22 || cost == (a.number == 0).then_some(a.cost), "the planner and the uniform-cost search differ");
        let mut call = || {
            black_box(least_cost(&task));
        };
        uniform = format!("{:.1} ({expanded})", times([&mut call])[0]);
    }
    let answer = match a.number {
        0 => format!("cost {}", a.cost),
        255 => "none".into(),
        n => format!("refused {n}"),
    };
    println!(
        "{name:28} {:5} {:8} {:6} {answer:12} {zeroing:10.1} {plain_time:11.1} {:>11} {ratio:>7} {uniform:>22}",
        draft.leaf_states(),
        a.expanded,
        a.kept,
        shown(proved_time)
    );
}

fn main() {
    let part = std::env::args().nth(1).unwrap_or_default();
    println!(
        "{:28} {:>5} {:>8} {:>6} {:12} {:>10} {:>11} {:>11} {:>7} {:>22}",
        "task", "S", "expanded", "kept", "answer", "zeroing us", "plain us", "proved us", "ratio", "uniform us (expanded)"
    );
    let tasks = benchmark();
    for (name, draft) in tasks.iter().filter(|t| t.0.contains(&part)) {
        one(name, draft);
    }
    if "longest record".contains(&part) {
        let record = longest();
        let (plain_time, proved) = read_times(&record, || {
            black_box(read(black_box(&record))).expect("the longest record is accepted");
        });
        println!("reading the longest record ({} bytes): plain {plain_time:.1} us, proved {} us", record.len(), shown(proved));
    }
}
