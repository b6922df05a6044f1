//! The paper's cases through the proved library: that it is linked, and declared as it is built.
#![cfg(feature = "proved")]

use depot_host::depot::fetch;
use depot_host::draft::Draft;
use depot_host::ffi;
use depot_host::plain::{Answer, UNSOLVABLE};

/// The answer, the plan's buffer and whether the table is all 0 afterwards.
fn planned(d: &Draft, nodes: u32, budget: u32, room: usize) -> (Answer, Vec<u8>, bool) {
    let (mut plan, mut table, mut answer) = (vec![0xEE; room], vec![5; 4085], [9; 4]);
    let number = ffi::plan(&d.record(), nodes, budget, &mut plan, &mut table, &mut answer);
    (ffi::answer_of(number, &answer), plan, table.iter().all(|&w| w == 0))
}

fn answer(number: u32, length: u64, cost: u64, expanded: u64, kept: u64) -> Answer {
    Answer { number, length, cost, expanded, kept }
}

#[test]
fn the_planner() {
    let d = fetch();
    assert_eq!(planned(&d, 94, 4096, 5), (answer(0, 4, 1650, 4, 4), vec![0, 2, 1, 3, 0xEE], true));
    assert_eq!(planned(&d, 94, 3, 4), (answer(23, 0, 0, 3, 4), vec![0xEE; 4], true));
    assert_eq!(planned(&d, 3, 4096, 4), (answer(22, 0, 0, 3, 3), vec![0xEE; 4], false));
    assert_eq!(planned(&d, 3, 2, 4), (answer(23, 0, 0, 2, 3), vec![0xEE; 4], false));
    assert_eq!(planned(&d, 94, 4096, 3), (answer(24, 0, 0, 4, 4), vec![0xEE; 3], true));
    assert_eq!(planned(&d, 95, 4096, 3), (answer(21, 0, 0, 0, 0), vec![0xEE; 3], false));
    let mut without_take = fetch();
    without_take.steps.remove(2);
    assert_eq!(planned(&without_take, 94, 4096, 0), (answer(UNSOLVABLE, 0, 0, 2, 2), vec![], true));
    let mut empty_goal = fetch();
    empty_goal.goal.clear();
    assert_eq!(planned(&empty_goal, 94, 4096, 0), (answer(0, 0, 0, 0, 1), vec![], true));
}

#[test]
fn the_pricer() {
    let record = fetch().record();
    let mut out = [7; 4];
    assert_eq!((ffi::prices(&record, &[0, 1], &mut out), out), (0, [0, 500, 800, 7]));
    assert_eq!((ffi::prices(&record, &[], &mut out), out), (0, [0, u64::MAX, u64::MAX, 7]));
    assert_eq!((ffi::prices(&record, &[1], &mut out), out), (13, [0, u64::MAX, u64::MAX, 7]));
    assert_eq!(ffi::table_words(&record, 94), 4085);
    assert_eq!(ffi::table_words(&record, 0), 0);
    assert_eq!(ffi::plan_bytes(&record, 94), 376);
    assert_eq!(ffi::plan_bytes(&record, 0), 0);
    assert_eq!(ffi::plan_bytes(&record, 4097), 0);
}
