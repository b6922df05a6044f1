//! The paper's cases: one pair to fetch, and what the plain planner says of it.

use depot_host::depot::fetch;
use depot_host::draft::Draft;
use depot_host::plain::{plan, plan_bytes, prices, table_words, Answer, UNSOLVABLE};
use depot_host::record::read;
use depot_host::uniform::least_cost;

const FREE: u64 = u64::MAX;

fn answer(number: u32, length: u64, cost: u64, expanded: u64, kept: u64) -> Answer {
    Answer { number, length, cost, expanded, kept }
}

fn planned(d: &Draft, nodes: u32, budget: u32, room: usize) -> (Answer, Vec<u8>) {
    let mut bytes = vec![0xEE; room];
    let a = plan(&d.record(), nodes, budget, &mut bytes, 4096);
    (a, bytes)
}

#[test]
fn the_record() {
    let record = fetch().record();
    assert_eq!(record.len(), 36);
    assert_eq!(record[..5], [0x08, 0x04, 0x10, 0x02, 0x10]);
    assert_eq!(table_words(&record, 94), 95 * 43);
    assert_eq!(plan_bytes(&record, 94), 94 * 4);
}

#[test]
fn one_pair_to_fetch() {
    let (a, bytes) = planned(&fetch(), 94, 4096, 6);
    assert_eq!(a, answer(0, 4, 1650, 4, 4));
    assert_eq!(bytes, [0, 2, 1, 3, 0xEE, 0xEE]);
    assert_eq!(least_cost(&read(&fetch().record()).unwrap()).0, Some(1650));
}

#[test]
fn without_take() {
    let mut d = fetch();
    d.steps.remove(2);
    assert_eq!(planned(&d, 94, 4096, 8).0, answer(UNSOLVABLE, 0, 0, 2, 2));
    assert_eq!(least_cost(&read(&d.record()).unwrap()).0, None);
}

#[test]
fn empty_goal() {
    let mut d = fetch();
    d.goal.clear();
    assert_eq!(planned(&d, 94, 4096, 0).0, answer(0, 0, 0, 0, 1));
}

#[test]
fn refusals_of_the_state() {
    let d = fetch();
    assert_eq!(planned(&d, 94, 3, 8).0, answer(23, 0, 0, 3, 4));
    assert_eq!(planned(&d, 3, 4096, 8).0, answer(22, 0, 0, 3, 3));
    assert_eq!(planned(&d, 3, 2, 8).0, answer(23, 0, 0, 2, 3));
    assert_eq!(planned(&d, 94, 4096, 3), (answer(24, 0, 0, 4, 4), vec![0xEE; 3]));
    assert_eq!(planned(&d, 0, 1, 8).0, answer(20, 0, 0, 0, 0));
    assert_eq!(planned(&d, 4097, 1, 8).0, answer(20, 0, 0, 0, 0));
    assert_eq!(planned(&d, 95, 1, 8).0, answer(21, 0, 0, 0, 0));
}

#[test]
fn prices_of_paths() {
    let record = fetch().record();
    let after = |path: &[u8], lent| {
        let mut out = vec![7; lent];
        (prices(&record, path, &mut out), out)
    };
    assert_eq!(after(&[], 4), (0, vec![0, FREE, FREE, 7]));
    assert_eq!(after(&[0, 1], 3), (0, vec![0, 500, 800]));
    assert_eq!(after(&[1], 3).0, 13);
    assert_eq!(after(&[2], 3).0, 12);
    assert_eq!(after(&[9], 3).0, 12);
    assert_eq!(after(&[0; 4096], 1).0, 12);
    assert_eq!(after(&[0, 1], 2), (21, vec![7, 7]));
}
