//! The plain planner's costs beside a uniform-cost search over whole states, and its plans carried out by the published meaning.

use depot_host::calls::{call, Call};
use depot_host::plain::{plan, table_words};
use depot_host::random::Random;
use depot_host::record::{read, Task};
use depot_host::uniform::least_cost;

/// What a sequence costs where it applies in turn and ends in the goal.
fn carried_out(t: &Task, plan: &[u8]) -> Option<u64> {
    let mut state: Vec<u8> = t.variables.iter().map(|v| v.initial).collect();
    let mut cost = 0;
    for &a in plan {
        let a = &t.actions[a as usize];
        if !t.conditions(a).iter().all(|p| state[p.variable as usize] == p.value) {
            return None;
        }
        t.effects(a).iter().for_each(|p| state[p.variable as usize] = p.value);
        cost += a.cost as u64;
    }
    t.goal().iter().all(|p| state[p.variable as usize] == p.value).then_some(cost)
}

#[test]
fn costs_are_least_and_plans_carry_out() {
    let mut r = Random::new(11);
    let (mut solved, mut none) = (0, 0);
    while solved < 3000 {
        let Call::Plan { record, .. } = call(&mut r) else { continue };
        let Ok(t) = read(&record) else { continue };
        let whole = t.variables.iter().fold(1u64, |n, v| n.saturating_mul(v.size as u64));
        if whole > 20_000 {
            continue;
        }
        let mut bytes = vec![0; 8192];
        let a = plan(&record, 4096, u32::MAX, &mut bytes, table_words(&record, 4096));
        if a.number == 22 {
            continue;
        }
        assert_eq!(a.number, if least_cost(&t).0.is_some() { 0 } else { 255 });
        if a.number == 0 {
            assert_eq!(least_cost(&t).0, Some(a.cost));
            assert_eq!(carried_out(&t, &bytes[..a.length as usize]), Some(a.cost));
            solved += 1;
        } else {
            none += 1;
        }
    }
    println!("{solved} solved, {none} unsolvable");
}
