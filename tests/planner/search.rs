//! Plain shortest paths over real states. No block and no cut comes in here.

use super::task::Model;
use std::cmp::Reverse;
use std::collections::BinaryHeap;

/// More states than this are not searched.
pub const STATES: u128 = 100_000;

/// More pairs of state and step than this are not searched for every state at once.
pub const PAIRS: u128 = 60_000;

/// The least cost of a plan; nothing where there is none.
pub fn cheapest_plan(model: &Model) -> Option<u64> {
    let mut least = vec![u64::MAX; model.states() as usize];
    let mut open = BinaryHeap::new();
    let start = model.number_of(&model.start);
    least[start] = 0;
    open.push(Reverse((0, start)));
    while let Some(Reverse((cost, number))) = open.pop() {
        let state = model.state_at(number);
        if model.is_goal(&state) {
            return Some(cost);
        }
        if cost > least[number] {
            continue;
        }
        for step in model.steps.iter().filter(|step| step.can_take(&state)) {
            let next = model.number_of(&step.take(&state));
            if cost + step.cost < least[next] {
                least[next] = cost + step.cost;
                open.push(Reverse((least[next], next)));
            }
        }
    }
    None
}

/// The least cost of a plan from every state, by rounds until nothing changes.
pub fn cheapest_plans(model: &Model) -> Vec<Option<u64>> {
    let states = model.states() as usize;
    let mut arcs = Vec::new();
    let mut least = vec![None; states];
    for number in 0..states {
        let state = model.state_at(number);
        if model.is_goal(&state) {
            least[number] = Some(0);
        }
        for step in model.steps.iter().filter(|step| step.can_take(&state)) {
            arcs.push((number, model.number_of(&step.take(&state)), step.cost));
        }
    }
    while lower_all(&arcs, &mut least) {}
    least
}

fn lower_all(arcs: &[(usize, usize, u64)], least: &mut [Option<u64>]) -> bool {
    let mut changed = false;
    for (from, to, cost) in arcs {
        let Some(onward) = least[*to].map(|rest| rest + cost) else { continue };
        if least[*from].is_none_or(|now| onward < now) {
            least[*from] = Some(onward);
            changed = true;
        }
    }
    changed
}
