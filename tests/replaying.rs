//! Replays by chance: logs that can be taken from end to end, and ones with a bad step in any row or with too many rows.

use crate::call::Call;
use crate::chance::Chance;
use crate::damage::{more_cuts, random_cuts};
use crate::making::{any_cuts, any_faults, list, model_for, slice, two_sheets};
use crate::planner::blocks::{only, Cut};
use crate::planner::task::{Model, State, Step};

pub fn any_replay(chance: &mut Chance) -> Call {
    let faults = any_faults(chance);
    let mut model = model_for(chance, faults);
    let trap = if chance.percent(20) { trap(chance, &mut model) } else { None };
    let cuts = match trap {
        Some(cut) => trap_cuts(chance, &model, cut),
        None if model.states() > 255 && chance.percent(15) => random_cuts(chance, &model, 255),
        None => any_cuts(chance, &model),
    };
    let (given, cut_sheet) = two_sheets(chance, &model, &cuts, faults);
    let log = if faults.asked { wrong_log(chance, &model) } else { good_log(chance, &model) };
    // a log of more than 255 steps may be lent anything
    let rows = list(chance, log.len().min(300) * 12, 12, if faults.list { 100 } else { 0 });
    let bytes = log_bytes(chance, &log);
    Call::Replay { model: slice(chance, given), cut_sheet: slice(chance, cut_sheet), log: slice(chance, bytes), rows }
}

/// A new position of a column with a goal, out of which no step leads, and a step into it; the cut that parts it from the
/// others. Without it few walks go from states with a way to ones with none.
fn trap(chance: &mut Chance, model: &mut Model) -> Option<Cut> {
    let fit = |column: &usize| model.goal[*column].is_some() && model.sizes[*column] < 32;
    let columns: Vec<usize> = (0..model.columns()).filter(fit).collect();
    if columns.is_empty() || model.steps.len() == 128 {
        return None;
    }
    let column = chance.pick(&columns);
    let lost = model.sizes[column];
    model.sizes[column] += 1;
    for step in model.steps.iter_mut().filter(|step| step.effects[column].is_some()) {
        step.needs[column] = step.needs[column].or(Some(chance.below(lost)));
    }
    let nothing = vec![None; model.columns()];
    let mut into = Step { cost: chance.below(100) as u64, needs: nothing.clone(), effects: nothing };
    into.effects[column] = Some(lost);
    let place = chance.below(model.steps.len() + 1);
    model.steps.insert(place, into);
    Some(Cut { block: 0, column, wanted: only(lost) })
}

/// Mostly the trap is cut off; then its estimate is no way.
fn trap_cuts(chance: &mut Chance, model: &Model, cut: Cut) -> Vec<Cut> {
    if chance.percent(20) {
        return any_cuts(chance, model);
    }
    let count = chance.between(1, 20);
    more_cuts(chance, model, vec![cut], count)
}

/// Some logs have bytes more, too few for a step.
fn log_bytes(chance: &mut Chance, log: &[u32]) -> Vec<u8> {
    let mut bytes: Vec<u8> = log.iter().flat_map(|number| number.to_be_bytes()).collect();
    if chance.percent(25) {
        let more = chance.between(1, 3);
        bytes.extend(chance.bytes(more));
    }
    bytes
}

/// As many steps as are drawn, or fewer where no step can be taken any more.
fn good_log(chance: &mut Chance, model: &Model) -> Vec<u32> {
    let rows = match chance.below(12) {
        0 => 0,
        1 => 1,
        2..=3 => 255,
        4 => chance.between(200, 255),
        5..=6 => chance.below(80),
        _ => chance.below(20),
    };
    walk(chance, model, rows).0
}

/// Steps taken one after the other from the start, and the state after them.
pub fn walk(chance: &mut Chance, model: &Model, rows: usize) -> (Vec<u32>, State) {
    let mut state = model.start.clone();
    let mut log = Vec::new();
    while log.len() < rows {
        let (open, _) = steps_in(model, &state);
        if open.is_empty() {
            break;
        }
        let number = chance.pick(&open);
        state = model.steps[number].take(&state);
        log.push(number as u32);
    }
    (log, state)
}

/// The steps that can be taken in a state, and those that can't.
fn steps_in(model: &Model, state: &State) -> (Vec<usize>, Vec<usize>) {
    (0..model.steps.len()).partition(|number| model.steps[*number].can_take(state))
}

/// Rows 14 and 15 of the refusals.
fn wrong_log(chance: &mut Chance, model: &Model) -> Vec<u32> {
    if chance.percent(25) {
        long_log(chance, model)
    } else {
        log_with_a_bad_row(chance, model)
    }
}

/// More than 255 steps, of which all can be taken or some can't.
fn long_log(chance: &mut Chance, model: &Model) -> Vec<u32> {
    let rows = match chance.below(40) {
        // so many that 16 bits would count few, as steps or as bytes
        0 => chance.pick(&[16_384, 65_536]) + chance.below(4),
        1..=9 => chance.pick(&[257, 258, 300, 510, 511, 512, 515, 1000]),
        _ => 256,
    };
    let mut log = if chance.percent(70) { walk(chance, model, rows).0 } else { Vec::new() };
    while log.len() < rows {
        log.push(chance.below(model.steps.len() + 2) as u32);
    }
    log
}

/// Any row may be the bad one, the first and the last more often; what stands behind it is not to be looked at.
fn log_with_a_bad_row(chance: &mut Chance, model: &Model) -> Vec<u32> {
    let before = match chance.below(8) {
        0..=1 => 0,
        2..=3 => 254,
        _ => chance.below(30),
    };
    let (mut log, state) = walk(chance, model, before);
    log.push(bad_step(chance, model, &state));
    let behind = if chance.percent(40) { 0 } else { chance.below(256 - log.len()) };
    log.extend((0..behind).map(|_| chance.below(model.steps.len() + 1) as u32));
    log
}

/// A step that can't be taken in this state, or one that is not there. Many of those would be a step that can be taken if
/// the number were cut to fewer bits.
fn bad_step(chance: &mut Chance, model: &Model, state: &State) -> u32 {
    let (open, shut) = steps_in(model, state);
    if !shut.is_empty() && chance.percent(50) {
        return chance.pick(&shut) as u32;
    }
    let steps = model.steps.len() as u32;
    let right = if open.is_empty() { 0 } else { chance.pick(&open) as u32 };
    let cut = chance.pick(&[128, 256, 512, 65_536, 1 << 24, 1 << 31, u32::MAX - 127]) + right;
    chance.pick(&[steps, steps, steps + 1, 128, 255, 256, 300, 1 << 31, u32::MAX, cut, cut, cut])
}
