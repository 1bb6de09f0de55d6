//! What an answer has to be by the planning task itself, with no block and no cut in it.

use crate::planner::blocks::{acceptable, make_cut, whole};
use crate::planner::replay::{Replay, DASH};
use crate::planner::run::{run_by_columns, Answer, Run};
use crate::planner::search::{cheapest_plan, cheapest_plans, PAIRS, STATES};
use crate::planner::task::Model;
use crate::planner::NO_WAY;

/// State and step pairs that one search may look at.
const SEARCHED: u128 = 1_500_000;

pub fn pairs(model: &Model) -> u128 {
    model.states().saturating_mul(model.steps.len() as u128 + 1)
}

/// Says what is wrong with a run that was not refused.
pub fn wrong_run(model: &Model, room: u64, run: &Run, both_means: bool) -> Option<String> {
    let wrong = wrong_cuts(model, run).or_else(|| wrong_answer(model, room, run));
    if wrong.is_none() && both_means && run_by_columns(model, room) != *run {
        return Some("real states and the column rule give different runs".to_string());
    }
    wrong
}

/// Each cut is one that a sheet would be accepted with.
fn wrong_cuts(model: &Model, run: &Run) -> Option<String> {
    let mut blocks = whole(model);
    for (number, cut) in run.cuts.iter().enumerate() {
        if !acceptable(&blocks, cut) {
            return Some(format!("cut {number} would be refused"));
        }
        make_cut(&mut blocks, cut);
    }
    None
}

fn wrong_answer(model: &Model, room: u64, run: &Run) -> Option<String> {
    let searched = model.states() <= STATES && pairs(model) <= SEARCHED;
    let least = searched.then(|| cheapest_plan(model));
    match &run.answer {
        Answer::Plan { cost, steps } => wrong_plan(model, *cost, steps)
            .or_else(|| (least.is_some_and(|least| least != Some(*cost))).then(|| format!("the least is {least:?}"))),
        Answer::NoPlan => least.flatten().map(|least| format!("there is a plan of {least}")),
        Answer::Open { estimate } => wrong_open(model, room, run, *estimate, least.flatten()),
    }
}

/// A plan can be carried out from the start, reaches the goal, and costs what it says.
fn wrong_plan(model: &Model, cost: u64, steps: &[usize]) -> Option<String> {
    let mut state = model.start.clone();
    let mut paid = 0;
    for (row, number) in steps.iter().enumerate() {
        let step = &model.steps[*number];
        if !step.can_take(&state) {
            return Some(format!("row {row} can't be carried out"));
        }
        state = step.take(&state);
        paid += step.cost;
    }
    let good = model.is_goal(&state) && paid == cost;
    (!good).then(|| "the plan misses the goal or its cost".to_string())
}

/// An open run has filled its room, which is smaller than the number of states, and its figure is a lower bound.
fn wrong_open(model: &Model, room: u64, run: &Run, estimate: u64, least: Option<u64>) -> Option<String> {
    if run.cuts.len() as u64 + 1 != room || model.states() <= u128::from(room) {
        return Some("open, with room left or room for every state".to_string());
    }
    least.filter(|least| estimate > *least).map(|least| format!("open above the least plan, {least}"))
}

/// No plan from a state costs less than its estimate; nothing is said of models with too many states.
pub fn wrong_estimates(model: &Model, states: &[u8], estimates: &[u64]) -> Option<String> {
    if pairs(model) > PAIRS {
        return None;
    }
    let real = cheapest_plans(model);
    for (state, estimate) in states.chunks(model.columns()).zip(estimates) {
        let state: Vec<usize> = state.iter().map(|byte| usize::from(*byte)).collect();
        if real[model.number_of(&state)].is_some_and(|real| *estimate == NO_WAY || *estimate > real) {
            return Some(format!("the estimate {estimate} of {state:?} is above a plan's cost"));
        }
    }
    None
}

/// A row as its bytes have it: paid, won, detour.
pub type Said = [i64; 3];

/// What order 7 says of a replay's rows. The estimates are a question's, of the states before the first row and after each.
pub fn wrong_rows(model: &Model, replay: &Replay, estimates: &[u64], rows: &[Said]) -> Option<String> {
    // rows before the first dash
    let figures = rows.iter().position(|row| row[1] == DASH).unwrap_or(rows.len());
    wrong_figures(&rows[..figures])
        .or_else(|| wrong_dashes(estimates, rows, figures))
        .or_else(|| wrong_sums(estimates, &rows[..figures]))
        .or_else(|| wrong_ground(model, replay, rows, figures))
}

/// A detour is what was paid and not won, and is never below zero.
fn wrong_figures(rows: &[Said]) -> Option<String> {
    let wrong = rows.iter().position(|[paid, won, detour]| *detour < 0 || *detour == DASH || paid - won != *detour)?;
    Some(format!("row {} says {:?}", wrong + 1, rows[wrong]))
}

/// Dashes begin with the first row whose state before or after has no way, and go on to the last.
fn wrong_dashes(estimates: &[u64], rows: &[Said], figures: usize) -> Option<String> {
    let lost = |row: &usize| estimates[*row] == NO_WAY || estimates[row + 1] == NO_WAY;
    let first = (0..rows.len()).find(lost).unwrap_or(rows.len());
    if first != figures {
        return Some(format!("dashes from row {}, expected from row {}", figures + 1, first + 1));
    }
    let ended = rows[figures..].iter().position(|row| row[1..] != [DASH, DASH])?;
    Some(format!("row {} has no dashes, after a row with them", figures + ended + 1))
}

/// The won figures of any stretch without a dash add up to the estimate before its first row less the one after its last.
fn wrong_sums(estimates: &[u64], rows: &[Said]) -> Option<String> {
    for first in 0..rows.len() {
        let mut won = 0;
        for last in first..rows.len() {
            won += rows[last][1];
            if won != estimates[first] as i64 - estimates[last + 1] as i64 {
                return Some(format!("rows {} to {} win {won}", first + 1, last + 1));
            }
        }
    }
    None
}

/// With no block and no cut in it: rows that end in a goal state win no more than the cheapest plan costs, and no plan
/// leads on from a row with dashes.
fn wrong_ground(model: &Model, replay: &Replay, rows: &[Said], figures: usize) -> Option<String> {
    if pairs(model) > PAIRS {
        return None;
    }
    let real = cheapest_plans(model);
    let least = |row: usize| real[model.number_of(&replay.states[row])];
    if let Some(row) = (figures..rows.len()).find(|row| least(row + 1).is_some()) {
        return Some(format!("dashes in row {}, and a plan leads on from it", row + 1));
    }
    let end = (0..=figures).rfind(|row| model.is_goal(&replay.states[*row]))?;
    let mut won = 0;
    for first in (0..end).rev() {
        won += rows[first][1];
        if least(first).is_none_or(|least| won > least as i64) {
            return Some(format!("rows {} to {end} win {won} on the way to a goal state", first + 1));
        }
    }
    None
}
