//! The entries as the historian calls them: lists of bytes, four bytes a value, most significant first.

use super::blocks::weight;
use super::question::{estimates, read_states};
use super::replay::{replay, Replay};
use super::run::{run, Answer, Run};
use super::sheet::{read_cut_sheet, read_sheet};
use super::task::Model;
use super::{Part, Refusal};

/// Cuts and rows take three values a place.
const TRIPLE: usize = 12;
/// An estimate takes one, and so does a step of a log.
const SINGLE: usize = 4;

pub fn run_entry(sheet: &[u8], room: u32, cuts: &mut [u8], rows: &mut [u8]) -> (u64, Result<(Model, Run), Refusal>) {
    match judge_run(sheet, room, cuts.len(), rows.len()) {
        Err(refusal) => (u64::from(refusal.number), Err(refusal)),
        Ok(model) => {
            let run = run(&model, u64::from(room));
            fill(cuts, &cut_values(&run));
            fill(rows, &row_values(&model, &run));
            (answer_number(&run), Ok((model, run)))
        }
    }
}

/// The sheet, then 7, then 8: cuts and rows each need room less 1 places.
fn judge_run(sheet: &[u8], room: u32, cuts_len: usize, rows_len: usize) -> Result<Model, Refusal> {
    let model = read_sheet(sheet)?;
    if !(1..=256).contains(&room) {
        return Err(Refusal::new(Part::Room, 7));
    }
    let needed = room as usize - 1;
    if cuts_len / TRIPLE < needed || rows_len / TRIPLE < needed {
        return Err(Refusal::new(Part::Lists, 8));
    }
    Ok(model)
}

pub fn question_entry(
    model: &[u8], cut_sheet: &[u8], states: &[u8], list: &mut [u8],
) -> (u32, Result<(Model, Vec<u64>), Refusal>) {
    match judge_question(model, cut_sheet, states, list.len()) {
        Err(refusal) => (refusal.number, Err(refusal)),
        Ok((model, values)) => {
            fill(list, &values);
            (0, Ok((model, values)))
        }
    }
}

/// The given sheet, the inner model, 10, the cut part, then 11, then 8.
fn judge_question(
    model: &[u8], cut_sheet: &[u8], states: &[u8], list_len: usize,
) -> Result<(Model, Vec<u64>), Refusal> {
    let model = read_sheet(model)?;
    let (cuts, blocks) = read_cut_sheet(&model, cut_sheet)?;
    let states = read_states(&model, states).ok_or(Refusal::new(Part::States, 11))?;
    if list_len / SINGLE < states.len() {
        return Err(Refusal::new(Part::Lists, 8));
    }
    let values = if states.is_empty() { Vec::new() } else { estimates(&model, &cuts, &blocks, &states) };
    Ok((model, values))
}

pub fn replay_entry(
    model: &[u8], cut_sheet: &[u8], log: &[u8], rows: &mut [u8],
) -> (u64, Result<(Model, Replay), Refusal>) {
    match judge_replay(model, cut_sheet, log, rows.len()) {
        Err(refusal) => (number(0, 0, refusal.row as u64, u64::from(refusal.number)), Err(refusal)),
        Ok((model, replay)) => {
            // what is below zero stands there in two's complement, as the low 32 bits have it
            let values: Vec<u64> = replay.values().iter().map(|value| *value as u64).collect();
            fill(rows, &values);
            (number(1, 0, replay.rows.len() as u64, 0), Ok((model, replay)))
        }
    }
}

/// 8 is last: a place for each step of the log.
fn judge_replay(model: &[u8], cut_sheet: &[u8], log: &[u8], rows_len: usize) -> Result<(Model, Replay), Refusal> {
    let (model, replay) = replay(model, cut_sheet, &log_steps(log))?;
    if rows_len / TRIPLE < replay.rows.len() {
        return Err(Refusal::new(Part::Lists, 8));
    }
    Ok((model, replay))
}

/// The step numbers of a log; bytes short of a whole place are no place.
pub fn log_steps(log: &[u8]) -> Vec<u32> {
    log.chunks_exact(SINGLE).map(|place| u32::from_be_bytes([place[0], place[1], place[2], place[3]])).collect()
}

pub fn cut_values(run: &Run) -> Vec<u64> {
    run.cuts.iter().flat_map(|cut| [cut.block as u64, cut.column as u64, weight(&cut.wanted)]).collect()
}

/// Step, tenths and tenths left after it.
pub fn row_values(model: &Model, run: &Run) -> Vec<u64> {
    let Answer::Plan { cost, steps } = &run.answer else { return Vec::new() };
    let mut left = *cost;
    let mut values = Vec::new();
    for step in steps {
        left -= model.steps[*step].cost;
        values.extend([*step as u64, model.steps[*step].cost, left]);
    }
    values
}

/// Kind, blocks, steps and value in one number.
pub fn answer_number(run: &Run) -> u64 {
    let blocks = run.cuts.len() as u64 + 1;
    match &run.answer {
        Answer::Plan { cost, steps } => number(1, blocks, steps.len() as u64, *cost),
        Answer::NoPlan => number(2, blocks, 0, 0),
        Answer::Open { estimate } => number(3, blocks, 0, *estimate),
    }
}

pub fn number(kind: u64, blocks: u64, steps: u64, value: u64) -> u64 {
    (kind << 56) + (blocks << 44) + (steps << 32) + value
}

/// Places past the last one used stay untouched.
fn fill(list: &mut [u8], values: &[u64]) {
    for (place, value) in list.chunks_exact_mut(SINGLE).zip(values) {
        place.copy_from_slice(&(*value as u32).to_be_bytes());
    }
}
