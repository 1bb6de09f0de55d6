//! The replay of a shift: a recorded list of step numbers, taken one after the other from the model's start.

use super::blocks::{Block, Cut};
use super::question::estimates;
use super::sheet::{read_cut_sheet, read_sheet};
use super::task::{Model, State};
use super::{Part, Refusal, NO_WAY};

/// No log has more steps.
pub const LONGEST: usize = 255;

/// In a list of rows a dash is this value.
pub const DASH: i64 = NO_WAY as i64;

/// Ground won may be below zero, the detour never is.
#[derive(Clone, Copy, PartialEq, Eq, Debug)]
pub struct Figures {
    pub won: i64,
    pub detour: i64,
}

/// The tenths paid, and the two figures; nothing where both are a dash.
#[derive(Clone, Copy, PartialEq, Eq, Debug)]
pub struct Row {
    pub paid: i64,
    pub figures: Option<Figures>,
}

impl Row {
    /// Paid, won, detour.
    pub fn values(&self) -> [i64; 3] {
        self.figures.map_or([self.paid, DASH, DASH], |figures| [self.paid, figures.won, figures.detour])
    }
}

/// The states before the first step and after each, and a row for each step.
#[derive(Clone, PartialEq, Eq, Debug)]
pub struct Replay {
    pub states: Vec<State>,
    pub rows: Vec<Row>,
}

impl Replay {
    /// The values of a list of rows.
    pub fn values(&self) -> Vec<i64> {
        self.rows.iter().flat_map(|row| row.values()).collect()
    }
}

/// Everything but the list of rows: the given sheet, the inner model, 10, the cut part, then 15, then 14.
pub fn replay(model: &[u8], cut_sheet: &[u8], log: &[u32]) -> Result<(Model, Replay), Refusal> {
    let model = read_sheet(model)?;
    let (cuts, blocks) = read_cut_sheet(&model, cut_sheet)?;
    if log.len() > LONGEST {
        return Err(Refusal::new(Part::Log, 15));
    }
    let states = walked(&model, log)?;
    let rows = rows_of(&model, &cuts, &blocks, log, &states);
    Ok((model, Replay { states, rows }))
}

/// The states before the first step and after each; 14 at an unknown step or one that cannot be taken.
fn walked(model: &Model, log: &[u32]) -> Result<Vec<State>, Refusal> {
    let mut state = model.start.clone();
    let mut states = vec![state.clone()];
    for (place, number) in log.iter().enumerate() {
        match model.steps.get(*number as usize) {
            Some(step) if step.can_take(&state) => state = step.take(&state),
            _ => return Err(Refusal::in_row(place + 1)),
        }
        states.push(state.clone());
    }
    Ok(states)
}

/// A row whose state before or after has no way shows dashes, and so does every row after it.
fn rows_of(model: &Model, cuts: &[Cut], blocks: &[Block], log: &[u32], states: &[State]) -> Vec<Row> {
    let estimates = estimates(model, cuts, blocks, states);
    let mut dashed = false;
    let mut rows = Vec::new();
    for (place, number) in log.iter().enumerate() {
        let (before, after) = (estimates[place], estimates[place + 1]);
        let paid = model.steps[*number as usize].cost as i64;
        let won = before as i64 - after as i64;
        dashed = dashed || before == NO_WAY || after == NO_WAY;
        let figures = if dashed { None } else { Some(Figures { won, detour: paid - won }) };
        rows.push(Row { paid, figures });
    }
    rows
}
