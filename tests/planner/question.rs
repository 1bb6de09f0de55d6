//! Estimates after a list of cuts, which need not come from a run.

use super::blocks::{Block, Cut};
use super::task::{Model, State};
use super::ways::{distances, estimate, ways_after};

/// Each state's estimate is its block's cost.
pub fn estimates(model: &Model, cuts: &[Cut], blocks: &[Block], states: &[State]) -> Vec<u64> {
    let ways = ways_after(model, cuts, blocks);
    let far = distances(&*ways);
    states.iter().map(|state| estimate(far[ways.block_of(state)])).collect()
}

/// Row 11, and the states as positions.
pub fn read_states(model: &Model, bytes: &[u8]) -> Option<Vec<State>> {
    if bytes.len() % model.columns() != 0 || bytes.len() / model.columns() > 64 {
        return None;
    }
    let states: Vec<State> =
        bytes.chunks(model.columns()).map(|state| state.iter().map(|byte| usize::from(*byte)).collect()).collect();
    let inside = |state: &State| state.iter().zip(&model.sizes).all(|(position, size)| position < size);
    states.iter().all(inside).then_some(states)
}
