//! The independent planner as a static library for the fuzz target: the same entries under other names.

#![allow(dead_code)] // the modules are shared with the other tests

mod planner;

use planner::entries::{question_entry, replay_entry, run_entry};
use std::slice::{from_raw_parts, from_raw_parts_mut};

/// # Safety
/// The pointers and lengths are those of slices that do not overlap.
#[no_mangle]
pub unsafe extern "C" fn judge_run(
    sheet: *const u8, sheet_len: usize, room: u32, cuts: *mut u8, cuts_len: usize, rows: *mut u8, rows_len: usize,
) -> u64 {
    run_entry(
        from_raw_parts(sheet, sheet_len),
        room,
        from_raw_parts_mut(cuts, cuts_len),
        from_raw_parts_mut(rows, rows_len),
    )
    .0
}

/// # Safety
/// The pointers and lengths are those of slices that do not overlap.
#[no_mangle]
pub unsafe extern "C" fn judge_question(
    model: *const u8, model_len: usize, cut_sheet: *const u8, cut_sheet_len: usize, states: *const u8,
    states_len: usize, estimates: *mut u8, estimates_len: usize,
) -> u32 {
    question_entry(
        from_raw_parts(model, model_len),
        from_raw_parts(cut_sheet, cut_sheet_len),
        from_raw_parts(states, states_len),
        from_raw_parts_mut(estimates, estimates_len),
    )
    .0
}

/// # Safety
/// The pointers and lengths are those of slices that do not overlap.
#[no_mangle]
pub unsafe extern "C" fn judge_replay(
    model: *const u8, model_len: usize, cut_sheet: *const u8, cut_sheet_len: usize, log: *const u8, log_len: usize,
    rows: *mut u8, rows_len: usize,
) -> u64 {
    replay_entry(
        from_raw_parts(model, model_len),
        from_raw_parts(cut_sheet, cut_sheet_len),
        from_raw_parts(log, log_len),
        from_raw_parts_mut(rows, rows_len),
    )
    .0
}
