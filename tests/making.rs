//! Calls by chance: good ones, ones with a fault of every kind, and ones with several faults, so that the order of
//! the refusals shows.

use crate::call::{Call, Slice};
use crate::chance::Chance;
use crate::damage::{damaged_cut_part, damaged_sheet, differing, random_cuts};
use crate::lent::Side;
use crate::planner::blocks::Cut;
use crate::planner::run::run;
use crate::planner::sheet::{write_cut_part, write_cut_sheet, write_sheet};
use crate::planner::task::Model;
use crate::replaying::any_replay;
use crate::shapes::{any_model, random_state, small_model};

pub fn any_call(chance: &mut Chance) -> Call {
    match chance.below(100) {
        0..=27 => any_run(chance),
        28..=55 => any_question(chance),
        _ => any_replay(chance),
    }
}

pub fn any_run(chance: &mut Chance) -> Call {
    if chance.percent(60) {
        let model = any_model(chance);
        let room = good_room(chance, &model);
        let lists = if chance.percent(90) { 0 } else { 60 };
        return run_call(chance, write_sheet(&model), room, lists);
    }
    let model = small_model(chance);
    let sheet = if chance.percent(70) { damaged_sheet(chance, &model) } else { write_sheet(&model) };
    let room = any_room(chance);
    run_call(chance, sheet, room, 30)
}

/// Rooms on which a run ends in each of its ways; few large ones on large models, since those take long.
fn good_room(chance: &mut Chance, model: &Model) -> u32 {
    let states = model.states().min(256) as usize;
    let room = match chance.below(20) {
        0 => 1,
        1..=3 => chance.between(1, 5),
        4..=5 => states,
        6 => states.saturating_sub(1).max(1),
        7 if model.columns() < 9 || chance.percent(5) => 256,
        8 if model.columns() < 9 => 255,
        9..=11 if model.states() < 700 => tight_room(chance, model),
        _ => chance.between(1, if model.columns() < 9 { 60 } else { 24 }),
    };
    room as u32
}

/// Just as many blocks as the run makes, or one less.
fn tight_room(chance: &mut Chance, model: &Model) -> usize {
    let cuts = run(model, 256).cuts.len();
    chance.pick(&[cuts, cuts + 1, cuts + 1]).clamp(1, 256)
}

/// Room 0, 257, and numbers that would come out right if they were cut to 8 or 16 bits.
fn any_room(chance: &mut Chance) -> u32 {
    match chance.below(10) {
        0 => 0,
        1 => 257,
        2 => chance.pick(&[258, 512, 65_535, 65_536, 65_537, 65_536 + 5, 1 << 24, 1 << 31, u32::MAX, u32::MAX - 250]),
        3 => chance.next() as u32,
        4 => 256,
        _ => chance.between(1, 12) as u32,
    }
}

/// `short` is how often, in a hundred, a list has too few places.
fn run_call(chance: &mut Chance, sheet: Vec<u8>, room: u32, short: usize) -> Call {
    let needed = if (1..=256).contains(&room) { (room as usize - 1) * 12 } else { chance.below(100) };
    let cuts = list(chance, needed, 12, short);
    let rows = list(chance, needed, 12, short);
    Call::Run { sheet: slice(chance, sheet), room, cuts, rows }
}

/// A list that is just long enough, longer, of an odd length, or too short.
pub fn list(chance: &mut Chance, needed: usize, place: usize, short: usize) -> Slice {
    let length = if chance.percent(short) {
        match chance.below(4) {
            0 => needed.saturating_sub(1),
            1 => needed.saturating_sub(place),
            2 => needed.saturating_sub(chance.between(1, place)),
            _ => chance.below(needed + 1),
        }
    } else {
        match chance.below(10) {
            0..=3 => needed,
            4..=6 => needed + chance.between(1, place - 1),
            7..=8 => needed + place * chance.between(1, 4),
            // once in a while so long that 16 bits don't hold it, and what they would hold is too short
            _ if chance.percent(5) => 65_536 + chance.below(needed.max(1)),
            _ => needed + chance.below(1000),
        }
    };
    let content = chance.bytes(length);
    slice(chance, content)
}

pub fn slice(chance: &mut Chance, content: Vec<u8>) -> Slice {
    let side = chance.pick(&[Side::Front, Side::Back, Side::Back, Side::Middle]);
    Slice { content, side, canary: chance.next(), null: chance.percent(50) }
}

/// What of a question or of a replay is spoiled.
#[derive(Clone, Copy, Default)]
pub struct Faults {
    given: bool,
    inner: bool,
    differs: bool,
    cuts: bool,
    /// The states of a question, the log of a replay.
    pub asked: bool,
    pub list: bool,
}

impl Faults {
    fn any(&self) -> bool {
        self.given || self.inner || self.differs || self.cuts || self.asked || self.list
    }
}

pub fn any_question(chance: &mut Chance) -> Call {
    let faults = any_faults(chance);
    let model = model_for(chance, faults);
    let cuts = any_cuts(chance, &model);
    question_call(chance, &model, &cuts, faults)
}

pub fn model_for(chance: &mut Chance, faults: Faults) -> Model {
    if faults.any() {
        small_model(chance)
    } else {
        any_model(chance)
    }
}

/// None, one, or each with even chances.
pub fn any_faults(chance: &mut Chance) -> Faults {
    let mut faults = Faults::default();
    match chance.below(20) {
        0..=7 => {}
        8 => faults.given = true,
        9..=10 => faults.inner = true,
        11 => faults.differs = true,
        12..=14 => faults.cuts = true,
        15 => faults.asked = true,
        16 => faults.list = true,
        _ => {
            faults.given = chance.percent(15);
            faults.inner = chance.percent(25);
            faults.differs = chance.percent(35);
            faults.cuts = chance.percent(50);
            faults.asked = chance.percent(50);
            faults.list = chance.percent(50);
        }
    }
    faults
}

/// Cuts of a run, or any that are accepted.
pub fn any_cuts(chance: &mut Chance, model: &Model) -> Vec<Cut> {
    if chance.percent(40) {
        let room = if model.columns() < 9 { chance.between(1, 60) } else { chance.between(1, 12) };
        return run(model, room as u64).cuts;
    }
    let count = match chance.below(20) {
        0 => 0,
        1 => 255,
        2..=3 => chance.below(256),
        _ => chance.below(12),
    };
    random_cuts(chance, model, count)
}

fn question_call(chance: &mut Chance, model: &Model, cuts: &[Cut], faults: Faults) -> Call {
    let (given, cut_sheet) = two_sheets(chance, model, cuts, faults);
    let (states, count) = if faults.asked { wrong_states(chance, model) } else { good_states(chance, model) };
    let estimates = list(chance, count * 4, 4, if faults.list { 100 } else { 0 });
    Call::Question {
        model: slice(chance, given),
        cut_sheet: slice(chance, cut_sheet),
        states: slice(chance, states),
        estimates,
    }
}

/// The model sheet and the cut sheet.
pub fn two_sheets(chance: &mut Chance, model: &Model, cuts: &[Cut], faults: Faults) -> (Vec<u8>, Vec<u8>) {
    let given = if faults.given { damaged_sheet(chance, model) } else { write_sheet(model) };
    let inner_model = if faults.differs { differing(chance, model) } else { model.clone() };
    let inner = match (faults.inner, chance.below(4)) {
        (true, 0) => inner_cut_short(chance, &inner_model, cuts),
        (true, _) => damaged_sheet(chance, &inner_model),
        (false, _) => write_sheet(&inner_model),
    };
    let part = if faults.cuts { damaged_cut_part(chance, model, cuts) } else { write_cut_part(cuts) };
    // a sheet cut off inside its model has no cut part after it
    let cut_sheet = if faults.inner && chance.percent(30) { inner } else { [inner, part].concat() };
    (given, cut_sheet)
}

/// The whole cut sheet ends somewhere.
fn inner_cut_short(chance: &mut Chance, model: &Model, cuts: &[Cut]) -> Vec<u8> {
    let mut sheet = write_cut_sheet(model, cuts);
    let length = chance.below(sheet.len());
    sheet.truncate(length);
    sheet
}

fn good_states(chance: &mut Chance, model: &Model) -> (Vec<u8>, usize) {
    let count = match chance.below(10) {
        0 => 0,
        1 => 64,
        2 => 1,
        _ => chance.below(20),
    };
    (state_bytes(chance, model, count), count)
}

fn state_bytes(chance: &mut Chance, model: &Model, count: usize) -> Vec<u8> {
    let state = |_| random_state(chance, &model.sizes).into_iter().map(|position| position as u8).collect::<Vec<u8>>();
    (0..count).flat_map(state).collect()
}

/// Row 11: a byte too many or too few, 65 states or more, a position at its size or far above.
fn wrong_states(chance: &mut Chance, model: &Model) -> (Vec<u8>, usize) {
    let count = chance.between(1, 8);
    let mut bytes = state_bytes(chance, model, count);
    match chance.below(4) {
        0 => bytes.push(0),
        1 => {
            bytes.pop();
        }
        2 => {
            let count = chance.pick(&[65, 65, 66, 128, 256, 320, 65_536 / model.columns()]);
            bytes = state_bytes(chance, model, count);
        }
        _ => {
            let place = chance.below(bytes.len());
            let size = model.sizes[place % model.columns()] as u8;
            bytes[place] = chance.pick(&[size, size + 1, 128 + size - 1, 255, bytes[place] + 32]);
        }
    }
    (bytes, count)
}
