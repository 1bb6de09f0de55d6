//! One small model, gone through from end to end: every value of every field, every length, every bit, every pair of
//! faults, every set of faults in the order of the refusals.

use crate::call::{Call, Slice};
use crate::damage::{layout, What};
use crate::examples::{cuts_of, small_rethread, CUTS};
use crate::planner::bits::{pack, Field};
use crate::planner::blocks::cut_fields;
use crate::planner::sheet::{write_cut_part, write_sheet};

/// The bytes of a question that is accepted; one is replaced at a time.
#[derive(Clone)]
struct Asked {
    given: Vec<u8>,
    inner: Vec<u8>,
    part: Vec<u8>,
    states: Vec<u8>,
    list: usize,
}

fn good() -> Asked {
    let sheet = write_sheet(&small_rethread());
    let part = write_cut_part(&cuts_of(&CUTS));
    Asked { given: sheet.clone(), inner: sheet, part, states: vec![1, 0, 0, 1, 0, 2], list: 12 }
}

impl Asked {
    fn call(self) -> Call {
        Call::Question {
            model: Slice::plain(self.given),
            cut_sheet: Slice::plain([self.inner, self.part].concat()),
            states: Slice::plain(self.states),
            estimates: Slice::plain(vec![0x5a; self.list]),
        }
    }
}

fn run_call(sheet: Vec<u8>, room: u32, cuts: usize, rows: usize) -> Call {
    let list = |length| Slice::plain(vec![0x5a; length]);
    Call::Run { sheet: Slice::plain(sheet), room, cuts: list(cuts), rows: list(rows) }
}

pub fn every_call() -> Vec<Call> {
    let mut calls = Vec::new();
    for sheet in spoiled(&small_rethread().fields()) {
        calls.push(run_call(sheet.clone(), 5, 48, 48));
        calls.push(Asked { given: sheet.clone(), ..good() }.call());
        calls.push(Asked { inner: sheet.clone(), ..good() }.call());
        calls.push(Asked { given: sheet.clone(), inner: sheet, ..good() }.call());
    }
    for part in spoiled(&cut_fields(&cuts_of(&CUTS))) {
        calls.push(Asked { part, ..good() }.call());
    }
    calls.extend(cut_off());
    for sheet in pairs_of_bad_fields() {
        calls.push(run_call(sheet.clone(), 0, 0, 0));
        calls.push(Asked { inner: sheet, part: vec![0xff], ..good() }.call());
    }
    calls.extend(rooms_and_lengths());
    calls.extend(states_and_lengths());
    calls.extend(run_faults_together());
    calls.extend(question_faults_together());
    calls
}

/// The sheet with every value of every field, every length, every bit turned, and a byte more.
pub fn spoiled(fields: &[Field]) -> Vec<Vec<u8>> {
    let mut sheets = Vec::new();
    for place in 0..fields.len() {
        for value in values_of(fields[place].width) {
            let mut fields = fields.to_vec();
            fields[place].value = value;
            sheets.push(pack(&fields));
        }
    }
    let bytes = pack(fields);
    sheets.extend((0..bytes.len()).map(|length| bytes[..length].to_vec()));
    for bit in 0..bytes.len() * 8 {
        let mut bytes = bytes.clone();
        bytes[bit / 8] ^= 128 >> (bit % 8);
        sheets.push(bytes);
    }
    sheets.extend((0..=255).map(|byte| [&bytes[..], &[byte]].concat()));
    sheets
}

/// All values of a narrow field; of a wide one the low values and each single bit.
fn values_of(width: usize) -> Vec<u64> {
    if width <= 8 {
        return (0..1 << width).collect();
    }
    (0..40).chain((0..width).map(|place| 1 << place)).chain([(1 << width) - 1]).collect()
}

/// A cut sheet that ends anywhere in its model.
fn cut_off() -> Vec<Call> {
    let cut = |length: usize| Asked { inner: good().inner[..length].to_vec(), part: Vec::new(), ..good() }.call();
    (0..good().inner.len()).map(cut).collect()
}

/// The least value that a field's row refuses.
pub fn bad(what: What) -> Option<u64> {
    match what {
        What::Form => Some(2),
        What::Columns => Some(17),
        What::Steps => Some(129),
        What::Size => Some(33),
        What::Start(size) => Some(size as u64),
        What::Mark(size) => Some(size as u64 + 1),
        What::Cost => None,
    }
}

/// Two bad fields: the first in sheet order gives the number, whatever the numbers are.
pub fn pairs_of_bad_fields() -> Vec<Vec<u8>> {
    let model = small_rethread();
    let kinds = layout(&model);
    let mut sheets = Vec::new();
    for one in 0..kinds.len() {
        for other in 0..one {
            let (Some(high), Some(low)) = (bad(kinds[one]), bad(kinds[other])) else { continue };
            let mut fields = model.fields();
            fields[one].value = high;
            fields[other].value = low;
            sheets.push(pack(&fields));
        }
    }
    sheets
}

fn rooms_and_lengths() -> Vec<Call> {
    let sheet = write_sheet(&small_rethread());
    let mut calls: Vec<Call> = (0..300).map(|room| run_call(sheet.clone(), room, 3060, 3060)).collect();
    for length in 0..75 {
        calls.push(run_call(sheet.clone(), 5, length, 48));
        calls.push(run_call(sheet.clone(), 5, 48, length));
        calls.push(run_call(sheet.clone(), 5, length, length));
        calls.push(run_call(sheet.clone(), 257, length, length));
    }
    for room in 1..=256 {
        let needed = (room as usize - 1) * 12;
        calls.push(run_call(sheet.clone(), room, needed, needed));
        calls.push(run_call(sheet.clone(), room, needed.saturating_sub(1), needed));
        calls.push(run_call(sheet.clone(), room, needed, needed.saturating_sub(1)));
    }
    calls
}

fn states_and_lengths() -> Vec<Call> {
    let mut calls = Vec::new();
    for length in 0..135 {
        calls.push(Asked { states: vec![1; length], list: 300, ..good() }.call());
        calls.push(Asked { states: vec![1; length], list: 0, ..good() }.call());
    }
    for byte in 0..=255 {
        calls.push(Asked { states: vec![0, 0, byte, 0], ..good() }.call());
        calls.push(Asked { states: vec![0, 0, 0, byte], list: 0, ..good() }.call());
    }
    calls.extend((0..30).map(|list| Asked { list, ..good() }.call()));
    calls
}

/// A sheet for each of the numbers 1 to 6, and a good one.
pub fn bad_sheets() -> Vec<Vec<u8>> {
    let fields = small_rethread().fields();
    let with = |place: usize, value: u64| {
        let mut fields = fields.clone();
        fields[place].value = value;
        pack(&fields)
    };
    let good = pack(&fields);
    let mut filled = good.clone();
    *filled.last_mut().unwrap() |= 1;
    vec![good.clone(), good[..20].to_vec(), with(0, 0), with(1, 0), with(6, 0), with(10, 63), filled]
}

fn run_faults_together() -> Vec<Call> {
    let mut calls = Vec::new();
    for sheet in bad_sheets() {
        for room in [5, 0, 257, 65_537] {
            for (cuts, rows) in [(48, 48), (47, 48), (48, 47), (0, 0)] {
                calls.push(run_call(sheet.clone(), room, cuts, rows));
            }
        }
    }
    calls
}

/// The same inside a cut sheet, and one of another model.
pub fn bad_inner_sheets() -> Vec<Vec<u8>> {
    let mut other = small_rethread();
    other.steps.swap(0, 1);
    let mut sheets = bad_sheets();
    sheets.push(write_sheet(&other));
    sheets
}

/// Every choice of one fault or none for each stage of a question.
fn question_faults_together() -> Vec<Call> {
    let mut calls = Vec::new();
    for given in bad_sheets() {
        for inner in bad_inner_sheets() {
            for part in bad_parts() {
                for states in [vec![1, 0, 0, 1, 0, 2], vec![0; 5], vec![0; 130], vec![0, 0, 0, 3, 0, 0]] {
                    for list in [12, 11] {
                        let (given, inner, states) = (given.clone(), inner.clone(), states.clone());
                        calls.push(Asked { given, inner, part: part.clone(), states, list }.call());
                    }
                }
            }
        }
    }
    calls
}

/// A cut part for each of the numbers 1, 2, 6 and 9, and a good one.
pub fn bad_parts() -> Vec<Vec<u8>> {
    let fields = cut_fields(&cuts_of(&CUTS));
    let with = |place: usize, value: u64| {
        let mut fields = fields.clone();
        fields[place].value = value;
        pack(&fields)
    };
    let good = pack(&fields);
    let mut filled = good.clone();
    *filled.last_mut().unwrap() |= 1;
    vec![good.clone(), good[..9].to_vec(), with(0, 1), filled, with(2, 1), with(4, 7)]
}
