//! Replays on small models, gone through from end to end: the two sheets spoiled as for a question, every short log, a bad
//! step in every row, every length of log and rows, every set of faults in the order of the refusals.

use crate::call::{Call, Slice};
use crate::every::{bad_inner_sheets, bad_parts, bad_sheets, pairs_of_bad_fields, spoiled};
use crate::examples::{cuts_of, small_rethread, torn_web, CUTS, TORN_CUTS};
use crate::planner::blocks::cut_fields;
use crate::planner::sheet::{write_cut_part, write_sheet};
use crate::planner::task::Model;

/// What a replay is given, and the bytes that its list of rows has; one is replaced at a time.
#[derive(Clone)]
struct Given {
    model: Vec<u8>,
    inner: Vec<u8>,
    part: Vec<u8>,
    log: Vec<u8>,
    list: usize,
}

impl Given {
    fn new(model: &Model, cuts: &[u32], log: &[u32]) -> Given {
        let sheet = write_sheet(model);
        let part = write_cut_part(&cuts_of(cuts));
        Given { model: sheet.clone(), inner: sheet, part, log: bytes_of(log), list: log.len() * 12 }
    }

    fn call(self) -> Call {
        Call::Replay {
            model: Slice::plain(self.model),
            cut_sheet: Slice::plain([self.inner, self.part].concat()),
            log: Slice::plain(self.log),
            rows: Slice::plain(vec![0x5a; self.list]),
        }
    }
}

fn bytes_of(log: &[u32]) -> Vec<u8> {
    log.iter().flat_map(|number| number.to_be_bytes()).collect()
}

/// Crawl, stop, tape.
fn good() -> Given {
    Given::new(&small_rethread(), &CUTS, &[0, 1, 2])
}

/// So many steps that can be taken: crawl and stop in turn.
fn to_and_fro(steps: usize) -> Vec<u32> {
    (0..steps as u32).map(|row| row % 2).collect()
}

pub fn every_call() -> Vec<Call> {
    let mut given = spoiled_sheets();
    given.extend(short_logs());
    given.extend(bad_rows());
    given.extend(lengths_of_logs());
    given.extend(lengths_of_rows());
    given.extend(faults_together());
    given.into_iter().map(Given::call).collect()
}

fn spoiled_sheets() -> Vec<Given> {
    let mut list = Vec::new();
    for sheet in spoiled(&small_rethread().fields()) {
        list.push(Given { model: sheet.clone(), ..good() });
        list.push(Given { inner: sheet.clone(), ..good() });
        list.push(Given { model: sheet.clone(), inner: sheet, ..good() });
    }
    list.extend(spoiled(&cut_fields(&cuts_of(&CUTS))).into_iter().map(|part| Given { part, ..good() }));
    for length in 0..good().inner.len() {
        list.push(Given { inner: good().inner[..length].to_vec(), part: Vec::new(), ..good() });
    }
    list.extend(pairs_of_bad_fields().into_iter().map(|inner| Given { inner, part: vec![0xff], ..good() }));
    list
}

/// Every log of so many rows or fewer, made of these numbers.
fn logs_of(numbers: &[u32], rows: usize) -> Vec<Vec<u32>> {
    let mut logs = vec![Vec::new()];
    let mut from = 0;
    for _ in 0..rows {
        let end = logs.len();
        for place in from..end {
            for number in numbers {
                let longer = [&logs[place][..], &[*number]].concat();
                logs.push(longer);
            }
        }
        from = end;
    }
    logs
}

/// Every log of so many rows or fewer that can be taken from end to end.
fn walks_of(model: &Model, rows: usize) -> Vec<Vec<u32>> {
    let mut walks = vec![(Vec::new(), model.start.clone())];
    let mut from = 0;
    for _ in 0..rows {
        let end = walks.len();
        for place in from..end {
            let (log, state) = walks[place].clone();
            for (number, step) in model.steps.iter().enumerate().filter(|(_, step)| step.can_take(&state)) {
                walks.push(([&log[..], &[number as u32]].concat(), step.take(&state)));
            }
        }
        from = end;
    }
    walks.into_iter().map(|(log, _)| log).collect()
}

/// Known steps, unknown ones, and ones that 8 bits would take for crawl and tape; walks after each part of the cuts, and
/// such as come to a dead end.
fn short_logs() -> Vec<Given> {
    let (model, torn) = (small_rethread(), torn_web());
    let mut list: Vec<Given> = Vec::new();
    for log in logs_of(&[0, 1, 2, 3, 4, 256, 258, u32::MAX], 4) {
        list.push(Given::new(&model, &CUTS, &log));
    }
    for log in walks_of(&model, 9) {
        list.extend((0..=4).map(|cuts| Given::new(&model, &CUTS[..cuts * 3], &log)));
    }
    for log in walks_of(&torn, 8) {
        list.extend((0..=2).map(|cuts| Given::new(&torn, &TORN_CUTS[..cuts * 3], &log)));
    }
    list
}

/// In every row of the longest log: a step that can't be taken there, the first unknown one, and others that a number of
/// fewer bits would take for the right one.
fn bad_rows() -> Vec<Given> {
    let walk = to_and_fro(255);
    let mut list = Vec::new();
    for row in 0..255 {
        let right = walk[row];
        let others = [1 - right, 4, 128 + right, 255, 256 + right, 300, 65_536 + right, (1 << 31) + right, u32::MAX];
        for number in others {
            let mut log = walk.clone();
            log[row] = number;
            list.push(Given::new(&small_rethread(), &CUTS, &log));
        }
    }
    list
}

/// Up to some steps past the 255th, with enough places, one byte short, one place short, and none; then as many as would be
/// few in 8 or 16 bits, counted as steps or as bytes.
fn lengths_of_logs() -> Vec<Given> {
    let walk = bytes_of(&to_and_fro(258));
    let mut list = Vec::new();
    for length in 0..=walk.len() {
        let needed = length / 4 * 12;
        for list_bytes in [needed, needed.saturating_sub(1), needed.saturating_sub(12), needed + 12, 0] {
            list.push(Given { log: walk[..length].to_vec(), list: list_bytes, ..good() });
        }
    }
    for steps in [512, 515, 16_384, 16_387, 65_536, 65_539] {
        list.push(Given { log: bytes_of(&to_and_fro(steps)), list: 3060, ..good() });
    }
    list
}

/// Every length of the list, up to a place more than is needed.
fn lengths_of_rows() -> Vec<Given> {
    let logs = [vec![], vec![0], vec![0, 1], vec![0, 1, 2], vec![2, 0, 3, 1], vec![0, 0], to_and_fro(255)];
    let mut list = Vec::new();
    for log in logs {
        let given = Given::new(&small_rethread(), &CUTS, &log);
        // of the longest only those around its end
        for length in given.list.saturating_sub(60)..=given.list + 13 {
            list.push(Given { list: length, ..given.clone() });
        }
    }
    list
}

/// Every choice of one fault or none for each stage of a replay.
fn faults_together() -> Vec<Given> {
    let long = to_and_fro(256);
    let logs = [vec![0, 1, 2], vec![], long.clone(), [&[300], &long[1..]].concat(), vec![0, 4, 2], vec![0, 1, 3]];
    let mut list = Vec::new();
    for model in bad_sheets() {
        for inner in bad_inner_sheets() {
            for part in bad_parts() {
                for log in &logs {
                    for list_bytes in [36, 35] {
                        let (model, inner, part) = (model.clone(), inner.clone(), part.clone());
                        list.push(Given { model, inner, part, log: bytes_of(log), list: list_bytes });
                    }
                }
            }
        }
    }
    list
}
