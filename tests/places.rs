//! Calls of the library's functions on sheets, and of the replay, with one small model gone through from end to end: every length of every
//! table, every bad field with a table that ends before it or behind it, counts and values of every kind.

use crate::chance::Chance;
use crate::damage::layout;
use crate::every::{bad, bad_inner_sheets, bad_parts, bad_sheets};
use crate::examples::{cuts_of, small_rethread, CUTS};
use crate::lending::{given_cuts, given_log, given_model, just_enough};
use crate::planner::blocks::cut_fields;
use crate::planner::sheet::{write_cut_part, write_cut_sheet, write_sheet};
use crate::planner::task::Model;
use crate::tables::{Call, Function, Given};

/// The small re-thread's last two steps.
fn small() -> Model {
    let mut model = small_rethread();
    model.steps.drain(..2);
    model
}

fn reading() -> Given {
    Given::sheets(Function::ReadModel, &[&write_sheet(&small())])
}

fn writing() -> Given {
    given_model(&small().fields(), 2)
}

fn rebuilding() -> Given {
    Given::sheets(Function::Rebuild, &[&write_sheet(&small()), &write_cut_sheet(&small(), &cuts_of(&CUTS))])
}

fn cut_writing() -> Given {
    given_cuts(&write_sheet(&small()), &cut_fields(&cuts_of(&CUTS)))
}

/// Crawl, stop and tape, on all of the small re-thread.
fn replaying() -> Given {
    let model = small_rethread();
    given_log(&write_sheet(&model), &write_cut_sheet(&model, &cuts_of(&CUTS)), &[0, 1, 2])
}

pub fn every_call(chance: &mut Chance) -> Vec<Call> {
    let mut calls = Vec::new();
    for good in [reading(), writing(), rebuilding(), cut_writing(), replaying()] {
        calls.push(just_enough(chance, "the small model", good.clone()));
        calls.extend(every_length_lent(chance, &good));
        for given in every_length(&good) {
            calls.push(lent_for(chance, "a given table of another length", &good, given));
        }
    }
    for (words, good, given) in spoiled() {
        calls.push(lent_for(chance, words, &good, given));
    }
    for given in longest_logs() {
        for places in [764, 765, 774] {
            calls.push(Call::new(chance, "a log of about 255 steps", given.clone(), &[places]));
        }
    }
    calls
}

/// As many places as the good call needs.
fn lent_for(chance: &mut Chance, words: &str, good: &Given, given: Given) -> Call {
    Call::new(chance, words, given, &good.needed().expect("a good call"))
}

/// One table lent after the other gets every length from nothing to two places more than it needs; at the end all are
/// empty.
fn every_length_lent(chance: &mut Chance, good: &Given) -> Vec<Call> {
    let needed = good.needed().expect("a good call");
    let mut calls = Vec::new();
    for table in 0..needed.len() {
        for length in 0..=needed[table] + 2 {
            let mut lengths = needed.clone();
            lengths[table] = length;
            calls.push(Call::new(chance, "a lent table of every length", good.clone(), &lengths));
        }
    }
    calls.push(Call::new(chance, "all lent tables empty", good.clone(), &vec![0; needed.len()]));
    calls
}

/// One given table after the other ends before each of its places, or has a place more.
fn every_length(given: &Given) -> Vec<Given> {
    let mut list = Vec::new();
    for table in 0..given.tables.len() {
        for length in 0..=given.tables[table].len() {
            let mut other = given.clone();
            other.tables[table].truncate(length);
            if length == given.tables[table].len() {
                other.tables[table].push(77);
            }
            list.push(other);
        }
    }
    list
}

/// In words, the good call, and what is given instead.
fn spoiled() -> Vec<(&'static str, Given, Given)> {
    let of_model = |words, list: Vec<Given>| list.into_iter().map(move |given| (words, writing(), given));
    let of_cuts = |words, list: Vec<Given>| list.into_iter().map(move |given| (words, cut_writing(), given));
    of_model("a bad field, and tables that end", bad_fields())
        .chain(of_model("values of a frame or of marks", model_values()))
        .chain(of_model("columns and steps", model_counts()))
        .chain(of_cuts("values of a cut, and a table that ends", cut_values()))
        .chain(of_cuts("counts of cuts", cut_counts()))
        .chain(log_values().into_iter().map(|given| ("steps of a log", replaying(), given)))
        .chain(bad_sheets_and_logs().into_iter().map(|given| ("a sheet before a log", replaying(), given)))
        .collect()
}

/// Each bad field alone, and with each table ending before each of its places: what comes first in sheet order gives
/// the number.
fn bad_fields() -> Vec<Given> {
    let mut list = Vec::new();
    let kinds = layout(&small());
    for (place, kind) in kinds.iter().enumerate() {
        let Some(value) = bad(*kind) else { continue };
        let mut fields = small().fields();
        fields[place].value = value;
        list.extend(every_length(&given_model(&fields, 2)));
    }
    list
}

/// Values around the limits, and such as 5 or 6 bits would cut to good ones, in each place of the frame and of the marks.
fn model_values() -> Vec<Given> {
    let values = [0, 1, 2, 3, 4, 31, 32, 33, 34, 63, 64, 65, 66, 97, 128, 129, 130, 194, 255];
    let mut list = Vec::new();
    for table in [0, 2] {
        for place in 0..writing().tables[table].len() {
            for value in values {
                let mut given = writing();
                given.tables[table][place] = value;
                list.push(given);
            }
        }
    }
    list
}

/// Numbers that are not the tables', and such as 8, 16 or 32 bits would cut to the right ones; with the tables and without.
fn model_counts() -> Vec<Given> {
    let other = |place: usize, value: u64| {
        let mut given = writing();
        given.numbers[place] = value;
        [given.clone(), emptied(&given, 0)]
    };
    let columns = [0, 1, 3, 16, 17, 18, 31, 34, 255, 256, 258, 300, 65_538, 1 << 32, (1 << 32) + 2, u64::MAX];
    let steps = [0, 1, 3, 128, 129, 130, 255, 256, 258, 65_538, 100_000, 1 << 32, (1 << 32) + 2, u64::MAX];
    columns.iter().flat_map(|value| other(0, *value)).chain(steps.iter().flat_map(|value| other(1, *value))).collect()
}

fn cut_counts() -> Vec<Given> {
    let other = |value: &u64| {
        let mut given = cut_writing();
        given.numbers[0] = *value;
        [given.clone(), emptied(&given, 1)]
    };
    let counts = [0, 1, 3, 5, 255, 256, 257, 260, 1000, 65_540, 1 << 32, (1 << 32) + 4, u64::MAX];
    counts.iter().flat_map(other).collect()
}

/// All tables from this one on have no place.
fn emptied(given: &Given, from: usize) -> Given {
    let mut empty = given.clone();
    empty.tables[from..].iter_mut().for_each(|table| table.clear());
    empty
}

/// Blocks, columns and sets good and bad in each cut; the table whole, or ending before a field of this cut.
fn cut_values() -> Vec<Given> {
    let blocks = [0, 1, 2, 3, 4, 5, 255, 256, 258, 65_536, u32::MAX];
    let columns = [0, 1, 2, 15, 16, 17, 256, u32::MAX];
    let sets = [0, 1, 2, 3, 4, 5, 6, 7, 8, 12, 0x8000_0000, u32::MAX];
    let mut list = Vec::new();
    for cut in 0..4 {
        for (field, values) in [(0, &blocks[..]), (1, &columns[..]), (2, &sets[..])] {
            for value in values {
                let mut given = cut_writing();
                given.tables[1][3 * cut + field] = *value;
                list.push(given.clone());
                given.tables[1].truncate(3 * cut + (*value as usize) % 3);
                list.push(given);
            }
        }
    }
    list
}

/// Steps that can be taken or not, unknown ones, and such as fewer bits would cut to good ones, in each row of the log.
fn log_values() -> Vec<Given> {
    let values = [0, 1, 2, 3, 4, 127, 128, 255, 256, 257, 258, 300, 65_536, 65_538, 1 << 31, (1 << 31) + 2, u32::MAX];
    let mut list = Vec::new();
    for row in 0..3 {
        for value in values {
            let mut given = replaying();
            given.tables[2][row] = value;
            list.push(given);
        }
    }
    list
}

/// A sheet or a part of one for each number, with a good log, a bad one and one that is too long: the sheet is judged first.
fn bad_sheets_and_logs() -> Vec<Given> {
    let model = write_sheet(&small_rethread());
    let good = write_cut_part(&cuts_of(&CUTS));
    let mut sheets: Vec<(Vec<u8>, Vec<u8>)> = Vec::new();
    sheets.extend(bad_sheets().into_iter().map(|given| (given, [&model[..], &good].concat())));
    sheets.extend(bad_inner_sheets().into_iter().map(|inner| (model.clone(), [inner, good.clone()].concat())));
    sheets.extend(bad_parts().into_iter().map(|part| (model.clone(), [&model[..], &part].concat())));
    let logs = [vec![0, 1, 2], vec![300], vec![0; 256]];
    sheets.iter().flat_map(|(given, inner)| logs.iter().map(|log| given_log(given, inner, log))).collect()
}

/// Crawl and stop in turn; with 15 goes a step that is not there, since 15 is judged before it.
fn longest_logs() -> Vec<Given> {
    let log = |steps: u32| {
        let mut given = replaying();
        given.tables[2] = (0..steps).map(|row| row % 2).collect();
        given
    };
    let mut unknown = log(256);
    unknown.tables[2][0] = 300;
    vec![log(254), log(255), log(256), log(257), log(512), unknown]
}
