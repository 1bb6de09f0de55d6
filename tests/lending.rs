//! Calls of the library's functions on sheets, and of the replay, by chance: good ones, ones with a fault of every kind, and
//! ones with several faults, so that the order of the refusals shows. Tables are just long enough, a place short, longer, or empty.

use crate::call;
use crate::chance::Chance;
use crate::damage::{change_a_count, damaged_sheet, layout, random_cuts, spoil_a_cut, spoil_a_field};
use crate::making::{any_cuts, any_question};
use crate::planner::bits::Field;
use crate::planner::blocks::{cut_fields, Cut};
use crate::planner::entries::log_steps;
use crate::planner::library::{tables_of, values};
use crate::planner::sheet::{write_cut_sheet, write_sheet};
use crate::planner::task::Model;
use crate::replaying::{any_replay, walk};
use crate::shapes::{any_model, full_size, small_model};
use crate::tables::{numbers_of, Call, Function, Given};

/// A call, and for many of the accepted ones the way back: what one function wrote is another's input.
pub fn any_calls(chance: &mut Chance) -> Vec<Call> {
    // rows take much of what a batch may print
    let (words, given) = match chance.below(9) {
        0..=1 => any_reading(chance),
        2..=3 => any_writing(chance),
        4..=5 => any_rebuilding(chance),
        6..=7 => any_cut_writing(chance),
        _ => any_replaying(chance),
    };
    let mut calls = vec![lending(chance, &words, given)];
    if chance.percent(40) {
        calls.extend(way_back(chance, &calls[0]));
    }
    calls
}

/// The largest model through each function, with 255 cuts and up to 255 steps.
pub fn largest_calls(chance: &mut Chance) -> Vec<Call> {
    let model = full_size(chance);
    let sheet = write_sheet(&model);
    let cuts = random_cuts(chance, &model, 255);
    let fields = cut_fields(&cuts);
    let reading = just_enough(chance, "the largest model", Given::sheets(Function::ReadModel, &[&sheet]));
    let writing = just_enough(chance, "the largest cut sheet", given_cuts(&sheet, &fields));
    let mut calls = vec![reading, writing];
    calls.extend(way_back(chance, &calls[0]));
    calls.extend(way_back(chance, &calls[1]));
    let log = walk(chance, &model, 255).0;
    let replaying = given_log(&sheet, &write_cut_sheet(&model, &cuts), &log);
    calls.push(just_enough(chance, "the largest model and cut sheet", replaying));
    calls
}

/// Each table lent has a length of its own: mostly enough, sometimes one or several short, sometimes all empty.
fn lending(chance: &mut Chance, words: &str, given: Given) -> Call {
    let count = given.function.lent().len();
    // a call that is refused anyway may be lent anything
    let needed = given.needed().unwrap_or_else(|| (0..count).map(|_| chance.below(30)).collect());
    let short: Vec<usize> = match chance.below(10) {
        0..=4 => vec![],
        5..=7 => vec![chance.below(count)],
        _ => (0..count).filter(|_| chance.percent(60)).collect(),
    };
    let all_empty = chance.percent(3);
    let length = |table: usize| if all_empty { 0 } else { length(chance, needed[table], short.contains(&table)) };
    let lengths: Vec<usize> = (0..count).map(length).collect();
    Call::new(chance, words, given, &lengths)
}

fn length(chance: &mut Chance, needed: usize, short: bool) -> usize {
    match (short, chance.below(6)) {
        (true, 0) => 0,
        (true, 1) => chance.below(needed.max(1)),
        (true, _) => needed.saturating_sub(1),
        (false, 0..=2) => needed,
        (false, 3) => needed + 1,
        (false, _) => needed + chance.between(2, 40),
    }
}

/// Lent is just what is needed.
pub fn just_enough(chance: &mut Chance, words: &str, given: Given) -> Call {
    let needed = given.needed().expect("a good call");
    Call::new(chance, words, given, &needed)
}

/// Where a call on sheets is accepted: the one that has to bring back what this one was given.
fn way_back(chance: &mut Chance, call: &Call) -> Option<Call> {
    let (answer, after) = call.outcome();
    let counts: Vec<u64> = answer.ok()?.iter().map(|count| *count as u64).collect();
    let model = call.given.tables[0].clone();
    // without what lies behind it, which would be refused as bytes that follow
    let sheet = || after[0][..counts[0] as usize].to_vec();
    let back = match call.given.function {
        Function::ReadModel => Given::new(Function::WriteModel, &counts, after.clone()),
        Function::WriteModel => Given::new(Function::ReadModel, &[], vec![sheet()]),
        Function::Rebuild => Given::new(Function::WriteCuts, &counts, vec![model, after[0].clone()]),
        Function::WriteCuts => Given::new(Function::Rebuild, &[], vec![model, sheet()]),
        Function::Replay => return None,
    };
    let brought = back.judged().expect("what was written or read is accepted").values;
    let given = &call.given.tables[call.given.tables.len() - brought.len()..];
    // a writer's tables may have places beyond its counts
    assert!(
        given.iter().zip(&brought).all(|(table, values)| table.starts_with(values)),
        "the way back leads elsewhere"
    );
    Some(just_enough(chance, "the way back", back))
}

/// Refused sheets are small ones, since much of a large one is never looked at.
fn model_for(chance: &mut Chance, good: bool) -> Model {
    if good && chance.percent(40) {
        any_model(chance)
    } else {
        small_model(chance)
    }
}

fn sheet_of(chance: &mut Chance, model: &Model, good: bool) -> (&'static str, Vec<u8>) {
    if good {
        ("a good sheet", write_sheet(model))
    } else {
        ("a damaged sheet", damaged_sheet(chance, model))
    }
}

fn any_reading(chance: &mut Chance) -> (String, Given) {
    let good = chance.percent(50);
    let model = model_for(chance, good);
    let (words, sheet) = sheet_of(chance, &model, good);
    (words.to_string(), Given::sheets(Function::ReadModel, &[&sheet]))
}

/// The two sheets of a question.
fn any_rebuilding(chance: &mut Chance) -> (String, Given) {
    let call::Call::Question { model, cut_sheet, .. } = any_question(chance) else { unreachable!() };
    ("a question's sheets".to_string(), Given::sheets(Function::Rebuild, &[&model.content, &cut_sheet.content]))
}

/// The two sheets and the log of a replay; of the longest logs only as much as the program has room for.
fn any_replaying(chance: &mut Chance) -> (String, Given) {
    let call::Call::Replay { model, cut_sheet, log, .. } = any_replay(chance) else { unreachable!() };
    let mut steps = log_steps(&log.content);
    steps.truncate(1000);
    (format!("a log of {} steps", steps.len()), given_log(&model.content, &cut_sheet.content, &steps))
}

/// A model sheet, a cut sheet and a log.
pub fn given_log(model: &[u8], cut_sheet: &[u8], log: &[u32]) -> Given {
    Given::new(Function::Replay, &[], vec![numbers_of(model), numbers_of(cut_sheet), log.to_vec()])
}

/// A model sheet's fields as a writer is given them; its form is not among them.
pub fn given_model(fields: &[Field], columns: usize) -> Given {
    Given::new(Function::WriteModel, &[fields[1].value, fields[2].value], tables_of(fields, columns))
}

/// A model sheet, and a cut part's fields as a writer is given them.
pub fn given_cuts(sheet: &[u8], fields: &[Field]) -> Given {
    Given::new(Function::WriteCuts, &[fields[1].value], vec![numbers_of(sheet), values(&fields[2..])])
}

fn any_writing(chance: &mut Chance) -> (String, Given) {
    let good = chance.percent(35);
    let model = model_for(chance, good);
    let mut fields = model.fields();
    let mut words = vec!["a model"];
    if !good && chance.percent(75) {
        for _ in 0..chance.pick(&[1, 1, 1, 2, 3]) {
            words.push(spoil_model(chance, &mut fields, &model));
        }
    }
    let mut given = given_model(&fields, model.columns());
    words.push(other_lengths(chance, &mut given.tables, !good));
    (words.join(", "), given)
}

fn any_cut_writing(chance: &mut Chance) -> (String, Given) {
    let good = chance.percent(35);
    let model = model_for(chance, good);
    let cuts = any_cuts(chance, &model);
    let mut fields = cut_fields(&cuts);
    let good_sheet = good || chance.percent(75);
    let (sheet_words, sheet) = sheet_of(chance, &model, good_sheet);
    let mut words = vec![sheet_words];
    if !good && chance.percent(75) {
        for _ in 0..chance.pick(&[1, 1, 2]) {
            words.push(spoil_cuts(chance, &model, &cuts, &mut fields));
        }
    }
    let mut given = given_cuts(&sheet, &fields);
    words.push(other_lengths(chance, &mut given.tables[1..], !good));
    (words.join(", "), given)
}

/// A value that the field's row refuses, a count that is not the tables', or a number that has no room in its field.
fn spoil_model(chance: &mut Chance, fields: &mut [Field], model: &Model) -> &'static str {
    match chance.below(10) {
        0..=5 => {
            spoil_a_field(chance, fields, &layout(model));
            "a bad field"
        }
        6 => {
            change_a_count(chance, fields);
            "another count"
        }
        7 => {
            let place = chance.pick(&[1, 2]);
            fields[place].value = too_large(chance, fields[place].value, &COUNTS);
            "a count too large for its field"
        }
        _ => {
            // a byte has room for more than a field of 5 or 6 bits
            let narrow: Vec<usize> = (3..fields.len()).filter(|place| fields[*place].width < 8).collect();
            let place = chance.pick(&narrow);
            fields[place].value = too_large(chance, fields[place].value, &[64, 128, 255]);
            "a value too large for its field"
        }
    }
}

fn spoil_cuts(chance: &mut Chance, model: &Model, cuts: &[Cut], fields: &mut Vec<Field>) -> &'static str {
    match chance.below(10) {
        0..=4 => {
            spoil_a_cut(chance, model, cuts, fields);
            "a bad cut"
        }
        5 => {
            let count = cuts.len() as u64;
            fields[1].value = chance.pick(&[count + 1, count.saturating_sub(1), 255, 256, 1000]);
            "another count"
        }
        6 => {
            fields[1].value = too_large(chance, fields[1].value, &COUNTS);
            "a count too large for its field"
        }
        _ => {
            let narrow: Vec<usize> = (1..fields.len()).filter(|place| fields[*place].width < 32).collect();
            let place = chance.pick(&narrow);
            fields[place].value = too_large(chance, fields[place].value, &[16, 256, 65_536, 1 << 31, 0xffff_ffff]);
            "a value too large for its field"
        }
    }
}

/// What a count of 64 bits may have beyond 8, 16 or 32 of them.
const COUNTS: [u64; 5] = [256, 65_536, 1 << 32, 1 << 63, u64::MAX];

/// So much more that, cut to the field's width, the value would mostly be as before; never above the last.
fn too_large(chance: &mut Chance, value: u64, more: &[u64]) -> u64 {
    value.saturating_add(chance.pick(more)).min(more[more.len() - 1])
}

/// Some tables end before their last place, others have places beyond the counts.
fn other_lengths(chance: &mut Chance, tables: &mut [Vec<u32>], may_end: bool) -> &'static str {
    let mut words = "whole tables";
    for table in tables {
        if may_end && chance.percent(25) {
            let length = table.len().saturating_sub(1);
            let length = if chance.percent(50) { length } else { chance.below(length + 1) };
            table.truncate(length);
            words = "a table that ends";
        } else if chance.percent(40) {
            let more = chance.between(1, 12);
            table.extend(numbers_of(&chance.bytes(more)));
        }
    }
    words
}
