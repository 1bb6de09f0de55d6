//! What the calls of the library's functions on sheets, and of the replay, have to meet: every refusal that the paper makes possible, and every kind of
//! answer, table and fault that is told apart here.

use crate::counts::{Met, Refusals, Row};
use crate::planner::blocks::{acceptable, make_cut, of_weight, whole, Block, Cut, NOTHING};
use crate::planner::replay;
use crate::planner::sheet::read_sheet;
use crate::planner::{Part, Refusal};
use crate::tables::{bytes_of, Call, Function, Given};

const FUNCTIONS: [&str; 5] = ["read_model", "write_model", "rebuild", "write_cuts", "replay"];

/// Form and fill are given to a writer, so that of its own fields it never gives 2 or 6. `Sheet` is the model, as its
/// sheet or as its tables; `Inner` the one in a cut sheet; `Lists` are lent tables.
fn possible() -> Vec<Row> {
    let mut list = Vec::new();
    for function in ["read_model", "rebuild", "write_cuts", "replay"] {
        list.extend((1..=6).map(|number| (function, Part::Sheet, number)));
    }
    list.extend([1, 3, 4, 5].map(|number| ("write_model", Part::Sheet, number)));
    for function in ["rebuild", "replay"] {
        list.extend([1, 2, 3, 4, 5, 6, 10].map(|number| (function, Part::Inner, number)));
        list.extend([1, 2, 6, 9].map(|number| (function, Part::Cuts, number)));
    }
    list.extend([1, 9].map(|number| ("write_cuts", Part::Cuts, number)));
    list.extend([14, 15].map(|number| ("replay", Part::Log, number)));
    list.extend(FUNCTIONS.map(|function| (function, Part::Lists, 8)));
    list
}

const DASH: i32 = replay::DASH as i32;

const KINDS: &[&str] = &[
    "read_model: done, just enough places",
    "read_model: done, more places than needed",
    "read_model: done, empty tables for no steps",
    "read_model: done, the largest model",
    "read_model: done, the way back",
    "read_model: 8 for frame alone",
    "read_model: 8 for costs alone",
    "read_model: 8 for marks alone",
    "read_model: 8 for several tables",
    "read_model: 8, one place short",
    "write_model: done, just enough places",
    "write_model: done, more places than needed",
    "write_model: done, the largest model",
    "write_model: done, the way back",
    "write_model: done, places beyond the counts",
    "write_model: 8 for sheet alone",
    "write_model: 8, one place short",
    "write_model: 1, frame ends",
    "write_model: 1, costs end",
    "write_model: 1, marks end",
    "write_model: no columns",
    "write_model: 17 columns or more",
    "write_model: 129 steps or more",
    "write_model: a count that its field would cut to a good one",
    "write_model: a bad size",
    "write_model: a bad start",
    "write_model: a bad goal mark",
    "write_model: a bad need mark",
    "write_model: a bad effect mark",
    "write_model: a bad value before the end of a table",
    "rebuild: done, just enough places",
    "rebuild: done, more places than needed",
    "rebuild: done, no cuts",
    "rebuild: done, 255 cuts",
    "rebuild: done, the largest model",
    "rebuild: done, the way back",
    "rebuild: 8 for cuts alone",
    "rebuild: 8, one place short",
    "write_cuts: done, just enough places",
    "write_cuts: done, more places than needed",
    "write_cuts: done, no cuts",
    "write_cuts: done, 255 cuts",
    "write_cuts: done, the largest model",
    "write_cuts: done, the way back",
    "write_cuts: done, places beyond the counts",
    "write_cuts: 8 for sheet alone",
    "write_cuts: 8, one place short",
    "write_cuts: 1 before a block",
    "write_cuts: 1 before a column",
    "write_cuts: 1 before a set",
    "write_cuts: more than 255 cuts",
    "write_cuts: a block not yet made",
    "write_cuts: a block without room in its field",
    "write_cuts: a column that isn't there",
    "write_cuts: a column without room in its field",
    "write_cuts: an empty set",
    "write_cuts: the block's full set",
    "write_cuts: a set that reaches outside",
    "replay: done, just enough places",
    "replay: done, more places than needed",
    "replay: done, no rows",
    "replay: done, 255 rows",
    "replay: done, the largest model",
    "replay: done, won below zero",
    "replay: done, won zero",
    "replay: done, won above zero",
    "replay: done, a detour",
    "replay: done, dashes",
    "replay: 8 for rows alone",
    "replay: 8, one place short",
    "replay: 14 for a step that is not there",
    "replay: 14 for a number that 8 bits would cut to a step",
    "replay: 14 for a step that cannot be taken",
    "replay: 14 in the first row",
    "replay: 14 in a later row",
    "replay: 15 for 256 steps",
    "replay: 15 for more",
];

#[derive(Default)]
pub struct Kinds {
    refused: Refusals,
    met: Met,
    calls: u64,
}

impl Kinds {
    pub fn count(&mut self, call: &Call) {
        self.calls += 1;
        let function = call.given.function;
        let (answer, _) = call.outcome();
        let kinds = match &answer {
            Ok(numbers) => done_kinds(call, numbers),
            Err(refusal) => {
                self.refused.count(function.name(), refusal);
                refused_kinds(call, refusal)
            }
        };
        kinds.iter().for_each(|kind| self.met.meet(&format!("{}: {kind}", function.name())));
    }

    /// Prints the tables and says whether each refusal and each kind was met so often, and no other refusal.
    pub fn enough(&self, floor: u64) -> bool {
        let refused = self.refused.enough(&FUNCTIONS, &possible(), floor);
        println!("kinds");
        let kinds = self.met.enough(KINDS, floor);
        self.calls > 0 && refused && kinds
    }
}

fn done_kinds(call: &Call, numbers: &[usize]) -> Vec<String> {
    let needed = call.given.needed().expect("a call that was accepted");
    let lent: Vec<usize> = call.lent.iter().map(|table| table.len()).collect();
    let tables = &call.given.tables;
    let function = call.given.function;
    let cuts = match function {
        Function::Rebuild => Some(numbers[0]),
        Function::WriteCuts => Some(call.given.numbers[0] as usize),
        _ => None,
    };
    let largest = match function {
        Function::WriteModel => numbers[0] == 3365,
        _ => tables[0].len() == 3365,
    };
    let beyond = match function {
        Function::WriteModel => tables[1].len() as u64 > call.given.numbers[1],
        Function::WriteCuts => tables[1].len() as u64 > 3 * call.given.numbers[0],
        _ => false,
    };
    let kinds = [
        (lent == needed, "just enough places"),
        (lent != needed, "more places than needed"),
        (lent.len() == 3 && lent[1..] == [0, 0], "empty tables for no steps"),
        (largest, "the largest model"),
        (beyond, "places beyond the counts"),
        (cuts == Some(0), "no cuts"),
        (cuts == Some(255), "255 cuts"),
        (call.words == "the way back", "the way back"),
    ];
    let mut kinds: Vec<&str> = kinds.iter().filter(|(met, _)| *met).map(|(_, kind)| *kind).collect();
    if function == Function::Replay {
        kinds.extend(row_kinds(&call.outcome().1[0][..3 * numbers[0]]));
    }
    kinds.iter().map(|kind| format!("done, {kind}")).collect()
}

fn row_kinds(values: &[u32]) -> Vec<&'static str> {
    let any = |kind: fn(i32, i32) -> bool| values.chunks(3).any(|row| kind(row[1] as i32, row[2] as i32));
    let kinds = [
        (values.is_empty(), "no rows"),
        (values.len() == 3 * 255, "255 rows"),
        (any(|won, _| won < 0), "won below zero"),
        (any(|won, _| won == 0), "won zero"),
        (any(|won, _| won > 0 && won != DASH), "won above zero"),
        (any(|_, detour| detour > 0 && detour != DASH), "a detour"),
        (any(|won, detour| won == DASH && detour == DASH), "dashes"),
    ];
    kinds.iter().filter(|(met, _)| *met).map(|(_, kind)| *kind).collect()
}

fn refused_kinds(call: &Call, refusal: &Refusal) -> Vec<String> {
    let given = &call.given;
    match (given.function, refusal.part, refusal.number) {
        (_, Part::Lists, _) => short_kinds(call),
        (Function::WriteModel, _, 1) => vec![ended_table(given).to_string()],
        (Function::WriteModel, _, 3) => count_kinds(given),
        (Function::WriteModel, _, _) => value_kinds(given),
        (Function::WriteCuts, Part::Cuts, 1) => {
            vec![format!("1 before a {}", ["block", "column", "set"][given.tables[1].len() % 3])]
        }
        (Function::WriteCuts, Part::Cuts, _) => vec![why_nine(given).to_string()],
        (_, Part::Log, 14) => bad_row_kinds(given, refusal.row),
        (_, Part::Log, _) => {
            vec![if given.tables[2].len() == 256 { "15 for 256 steps" } else { "15 for more" }.to_string()]
        }
        _ => vec![],
    }
}

fn short_kinds(call: &Call) -> Vec<String> {
    let needed = call.given.needed().expect("8 comes last");
    let names = call.given.function.lent();
    let short: Vec<usize> = (0..needed.len()).filter(|table| call.lent[*table].len() < needed[*table]).collect();
    if short.len() > 1 {
        return vec!["8 for several tables".to_string()];
    }
    let mut kinds = vec![format!("8 for {} alone", names[short[0]])];
    if call.lent[short[0]].len() + 1 == needed[short[0]] {
        kinds.push("8, one place short".to_string());
    }
    kinds
}

fn bad_row_kinds(given: &Given, row: usize) -> Vec<String> {
    let steps = read_sheet(&bytes_of(&given.tables[0])).expect("the sheets are judged before the log").steps.len();
    let number = given.tables[2][row - 1] as usize;
    let kinds = [
        (number >= steps, "14 for a step that is not there"),
        (number >= steps && number % 256 < steps, "14 for a number that 8 bits would cut to a step"),
        (number < steps, "14 for a step that cannot be taken"),
        (row == 1, "14 in the first row"),
        (row > 1, "14 in a later row"),
    ];
    kinds.iter().filter(|(met, _)| *met).map(|(_, kind)| kind.to_string()).collect()
}

/// A step's cost comes before its marks.
fn ended_table(given: &Given) -> &'static str {
    let columns = given.numbers[0] as usize;
    let [frame, costs, marks] = [0, 1, 2].map(|table| given.tables[table].len());
    if frame < 3 * columns {
        "1, frame ends"
    } else if costs <= marks / (2 * columns) {
        "1, costs end"
    } else {
        "1, marks end"
    }
}

fn count_kinds(given: &Given) -> Vec<String> {
    let [columns, steps] = [given.numbers[0], given.numbers[1]];
    let cut = columns > 16 && (1..=16).contains(&(columns % 32)) || columns <= 16 && steps % 256 <= 128;
    let kind = match columns {
        0 => "no columns",
        1..=16 => "129 steps or more",
        _ => "17 columns or more",
    };
    let mut kinds = vec![kind.to_string()];
    if cut && columns > 0 {
        kinds.push("a count that its field would cut to a good one".to_string());
    }
    kinds
}

/// The bad field is the last place of the shortest table that is refused by its number and not yet by 1.
fn value_kinds(given: &Given) -> Vec<String> {
    let ends = |table: usize, length: usize| {
        let mut given = given.clone();
        given.tables[table].truncate(length);
        given.judged().is_err_and(|refusal| refusal.number == 1)
    };
    // without marks a bad field of the frame still comes first
    let table = if ends(2, 0) { 2 } else { 0 };
    let names: &[&str] = if table == 0 { &["size", "start", "goal mark"] } else { &["need mark", "effect mark"] };
    let place = (0..given.tables[table].len()).find(|place| !ends(table, *place + 1)).expect("a bad field");
    let mut kinds = vec![format!("a bad {}", names[place % names.len()])];
    let [columns, steps] = [given.numbers[0] as usize, given.numbers[1] as usize];
    let [frame, costs, marks] = [0, 1, 2].map(|table| given.tables[table].len());
    if frame < 3 * columns || costs < steps || marks < 2 * columns * steps {
        kinds.push("a bad value before the end of a table".to_string());
    }
    kinds
}

/// Which part of row 9 applies, and whether the number has room in its field.
fn why_nine(given: &Given) -> &'static str {
    if given.numbers[0] > 255 {
        return "more than 255 cuts";
    }
    let model = read_sheet(&bytes_of(&given.tables[0])).expect("the model is judged before the cuts");
    let mut blocks = whole(&model);
    for values in given.tables[1].chunks(3) {
        let [block, column] = [values[0] as usize, values[1] as usize];
        let cut = Cut { block, column, wanted: of_weight(u64::from(values[2])) };
        if !acceptable(&blocks, &cut) {
            return why_not(&blocks, &cut);
        }
        make_cut(&mut blocks, &cut);
    }
    unreachable!("some cut is refused")
}

fn why_not(blocks: &[Block], cut: &Cut) -> &'static str {
    let columns = blocks[0].len();
    match (cut.block, cut.column) {
        (256.., _) => "a block without room in its field",
        (block, _) if block >= blocks.len() => "a block not yet made",
        (_, 16..) => "a column without room in its field",
        (_, column) if column >= columns => "a column that isn't there",
        _ if cut.wanted == NOTHING => "an empty set",
        (block, column) if cut.wanted == blocks[block][column] => "the block's full set",
        _ => "a set that reaches outside",
    }
}
