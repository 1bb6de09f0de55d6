//! The paper's marked examples, with the figures as the paper has them, the chain with the largest distance, and worked
//! replays.

use crate::call::{Call, Slice};
use crate::planner::blocks::{of_weight, Cut};
use crate::planner::entries::number;
use crate::planner::sheet::{write_cut_sheet, write_sheet};
use crate::planner::task::{Model, Step};

/// A call, its answer, and the values that its lists begin with; what follows stays as it was.
pub struct Example {
    pub name: String,
    pub call: Call,
    pub answer: u64,
    pub values: Vec<Vec<u32>>,
}

fn step(cost: u64, needs: &[Option<usize>], effects: &[Option<usize>]) -> Step {
    Step { cost, needs: needs.to_vec(), effects: effects.to_vec() }
}

/// Drive stopped or crawling; web broken, taped or threaded.
pub fn small_rethread() -> Model {
    Model {
        sizes: vec![2, 3],
        start: vec![0, 0],
        goal: vec![None, Some(2)],
        steps: vec![
            step(20, &[Some(0), None], &[Some(1), None]),
            step(10, &[Some(1), None], &[Some(0), None]),
            step(30, &[Some(0), Some(0)], &[None, Some(1)]),
            step(50, &[Some(1), Some(1)], &[None, Some(2)]),
        ],
    }
}

fn without_tape() -> Model {
    let mut model = small_rethread();
    model.steps.remove(2);
    model
}

/// Column 0 is gone through from end to end for each position of column 1; every step costs 65,535.
pub fn chain(wide: usize, high: usize) -> Model {
    let mut steps: Vec<Step> = (0..wide - 1).map(|at| step(65_535, &[Some(at), None], &[Some(at + 1), None])).collect();
    steps.extend((0..high - 1).map(|at| step(65_535, &[Some(wide - 1), Some(at)], &[Some(0), Some(at + 1)])));
    Model { sizes: vec![wide, high], start: vec![0, 0], goal: vec![Some(wide - 1), Some(high - 1)], steps }
}

fn free_steps() -> Model {
    let steps = vec![step(0, &[Some(0)], &[Some(0)]), step(0, &[Some(0)], &[Some(1)])];
    Model { sizes: vec![2], start: vec![0], goal: vec![Some(1)], steps }
}

/// The small re-thread with a web that may tear (step 4); it is cleared away (step 5), and nothing mends it.
pub fn torn_web() -> Model {
    let mut model = small_rethread();
    model.sizes[1] = 4;
    model.steps.push(step(5, &[Some(1), Some(1)], &[None, Some(3)]));
    model.steps.push(step(7, &[None, Some(3)], &[Some(0), None]));
    model
}

/// The threaded web by itself, and the torn one.
pub const TORN_CUTS: [u32; 6] = [0, 1, 4, 0, 1, 8];

/// The small re-thread's cuts with room 5.
pub const CUTS: [u32; 12] = [0, 1, 4, 0, 0, 2, 2, 1, 2, 0, 1, 2];

pub fn cuts_of(values: &[u32]) -> Vec<Cut> {
    let cut = |value: &[u32]| Cut {
        block: value[0] as usize,
        column: value[1] as usize,
        wanted: of_weight(u64::from(value[2])),
    };
    values.chunks(3).map(cut).collect()
}

pub fn examples() -> Vec<Example> {
    let mut list = rethread_runs();
    list.extend(one_column_runs());
    list.extend(chains());
    list.extend(refused_runs());
    list.extend(questions());
    list.extend(replays());
    list.extend(far_replays());
    list.extend(refused_replays());
    list
}

fn running(name: &str, sheet: Vec<u8>, room: u32, answer: u64, cuts: &[u32], rows: &[u32]) -> Example {
    let list = || Slice::plain(vec![0xa5; (room.clamp(1, 257) as usize - 1) * 12 + 7]);
    let call = Call::Run { sheet: Slice::plain(sheet), room, cuts: list(), rows: list() };
    Example { name: name.to_string(), call, answer, values: vec![vec![], cuts.to_vec(), rows.to_vec()] }
}

fn plan(blocks: u64, steps: u64, cost: u64) -> u64 {
    number(1, blocks, steps, cost)
}

fn no_plan(blocks: u64) -> u64 {
    number(2, blocks, 0, 0)
}

fn open(blocks: u64, estimate: u64) -> u64 {
    number(3, blocks, 0, estimate)
}

fn rethread_runs() -> Vec<Example> {
    let sheet = write_sheet(&small_rethread());
    let mut list: Vec<Example> = [(1, 0), (2, 50), (3, 70), (4, 70)]
        .into_iter()
        .map(|(room, estimate)| {
            let cuts = &CUTS[..(room as usize - 1) * 3];
            running("re-thread, open", sheet.clone(), room, open(u64::from(room), estimate), cuts, &[])
        })
        .collect();
    let rows = [2, 30, 70, 0, 20, 50, 3, 50, 0];
    list.push(running("re-thread, room 5", sheet.clone(), 5, plan(5, 3, 100), &CUTS, &rows));
    list.push(running("re-thread, room 256", sheet, 256, plan(5, 3, 100), &CUTS, &rows));
    list.push(answer_only("no tape, room 5", write_sheet(&without_tape()), 5, no_plan(5)));
    list.push(answer_only("no tape, room 4", write_sheet(&without_tape()), 4, open(4, 70)));
    list
}

/// The paper gives no cuts for it; the independent planner still does.
fn answer_only(name: &str, sheet: Vec<u8>, room: u32, answer: u64) -> Example {
    let mut example = running(name, sheet, room, answer, &[], &[]);
    example.values.clear();
    example
}

fn one_column_runs() -> Vec<Example> {
    vec![
        running("free steps", write_sheet(&free_steps()), 2, plan(2, 1, 0), &[0, 0, 2], &[1, 0, 0]),
        running("10 80 02 00 00", vec![0x10, 0x80, 0x02, 0x00, 0x00], 1, plan(1, 0, 0), &[], &[]),
        running("10 80 02 00 40", vec![0x10, 0x80, 0x02, 0x00, 0x40], 1, plan(1, 0, 0), &[], &[]),
    ]
}

fn chains() -> Vec<Example> {
    let large = write_sheet(&chain(32, 8));
    vec![
        answer_only("chain of 8, room 8", write_sheet(&chain(4, 2)), 8, plan(8, 7, 458_745)),
        answer_only("chain of 8, room 7", write_sheet(&chain(4, 2)), 7, open(7, 196_605)),
        answer_only("chain of 256, room 256", large.clone(), 256, plan(256, 255, 16_711_425)),
        answer_only("chain of 256, room 255", large, 255, open(255, 14_614_305)),
    ]
}

fn refused_runs() -> Vec<Example> {
    let sheet = write_sheet(&small_rethread());
    let refused = |name, sheet: Vec<u8>, room, number| running(name, sheet, room, number, &[], &[]);
    vec![
        refused("room 0", sheet.clone(), 0, 7),
        refused("room 257", sheet, 257, 7),
        // 0001 10001 and 0001 00001 10000001, then nothing that matters
        refused("17 columns", vec![0x18, 0x80, 0, 0, 0], 1, 3),
        refused("129 steps", vec![0x10, 0xc0, 0x80, 0, 0], 1, 3),
        // one column, no steps, then size 33; size 1, start 0, goal mark 2
        refused("size 33", vec![0x10, 0x80, 0x42, 0, 0], 1, 4),
        refused("goal mark 2 on size 1", vec![0x10, 0x80, 0x02, 0x00, 0x80], 1, 5),
    ]
}

fn questions() -> Vec<Example> {
    let model = small_rethread();
    let asked = |name: &str, cuts: &[u32], states: Vec<u8>, answer, values: Vec<u32>| Example {
        name: name.to_string(),
        call: Call::Question {
            model: Slice::plain(write_sheet(&model)),
            cut_sheet: Slice::plain(write_cut_sheet(&model, &cuts_of(cuts))),
            estimates: Slice::plain(vec![0xa5; states.len() * 2 + 3]),
            states: Slice::plain(states),
        },
        answer,
        values: vec![vec![], vec![], vec![], values],
    };
    vec![
        asked("estimates", &CUTS, vec![1, 0, 0, 1, 0, 2], 0, vec![110, 70, 0]),
        asked("no states", &CUTS, vec![], 0, vec![]),
        asked("a cut with the block's full set", &[0, 1, 7], vec![0, 0], 9, vec![]),
    ]
}

fn replayed(name: &str, model: &Model, cuts: &[u32], log: &[u32], answer: u64, rows: &[i32]) -> Example {
    let log: Vec<u8> = log.iter().flat_map(|number| number.to_be_bytes()).collect();
    Example {
        name: name.to_string(),
        call: Call::Replay {
            model: Slice::plain(write_sheet(model)),
            cut_sheet: Slice::plain(write_cut_sheet(model, &cuts_of(cuts))),
            rows: Slice::plain(vec![0xa5; log.len() * 3 + 11]),
            log: Slice::plain(log),
        },
        answer,
        values: vec![vec![], vec![], vec![], rows.iter().map(|value| *value as u32).collect()],
    }
}

fn done(rows: u64) -> u64 {
    number(1, 0, rows, 0)
}

const DASH: i32 = 16_777_215;

/// The first is order 7's own; the others follow from the paper's estimates.
fn replays() -> Vec<Example> {
    let model = small_rethread();
    let torn = torn_web();
    let torn_rows = [30, 0, 30, 20, 0, 20, 5, DASH, DASH, 7, DASH, DASH, 20, DASH, DASH];
    let whole_rows = [30, 0, 30, 20, 0, 20, 5, 0, 5, 7, 0, 7];
    let mut torn_start = torn_web();
    torn_start.start[1] = 3;
    vec![
        replayed("log 0, 1, 2", &model, &CUTS, &[0, 1, 2], done(3), &[20, -10, 30, 10, 10, 0, 30, 30, 0]),
        replayed("the plan's own log", &model, &CUTS, &[2, 0, 3], done(3), &[30, 30, 0, 20, 20, 0, 50, 50, 0]),
        replayed("no cuts: no ground to win", &model, &[], &[0, 1], done(2), &[20, 0, 20, 10, 0, 10]),
        replayed("an empty log", &model, &CUTS, &[], done(0), &[]),
        replayed("a web that tears", &torn, &TORN_CUTS, &[2, 0, 4, 5, 0], done(5), &torn_rows),
        replayed("the same in one block", &torn, &[], &[2, 0, 4, 5], done(4), &whole_rows),
        replayed("torn at the start", &torn_start, &TORN_CUTS, &[0, 5], done(2), &[20, DASH, DASH, 7, DASH, DASH]),
        replayed("no tape, no way", &without_tape(), &CUTS, &[0, 1], done(2), &[20, DASH, DASH, 10, DASH, DASH]),
    ]
}

/// Every state of the chain of 256 in a block of its own.
fn chain_cuts() -> Vec<u32> {
    let mut cuts: Vec<u32> = (1..32).flat_map(|position| [0, 0, 1 << position]).collect();
    cuts.extend((0..32).flat_map(|block| (1..8).flat_map(move |position| [block, 1, 1 << position])));
    cuts
}

/// Won and detour at both ends: from the chain's end back to its first state, and forward again.
fn far_replays() -> Vec<Example> {
    let mut model = chain(32, 8);
    model.start = vec![31, 7];
    model.steps.push(step(65_535, &[None, None], &[Some(0), Some(0)]));
    let back = model.steps.len() as u32 - 1;
    let forward = (0..8).flat_map(|high| (0..31).chain([31 + high]));
    let log: Vec<u32> = [back].into_iter().chain(forward.take(254)).collect();
    let mut rows = vec![65_535, -16_711_425, 16_776_960];
    rows.extend((0..254).flat_map(|_| [65_535, 65_535, 0]));
    let mut free = model.clone();
    free.steps[back as usize].cost = 0;
    vec![
        replayed("from the end of the chain and back", &model, &chain_cuts(), &log, done(255), &rows),
        replayed("back for nothing", &free, &chain_cuts(), &[back], done(1), &[0, -16_711_425, 16_711_425]),
    ]
}

fn refused_replays() -> Vec<Example> {
    let model = small_rethread();
    let refused = |name: &str, log: &[u32], answer| replayed(name, &model, &CUTS, log, answer, &[]);
    let in_row = |row| number(0, 0, row, 14);
    let walk: Vec<u32> = (0..256).map(|row| row % 2).collect();
    let mut short = replayed("two places for three steps", &model, &CUTS, &[0, 1, 2], 8, &[]);
    if let Call::Replay { rows, .. } = &mut short.call {
        rows.content.truncate(35);
    }
    vec![
        refused("step 4 of 4", &[4], in_row(1)),
        refused("step 300", &[0, 300, 2], in_row(2)),
        refused("step 256 is not step 0", &[256], in_row(1)),
        refused("step 2^32 - 1", &[0, 1, u32::MAX], in_row(3)),
        refused("a step that cannot be taken", &[0, 1, 2, 3], in_row(4)),
        refused("the first of two bad rows", &[1, 300], in_row(1)),
        refused("256 steps", &walk, 15),
        refused("256 steps, the first unknown", &[&[300], &walk[1..]].concat(), 15),
        replayed("a cut with the block's full set, and a bad row", &model, &[0, 1, 7], &[300], 9, &[]),
        short,
    ]
}
