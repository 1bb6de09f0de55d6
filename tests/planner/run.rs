//! A run: distances, trace, walk, cut, and again.

use super::blocks::{common, first, only, Block, Cut, Set};
use super::task::{Model, State, Step};
use super::ways::{distances, estimate, onward, ways_of, ByColumns, Far, Ways};

#[derive(Clone, PartialEq, Eq, Debug)]
pub enum Answer {
    Plan { cost: u64, steps: Vec<usize> },
    NoPlan,
    Open { estimate: u64 },
}

#[derive(Clone, Copy, PartialEq, Eq, PartialOrd, Ord, Debug)]
pub enum Kind {
    Goal,
    Need,
    Divergence,
}

#[derive(Clone, PartialEq, Eq, Debug)]
pub struct Run {
    pub answer: Answer,
    pub cuts: Vec<Cut>,
    /// The kinds of flaw met, the one that found the room full too; only counted.
    pub flaws: Vec<Kind>,
}

/// A flaw at a real state, with the positions wanted in each column.
struct Flaw {
    kind: Kind,
    state: State,
    wanted: Vec<Set>,
}

/// Blocks and the steps between them: one block more than steps.
struct Trace {
    blocks: Vec<usize>,
    steps: Vec<usize>,
}

pub fn run(model: &Model, room: u64) -> Run {
    run_over(model, room, ways_of(model))
}

/// The same by the column rule, to hold the two means to each other.
pub fn run_by_columns(model: &Model, room: u64) -> Run {
    run_over(model, room, Box::new(ByColumns::new(model)))
}

fn run_over(model: &Model, room: u64, mut ways: Box<dyn Ways + '_>) -> Run {
    let mut blocks = super::blocks::whole(model);
    let mut cuts = Vec::new();
    let mut flaws = Vec::new();
    loop {
        let far = distances(&*ways);
        let at_start = far[ways.block_of(&model.start)];
        if at_start.is_none() {
            return Run { answer: Answer::NoPlan, cuts, flaws };
        }
        let trace = trace_of(model, &*ways, &far);
        let Some(flaw) = walk(model, &blocks, &trace) else {
            let cost = trace.steps.iter().map(|step| model.steps[*step].cost).sum();
            return Run { answer: Answer::Plan { cost, steps: trace.steps }, cuts, flaws };
        };
        flaws.push(flaw.kind);
        if blocks.len() as u64 == room {
            return Run { answer: Answer::Open { estimate: estimate(at_start) }, cuts, flaws };
        }
        let cut = cut_for(&blocks, ways.block_of(&flaw.state), &flaw);
        ways.cut(&cut);
        super::blocks::make_cut(&mut blocks, &cut);
        cuts.push(cut);
    }
}

fn trace_of(model: &Model, ways: &dyn Ways, far: &[Far]) -> Trace {
    let mut block = ways.block_of(&model.start);
    let mut trace = Trace { blocks: vec![block], steps: Vec::new() };
    while !ways.is_goal_block(block) {
        let (step, next) = next_hop(model, ways, far, block);
        trace.steps.push(step);
        trace.blocks.push(next);
        block = next;
    }
    trace
}

/// The lowest step number and, for that step, the lowest block number that keeps both cost and step count.
fn next_hop(model: &Model, ways: &dyn Ways, far: &[Far], block: usize) -> (usize, usize) {
    for (number, step) in model.steps.iter().enumerate() {
        for next in 0..far.len() {
            if far[next].is_some() && onward(far[next], step.cost) == far[block] && ways.leads(block, number, next) {
                return (number, next);
            }
        }
    }
    unreachable!("a block with a distance has a step that keeps it")
}

/// Walks the real states along the trace; nothing where the walk is a plan.
fn walk(model: &Model, blocks: &[Block], trace: &Trace) -> Option<Flaw> {
    let mut state = model.start.clone();
    for (place, number) in trace.steps.iter().enumerate() {
        let step = &model.steps[*number];
        if !step.can_take(&state) {
            return Some(Flaw { kind: Kind::Need, state, wanted: allowed(model, &step.needs) });
        }
        let landing = step.take(&state);
        let next = &blocks[trace.blocks[place + 1]];
        if !super::blocks::holds(next, &landing) {
            return Some(Flaw { kind: Kind::Divergence, state, wanted: taken_back(model, next, step) });
        }
        state = landing;
    }
    if model.is_goal(&state) {
        return None;
    }
    Some(Flaw { kind: Kind::Goal, state, wanted: allowed(model, &model.goal) })
}

/// The fixed position in each column that has one, every position elsewhere.
fn allowed(model: &Model, fixed: &[Option<usize>]) -> Vec<Set> {
    let set = |(fixed, size): (&Option<usize>, &usize)| fixed.map_or(first(*size), only);
    fixed.iter().zip(&model.sizes).map(set).collect()
}

/// A need gives that position; otherwise an effect gives every position; with neither, the next block's set.
fn taken_back(model: &Model, next: &Block, step: &Step) -> Vec<Set> {
    let set = |column: usize| match (step.needs[column], step.effects[column]) {
        (Some(need), _) => only(need),
        (None, Some(_)) => first(model.sizes[column]),
        (None, None) => next[column],
    };
    (0..model.columns()).map(set).collect()
}

/// The lowest column whose present position isn't wanted; the list has the wanted positions of the block.
fn cut_for(blocks: &[Block], block: usize, flaw: &Flaw) -> Cut {
    let unwanted = |column: &usize| !flaw.wanted[*column][flaw.state[*column]];
    let column = (0..flaw.state.len()).find(unwanted).expect("a flaw has an unwanted position");
    Cut { block, column, wanted: common(&blocks[block][column], &flaw.wanted[column]) }
}
