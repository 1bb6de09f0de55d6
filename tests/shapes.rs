//! Models of many shapes.

use crate::chance::Chance;
use crate::planner::task::{Model, State, Step};

/// How the costs of a model are drawn.
#[derive(Clone, Copy)]
enum Costs {
    Free,
    Equal,
    Small,
    Any,
    Largest,
    FreeOrLargest,
}

/// Mostly small, where runs are short and every state can be tried.
pub fn any_model(chance: &mut Chance) -> Model {
    let mut model = match chance.below(1000) {
        0..=249 => tiny(chance),
        250..=499 => planted(chance, 4, 5, 12),
        500..=649 => odometer(chance),
        650..=899 => doors(chance),
        900..=969 => planted(chance, 8, 6, 40),
        970..=991 => large(chance),
        _ => full_size(chance),
    };
    if chance.percent(70) {
        move_the_goal(chance, &mut model);
    }
    twist(chance, &mut model);
    model
}

/// Where the start is a goal state there is little to be seen.
fn move_the_goal(chance: &mut Chance, model: &mut Model) {
    let wide: Vec<usize> = (0..model.columns()).filter(|column| model.sizes[*column] > 1).collect();
    if model.is_goal(&model.start) && !wide.is_empty() {
        let column = chance.pick(&wide);
        let size = model.sizes[column];
        model.goal[column] = Some((model.start[column] + chance.between(1, size - 1)) % size);
    }
}

/// A model whose states can all be tried, for questions about order and form.
pub fn small_model(chance: &mut Chance) -> Model {
    let mut model = match chance.below(3) {
        0 => tiny(chance),
        1 => planted(chance, 4, 5, 12),
        _ => doors(chance),
    };
    twist(chance, &mut model);
    model
}

/// 1 to 4 columns of 1 to 5 positions, 0 to 12 steps, all by chance.
fn tiny(chance: &mut Chance) -> Model {
    let columns = chance.between(1, 4);
    let sizes: Vec<usize> = (0..columns).map(|_| chance.between(1, 5)).collect();
    let costs = any_costs(chance);
    let count = chance.between(0, 12);
    let needs = chance.pick(&[20, 40, 60]);
    let effects = chance.pick(&[20, 40, 60]);
    let steps = (0..count).map(|_| random_step(chance, &sizes, costs, needs, effects)).collect();
    let start = random_state(chance, &sizes);
    let goal = random_marks(chance, &sizes, 50);
    Model { sizes, start, goal, steps }
}

/// Steps along a random walk from the start, among others that lead nowhere in particular: the goal can be reached.
fn planted(chance: &mut Chance, columns: usize, size: usize, count: usize) -> Model {
    let columns = chance.between(2, columns);
    let sizes: Vec<usize> = (0..columns).map(|_| chance.between(1, size)).collect();
    let costs = any_costs(chance);
    let start = random_state(chance, &sizes);
    let mut state = start.clone();
    let mut steps = Vec::new();
    for _ in 0..chance.between(1, count) {
        let step = step_from(chance, &sizes, &state, costs);
        state = step.take(&state);
        steps.push(step);
    }
    while steps.len() < count && chance.percent(70) {
        steps.push(random_step(chance, &sizes, costs, 40, 40));
    }
    chance.shuffle(&mut steps);
    let goal = state.iter().map(|position| chance.percent(60).then_some(*position)).collect();
    Model { sizes, start, goal, steps }
}

/// A step that can be taken in this state.
fn step_from(chance: &mut Chance, sizes: &[usize], state: &State, costs: Costs) -> Step {
    let needs = state.iter().map(|position| chance.percent(50).then_some(*position)).collect();
    let effects = random_marks(chance, sizes, 40);
    Step { cost: cost(chance, costs), needs, effects }
}

/// Column 0 is gone through from end to end for each position of the next; the longest plans.
fn odometer(chance: &mut Chance) -> Model {
    let columns = chance.between(1, 3);
    let sizes: Vec<usize> = (0..columns).map(|_| chance.between(2, 5)).collect();
    let costs = any_costs(chance);
    let mut steps = Vec::new();
    for column in 0..columns {
        for position in 0..sizes[column] - 1 {
            steps.push(odometer_step(chance, &sizes, column, position, costs));
        }
    }
    if chance.percent(50) {
        chance.shuffle(&mut steps);
    }
    let goal = sizes.iter().map(|size| Some(size - 1)).collect();
    Model { start: vec![0; columns], sizes, goal, steps }
}

fn odometer_step(chance: &mut Chance, sizes: &[usize], column: usize, position: usize, costs: Costs) -> Step {
    let mut step = Step { cost: cost(chance, costs), needs: vec![None; sizes.len()], effects: vec![None; sizes.len()] };
    for lower in 0..column {
        step.needs[lower] = Some(sizes[lower] - 1);
        step.effects[lower] = Some(0);
    }
    step.needs[column] = Some(position);
    step.effects[column] = Some(position + 1);
    step
}

/// Columns that are walked up and down, with steps that need a position of another column.
fn doors(chance: &mut Chance) -> Model {
    let columns = chance.between(2, 4);
    let sizes: Vec<usize> = (0..columns).map(|_| chance.between(2, 5)).collect();
    let costs = any_costs(chance);
    let mut steps = Vec::new();
    for column in 0..columns {
        for position in 0..sizes[column] - 1 {
            steps.push(door_step(chance, &sizes, column, (position, position + 1), costs));
            if chance.percent(70) {
                steps.push(door_step(chance, &sizes, column, (position + 1, position), costs));
            }
        }
    }
    chance.shuffle(&mut steps);
    let start = random_state(chance, &sizes);
    let goal = random_marks(chance, &sizes, 70);
    Model { sizes, start, goal, steps }
}

fn door_step(chance: &mut Chance, sizes: &[usize], column: usize, way: (usize, usize), costs: Costs) -> Step {
    let mut needs = random_marks(chance, sizes, 25);
    let mut effects = vec![None; sizes.len()];
    needs[column] = Some(way.0);
    effects[column] = Some(way.1);
    Step { cost: cost(chance, costs), needs, effects }
}

/// Up to the limits of the paper, steps that touch a few columns.
fn large(chance: &mut Chance) -> Model {
    let columns = chance.between(5, 16);
    let sizes: Vec<usize> = (0..columns).map(|_| chance.between(1, 32)).collect();
    large_of(chance, sizes, 128)
}

/// 16 columns of 32 positions and 128 steps: the largest sheet.
pub fn full_size(chance: &mut Chance) -> Model {
    let mut model = large_of(chance, vec![32; 16], 128);
    let sizes = model.sizes.clone();
    while model.steps.len() < 128 {
        model.steps.push(random_step(chance, &sizes, Costs::Any, 15, 10));
    }
    model
}

fn large_of(chance: &mut Chance, sizes: Vec<usize>, limit: usize) -> Model {
    let costs = any_costs(chance);
    let start = random_state(chance, &sizes);
    let mut state = start.clone();
    let mut steps = Vec::new();
    for _ in 0..chance.between(1, limit) {
        let mut step = step_from(chance, &sizes, &state, costs);
        let kept = chance.below(sizes.len());
        for column in 0..sizes.len() {
            // few columns each, or every step would settle the whole state
            if column != kept && chance.percent(75) {
                step.needs[column] = None;
                step.effects[column] = None;
            }
        }
        state = step.take(&state);
        steps.push(step);
    }
    let goal = state.iter().map(|position| chance.percent(40).then_some(*position)).collect();
    Model { sizes, start, goal, steps }
}

/// What the paper allows by name: no goal, a goal everywhere, equal steps, effect equal to need, free steps.
fn twist(chance: &mut Chance, model: &mut Model) {
    match chance.below(16) {
        0 => model.goal = vec![None; model.columns()],
        1 => model.goal = random_marks(chance, &model.sizes, 100),
        2 => model.goal = model.start.iter().map(|position| Some(*position)).collect(),
        3 if !model.steps.is_empty() => double_a_step(chance, model),
        4 if !model.steps.is_empty() => keep_a_need(chance, model),
        5 if !model.steps.is_empty() => free_a_step(chance, model),
        6 if !model.steps.is_empty() => drop_a_step(chance, model),
        _ => {}
    }
}

fn double_a_step(chance: &mut Chance, model: &mut Model) {
    if model.steps.len() < 128 {
        let step = chance.pick(&model.steps);
        let place = chance.below(model.steps.len() + 1);
        model.steps.insert(place, step);
    }
}

fn keep_a_need(chance: &mut Chance, model: &mut Model) {
    let step = chance.below(model.steps.len());
    model.steps[step].effects = model.steps[step].needs.clone();
}

fn free_a_step(chance: &mut Chance, model: &mut Model) {
    let step = chance.below(model.steps.len());
    model.steps[step].cost = 0;
}

/// Often the goal can't be reached without it.
fn drop_a_step(chance: &mut Chance, model: &mut Model) {
    let step = chance.below(model.steps.len());
    model.steps.remove(step);
}

fn any_costs(chance: &mut Chance) -> Costs {
    use Costs::*;
    chance.pick(&[Free, Equal, Equal, Small, Small, Small, Any, Any, Largest, FreeOrLargest])
}

fn cost(chance: &mut Chance, costs: Costs) -> u64 {
    match costs {
        Costs::Free => 0,
        Costs::Equal => 10,
        Costs::Small => chance.below(4) as u64,
        Costs::Any => chance.below(65_536) as u64,
        Costs::Largest => 65_535,
        Costs::FreeOrLargest => chance.pick(&[0, 65_535]),
    }
}

fn random_step(chance: &mut Chance, sizes: &[usize], costs: Costs, needs: usize, effects: usize) -> Step {
    let needs = random_marks(chance, sizes, needs);
    let effects = random_marks(chance, sizes, effects);
    Step { cost: cost(chance, costs), needs, effects }
}

fn random_marks(chance: &mut Chance, sizes: &[usize], percent: usize) -> Vec<Option<usize>> {
    sizes.iter().map(|size| chance.percent(percent).then(|| chance.below(*size))).collect()
}

pub fn random_state(chance: &mut Chance, sizes: &[usize]) -> State {
    sizes.iter().map(|size| chance.below(*size)).collect()
}
