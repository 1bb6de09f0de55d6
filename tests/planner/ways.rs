//! Which steps lead from which block to which, found by two means, and the distances over them.

use super::blocks::{make_cut, meet, Block, Cut, Set};
use super::task::{Model, State, Step};
use super::NO_WAY;

/// Cost and number of steps; nothing where there is no way.
pub type Far = Option<(u64, u64)>;

/// Models with no more states than this have every one of them tried.
const TRIED: u128 = 700;

pub trait Ways {
    fn blocks(&self) -> usize;
    fn cut(&mut self, cut: &Cut);
    fn is_goal_block(&self, block: usize) -> bool;
    fn block_of(&self, state: &State) -> usize;
    fn leads(&self, from: usize, step: usize, to: usize) -> bool;
    /// For each block the blocks that some step leads to, with the least cost of such a step.
    fn cheapest(&self) -> Vec<Vec<(usize, u64)>>;
}

/// Real states on small models, the column rule on large ones.
pub fn ways_of(model: &Model) -> Box<dyn Ways + '_> {
    if model.states() <= TRIED {
        Box::new(ByStates::new(model))
    } else {
        Box::new(ByColumns::new(model))
    }
}

/// The same after a list of cuts: on a small model they are made in turn, on a large one the last blocks are enough.
pub fn ways_after<'m>(model: &'m Model, cuts: &[Cut], blocks: &[Block]) -> Box<dyn Ways + 'm> {
    if model.states() > TRIED {
        return Box::new(ByColumns::after(model, blocks.to_vec()));
    }
    let mut ways = Box::new(ByStates::new(model));
    cuts.iter().for_each(|cut| ways.move_states(cut));
    ways.try_all();
    ways
}

/// A step leads from a to b when some state of a can take it and lands in b: every state is tried.
pub struct ByStates<'m> {
    model: &'m Model,
    states: Vec<State>,
    /// For each state the steps it can take, with the number of the state they land in.
    landings: Vec<Vec<(usize, usize)>>,
    /// For each state its block.
    home: Vec<usize>,
    goal: Vec<bool>,
    /// From, step, to; sorted.
    arcs: Vec<(usize, usize, usize)>,
    blocks: usize,
}

impl<'m> ByStates<'m> {
    pub fn new(model: &'m Model) -> ByStates<'m> {
        let states: Vec<State> = (0..model.states() as usize).map(|number| model.state_at(number)).collect();
        let landings = states.iter().map(|state| landings_of(model, state)).collect();
        let home = vec![0; states.len()];
        let mut ways = ByStates { model, states, landings, home, goal: Vec::new(), arcs: Vec::new(), blocks: 1 };
        ways.try_all();
        ways
    }

    fn move_states(&mut self, cut: &Cut) {
        for (number, state) in self.states.iter().enumerate() {
            if self.home[number] == cut.block && cut.wanted[state[cut.column]] {
                self.home[number] = self.blocks;
            }
        }
        self.blocks += 1;
    }

    fn try_all(&mut self) {
        self.arcs.clear();
        self.goal = vec![false; self.blocks];
        for (number, state) in self.states.iter().enumerate() {
            let from = self.home[number];
            self.goal[from] |= self.model.is_goal(state);
            self.arcs.extend(self.landings[number].iter().map(|(step, landing)| (from, *step, self.home[*landing])));
        }
        self.arcs.sort_unstable();
        self.arcs.dedup();
    }
}

fn landings_of(model: &Model, state: &State) -> Vec<(usize, usize)> {
    let takes = model.steps.iter().enumerate().filter(|(_, step)| step.can_take(state));
    takes.map(|(number, step)| (number, model.number_of(&step.take(state)))).collect()
}

impl Ways for ByStates<'_> {
    fn blocks(&self) -> usize {
        self.blocks
    }

    fn cut(&mut self, cut: &Cut) {
        self.move_states(cut);
        self.try_all();
    }

    fn is_goal_block(&self, block: usize) -> bool {
        self.goal[block]
    }

    fn block_of(&self, state: &State) -> usize {
        self.home[self.model.number_of(state)]
    }

    fn leads(&self, from: usize, step: usize, to: usize) -> bool {
        self.arcs.binary_search(&(from, step, to)).is_ok()
    }

    fn cheapest(&self) -> Vec<Vec<(usize, u64)>> {
        let mut table = vec![vec![None; self.blocks]; self.blocks];
        for (from, step, to) in &self.arcs {
            lower(&mut table[*from][*to], self.model.steps[*step].cost);
        }
        listed(&table)
    }
}

/// The paper's rule, column by column. Only what a cut changes is worked out again.
pub struct ByColumns<'m> {
    model: &'m Model,
    blocks: Vec<Block>,
    table: Vec<Vec<Option<u64>>>,
}

impl<'m> ByColumns<'m> {
    pub fn new(model: &'m Model) -> ByColumns<'m> {
        ByColumns::after(model, super::blocks::whole(model))
    }

    pub fn after(model: &'m Model, blocks: Vec<Block>) -> ByColumns<'m> {
        let table = vec![vec![None; blocks.len()]; blocks.len()];
        let mut ways = ByColumns { model, blocks, table };
        for from in 0..ways.blocks.len() {
            for to in 0..ways.blocks.len() {
                ways.renew(from, to);
            }
        }
        ways
    }

    fn renew(&mut self, from: usize, to: usize) {
        let (a, b) = (&self.blocks[from], &self.blocks[to]);
        let apart: Vec<usize> = (0..a.len()).filter(|column| !meet(&a[*column], &b[*column])).collect();
        let mut least = None;
        for step in &self.model.steps {
            // a dearer step changes nothing, and one that leaves alone a column where the sets are apart can't lead:
            // the rule is not asked, which would take most of the time
            let dearer = least.is_some_and(|least| step.cost >= least);
            if !dearer && apart.iter().all(|column| touches(step, *column)) && leads_between(a, b, step) {
                least = Some(step.cost);
            }
        }
        self.table[from][to] = least;
    }
}

fn touches(step: &Step, column: usize) -> bool {
    step.needs[column].is_some() || step.effects[column].is_some()
}

/// A need lies in a's set; an effect, or else a need, lies in b's set; with neither, the two sets meet.
fn column_allows(a: &Set, b: &Set, need: Option<usize>, effect: Option<usize>) -> bool {
    match (need, effect) {
        (Some(need), Some(effect)) => a[need] && b[effect],
        (Some(need), None) => a[need] && b[need],
        (None, Some(effect)) => b[effect],
        (None, None) => meet(a, b),
    }
}

fn leads_between(a: &Block, b: &Block, step: &Step) -> bool {
    (0..a.len()).all(|column| column_allows(&a[column], &b[column], step.needs[column], step.effects[column]))
}

impl Ways for ByColumns<'_> {
    fn blocks(&self) -> usize {
        self.blocks.len()
    }

    fn cut(&mut self, cut: &Cut) {
        let new = self.blocks.len();
        make_cut(&mut self.blocks, cut);
        self.table.iter_mut().for_each(|row| row.push(None));
        self.table.push(vec![None; new + 1]);
        for other in 0..=new {
            for changed in [cut.block, new] {
                self.renew(changed, other);
                self.renew(other, changed);
            }
        }
    }

    fn is_goal_block(&self, block: usize) -> bool {
        let sets = &self.blocks[block];
        self.model.goal.iter().zip(sets).all(|(goal, set)| goal.is_none_or(|goal| set[goal]))
    }

    fn block_of(&self, state: &State) -> usize {
        super::blocks::block_of(&self.blocks, state)
    }

    fn leads(&self, from: usize, step: usize, to: usize) -> bool {
        leads_between(&self.blocks[from], &self.blocks[to], &self.model.steps[step])
    }

    fn cheapest(&self) -> Vec<Vec<(usize, u64)>> {
        listed(&self.table)
    }
}

fn lower(least: &mut Option<u64>, cost: u64) {
    *least = Some(least.map_or(cost, |least| least.min(cost)));
}

fn listed(table: &[Vec<Option<u64>>]) -> Vec<Vec<(usize, u64)>> {
    let row_of =
        |row: &Vec<Option<u64>>| row.iter().enumerate().filter_map(|(to, cost)| cost.map(|cost| (to, cost))).collect();
    table.iter().map(row_of).collect()
}

/// A goal block has cost 0 and 0 steps; every other distance is lowered in rounds until a round changes nothing.
pub fn distances(ways: &dyn Ways) -> Vec<Far> {
    let arcs = ways.cheapest();
    let goal = |block| if ways.is_goal_block(block) { Some((0, 0)) } else { None };
    let mut far: Vec<Far> = (0..ways.blocks()).map(goal).collect();
    let mut changed = true;
    while changed {
        changed = false;
        for from in 0..far.len() {
            let best = arcs[from].iter().filter_map(|(to, cost)| onward(far[*to], *cost)).min();
            if best.is_some_and(|best| far[from].is_none_or(|now| best < now)) {
                far[from] = best;
                changed = true;
            }
        }
    }
    far
}

/// The distance of a block from which a step of this cost leads on.
pub fn onward(far: Far, cost: u64) -> Far {
    far.map(|(tenths, steps)| (tenths + cost, steps + 1))
}

pub fn estimate(far: Far) -> u64 {
    far.map_or(NO_WAY, |(tenths, _)| tenths)
}
