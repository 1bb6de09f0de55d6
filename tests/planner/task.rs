//! The task: columns, positions, steps, states.

use super::bits::{field, Field};

/// One position for each column.
pub type State = Vec<usize>;

#[derive(Clone, PartialEq, Eq, Debug)]
pub struct Step {
    pub cost: u64,
    pub needs: Vec<Option<usize>>,
    pub effects: Vec<Option<usize>>,
}

#[derive(Clone, PartialEq, Eq, Debug)]
pub struct Model {
    pub sizes: Vec<usize>,
    pub start: State,
    pub goal: Vec<Option<usize>>,
    pub steps: Vec<Step>,
}

impl Step {
    pub fn can_take(&self, state: &[usize]) -> bool {
        self.needs.iter().zip(state).all(|(need, position)| need.is_none_or(|need| need == *position))
    }

    pub fn take(&self, state: &[usize]) -> State {
        self.effects.iter().zip(state).map(|(effect, position)| effect.unwrap_or(*position)).collect()
    }
}

impl Model {
    pub fn columns(&self) -> usize {
        self.sizes.len()
    }

    pub fn is_goal(&self, state: &[usize]) -> bool {
        self.goal.iter().zip(state).all(|(goal, position)| goal.is_none_or(|goal| goal == *position))
    }

    /// N, the number of states the columns allow. 32 to the power of 16 is 2 to the power of 80.
    pub fn states(&self) -> u128 {
        self.sizes.iter().map(|size| *size as u128).product()
    }

    /// The place of a state when all are counted, column 0 slowest.
    pub fn number_of(&self, state: &[usize]) -> usize {
        self.sizes.iter().zip(state).fold(0, |number, (size, position)| number * size + position)
    }

    pub fn state_at(&self, number: usize) -> State {
        let mut rest = number;
        let mut state = vec![0; self.columns()];
        for column in (0..self.columns()).rev() {
            state[column] = rest % self.sizes[column];
            rest /= self.sizes[column];
        }
        state
    }

    /// The fields of the model sheet, in sheet order.
    pub fn fields(&self) -> Vec<Field> {
        let mut fields = vec![field(1, 4), field(self.columns() as u64, 5), field(self.steps.len() as u64, 8)];
        for column in 0..self.columns() {
            fields.push(field(self.sizes[column] as u64, 6));
            fields.push(field(self.start[column] as u64, 5));
            fields.push(field(mark(self.goal[column]), 6));
        }
        for step in &self.steps {
            fields.push(field(step.cost, 16));
            for column in 0..self.columns() {
                fields.push(field(mark(step.needs[column]), 6));
                fields.push(field(mark(step.effects[column]), 6));
            }
        }
        fields
    }
}

/// 0 for none, else the position plus 1.
fn mark(position: Option<usize>) -> u64 {
    position.map_or(0, |position| position as u64 + 1)
}
