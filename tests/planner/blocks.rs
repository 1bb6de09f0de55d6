//! Blocks, and the cuts that make them.

use super::bits::{field, Field};
use super::task::{Model, State};

/// Which positions of a column belong.
pub type Set = [bool; 32];

/// One set for each column.
pub type Block = Vec<Set>;

#[derive(Clone, PartialEq, Eq, Debug)]
pub struct Cut {
    pub block: usize,
    pub column: usize,
    pub wanted: Set,
}

pub const NOTHING: Set = [false; 32];

pub fn first(size: usize) -> Set {
    std::array::from_fn(|position| position < size)
}

pub fn only(position: usize) -> Set {
    std::array::from_fn(|other| other == position)
}

pub fn meet(a: &Set, b: &Set) -> bool {
    common(a, b) != NOTHING
}

pub fn common(a: &Set, b: &Set) -> Set {
    std::array::from_fn(|position| a[position] & b[position])
}

pub fn without(a: &Set, b: &Set) -> Set {
    std::array::from_fn(|position| a[position] & !b[position])
}

/// The set as a number: position p has weight 2 to the power of p.
pub fn weight(set: &Set) -> u64 {
    (0..32).filter(|position| set[*position]).map(|position| 1 << position).sum()
}

pub fn of_weight(number: u64) -> Set {
    std::array::from_fn(|position| number >> position & 1 == 1)
}

/// Block 0 first holds every state.
pub fn whole(model: &Model) -> Vec<Block> {
    vec![model.sizes.iter().map(|size| first(*size)).collect()]
}

/// The wanted positions go to a new block with the next number, the rest stay under the old number.
pub fn make_cut(blocks: &mut Vec<Block>, cut: &Cut) {
    let old = &mut blocks[cut.block];
    let mut new = old.clone();
    new[cut.column] = common(&old[cut.column], &cut.wanted);
    old[cut.column] = without(&old[cut.column], &cut.wanted);
    blocks.push(new);
}

pub fn holds(block: &Block, state: &State) -> bool {
    block.iter().zip(state).all(|(set, position)| set[*position])
}

pub fn block_of(blocks: &[Block], state: &State) -> usize {
    blocks.iter().position(|block| holds(block, state)).expect("every state lies in a block")
}

/// Row 9: the block is made, the column is there, the set is a non-empty proper part of the block's set.
pub fn acceptable(blocks: &[Block], cut: &Cut) -> bool {
    let Some(block) = blocks.get(cut.block) else { return false };
    let Some(set) = block.get(cut.column) else { return false };
    let inside = without(&cut.wanted, set) == NOTHING;
    inside && cut.wanted != NOTHING && cut.wanted != *set
}

/// The fields of the cut part, in sheet order.
pub fn cut_fields(cuts: &[Cut]) -> Vec<Field> {
    let mut fields = vec![field(2, 4), field(cuts.len() as u64, 8)];
    for cut in cuts {
        fields.push(field(cut.block as u64, 8));
        fields.push(field(cut.column as u64, 4));
        fields.push(field(weight(&cut.wanted), 32));
    }
    fields
}
