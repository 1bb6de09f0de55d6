//! Sheets with something wrong in them, of every kind that the refusal table names.

use crate::chance::Chance;
use crate::planner::bits::{pack, Field};
use crate::planner::blocks::{acceptable, cut_fields, make_cut, of_weight, weight, whole, Block, Cut, Set};
use crate::planner::task::Model;

/// What the fields of a model sheet are, in sheet order.
#[derive(Clone, Copy, PartialEq, Eq, Debug)]
pub enum What {
    Form,
    Columns,
    Steps,
    Size,
    Start(usize),
    Mark(usize),
    Cost,
}

/// For each field of the sheet what it is; starts and marks with the size of their column.
pub fn layout(model: &Model) -> Vec<What> {
    let mut list = vec![What::Form, What::Columns, What::Steps];
    for size in &model.sizes {
        list.extend([What::Size, What::Start(*size), What::Mark(*size)]);
    }
    for _ in &model.steps {
        list.push(What::Cost);
        list.extend(model.sizes.iter().flat_map(|size| [What::Mark(*size), What::Mark(*size)]));
    }
    list
}

/// A value that the field's row refuses, where there is one.
fn bad_value(chance: &mut Chance, what: What) -> Option<u64> {
    let bad = match what {
        What::Form => chance.pick(&[0, 2, 3, 5, 8, 9, 15]),
        What::Columns => chance.pick(&[0, 17, 18, 24, 31]),
        What::Steps => chance.between(129, 255),
        What::Size => chance.pick(&[0, 33, 34, 48, 63]),
        What::Start(size) if size < 32 => chance.pick(&[size, 31]),
        What::Mark(size) => chance.pick(&[size + 1, 63]),
        What::Start(_) | What::Cost => return None,
    };
    Some(bad as u64)
}

/// The model's sheet with one kind of damage, or several at once.
pub fn damaged_sheet(chance: &mut Chance, model: &Model) -> Vec<u8> {
    let mut fields = model.fields();
    let kinds = layout(model);
    let several = chance.percent(30);
    let mut bytes = match chance.below(12) {
        0..=5 => {
            for _ in 0..chance.pick(&[1, 1, 1, 2, 3]) {
                spoil_a_field(chance, &mut fields, &kinds);
            }
            pack(&fields)
        }
        6 => {
            change_a_count(chance, &mut fields);
            pack(&fields)
        }
        7 => with_fill(chance, pack(&fields), &fields),
        8 => with_more(chance, pack(&fields)),
        9 => shorter(chance, pack(&fields)),
        10 => with_flips(chance, pack(&fields)),
        _ => {
            let count = chance.below(40);
            let mut bytes = chance.bytes(count);
            if let Some(first) = bytes.first_mut() {
                *first = 0x10 | *first & 0x0f;
            }
            bytes
        }
    };
    if several {
        bytes = match chance.below(4) {
            0 => with_fill(chance, bytes, &fields),
            1 => with_more(chance, bytes),
            2 => shorter(chance, bytes),
            _ => with_flips(chance, bytes),
        };
    }
    bytes
}

/// Form, columns and steps would be hit too seldom among the marks, so that the kind is drawn first.
pub fn spoil_a_field(chance: &mut Chance, fields: &mut [Field], kinds: &[What]) {
    let wanted = chance.below(6);
    let of_kind = |what: &What| match what {
        What::Form => wanted == 0,
        What::Columns => wanted == 1,
        What::Steps => wanted == 2,
        What::Size => wanted == 3,
        What::Start(_) => wanted == 4,
        What::Mark(_) => wanted == 5,
        What::Cost => false,
    };
    let places: Vec<usize> = (0..kinds.len()).filter(|place| of_kind(&kinds[*place])).collect();
    let place = chance.pick(&places);
    if let Some(value) = bad_value(chance, kinds[place]) {
        fields[place].value = value;
    }
}

/// A count that is allowed but not that of the fields: what follows is read as something else.
pub fn change_a_count(chance: &mut Chance, fields: &mut [Field]) {
    if chance.percent(50) {
        fields[1].value = chance.between(1, 16) as u64;
    } else {
        fields[2].value = chance.pick(&[fields[2].value + 1, fields[2].value.saturating_sub(1), 128, 0]).min(128);
    }
}

/// A fill bit that is 1, where the sheet has one.
pub fn with_fill(chance: &mut Chance, mut bytes: Vec<u8>, fields: &[Field]) -> Vec<u8> {
    let bits: usize = fields.iter().map(|field| field.width).sum();
    let fill = bits.next_multiple_of(8) - bits;
    if fill > 0 && !bytes.is_empty() {
        *bytes.last_mut().unwrap() |= 1 << chance.below(fill);
    }
    bytes
}

pub fn with_more(chance: &mut Chance, mut bytes: Vec<u8>) -> Vec<u8> {
    // once in a while so many that a length of 16 bits would come out right again
    let count = if chance.percent(2) { 65_536 } else { chance.pick(&[1, 1, 1, 2, 3, 7, 3400]) };
    let byte = chance.pick(&[0, 0, 0xff, 0x20]);
    bytes.resize(bytes.len() + count, byte);
    bytes
}

pub fn shorter(chance: &mut Chance, mut bytes: Vec<u8>) -> Vec<u8> {
    let length = if chance.percent(30) { bytes.len().saturating_sub(1) } else { chance.below(bytes.len().max(1)) };
    bytes.truncate(length);
    bytes
}

pub fn with_flips(chance: &mut Chance, mut bytes: Vec<u8>) -> Vec<u8> {
    if !bytes.is_empty() {
        for _ in 0..chance.between(1, 3) {
            let place = chance.below(bytes.len());
            bytes[place] ^= 1 << chance.below(8);
        }
    }
    bytes
}

/// A model that is good in itself and differs from the given one in one field, one place or one order.
pub fn differing(chance: &mut Chance, model: &Model) -> Model {
    for _ in 0..20 {
        let mut other = model.clone();
        change_one_thing(chance, &mut other);
        if other != *model {
            return other;
        }
    }
    let mut other = model.clone();
    other.goal[0] = if other.goal[0].is_none() { Some(0) } else { None };
    other
}

fn change_one_thing(chance: &mut Chance, model: &mut Model) {
    let column = chance.below(model.columns());
    let size = model.sizes[column];
    let step = (!model.steps.is_empty()).then(|| chance.below(model.steps.len()));
    match (chance.below(10), step) {
        (0, _) => model.start[column] = chance.below(size),
        (1, _) => model.goal[column] = chance.percent(70).then(|| chance.below(size)),
        (2, _) => model.sizes[column] = if size < 32 { size + 1 } else { size },
        (3, Some(step)) => model.steps[step].cost ^= 1 << chance.below(16),
        (4, Some(step)) => model.steps[step].needs[column] = chance.percent(70).then(|| chance.below(size)),
        (5, Some(step)) => model.steps[step].effects[column] = chance.percent(70).then(|| chance.below(size)),
        (6, Some(step)) => {
            let other = chance.below(model.steps.len());
            model.steps.swap(step, other);
        }
        (7, Some(step)) => {
            model.steps.remove(step);
        }
        _ => move_a_column(chance, model, column),
    }
}

/// Two columns of equal size change places; sizes alone don't show it.
fn move_a_column(chance: &mut Chance, model: &mut Model, column: usize) {
    let equal: Vec<usize> = (0..model.columns()).filter(|other| model.sizes[*other] == model.sizes[column]).collect();
    let other = chance.pick(&equal);
    model.start.swap(column, other);
    model.goal.swap(column, other);
    for step in &mut model.steps {
        step.needs.swap(column, other);
        step.effects.swap(column, other);
    }
}

/// Cuts that are accepted and need not come from a run.
pub fn random_cuts(chance: &mut Chance, model: &Model, count: usize) -> Vec<Cut> {
    more_cuts(chance, model, Vec::new(), count)
}

/// The same, with these first.
pub fn more_cuts(chance: &mut Chance, model: &Model, mut cuts: Vec<Cut>, count: usize) -> Vec<Cut> {
    let mut blocks = whole(model);
    cuts.iter().for_each(|cut| make_cut(&mut blocks, cut));
    while cuts.len() < count {
        let Some(cut) = random_cut(chance, &blocks) else { break };
        make_cut(&mut blocks, &cut);
        cuts.push(cut);
    }
    cuts
}

fn random_cut(chance: &mut Chance, blocks: &[Block]) -> Option<Cut> {
    let parts = |set: &Set| set.iter().filter(|inside| **inside).count();
    let places: Vec<(usize, usize)> = (0..blocks.len())
        .flat_map(|block| (0..blocks[block].len()).map(move |column| (block, column)))
        .filter(|(block, column)| parts(&blocks[*block][*column]) > 1)
        .collect();
    if places.is_empty() {
        return None;
    }
    let (block, column) = chance.pick(&places);
    loop {
        let wanted = of_weight(weight(&blocks[block][column]) & chance.next());
        let cut = Cut { block, column, wanted };
        if acceptable(blocks, &cut) {
            return Some(cut);
        }
    }
}

/// A cut part with one kind of damage, or several at once.
pub fn damaged_cut_part(chance: &mut Chance, model: &Model, cuts: &[Cut]) -> Vec<u8> {
    let mut fields = cut_fields(cuts);
    let several = chance.percent(30);
    let mut bytes = match chance.below(12) {
        0 => {
            fields[0].value = chance.pick(&[0, 1, 3, 6, 10, 15]);
            pack(&fields)
        }
        1 => {
            fields[1].value =
                chance.pick(&[cuts.len() as u64 + 1, (cuts.len() as u64).saturating_sub(1), 255]).min(255);
            pack(&fields)
        }
        2 => with_fill(chance, pack(&fields), &fields),
        3 => with_more(chance, pack(&fields)),
        4 => shorter(chance, pack(&fields)),
        5 => with_flips(chance, pack(&fields)),
        6 => [vec![chance.pick(&[0u8, 0x20, 0xff])], pack(&fields)].concat(),
        _ => {
            for _ in 0..chance.pick(&[1, 1, 2]) {
                spoil_a_cut(chance, model, cuts, &mut fields);
            }
            pack(&fields)
        }
    };
    if several {
        bytes = match chance.below(3) {
            0 => with_more(chance, bytes),
            1 => shorter(chance, bytes),
            _ => with_flips(chance, bytes),
        };
    }
    bytes
}

/// Row 9: a block not yet made, a column that isn't there, a set that is empty, full, or reaches outside.
pub fn spoil_a_cut(chance: &mut Chance, model: &Model, cuts: &[Cut], fields: &mut Vec<Field>) {
    if cuts.is_empty() {
        *fields = cut_fields(&[random_wrong_cut(chance, model)]);
        return;
    }
    let cut = chance.below(cuts.len());
    let set = set_before(model, cuts, cut);
    let block = &mut fields[2 + 3 * cut];
    match chance.below(6) {
        0 => block.value = chance.pick(&[cut + 1, cut + 2, 255]).min(255) as u64,
        1 => fields[3 + 3 * cut].value = chance.pick(&[model.columns(), 15]).min(15) as u64,
        2 => fields[4 + 3 * cut].value = 0,
        3 => fields[4 + 3 * cut].value = weight(&set),
        4 => fields[4 + 3 * cut].value |= 1 << chance.below(32),
        _ => fields[4 + 3 * cut].value = chance.pick(&[0xffff_ffff, 0x8000_0000, weight(&set).reverse_bits() >> 32]),
    }
}

fn random_wrong_cut(chance: &mut Chance, model: &Model) -> Cut {
    let column = chance.below(model.columns());
    let full = (1 << model.sizes[column]) - 1;
    let number = chance.pick(&[0, full, full + 1, 0xffff_ffff]);
    Cut { block: chance.below(2), column, wanted: of_weight(number) }
}

/// The set that a cut of the list divides.
fn set_before(model: &Model, cuts: &[Cut], place: usize) -> Set {
    let mut blocks = whole(model);
    cuts[..place].iter().for_each(|cut| make_cut(&mut blocks, cut));
    blocks[cuts[place].block][cuts[place].column]
}
