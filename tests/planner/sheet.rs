//! Sheets read field by field; each field is judged as soon as it is complete.

use super::bits::{pack, Bits};
use super::blocks::{acceptable, cut_fields, make_cut, of_weight, whole, Block, Cut};
use super::task::{Model, Step};
use super::{Part, Refusal};

/// Where a writer is given a field: as a number of its own, or in one of its lent tables.
#[derive(Clone, Copy, PartialEq, Eq, Debug)]
pub enum Home {
    Number,
    Frame,
    Costs,
    Marks,
    Cuts,
}

/// What fields come from, one after the other in sheet order: the bits of a sheet, or what a writer is given.
pub trait Fields {
    /// The next field, or nothing where the bits, or the lent table, end before it is complete.
    fn next(&mut self, home: Home, width: usize) -> Option<u64>;
}

/// A sheet has all its fields in one row.
impl Fields for Bits {
    fn next(&mut self, _: Home, width: usize) -> Option<u64> {
        self.field(width)
    }
}

/// A model sheet that stands by itself: bytes that follow are refused.
pub fn read_sheet(bytes: &[u8]) -> Result<Model, Refusal> {
    let mut bits = Bits::of(bytes);
    let model = read_model(&mut bits).map_err(|number| Refusal::new(Part::Sheet, number))?;
    if !bits.at_end() {
        return Err(Refusal::new(Part::Sheet, 6));
    }
    Ok(model)
}

/// A cut sheet against a given model: the inner model, then 10, then the cut part.
pub fn read_cut_sheet(given: &Model, bytes: &[u8]) -> Result<(Vec<Cut>, Vec<Block>), Refusal> {
    let mut bits = Bits::of(bytes);
    let inner = read_model(&mut bits).map_err(|number| Refusal::new(Part::Inner, number))?;
    if inner != *given {
        return Err(Refusal::new(Part::Inner, 10));
    }
    read_cuts(&mut bits, given).map_err(|number| Refusal::new(Part::Cuts, number))
}

/// The field if it is there and good; else 1, or the number that its row has.
fn judged(field: Option<u64>, number: u32, good: impl Fn(u64) -> bool) -> Result<u64, u32> {
    let value = field.ok_or(1u32)?;
    if good(value) {
        Ok(value)
    } else {
        Err(number)
    }
}

fn take_mark(fields: &mut impl Fields, home: Home, size: usize) -> Result<Option<usize>, u32> {
    let mark = judged(fields.next(home, 6), 5, |mark| mark <= size as u64)?;
    Ok(if mark == 0 { None } else { Some(mark as usize - 1) })
}

/// A model and its fill; what follows is left to the caller.
fn read_model(bits: &mut Bits) -> Result<Model, u32> {
    let model = take_model(bits)?;
    if bits.fill_is_zero() {
        Ok(model)
    } else {
        Err(6)
    }
}

/// All fields of a model, from a sheet or from a writer's numbers and tables.
pub fn take_model(fields: &mut impl Fields) -> Result<Model, u32> {
    judged(fields.next(Home::Number, 4), 2, |form| form == 1)?;
    let columns = judged(fields.next(Home::Number, 5), 3, |columns| (1..=16).contains(&columns))?;
    let steps = judged(fields.next(Home::Number, 8), 3, |steps| steps <= 128)?;
    let mut model = Model { sizes: Vec::new(), start: Vec::new(), goal: Vec::new(), steps: Vec::new() };
    for _ in 0..columns {
        take_column(fields, &mut model)?;
    }
    for _ in 0..steps {
        let step = take_step(fields, &model.sizes)?;
        model.steps.push(step);
    }
    Ok(model)
}

fn take_column(fields: &mut impl Fields, model: &mut Model) -> Result<(), u32> {
    let size = judged(fields.next(Home::Frame, 6), 4, |size| (1..=32).contains(&size))? as usize;
    model.sizes.push(size);
    model.start.push(judged(fields.next(Home::Frame, 5), 5, |start| start < size as u64)? as usize);
    model.goal.push(take_mark(fields, Home::Frame, size)?);
    Ok(())
}

fn take_step(fields: &mut impl Fields, sizes: &[usize]) -> Result<Step, u32> {
    let cost = fields.next(Home::Costs, 16).ok_or(1u32)?;
    let mut step = Step { cost, needs: Vec::new(), effects: Vec::new() };
    for size in sizes {
        step.needs.push(take_mark(fields, Home::Marks, *size)?);
        step.effects.push(take_mark(fields, Home::Marks, *size)?);
    }
    Ok(step)
}

fn read_cuts(bits: &mut Bits, model: &Model) -> Result<(Vec<Cut>, Vec<Block>), u32> {
    let read = take_cuts(bits, model)?;
    if bits.fill_is_zero() && bits.at_end() {
        Ok(read)
    } else {
        Err(6)
    }
}

/// All fields of a cut part, from a sheet or from a writer's count and table.
pub fn take_cuts(fields: &mut impl Fields, model: &Model) -> Result<(Vec<Cut>, Vec<Block>), u32> {
    judged(fields.next(Home::Number, 4), 2, |form| form == 2)?;
    // the 8 bits of a sheet say no more than 255; a writer's number may
    let count = judged(fields.next(Home::Number, 8), 9, |count| count <= 255)?;
    let mut cuts = Vec::new();
    let mut blocks = whole(model);
    for _ in 0..count {
        let cut = take_cut(fields).ok_or(1u32)?;
        if !acceptable(&blocks, &cut) {
            return Err(9);
        }
        make_cut(&mut blocks, &cut);
        cuts.push(cut);
    }
    Ok((cuts, blocks))
}

/// A cut is judged when its three fields are there.
fn take_cut(fields: &mut impl Fields) -> Option<Cut> {
    let block = fields.next(Home::Cuts, 8)? as usize;
    let column = fields.next(Home::Cuts, 4)? as usize;
    let wanted = of_weight(fields.next(Home::Cuts, 32)?);
    Some(Cut { block, column, wanted })
}

pub fn write_sheet(model: &Model) -> Vec<u8> {
    pack(&model.fields())
}

pub fn write_cut_part(cuts: &[Cut]) -> Vec<u8> {
    pack(&cut_fields(cuts))
}

pub fn write_cut_sheet(model: &Model, cuts: &[Cut]) -> Vec<u8> {
    [write_sheet(model), write_cut_part(cuts)].concat()
}
