//! The library's functions on sheets, and the replay: what each answers, and what it puts into the tables lent for it.
//!
//! A frame has size, start and goal mark for each column; costs have one value for each step; marks have need mark and
//! effect mark for each column of each step; cuts have block, column and wanted set for each cut; a sheet has its bytes.
//! A log has one step number for each step; rows have paid, won and detour for each step of a log. A place is a number of
//! 32 bits here, whatever its width in the library; one below zero is in two's complement.

use super::bits::Field;
use super::blocks::cut_fields;
use super::replay;
use super::sheet::{read_cut_sheet, read_sheet, take_cuts, take_model, write_cut_sheet, write_sheet, Fields, Home};
use super::{Part, Refusal};
use std::slice::Iter;

/// What is answered if no table has too few places: its numbers, and the values for each lent table.
#[derive(Clone, PartialEq, Eq, Debug)]
pub struct Done {
    pub numbers: Vec<usize>,
    pub values: Vec<Vec<u32>>,
}

/// Answers columns and steps, and fills frame, costs and marks.
pub fn read_model(sheet: &[u8]) -> Result<Done, Refusal> {
    let model = read_sheet(sheet)?;
    Ok(Done { numbers: vec![model.columns(), model.steps.len()], values: tables_of(&model.fields(), model.columns()) })
}

/// Takes plain numbers, judges the same fields in the same order, and answers the number of bytes.
pub fn write_model(columns: u64, steps: u64, frame: &[u32], costs: &[u32], marks: &[u32]) -> Result<Done, Refusal> {
    let mut given = Given::new(vec![1, columns, steps], [frame, costs, marks, &[]]);
    let model = take_model(&mut given).map_err(|number| Refusal::new(Part::Sheet, number))?;
    Ok(written(&write_sheet(&model)))
}

/// Takes a model sheet and a cut sheet, answers the number of cuts and fills a list with them.
pub fn rebuild(model: &[u8], cut_sheet: &[u8]) -> Result<Done, Refusal> {
    let model = read_sheet(model)?;
    let (cuts, _) = read_cut_sheet(&model, cut_sheet)?;
    Ok(Done { numbers: vec![cuts.len()], values: vec![values(&cut_fields(&cuts)[2..])] })
}

/// Takes the model as its sheet, then the count, then the cuts, and answers the number of bytes.
pub fn write_cuts(model: &[u8], count: u64, cuts: &[u32]) -> Result<Done, Refusal> {
    let model = read_sheet(model)?;
    let mut given = Given::new(vec![2, count], [&[], &[], &[], cuts]);
    let (cuts, _) = take_cuts(&mut given, &model).map_err(|number| Refusal::new(Part::Cuts, number))?;
    Ok(written(&write_cut_sheet(&model, &cuts)))
}

/// Takes a model sheet, a cut sheet and a log, answers the number of rows and fills a list with them.
pub fn replayed(model: &[u8], cut_sheet: &[u8], log: &[u32]) -> Result<Done, Refusal> {
    let (_, replay) = replay::replay(model, cut_sheet, log)?;
    let values = replay.values().iter().map(|value| *value as u32).collect();
    Ok(Done { numbers: vec![replay.rows.len()], values: vec![values] })
}

/// Readers and writers give 8 last. A lent table needs as many places as there are values or bytes to put in it, no
/// more; places past the last one used stay untouched, and a refusal changes nothing lent.
pub fn lend(done: &Result<Done, Refusal>, tables: &mut [&mut [u32]]) -> Result<Vec<usize>, Refusal> {
    let done = done.as_ref().map_err(|refusal| *refusal)?;
    if tables.iter().zip(&done.values).any(|(table, values)| table.len() < values.len()) {
        return Err(Refusal::new(Part::Lists, 8));
    }
    for (table, values) in tables.iter_mut().zip(&done.values) {
        table[..values.len()].copy_from_slice(values);
    }
    Ok(done.numbers.clone())
}

/// What a writer is given: numbers, of which the form is one, and tables. Places beyond the counts are not read.
struct Given<'a> {
    numbers: std::vec::IntoIter<u64>,
    frame: Iter<'a, u32>,
    costs: Iter<'a, u32>,
    marks: Iter<'a, u32>,
    cuts: Iter<'a, u32>,
}

impl<'a> Given<'a> {
    fn new(numbers: Vec<u64>, tables: [&'a [u32]; 4]) -> Given<'a> {
        let [frame, costs, marks, cuts] = tables.map(|table| table.iter());
        Given { numbers: numbers.into_iter(), frame, costs, marks, cuts }
    }
}

impl Fields for Given<'_> {
    fn next(&mut self, home: Home, _: usize) -> Option<u64> {
        let table = match home {
            Home::Number => return self.numbers.next(),
            Home::Frame => &mut self.frame,
            Home::Costs => &mut self.costs,
            Home::Marks => &mut self.marks,
            Home::Cuts => &mut self.cuts,
        };
        table.next().map(|value| u64::from(*value))
    }
}

/// Frame, costs and marks: the fields of a model sheet after form, columns and steps, each put into its table.
pub fn tables_of(fields: &[Field], columns: usize) -> Vec<Vec<u32>> {
    let (frame, steps) = fields[3..].split_at(3 * columns);
    let (mut costs, mut marks) = (Vec::new(), Vec::new());
    for step in steps.chunks(1 + 2 * columns) {
        costs.extend(values(&step[..1]));
        marks.extend(values(&step[1..]));
    }
    vec![values(frame), costs, marks]
}

pub fn values(fields: &[Field]) -> Vec<u32> {
    fields.iter().map(|field| field.value as u32).collect()
}

/// A sheet, with the number of its bytes as the answer.
fn written(sheet: &[u8]) -> Done {
    Done { numbers: vec![sheet.len()], values: vec![sheet.iter().map(|byte| u32::from(*byte)).collect()] }
}
