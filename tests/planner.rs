//! An independent planner, written from the scope paper and the change requests and from nothing else, to hold the
//! product to.
//!
//! It goes other ways where it can: a sheet is a string of bits, a set is a row of yes and no, steps between blocks
//! are found by trying every real state, distances are rounds that go on until nothing changes.

pub mod bits;
pub mod blocks;
pub mod entries;
#[allow(dead_code)] // for library.rs alone
pub mod library;
pub mod question;
pub mod replay;
pub mod run;
pub mod search;
pub mod sheet;
pub mod task;
pub mod ways;

/// The mark for "no way".
pub const NO_WAY: u64 = 16_777_215;

/// Where a refusal came from. The product only gives the number; the tests count by part, since the same number
/// can come from the given sheet, the inner model and the cut part.
#[derive(Clone, Copy, PartialEq, Eq, PartialOrd, Ord, Debug)]
pub enum Part {
    Sheet,
    Inner,
    Cuts,
    States,
    Log,
    Room,
    Lists,
}

#[derive(Clone, Copy, PartialEq, Eq, PartialOrd, Ord, Debug)]
pub struct Refusal {
    pub part: Part,
    pub number: u32,
    /// With 14 the first bad row of the log, counted from 1; 0 with every other number.
    pub row: usize,
}

impl Refusal {
    pub fn new(part: Part, number: u32) -> Refusal {
        Refusal { part, number, row: 0 }
    }

    pub fn in_row(row: usize) -> Refusal {
        Refusal { part: Part::Log, number: 14, row }
    }
}
