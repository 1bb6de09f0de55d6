//! A call of one of the entries, with everything that is lent for it.

use crate::lent::Side;

/// A slice to lend: what it holds, where it lies, and whether a pointer of nothing goes with a length of nothing.
#[derive(Clone, Debug)]
pub struct Slice {
    pub content: Vec<u8>,
    pub side: Side,
    pub canary: u64,
    pub null: bool,
}

impl Slice {
    pub fn plain(content: Vec<u8>) -> Slice {
        Slice { content, side: Side::Back, canary: 0x6b43_a9b5, null: false }
    }
}

#[derive(Clone, Debug)]
pub enum Call {
    Run { sheet: Slice, room: u32, cuts: Slice, rows: Slice },
    Question { model: Slice, cut_sheet: Slice, states: Slice, estimates: Slice },
    Replay { model: Slice, cut_sheet: Slice, log: Slice, rows: Slice },
}
