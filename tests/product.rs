//! The product's entries, called on lent memory.

use crate::call::{Call, Slice};
use crate::lent::Lent;

extern "C" {
    fn elhavir_run(
        sheet: *const u8, sheet_len: usize, room: u32, cuts: *mut u8, cuts_len: usize, rows: *mut u8, rows_len: usize,
    ) -> u64;
    fn elhavir_question(
        model: *const u8, model_len: usize, cut_sheet: *const u8, cut_sheet_len: usize, states: *const u8,
        states_len: usize, estimates: *mut u8, estimates_len: usize,
    ) -> u32;
    fn elhavir_replay(
        model: *const u8, model_len: usize, cut_sheet: *const u8, cut_sheet_len: usize, log: *const u8, log_len: usize,
        rows: *mut u8, rows_len: usize,
    ) -> u64;
}

/// What came back: the answer number, and every slice as it is afterwards.
pub struct Seen {
    pub answer: u64,
    pub slices: Vec<Vec<u8>>,
    /// The number of a slice beside which a byte was changed, and where.
    pub outside: Option<(usize, isize)>,
}

/// Memory for four slices, small and long.
pub struct Product {
    small: Vec<Lent>,
    long: Vec<Lent>,
}

/// Holds the largest cut sheet and the longest list that a call needs.
const SMALL: usize = 8192;
/// Holds a log of more steps than 16 bits count.
const LONG: usize = 320 * 1024;

impl Product {
    pub fn new() -> Product {
        let four = |size| (0..4).map(|_| Lent::new(size)).collect();
        Product { small: four(SMALL), long: four(LONG) }
    }

    pub fn call(&mut self, call: &Call) -> Seen {
        match call {
            Call::Run { sheet, room, cuts, rows } => {
                let slices = [sheet, cuts, rows];
                let at = self.lend(&slices);
                let answer = unsafe {
                    elhavir_run(at[0], sheet.content.len(), *room, at[1], cuts.content.len(), at[2], rows.content.len())
                };
                self.seen(answer, &slices)
            }
            Call::Question { model, cut_sheet, states, estimates } => {
                let slices = [model, cut_sheet, states, estimates];
                let at = self.lend(&slices);
                let answer = unsafe {
                    elhavir_question(
                        at[0],
                        model.content.len(),
                        at[1],
                        cut_sheet.content.len(),
                        at[2],
                        states.content.len(),
                        at[3],
                        estimates.content.len(),
                    )
                };
                self.seen(u64::from(answer), &slices)
            }
            Call::Replay { model, cut_sheet, log, rows } => {
                let slices = [model, cut_sheet, log, rows];
                let at = self.lend(&slices);
                let answer = unsafe {
                    elhavir_replay(
                        at[0],
                        model.content.len(),
                        at[1],
                        cut_sheet.content.len(),
                        at[2],
                        log.content.len(),
                        at[3],
                        rows.content.len(),
                    )
                };
                self.seen(answer, &slices)
            }
        }
    }

    fn lent(&mut self, number: usize, length: usize) -> &mut Lent {
        if self.small[number].fits(length) {
            &mut self.small[number]
        } else {
            &mut self.long[number]
        }
    }

    fn lend(&mut self, slices: &[&Slice]) -> Vec<*mut u8> {
        let mut at = Vec::new();
        for (number, slice) in slices.iter().enumerate() {
            let base = self.lent(number, slice.content.len()).lend(&slice.content, slice.side, slice.canary);
            at.push(if slice.null && slice.content.is_empty() { std::ptr::null_mut() } else { base });
        }
        at
    }

    fn seen(&mut self, answer: u64, slices: &[&Slice]) -> Seen {
        let mut seen = Seen { answer, slices: Vec::new(), outside: None };
        for (number, slice) in slices.iter().enumerate() {
            let lent = self.lent(number, slice.content.len());
            seen.slices.push(lent.content());
            if let Some(place) = lent.touched_outside() {
                seen.outside.get_or_insert((number, place));
            }
        }
        seen
    }
}

/// Lengths that need 33 bits; the sheet has to be good and its answer a plan of no steps.
/// A length cut to 32 bits would take the long sheet for a good one and the long lists for short ones.
pub fn vast_runs(sheet: &[u8], vast: *mut u8, beyond: usize) -> Vec<u64> {
    unsafe {
        std::ptr::copy_nonoverlapping(sheet.as_ptr(), vast, sheet.len());
        let long_sheet = elhavir_run(vast, beyond + sheet.len(), 1, std::ptr::null_mut(), 0, std::ptr::null_mut(), 0);
        let long_lists = elhavir_run(sheet.as_ptr(), sheet.len(), 256, vast, beyond, vast.add(beyond), 3060);
        vec![long_sheet, long_lists]
    }
}

/// The same for a replay; step 0 has to be one that can be taken in every state. A length cut to 32 bits would take the
/// long log of zeros for one of two steps, and the long list of rows for one without a place.
pub fn vast_replays(model: &[u8], cut_sheet: &[u8], vast: *mut u8, beyond: usize) -> Vec<u64> {
    let (model_at, sheet_at, log) = (model.as_ptr(), cut_sheet.as_ptr(), [0; 4]);
    let mut rows = [0; 24];
    unsafe {
        std::ptr::write_bytes(vast, 0, 4096);
        let long_log =
            elhavir_replay(model_at, model.len(), sheet_at, cut_sheet.len(), vast, beyond + 8, rows.as_mut_ptr(), 24);
        let long_rows = elhavir_replay(model_at, model.len(), sheet_at, cut_sheet.len(), log.as_ptr(), 4, vast, beyond);
        vec![long_log, long_rows]
    }
}
