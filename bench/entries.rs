// The library's C entries, on slices.
#![allow(dead_code)] // each bench uses its part

extern "C" {
    fn elhavir_run(
        sheet: *const u8, sheet_len: usize, room: u32, cuts: *mut u8, cuts_len: usize, rows: *mut u8, rows_len: usize,
    ) -> u64;

    fn elhavir_question(
        model: *const u8, model_len: usize, cut_sheet: *const u8, cut_sheet_len: usize, states: *const u8, states_len: usize,
        estimates: *mut u8, estimates_len: usize,
    ) -> u32;

    fn elhavir_replay(
        model: *const u8, model_len: usize, cut_sheet: *const u8, cut_sheet_len: usize, log: *const u8, log_len: usize,
        rows: *mut u8, rows_len: usize,
    ) -> u64;
}

pub fn run(sheet: &[u8], room: u32, cuts: &mut [u8], rows: &mut [u8]) -> u64 {
    unsafe { elhavir_run(sheet.as_ptr(), sheet.len(), room, cuts.as_mut_ptr(), cuts.len(), rows.as_mut_ptr(), rows.len()) }
}

pub fn question(model: &[u8], sheet: &[u8], states: &[u8], estimates: &mut [u8]) -> u32 {
    unsafe {
        elhavir_question(
            model.as_ptr(), model.len(), sheet.as_ptr(), sheet.len(), states.as_ptr(), states.len(),
            estimates.as_mut_ptr(), estimates.len(),
        )
    }
}

pub fn replay(model: &[u8], sheet: &[u8], log: &[u8], rows: &mut [u8]) -> u64 {
    unsafe {
        elhavir_replay(
            model.as_ptr(), model.len(), sheet.as_ptr(), sheet.len(), log.as_ptr(), log.len(), rows.as_mut_ptr(), rows.len(),
        )
    }
}
