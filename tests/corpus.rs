//! Writes inputs for the fuzz target, made by seed: good calls and spoiled ones.
//!
//!     corpus FOLDER [SEED] [COUNT]
//!
//! `fuzz.c` says what the bytes of an input mean.

#![allow(dead_code)] // the modules are shared with the other tests

mod call;
mod chance;
mod damage;
mod lent;
mod making;
mod planner;
mod replaying;
mod shapes;

use call::{Call, Slice};
use chance::Chance;

/// Longer inputs take long and show little.
const LONGEST: usize = 2000;

fn main() {
    let words: Vec<String> = std::env::args().skip(1).collect();
    let folder = words.first().expect("corpus FOLDER [SEED] [COUNT]");
    let number = |place: usize, usual: u64| words.get(place).map_or(usual, |word| word.parse().expect("a number"));
    let (seed, count) = (number(1, 1), number(2, 500));
    let mut written = 0;
    for place in 0..count {
        let call = making::any_call(&mut Chance::new(seed, place));
        let Some(bytes) = encoded(&call).filter(|bytes| bytes.len() <= LONGEST) else { continue };
        std::fs::write(format!("{folder}/{place:06}"), bytes).expect("the folder can be written to");
        written += 1;
    }
    println!("corpus: {written} inputs");
    assert!(written > 0, "no inputs");
}

fn encoded(call: &Call) -> Option<Vec<u8>> {
    match call {
        Call::Run { sheet, room, cuts, rows } => {
            let needed = (room.wrapping_sub(1) & 255) as usize * 12;
            let slack = |length: usize| i8::try_from(length as isize - needed as isize).ok();
            let head = [slack(cuts.content.len())? as u8, slack(rows.content.len())? as u8];
            Some([&[0][..], &room.to_be_bytes(), &head, &sheet.content].concat())
        }
        Call::Question { model, cut_sheet, states, estimates } => encoded_four(1, model, cut_sheet, states, estimates),
        Call::Replay { model, cut_sheet, log, rows } => encoded_four(2, model, cut_sheet, log, rows),
    }
}

/// A question or a replay: which, the two sheets, states or log, and a list.
fn encoded_four(which: u8, model: &Slice, cut_sheet: &Slice, asked: &Slice, list: &Slice) -> Option<Vec<u8>> {
    let lengths = [model.content.len(), asked.content.len(), list.content.len()];
    let mut bytes = vec![which];
    for length in lengths {
        bytes.extend(u16::try_from(length).ok()?.to_be_bytes());
    }
    bytes.extend(&model.content);
    bytes.extend(&asked.content);
    match cut_sheet.content.strip_prefix(&model.content[..]) {
        Some(part) => bytes.extend(part),
        // the cut sheet's model is another one: it stands there by itself
        None => {
            bytes[0] |= 16;
            bytes.extend(&cut_sheet.content);
        }
    }
    Some(bytes)
}
