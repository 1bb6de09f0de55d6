// The sheets that questions and replays are measured on: each model at the limits with the 255 cuts of its run, and with random ones.
#![allow(dead_code)] // each bench uses its part

use crate::models::{at_limits, cut_sheet, random_cuts, states, Model, Random};
use crate::plain::{run, Unwatched};

pub struct Sheets {
    pub name: String,
    pub of: Model,
    pub model: Vec<u8>,
    pub sheet: Vec<u8>,
    pub states: Vec<u8>, // 64 to ask about
}

pub fn all() -> Vec<Sheets> {
    let mut r = Random(88172645463325252);
    let mut out = Vec::new();
    for m in at_limits() {
        let model = m.sheet();
        let states = states(&m, 64, &mut r);
        let mut cuts = [0; 765];
        run(&model, 256, &mut cuts, &mut [0; 765], &mut Unwatched);
        for (name, cuts) in [(m.name.clone(), cuts.to_vec()), (format!("{}, random cuts", m.name), random_cuts(&m, &mut r))] {
            let sheet = cut_sheet(&model, &cuts);
            out.push(Sheets { name, of: m.clone(), model: model.clone(), sheet, states: states.clone() });
        }
    }
    out
}
