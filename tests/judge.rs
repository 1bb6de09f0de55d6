//! A call as the independent planner answers it, and what differs from the product's answer.

use crate::call::{Call, Slice};
use crate::planner::entries::{question_entry, replay_entry, run_entry};
use crate::planner::replay::Replay;
use crate::planner::run::Run;
use crate::planner::task::Model;
use crate::planner::Refusal;
use crate::product::Seen;

pub enum Outcome {
    Refused(Refusal),
    Ran(Model, Run),
    Asked(Model, Vec<u64>),
    Replayed(Model, Replay),
}

pub struct Expected {
    pub answer: u64,
    pub slices: Vec<Vec<u8>>,
    pub outcome: Outcome,
}

pub fn judge(call: &Call) -> Expected {
    match call {
        Call::Run { sheet, room, cuts, rows } => {
            let (mut cuts, mut rows) = (cuts.content.clone(), rows.content.clone());
            let (answer, result) = run_entry(&sheet.content, *room, &mut cuts, &mut rows);
            let outcome = result.map_or_else(Outcome::Refused, |(model, run)| Outcome::Ran(model, run));
            Expected { answer, slices: vec![sheet.content.clone(), cuts, rows], outcome }
        }
        Call::Question { model, cut_sheet, states, estimates } => {
            let mut list = estimates.content.clone();
            let (answer, result) = question_entry(&model.content, &cut_sheet.content, &states.content, &mut list);
            let outcome = result.map_or_else(Outcome::Refused, |(model, values)| Outcome::Asked(model, values));
            let inputs = [model, cut_sheet, states].map(|slice| slice.content.clone());
            Expected { answer: u64::from(answer), slices: [&inputs[..], &[list]].concat(), outcome }
        }
        Call::Replay { model, cut_sheet, log, rows } => {
            let mut list = rows.content.clone();
            let (answer, result) = replay_entry(&model.content, &cut_sheet.content, &log.content, &mut list);
            let outcome = result.map_or_else(Outcome::Refused, |(model, replay)| Outcome::Replayed(model, replay));
            let inputs = [model, cut_sheet, log].map(|slice| slice.content.clone());
            Expected { answer, slices: [&inputs[..], &[list]].concat(), outcome }
        }
    }
}

/// What the product did otherwise, if anything.
pub fn difference(call: &Call, seen: &Seen, expected: &Expected) -> Option<String> {
    if seen.answer != expected.answer {
        return Some(format!(
            "answer {}, expected {}",
            taken_apart(call, seen.answer),
            taken_apart(call, expected.answer)
        ));
    }
    if let Some((slice, place)) = seen.outside {
        return Some(format!("a byte beside the {} was changed, at {place} from its first", names(call)[slice]));
    }
    for (number, name) in names(call).iter().enumerate() {
        let (now, wanted) = (&seen.slices[number], &expected.slices[number]);
        if let Some(place) = (0..wanted.len()).find(|place| now[*place] != wanted[*place]) {
            let last = (place + 12).min(now.len());
            let (now, wanted) = (hex(&now[place..last]), hex(&wanted[place..last]));
            return Some(format!("{name} from byte {place}: {now}, expected {wanted}"));
        }
    }
    None
}

fn names(call: &Call) -> Vec<&'static str> {
    match call {
        Call::Run { .. } => vec!["sheet", "cuts", "rows"],
        Call::Question { .. } => vec!["model", "cut sheet", "states", "estimates"],
        Call::Replay { .. } => vec!["model", "cut sheet", "log", "rows"],
    }
}

fn taken_apart(call: &Call, answer: u64) -> String {
    let (blocks, steps, value) = (answer >> 44 & 0xfff, answer >> 32 & 0xfff, answer & 0xffff_ffff);
    match (call, answer >> 56) {
        (Call::Question { .. }, _) => format!("{answer}"),
        (_, 0) if answer < 16 => format!("refused {answer}"),
        (Call::Run { .. }, 1) => format!("plan {value} steps {steps} blocks {blocks}"),
        (Call::Run { .. }, 2) if value == 0 && steps == 0 => format!("no plan blocks {blocks}"),
        (Call::Run { .. }, 3) if steps == 0 => format!("open {value} blocks {blocks}"),
        (Call::Replay { .. }, 0) if blocks == 0 => format!("refused {value} in row {steps}"),
        (Call::Replay { .. }, 1) if blocks == 0 && value == 0 => format!("done, {steps} rows"),
        _ => format!("{answer:#018x}"),
    }
}

/// The whole call, to be looked at.
pub fn shown(call: &Call) -> String {
    match call {
        Call::Run { sheet, room, cuts, rows } => {
            let lists = [("cuts", cuts), ("rows", rows)].map(|(name, list)| shown_list(name, list));
            format!("elhavir_run, room {room}\n  sheet {}\n{}", shown_bytes(sheet), lists.concat())
        }
        Call::Question { model, cut_sheet, states, estimates } => format!(
            "elhavir_question\n  model {}\n  cut sheet {}\n  states {}\n{}",
            shown_bytes(model),
            shown_bytes(cut_sheet),
            shown_bytes(states),
            shown_list("estimates", estimates)
        ),
        Call::Replay { model, cut_sheet, log, rows } => format!(
            "elhavir_replay\n  model {}\n  cut sheet {}\n  log {}\n{}",
            shown_bytes(model),
            shown_bytes(cut_sheet),
            shown_bytes(log),
            shown_list("rows", rows)
        ),
    }
}

fn shown_bytes(slice: &Slice) -> String {
    let shown = slice.content.len().min(5000);
    let more = if shown < slice.content.len() { ".." } else { "" };
    format!("({} bytes, {:?}) {}{more}", slice.content.len(), slice.side, hex(&slice.content[..shown]))
}

fn shown_list(name: &str, list: &Slice) -> String {
    format!(
        "  {name}: {} bytes, {:?}{}\n",
        list.content.len(),
        list.side,
        if list.null { ", null if empty" } else { "" }
    )
}

pub fn hex(bytes: &[u8]) -> String {
    bytes.iter().map(|byte| format!("{byte:02x}")).collect()
}
