//! How often each answer of the entries was met.

use crate::call::Call;
use crate::counts::{Met, Refusals, Row};
use crate::judge::Outcome;
use crate::planner::entries::log_steps;
use crate::planner::replay::Replay;
use crate::planner::run::{Answer, Kind, Run};
use crate::planner::sheet::read_sheet;
use crate::planner::task::Model;
use crate::planner::{Part, Refusal, NO_WAY};

/// Fewer calls by seed may miss an answer by chance, and say nothing of how often each is met.
pub const LEAST: u64 = 5000;

#[derive(Default)]
pub struct Tally {
    refused: Refusals,
    met: Met,
}

/// Every refusal that each entry can give, by the part that gives it.
fn possible() -> Vec<Row> {
    let mut list = Vec::new();
    list.extend((1..=6).map(|number| ("run", Part::Sheet, number)));
    list.push(("run", Part::Room, 7));
    for entry in ["question", "replay"] {
        list.extend((1..=6).map(|number| (entry, Part::Sheet, number)));
        list.extend([1, 2, 3, 4, 5, 6, 10].map(|number| (entry, Part::Inner, number)));
        list.extend([1, 2, 6, 9].map(|number| (entry, Part::Cuts, number)));
    }
    list.push(("question", Part::States, 11));
    list.extend([14, 15].map(|number| ("replay", Part::Log, number)));
    list.extend(ENTRIES.map(|entry| (entry, Part::Lists, 8)));
    list
}

const ENTRIES: [&str; 3] = ["run", "question", "replay"];

const OTHERS: &[&str] = &[
    "plan",
    "plan of no steps",
    "plan with a free step",
    "no plan",
    "no plan in a full room",
    "open",
    "20 cuts or more",
    "9 columns or more",
    "goal flaw",
    "need flaw",
    "divergence flaw",
    "estimate",
    "estimate: no way",
    "replay of no rows",
    "replay of 255 rows",
    "replay with bytes behind its log",
    "replay in a list with more places",
    "replay on 9 columns or more",
    "replay after 20 cuts or more",
    "replay after 255 cuts",
    "row of a free step",
    "won below zero",
    "won zero",
    "won above zero",
    "detour zero",
    "detour above zero",
    "dashes",
    "dashes from the first row on",
    "dashes after figures",
    "14 for a step that is not there",
    "14 for a number that 8 bits would cut to a step",
    "14 for a step that cannot be taken",
    "14 in the first row",
    "14 in a later row",
    "14 in row 255",
    "15 for 256 steps",
    "15 for more",
    "8 for a byte short of the rows",
];

impl Tally {
    pub fn count(&mut self, call: &Call, outcome: &Outcome) {
        match outcome {
            Outcome::Refused(refusal) => {
                self.refused.count(entry_of(call), refusal);
                self.count_refused_replay(call, refusal);
            }
            Outcome::Ran(model, run) => {
                let room = if let Call::Run { room, .. } = call { *room as usize } else { 0 };
                self.count_run(model, run, room);
            }
            Outcome::Asked(_, values) => {
                for value in values {
                    self.met.meet(if *value == NO_WAY { "estimate: no way" } else { "estimate" });
                }
            }
            Outcome::Replayed(model, replay) => self.count_replay(call, model, replay),
        }
    }

    fn count_run(&mut self, model: &Model, run: &Run, room: usize) {
        run.flaws.iter().for_each(|kind| self.met.meet(flaw_name(*kind)));
        self.met.meet_if(run.cuts.len() >= 20, "20 cuts or more");
        self.met.meet_if(model.columns() >= 9, "9 columns or more");
        match &run.answer {
            Answer::Plan { steps, .. } => {
                self.met.meet("plan");
                self.met.meet_if(steps.is_empty(), "plan of no steps");
                self.met.meet_if(steps.iter().any(|step| model.steps[*step].cost == 0), "plan with a free step");
            }
            Answer::NoPlan => {
                self.met.meet("no plan");
                self.met.meet_if(run.cuts.len() + 1 == room, "no plan in a full room");
            }
            Answer::Open { .. } => self.met.meet("open"),
        }
    }

    fn count_replay(&mut self, call: &Call, model: &Model, replay: &Replay) {
        let Call::Replay { model: sheet, cut_sheet, log, rows: list } = call else { return };
        let cuts = cuts_in(&cut_sheet.content[sheet.content.len()..]);
        let rows = &replay.rows;
        self.met.meet_if(rows.is_empty(), "replay of no rows");
        self.met.meet_if(rows.len() == 255, "replay of 255 rows");
        self.met.meet_if(log.content.len() % 4 > 0, "replay with bytes behind its log");
        self.met.meet_if(list.content.len() / 12 > rows.len(), "replay in a list with more places");
        self.met.meet_if(model.columns() >= 9, "replay on 9 columns or more");
        self.met.meet_if(cuts >= 20, "replay after 20 cuts or more");
        self.met.meet_if(cuts == 255, "replay after 255 cuts");
        for row in rows {
            self.met.meet_if(row.paid == 0, "row of a free step");
            let Some(figures) = row.figures else {
                self.met.meet("dashes");
                continue;
            };
            self.met.meet(won_name(figures.won));
            self.met.meet(if figures.detour == 0 { "detour zero" } else { "detour above zero" });
        }
        let dashed = |row: usize| rows.get(row).is_some_and(|row| row.figures.is_none());
        self.met.meet_if(dashed(0), "dashes from the first row on");
        self.met.meet_if(!dashed(0) && dashed(rows.len().saturating_sub(1)), "dashes after figures");
    }

    fn count_refused_replay(&mut self, call: &Call, refusal: &Refusal) {
        let Call::Replay { model, log, rows, .. } = call else { return };
        let log = log_steps(&log.content);
        match refusal.number {
            8 => self.met.meet_if(rows.content.len() + 1 == log.len() * 12, "8 for a byte short of the rows"),
            14 => {
                let steps = read_sheet(&model.content).expect("the sheets come before 14").steps.len();
                let number = log[refusal.row - 1] as usize;
                let cut = number >= steps && number % 256 < steps;
                self.met.meet_if(cut, "14 for a number that 8 bits would cut to a step");
                self.met.meet_if(number >= steps, "14 for a step that is not there");
                self.met.meet_if(number < steps, "14 for a step that cannot be taken");
                self.met.meet(if refusal.row == 1 { "14 in the first row" } else { "14 in a later row" });
                self.met.meet_if(refusal.row == 255, "14 in row 255");
            }
            15 => self.met.meet(if log.len() == 256 { "15 for 256 steps" } else { "15 for more" }),
            _ => {}
        }
    }

    /// Prints the tables and says whether each answer was met often enough.
    pub fn enough(&self, calls: u64) -> bool {
        let refused = self.refused.enough(&ENTRIES, &possible(), floor(calls, 400));
        println!("answers");
        self.met.enough(OTHERS, floor(calls, 800)) && refused
    }
}

fn entry_of(call: &Call) -> &'static str {
    match call {
        Call::Run { .. } => "run",
        Call::Question { .. } => "question",
        Call::Replay { .. } => "replay",
    }
}

/// The count of a cut part: 8 bits after the 4 of the form.
fn cuts_in(part: &[u8]) -> u32 {
    (u32::from(part[0]) % 16) * 16 + u32::from(part[1]) / 16
}

/// One in so many calls; a comparison too short to say is not held to it.
fn floor(calls: u64, share: u64) -> u64 {
    if calls < LEAST {
        0
    } else {
        calls / share
    }
}

fn won_name(won: i64) -> &'static str {
    match won {
        ..=-1 => "won below zero",
        0 => "won zero",
        1.. => "won above zero",
    }
}

fn flaw_name(kind: Kind) -> &'static str {
    match kind {
        Kind::Goal => "goal flaw",
        Kind::Need => "need flaw",
        Kind::Divergence => "divergence flaw",
    }
}
