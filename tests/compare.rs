//! Compares the product's C entries with the independent planner.
//!
//!     compare [SEED] [CALLS] [FIRST]
//!
//! First the papers' examples and one small model from end to end, then CALLS calls by SEED, from call FIRST on.
//! Compared are the answer, every byte of every slice, and the bytes around them. A difference is printed with its
//! seed and call; `compare SEED 1 CALL` shows that call again.

mod call;
mod chance;
mod counts;
mod damage;
mod every;
mod every_log;
mod examples;
mod judge;
mod laws;
mod lent;
mod making;
mod planner;
mod product;
mod replaying;
mod shapes;
mod tally;
mod watch;

use call::{Call, Slice};
use chance::Chance;
use judge::{difference, judge, shown, Expected, Outcome};
use planner::blocks::Cut;
use planner::entries::number;
use planner::run::Answer;
use planner::sheet::{write_cut_sheet, write_sheet};
use planner::task::{Model, State, Step};
use planner::NO_WAY;
use product::{Product, Seen};
use tally::Tally;

/// One comparison after the other, with what is counted on the way.
struct Compare {
    product: Product,
    tally: Tally,
    calls: u64,
}

/// A difference, said in words; the call that showed it.
struct Difference {
    words: String,
    call: Call,
}

fn main() {
    let numbers: Vec<u64> = std::env::args().skip(1).map(|word| word.parse().expect("a number")).collect();
    let seed = numbers.first().copied().unwrap_or(1);
    let calls = numbers.get(1).copied().unwrap_or(20_000);
    let first = numbers.get(2).copied();
    if calls == 0 {
        println!("compare: no calls by seed: nothing is compared");
        std::process::exit(1);
    }
    watch::begin(seed);
    let mut compare = Compare { product: Product::new(), tally: Tally::default(), calls: 0 };
    let result = match first {
        Some(first) => compare.by_seed(seed, first, calls, calls == 1),
        None => compare.fixed_calls().and_then(|()| compare.by_seed(seed, 0, calls, false)),
    };
    if let Err(difference) = result {
        print!("compare: a difference in {}", watch::now());
        println!("{}\n{}", difference.words, shown(&difference.call));
        std::process::exit(1);
    }
    if first.is_none() && !compare.tally.enough(calls) {
        println!("compare: some answers were met too seldom to say anything");
        std::process::exit(1);
    }
    if first.is_none() && calls < tally::LEAST {
        println!(
            "left out: how often each answer is met ({calls} calls are too few to say, {} are enough)",
            tally::LEAST
        );
    }
    println!("compare: {} calls, 0 differences", compare.calls);
}

impl Compare {
    fn fixed_calls(&mut self) -> Result<(), Difference> {
        for example in examples::examples() {
            watch::call(&example.name);
            self.example(&example)?;
        }
        watch::call("lengths of 33 bits");
        self.vast();
        for (number, call) in every::every_call().iter().enumerate() {
            watch::call(&format!("{number} of the small model's"));
            self.compared(call)?;
        }
        for (number, call) in every_log::every_call().iter().enumerate() {
            watch::call(&format!("{number} of the small models' replays"));
            let (seen, expected) = self.compared(call)?;
            self.replay_laws(call, &seen, &expected)?;
        }
        Ok(())
    }

    /// The papers' own figures, beside the independent planner's.
    fn example(&mut self, example: &examples::Example) -> Result<(), Difference> {
        let (seen, expected) = self.compared(&example.call)?;
        let mut good = seen.answer == example.answer;
        for (values, slice) in example.values.iter().zip(&expected.slices) {
            let bytes: Vec<u8> = values.iter().flat_map(|value| value.to_be_bytes()).collect();
            // input slices have no values here
            good &=
                values.is_empty() || slice.starts_with(&bytes) && slice[bytes.len()..].iter().all(|byte| *byte == 0xa5);
        }
        if good {
            return Ok(());
        }
        let words = format!("the example '{}' comes out otherwise: {:#x}", example.name, seen.answer);
        Err(Difference { words, call: example.call.clone() })
    }

    /// Left out where the system gives no such memory.
    fn vast(&mut self) {
        let sheet = [0x10, 0x80, 0x02, 0x00, 0x00];
        let beyond = 1 << 32;
        let Some(memory) = lent::vast(beyond + 8192) else {
            println!("left out: lengths of 33 bits (no such memory)");
            return;
        };
        let step = Step { cost: 7, needs: vec![None], effects: vec![None] };
        let model = Model { sizes: vec![1], start: vec![0], goal: vec![None], steps: vec![step] };
        let mut answers = product::vast_runs(&sheet, memory, beyond);
        answers.extend(product::vast_replays(&write_sheet(&model), &write_cut_sheet(&model, &[]), memory, beyond));
        self.calls += answers.len() as u64;
        if answers != [6, number(1, 1, 0, 0), 15, number(1, 0, 1, 0)] {
            println!("compare: lengths of 33 bits: {answers:?}");
            std::process::exit(1);
        }
    }

    fn by_seed(&mut self, seed: u64, first: u64, calls: u64, show: bool) -> Result<(), Difference> {
        for number in first..first + calls {
            watch::call(&number.to_string());
            let mut chance = Chance::new(seed, number);
            let call = making::any_call(&mut chance);
            if show {
                println!("{}", shown(&call));
            }
            let (seen, expected) = self.compared(&call)?;
            self.laws(&mut chance, &call, &seen, &expected)?;
        }
        Ok(())
    }

    fn compared(&mut self, call: &Call) -> Result<(Seen, Expected), Difference> {
        let expected = judge(call);
        let seen = self.product.call(call);
        self.calls += 1;
        if let Some(words) = difference(call, &seen, &expected) {
            return Err(Difference { words, call: call.clone() });
        }
        self.tally.count(call, &expected.outcome);
        Ok((seen, expected))
    }

    /// What the task itself says of an answer; the slices are equal by now, so that it is said of both planners.
    fn laws(&mut self, chance: &mut Chance, call: &Call, seen: &Seen, expected: &Expected) -> Result<(), Difference> {
        let wrong = match (&expected.outcome, call) {
            (Outcome::Ran(model, run), Call::Run { room, .. }) => {
                laws::wrong_run(model, u64::from(*room), run, chance.percent(10))
            }
            (Outcome::Asked(model, values), Call::Question { states, .. }) if chance.percent(40) => {
                laws::wrong_estimates(model, &states.content, values)
            }
            _ => None,
        };
        if let Some(words) = wrong {
            return Err(Difference { words, call: call.clone() });
        }
        if chance.percent(40) {
            self.replay_laws(call, seen, expected)?;
        }
        if let Outcome::Ran(model, run) = &expected.outcome {
            if model.columns() < 9 && chance.percent(25) {
                if let Answer::Plan { steps, .. } = &run.answer {
                    self.replay_plan(model, seen, run.cuts.len(), steps.len())?;
                }
                let value = match run.answer {
                    Answer::Plan { cost, .. } => cost,
                    Answer::Open { estimate } => estimate,
                    Answer::NoPlan => NO_WAY,
                };
                return self.ask_after(chance, model, &run_cuts(seen, run.cuts.len()), value);
            }
        }
        Ok(())
    }

    /// The cuts that the product listed, asked about: the start has the run's own figure, and from a shorter list to
    /// the whole one no state's estimate falls.
    fn ask_after(&mut self, chance: &mut Chance, model: &Model, cuts: &[Cut], value: u64) -> Result<(), Difference> {
        let mut states = vec![model.start.clone()];
        states.extend((0..chance.below(20)).map(|_| shapes::random_state(chance, &model.sizes)));
        let sheet = Slice::plain(write_sheet(model));
        let cut_sheet = |cuts: &[Cut]| Slice::plain(write_cut_sheet(model, cuts));
        let (call, after) = self.asked(&sheet, &cut_sheet(cuts), &states)?;
        let fewer = chance.below(cuts.len() + 1);
        let (_, before) = self.asked(&sheet, &cut_sheet(&cuts[..fewer]), &states)?;
        let wrong = if after[0] != value {
            Some(format!("the start's estimate is {}, the run's {value}", after[0]))
        } else {
            let fallen = before.iter().zip(&after).position(|(before, after)| before > after);
            fallen.map(|state| format!("the estimate of state {state} falls after cut {fewer}"))
        };
        wrong.map_or(Ok(()), |words| Err(Difference { words, call }))
    }

    /// The product's plan, replayed after the cuts that the product listed with it: each step wins what it costs.
    fn replay_plan(&mut self, model: &Model, ran: &Seen, cuts: usize, steps: usize) -> Result<(), Difference> {
        let log = words_of(&ran.slices[2]).chunks(3).take(steps).flat_map(|row| row[0].to_be_bytes()).collect();
        let call = Call::Replay {
            model: Slice::plain(write_sheet(model)),
            cut_sheet: Slice::plain(write_cut_sheet(model, &run_cuts(ran, cuts))),
            log: Slice::plain(log),
            rows: Slice::plain(vec![0x77; steps * 12]),
        };
        let (seen, expected) = self.compared(&call)?;
        self.replay_laws(&call, &seen, &expected)?;
        if said_rows(&seen, steps).iter().all(|[paid, won, detour]| paid == won && *detour == 0) {
            return Ok(());
        }
        Err(Difference { words: "a plan with a detour after its own cuts".to_string(), call })
    }

    /// What order 7 says of the rows that the product wrote, by the product's own estimates.
    fn replay_laws(&mut self, call: &Call, seen: &Seen, expected: &Expected) -> Result<(), Difference> {
        let (Outcome::Replayed(model, replay), Call::Replay { model: sheet, cut_sheet, .. }) =
            (&expected.outcome, call)
        else {
            return Ok(());
        };
        let mut estimates = Vec::new();
        // no question takes more states
        for states in replay.states.chunks(64) {
            estimates.extend(self.asked(sheet, cut_sheet, states)?.1);
        }
        let wrong = laws::wrong_rows(model, replay, &estimates, &said_rows(seen, replay.rows.len()));
        wrong.map_or(Ok(()), |words| Err(Difference { words, call: call.clone() }))
    }

    fn asked(&mut self, model: &Slice, cut_sheet: &Slice, states: &[State]) -> Result<(Call, Vec<u64>), Difference> {
        let call = Call::Question {
            model: model.clone(),
            cut_sheet: cut_sheet.clone(),
            states: Slice::plain(states.iter().flatten().map(|position| *position as u8).collect()),
            estimates: Slice::plain(vec![0x77; states.len() * 4]),
        };
        let (seen, _) = self.compared(&call)?;
        let values = words_of(&seen.slices[3]).iter().map(|value| u64::from(*value)).collect();
        Ok((call, values))
    }
}

/// The values of a list of the product's.
fn words_of(bytes: &[u8]) -> Vec<u32> {
    bytes.chunks_exact(4).map(|word| u32::from_be_bytes([word[0], word[1], word[2], word[3]])).collect()
}

/// The rows as the product's bytes have them.
fn said_rows(seen: &Seen, count: usize) -> Vec<laws::Said> {
    let values: Vec<i64> = words_of(&seen.slices[3]).iter().map(|value| i64::from(*value as i32)).collect();
    values.chunks_exact(3).take(count).map(|row| [row[0], row[1], row[2]]).collect()
}

/// The cuts as the product's bytes have them.
fn run_cuts(seen: &Seen, count: usize) -> Vec<Cut> {
    examples::cuts_of(&words_of(&seen.slices[1])[..count * 3])
}
