//! Makes cases for the program of library_program.txt, which calls the library's functions on sheets, and works out what
//! it should print.
//!
//!     library FOLDER [SEED] [BATCHES]
//!
//! Each batch is a folder of FOLDER, with the files stdin and stdout: first one small model from end to end, then calls by
//! SEED. The numbers of the cases run through all of them.

#![allow(dead_code)] // the modules are shared with the other tests

mod call;
mod chance;
mod counts;
mod damage;
mod every;
mod examples;
mod kinds;
mod lending;
mod lent;
mod making;
mod places;
mod planner;
mod replaying;
mod shapes;
mod tables;

use chance::Chance;
use kinds::Kinds;
use tables::{Call, Function};

/// `rt try` takes 1,048,576 bytes of output, and no more.
const LONGEST: usize = 1_000_000;

/// So many replays of the small model come before the other functions.
const REPLAYS_FIRST: usize = 20;

/// How often each refusal and each kind of call has to be met.
const FLOOR: u64 = 5;

/// What the program reads, and what it should print.
#[derive(Default)]
struct Batch {
    stdin: Vec<u8>,
    stdout: String,
}

/// One batch after the other, with what is counted on the way.
struct Cases {
    seed: u64,
    count: u64,
    drawn: u64,
    kinds: Kinds,
}

fn main() {
    let words: Vec<String> = std::env::args().skip(1).collect();
    let folder = words.first().expect("library FOLDER [SEED] [BATCHES]");
    let number = |place: usize, usual: u64| words.get(place).map_or(usual, |word| word.parse().expect("a number"));
    let (seed, batches) = (number(1, 1), number(2, 4));
    let mut cases = Cases { seed, count: 0, drawn: 0, kinds: Kinds::default() };
    for place in 1..=batches {
        let first = cases.count + 1;
        let batch = match place {
            1 => cases.of_small_model(),
            _ => cases.by_seed(place == batches),
        };
        write(&format!("{folder}/{place}"), &batch).expect("the folder can be written to");
        println!("batch {place}: cases {first} to {}", cases.count);
    }
    if !cases.kinds.enough(FLOOR) {
        println!("library: some answers were met too seldom to say anything");
        std::process::exit(1);
    }
    println!("library: {} cases", cases.count);
}

fn write(folder: &str, batch: &Batch) -> std::io::Result<()> {
    std::fs::create_dir_all(folder)?;
    std::fs::write(format!("{folder}/stdin"), &batch.stdin)?;
    std::fs::write(format!("{folder}/stdout"), &batch.stdout)
}

impl Cases {
    /// A source of random numbers for the next draw.
    fn chance(&mut self) -> Chance {
        self.drawn += 1;
        Chance::new(self.seed, self.drawn)
    }

    /// In no order, since the interpreter may not come to the end of them. It takes long over a replay, so that it would see
    /// little of the other functions if most replays did not come last.
    fn of_small_model(&mut self) -> Batch {
        let mut chance = self.chance();
        let mut calls = places::every_call(&mut chance);
        chance.shuffle(&mut calls);
        let (replays, others): (Vec<Call>, Vec<Call>) =
            calls.into_iter().partition(|call| call.given.function == Function::Replay);
        let mut batch = Batch::default();
        self.add(&mut batch, &replays[..REPLAYS_FIRST]);
        self.add(&mut batch, &others);
        self.add(&mut batch, &replays[REPLAYS_FIRST..]);
        batch
    }

    /// As many cases as `rt try` takes. The interpreter gets to the largest model only if it comes first.
    fn by_seed(&mut self, largest_first: bool) -> Batch {
        let mut batch = Batch::default();
        let largest = [self.largest(), self.largest()].concat();
        if largest_first {
            self.add(&mut batch, &largest);
        }
        while batch.stdout.len() < LONGEST - 100_000 {
            let calls = lending::any_calls(&mut self.chance());
            self.add(&mut batch, &calls);
        }
        if !largest_first {
            self.add(&mut batch, &largest);
        }
        assert!(batch.stdout.len() < LONGEST);
        batch
    }

    fn largest(&mut self) -> Vec<Call> {
        lending::largest_calls(&mut self.chance())
    }

    fn add(&mut self, batch: &mut Batch, calls: &[Call]) {
        for call in calls {
            self.count += 1;
            self.kinds.count(call);
            let words = format!("{} {}: {}", self.count, call.given.function.name(), call.words);
            batch.stdin.extend(call.input(&words));
            batch.stdout += &call.lines(&words);
        }
    }
}
