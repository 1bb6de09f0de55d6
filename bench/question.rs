// A question of 64 states after 255 cuts, on models at the limits: the library beside the same algorithm in plain Rust, in one run, with
// the stack that each touches. Every estimate is compared. The plain one alone, without the library:
//     rustc -O --out-dir target/bench bench/question.rs && target/bench/question
// With the archive that tools/build writes:
//     rustc -O --cfg library --out-dir target/bench bench/question.rs -L target/staticlib -lhistorian && target/bench/question
// Before there is one: in a copy of the repository, a crate `ask` (in crates.txt as `ask staticlib: asking`) of
//     use asking::question;
//     #[unsafe(no_mangle)]
//     pub extern "C" fn question_numbers(model: &[u8], sheet: &[u8], states: &[u8], estimates: &mut [u32]) -> u32 {
//         match question(model, sheet, states, estimates) {
//             Ok(_) => 0,
//             Err(refusal) => u32::from(refusal.number()),
//         }
//     }
// built by `rt lib` in crates/ask, and then
//     rustc -O --cfg numbers --out-dir target/bench bench/question.rs -L COPY/crates/ask/out -lask && target/bench/question
mod clock;
#[cfg(library)]
mod entries;
mod models;
mod plain;
mod sheets;
mod stack;

use clock::{in_turn, median, timed};
#[cfg(library)]
use entries as library;
use models::cut_sheet;
use plain::Unwatched;

type Entry = fn(&[u8], &[u8], &[u8], &mut [u8]) -> u32;

#[cfg(numbers)]
mod library {
    extern "C" {
        fn question_numbers(
            model: *const u8, model_len: usize, cut_sheet: *const u8, cut_sheet_len: usize, states: *const u8, states_len: usize,
            estimates: *mut u32, estimates_len: usize,
        ) -> u32;
    }

    pub fn question(model: &[u8], sheet: &[u8], states: &[u8], estimates: &mut [u8]) -> u32 {
        let mut list = [0; 64];
        let room = (estimates.len() / 4).min(64);
        let code = unsafe {
            question_numbers(
                model.as_ptr(), model.len(), sheet.as_ptr(), sheet.len(), states.as_ptr(), states.len(), list.as_mut_ptr(), room,
            )
        };
        if code == 0 {
            for k in 0..states.len() / crate::plain::field(model, 4, 5) as usize {
                crate::plain::put_value(list[k], k, estimates);
            }
        }
        code
    }
}

#[cfg(any(library, numbers))]
const LIBRARY: Option<Entry> = Some(library::question);
#[cfg(not(any(library, numbers)))]
const LIBRARY: Option<Entry> = None;

fn plain_question(model: &[u8], sheet: &[u8], states: &[u8], estimates: &mut [u8]) -> u32 {
    plain::question_entry(model, sheet, states, estimates, &mut Unwatched)
}

// The values of a list in bytes.
fn values(bytes: &[u8]) -> Vec<u32> {
    bytes.chunks(4).map(|b| u32::from_be_bytes([b[0], b[1], b[2], b[3]])).collect()
}

struct Question {
    name: String,
    model: Vec<u8>,
    sheet: Vec<u8>,
    states: Vec<u8>,
}

fn asked(entry: Entry, q: &Question) -> (u32, Vec<u8>) {
    let mut estimates = vec![0x33; 65 * 4]; // one place more than needed, to see that it stays
    let code = entry(&q.model, &q.sheet, &q.states, &mut estimates);
    (code, estimates)
}

fn stack_of(entry: Entry, q: &Question) -> usize {
    let mut estimates = [0; 256];
    stack::touched(|| {
        entry(&q.model, &q.sheet, &q.states, &mut estimates);
    })
}

fn measure(q: &Question, reps: usize) {
    let (code, told) = asked(plain_question, q);
    assert_eq!(code, 0, "{}", q.name);
    if let Some(entry) = LIBRARY {
        assert!(asked(entry, q) == (code, told.clone()), "{}", q.name);
    }
    let (mut ours, mut theirs) = (Vec::new(), Vec::new());
    let mut estimates = [0; 256];
    for (i, entry) in in_turn(LIBRARY, plain_question as Entry, reps) {
        let t = timed(|| entry(&q.model, &q.sheet, &q.states, &mut estimates)).0;
        [&mut ours, &mut theirs][i].push(t);
    }
    let mut seen = values(&told[..256]);
    seen.sort();
    seen.dedup();
    let theirs = median(&mut theirs) * 1e3;
    print!("{:62} ", q.name);
    if let Some(entry) = LIBRARY {
        let ours = median(&mut ours) * 1e3;
        print!("{ours:7.3} ms, plain {theirs:7.3} ms, ratio {:.2}, stack {} and {}", ours / theirs, stack_of(entry, q), stack_of(plain_question, q));
    } else {
        print!("plain {theirs:7.3} ms, stack {}", stack_of(plain_question, q));
    }
    println!(", {} estimates apart", seen.len());
}

fn main() {
    let m = models::rethread(5);
    let q = Question {
        name: m.name.clone(),
        model: m.sheet(),
        sheet: cut_sheet(&m.sheet(), &models::RETHREAD_CUTS),
        states: vec![1, 0, 0, 1, 0, 2],
    };
    let (code, told) = asked(LIBRARY.unwrap_or(plain_question), &q);
    assert_eq!(code, 0);
    println!("small re-thread: 1,0 and 0,1 and 0,2 give {:?}", values(&told[..12]));
    assert_eq!(values(&told[..12]), [110, 70, 0]);
    assert!(told[12..].iter().all(|b| *b == 0x33));
    let reps = std::env::args().nth(1).and_then(|n| n.parse().ok()).unwrap_or(51);
    println!("64 states after 255 cuts, 16 columns of 32 positions, 128 steps");
    for s in sheets::all() {
        measure(&Question { name: s.name, model: s.model, sheet: s.sheet, states: s.states }, reps);
    }
}
