// A replay of 255 steps after 255 cuts, on models at the limits: the library beside the same algorithm in plain Rust and beside its own
// question of 64 states on the same sheets, in one run, with the stack that each touches. Every byte of the rows is compared, and the rows
// are held to the estimates of the states along the log. The plain one alone, without the library:
//     rustc -O --out-dir target/bench bench/replay.rs && target/bench/replay
// With the archive that tools/build writes (a number after it says how often each call is made):
//     rustc -O --cfg library --out-dir target/bench bench/replay.rs -L target/staticlib -lhistorian && target/bench/replay
mod clock;
#[cfg(library)]
mod entries;
mod models;
mod plain;
mod sheets;
mod stack;

use clock::{median, timed};
use models::{along, cut_sheet, log, Random};
use plain::Unwatched;

type Replay = fn(&[u8], &[u8], &[u8], &mut [u8]) -> u64;
type Question = fn(&[u8], &[u8], &[u8], &mut [u8]) -> u32;

#[cfg(library)]
const LIBRARY: Option<(Replay, Question)> = Some((entries::replay, entries::question));
#[cfg(not(library))]
const LIBRARY: Option<(Replay, Question)> = None;

fn plain_replay(model: &[u8], sheet: &[u8], log: &[u8], rows: &mut [u8]) -> u64 {
    plain::replay_entry(model, sheet, log, rows, &mut Unwatched)
}

fn plain_question(model: &[u8], sheet: &[u8], states: &[u8], estimates: &mut [u8]) -> u32 {
    plain::question_entry(model, sheet, states, estimates, &mut Unwatched)
}

const DASH: i32 = 16777215;
const UNTOUCHED: u8 = 0x33;

// A log in bytes, and the values of a list in bytes.
fn bytes(log: &[u32]) -> Vec<u8> {
    log.iter().flat_map(|s| s.to_be_bytes().to_vec()).collect()
}

fn values(bytes: &[u8]) -> Vec<i32> {
    bytes.chunks(4).map(|b| i32::from_be_bytes([b[0], b[1], b[2], b[3]])).collect()
}

struct Case {
    name: String,
    model: Vec<u8>,
    sheet: Vec<u8>,
    log: Vec<u32>,
    paid: Vec<i32>,  // by each step
    along: Vec<u8>,  // the states along the log
    states: Vec<u8>, // those of the question
}

impl Case {
    fn new(name: String, of: &models::Model, sheet: Vec<u8>, log: Vec<u32>, states: Vec<u8>) -> Case {
        let paid = log.iter().map(|&s| of.steps[s as usize].cost as i32).collect();
        Case { name, model: of.sheet(), sheet, paid, along: along(of, &log), log, states }
    }
}

// An answer with its rows.
fn replayed(entry: Replay, c: &Case) -> (u64, Vec<u8>) {
    let mut rows = vec![UNTOUCHED; (c.log.len() + 1) * 12]; // one place more than needed, to see that it stays
    let answer = entry(&c.model, &c.sheet, &bytes(&c.log), &mut rows);
    (answer, rows)
}

// The same by questions, 64 states at a time, and 02's words.
fn by_questions(c: &Case) -> (u64, Vec<u8>) {
    let n = c.log.len();
    let columns = c.along.len() / (n + 1);
    let mut far = Vec::new();
    for states in c.along.chunks(64 * columns) {
        let mut estimates = vec![0; states.len() / columns * 4];
        assert_eq!(plain_question(&c.model, &c.sheet, states, &mut estimates), 0, "{}", c.name);
        far.extend(values(&estimates));
    }
    let way = far.iter().take_while(|e| **e != DASH).count(); // states from the start on that have one
    let mut rows = Vec::new();
    for i in 0..n {
        let (won, detour) = if i + 1 < way { (far[i] - far[i + 1], c.paid[i] - (far[i] - far[i + 1])) } else { (DASH, DASH) };
        rows.extend([c.paid[i] as u32, won as u32, detour as u32]);
    }
    (plain::answer_number(1, 0, n, 0), [bytes(&rows), vec![UNTOUCHED; 12]].concat())
}

fn stack_of(entry: Replay, c: &Case) -> usize {
    let log = bytes(&c.log);
    let mut rows = [0; 3060];
    stack::touched(|| {
        entry(&c.model, &c.sheet, &log, &mut rows);
    })
}

// Of each turn the times of the library's replay, of the plain one and of the question. Who goes first changes, since the next finds memory warm.
fn turns(c: &Case, ours: Replay, ask: Question, reps: usize) -> Vec<[f64; 3]> {
    let log = bytes(&c.log);
    let (mut rows, mut estimates) = ([0; 3060], [0; 256]);
    let mut out = vec![[0.0; 3]; reps];
    for k in 0..reps * 3 {
        let i = (k + k / 3) % 3;
        out[k / 3][i] = match i {
            0 => timed(|| ours(&c.model, &c.sheet, &log, &mut rows)).0,
            1 => timed(|| plain_replay(&c.model, &c.sheet, &log, &mut rows)).0,
            _ => timed(|| ask(&c.model, &c.sheet, &c.states, &mut estimates)).0,
        };
    }
    out
}

fn middle(turns: &[[f64; 3]], figure: impl Fn(&[f64; 3]) -> f64) -> f64 {
    median(&mut turns.iter().map(figure).collect::<Vec<_>>())
}

// The ratios to plain Rust and to the question: medians of those within a turn, so that a slow stretch of the machine counts for all three.
fn measure(c: &Case, reps: usize) -> [f64; 2] {
    let told = replayed(plain_replay, c);
    assert!(told == by_questions(c), "{}", c.name);
    let (ours, ask) = LIBRARY.unwrap_or((plain_replay, plain_question));
    assert!(replayed(ours, c) == told, "{}", c.name);
    let turns = turns(c, ours, ask, reps);
    let ms = |i: usize| middle(&turns, |t| t[i]) * 1e3;
    let ratios = [1, 2].map(|i| middle(&turns, |t| t[0] / t[i]));
    print!("{:62} {:7.3} ms, plain {:7.3} ms, ratio {:.2}, ", c.name, ms(0), ms(1), ratios[0]);
    print!("question {:7.3} ms, ratio {:.2}, stack {} and {}, ", ms(2), ratios[1], stack_of(ours, c), stack_of(plain_replay, c));
    let n = c.log.len();
    let won: Vec<i32> = values(&told.1[..n * 12]).into_iter().skip(1).step_by(3).collect();
    let count = |test: fn(i32) -> bool| won.iter().filter(|w| test(**w)).count();
    println!("{n} steps, {} win ground, {} lose some, {} dashes", count(|w| 0 < w && w != DASH), count(|w| w < 0), count(|w| w == DASH));
    ratios
}

fn main() {
    let m = models::rethread(5);
    let c = Case::new(m.name.clone(), &m, cut_sheet(&m.sheet(), &models::RETHREAD_CUTS), vec![0, 1, 2], Vec::new());
    let (answer, rows) = replayed(LIBRARY.map_or(plain_replay, |l| l.0), &c);
    println!("small re-thread: paid, won and detour of 0, 1 and 2 are {:?}", values(&rows[..36]));
    assert_eq!(answer, plain::answer_number(1, 0, 3, 0));
    assert_eq!(values(&rows[..36]), [20, -10, 30, 10, 10, 0, 30, 30, 0]);
    assert!(rows[36..].iter().all(|b| *b == UNTOUCHED));
    let reps = std::env::args().nth(1).and_then(|n| n.parse().ok()).unwrap_or(51);
    println!("255 steps after 255 cuts, 16 columns of 32 positions, 128 steps; the question has 64 states");
    if LIBRARY.is_none() {
        println!("(no library: the plain one beside itself)");
    }
    let mut largest = [0.0f64; 2];
    for s in sheets::all() {
        let steps = log(&s.of, 255, &mut Random::seeded(7));
        let ratios = measure(&Case::new(s.name, &s.of, s.sheet, steps, s.states), reps);
        for i in 0..2 {
            largest[i] = largest[i].max(ratios[i]);
        }
    }
    println!("the largest ratio to plain Rust is {:.2}, to the question {:.2}", largest[0], largest[1]);
}
