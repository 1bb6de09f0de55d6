// A whole run: the library's C entry beside the same algorithm in plain Rust, in one run, with the stack that each touches and where the
// time of the plain one goes. Answers and every byte of both lists are compared. The plain one alone, without the library:
//     rustc -O --out-dir target/bench bench/run.rs && target/bench/run
// With the archive that tools/build writes (a number after it says how often a model at the limits is run):
//     rustc -O --cfg library --out-dir target/bench bench/run.rs -L target/staticlib -lhistorian && target/bench/run
mod clock;
#[cfg(library)]
mod entries;
mod models;
mod plain;
mod stack;

use clock::{in_turn, median, timed};
use models::Model;
use plain::{Part, Unwatched, Watch};
use std::time::Instant;

type Entry = fn(&[u8], u32, &mut [u8], &mut [u8]) -> u64;

#[cfg(library)]
const LIBRARY: Option<Entry> = Some(entries::run);
#[cfg(not(library))]
const LIBRARY: Option<Entry> = None;

fn plain_run(sheet: &[u8], room: u32, cuts: &mut [u8], rows: &mut [u8]) -> u64 {
    plain::run_entry(sheet, room, cuts, rows, &mut Unwatched)
}

// The time of each part, and the lengths of the traces.
struct Parts {
    since: Instant,
    part: Part,
    seconds: [f64; 5],
    traces: Vec<usize>,
    walked: Vec<usize>,
}

impl Watch for Parts {
    fn enter(&mut self, part: Part) {
        let now = Instant::now();
        self.seconds[self.part as usize] += (now - self.since).as_secs_f64();
        self.since = now;
        self.part = part;
    }

    fn round(&mut self, trace: usize, walked: usize) {
        self.traces.push(trace);
        self.walked.push(walked);
    }
}

fn watched(m: &Model) -> Parts {
    let mut p = Parts { since: Instant::now(), part: Part::Reading, seconds: [0.0; 5], traces: Vec::new(), walked: Vec::new() };
    plain::run_entry(&m.sheet(), m.room, &mut [0; 3060], &mut [0; 3060], &mut p);
    p.enter(Part::Reading);
    p
}

fn mean(v: &[usize]) -> f64 {
    v.iter().sum::<usize>() as f64 / v.len().max(1) as f64
}

// An answer in the words of the change sheet.
fn told(answer: u64) -> String {
    let (kind, blocks, steps, value) = (answer >> 56, answer >> 44 & 0xfff, answer >> 32 & 0xfff, answer & 0xffffffff);
    match kind {
        0 => format!("refused {value}"),
        1 => format!("plan {value} steps {steps} blocks {blocks}"),
        2 => format!("no plan blocks {blocks}"),
        _ => format!("open {value} blocks {blocks}"),
    }
}

const UNTOUCHED: u8 = 0x33;

// An answer with both lists.
fn whole(entry: Entry, m: &Model) -> (u64, Vec<u8>, Vec<u8>) {
    let places = m.room as usize * 12; // one more than needed, to see that it stays
    let (mut cuts, mut rows) = (vec![UNTOUCHED; places], vec![UNTOUCHED; places]);
    let answer = entry(&m.sheet(), m.room, &mut cuts, &mut rows);
    (answer, cuts, rows)
}

fn stack_of(entry: Entry, m: &Model) -> usize {
    let sheet = m.sheet();
    let (mut cuts, mut rows) = ([0; 3060], [0; 3060]);
    stack::touched(|| {
        entry(&sheet, m.room, &mut cuts, &mut rows);
    })
}

// The median of sorted times and, since others on the machine only add, the least.
fn shown(times: &[f64]) -> String {
    format!("{:9.3} ms (least {:.3})", times[times.len() / 2] * 1e3, times[0] * 1e3)
}

fn measure(m: &Model, reps: usize) -> u64 {
    let told_plain = whole(plain_run, m);
    if let Some(entry) = LIBRARY {
        assert!(whole(entry, m) == told_plain, "{}", m.name);
    }
    let sheet = m.sheet();
    let (mut cuts, mut rows) = ([0; 3060], [0; 3060]);
    let (mut ours, mut theirs) = (Vec::new(), Vec::new());
    for (i, entry) in in_turn(LIBRARY, plain_run as Entry, reps) {
        let t = timed(|| entry(&sheet, m.room, &mut cuts, &mut rows)).0;
        [&mut ours, &mut theirs][i].push(t);
    }
    print!("{:48} {:36} ", m.name, told(told_plain.0));
    let middle = median(&mut theirs);
    if let Some(entry) = LIBRARY {
        let ratio = median(&mut ours) / middle;
        print!("{}, plain {}, ratio {ratio:.2}, stack {} and {}", shown(&ours), shown(&theirs), stack_of(entry, m), stack_of(plain_run, m));
    } else {
        print!("plain {}, stack {}", shown(&theirs), stack_of(plain_run, m));
    }
    let p = watched(m);
    let all: f64 = p.seconds.iter().sum();
    let share = |part: Part| p.seconds[part as usize] / all * 100.0;
    println!(
        ", reading {:.1} tables {:.1} distances {:.1} trace {:.1} walk {:.1} %, trace mean {:.0} max {}, walked {:.0}",
        share(Part::Reading), share(Part::Tables), share(Part::Distances), share(Part::Trace), share(Part::Walk),
        mean(&p.traces), p.traces.iter().max().unwrap_or(&0), mean(&p.walked)
    );
    told_plain.0
}

fn main() {
    let reps = std::env::args().nth(1).and_then(|n| n.parse().ok()).unwrap_or(3);
    println!("marked models");
    for (m, [kind, blocks, steps, value]) in models::marked() {
        let answer = measure(&m, if m.room < 200 { 200 } else { 5 });
        assert_eq!(answer, plain::answer_number(kind, blocks as usize, steps as usize, value as u32), "{}", m.name);
    }
    println!("typical models: 5 columns of 4 positions, 20 steps, room 64");
    for m in models::typicals() {
        measure(&m, 100);
    }
    println!("at the limits: 16 columns of 32 positions, 128 steps, room 256");
    for m in models::at_limits() {
        assert!(m.columns.len() == 16 && m.steps.len() == 128, "{}", m.name);
        measure(&m, reps);
    }
}
