// A pass over the distances: times of the library beside the same algorithm in plain Rust, in one run, and a
// comparison of 200 random graphs with a relaxation on need and effect marks.
//
// The library exports no pass. To measure, mark `fill_distances` of crates/settling in a copy of the repository
// `#[unsafe(no_mangle)] pub extern "C"`, and `Shape` of crates/task, `Tables` of crates/masks and `Blocks` of crates/cutting `#[repr(C)]`, call it `settling staticlib` in crates.txt, take the crates above it out
// of there, build it by `rt lib` in crates/settling, and then here
//     rustc -O --out-dir target/bench bench/distances.rs -L COPY/crates/settling/out -lsettling && target/bench/distances
mod clock;
mod models;
mod plain;

use clock::on_cpu;
use models::Random;
use plain::{Sets, Unwatched, NO_WAY};

#[repr(C)]
struct Shape {
    columns: usize,
    steps: usize,
}

// As in the library: rows of needs, of landings, the goal, the start.
#[repr(C)]
struct Tables {
    shape: Shape,
    rows: [u32; (2 * 128 + 2) * 16],
    costs: [u16; 128],
    sizes: [u8; 16],
}

#[repr(C)]
struct Blocks {
    count: usize,
    sets: Sets,
}

extern "C" {
    fn fill_distances(tables: &Tables, blocks: &Blocks, dist: &mut [u64; 256]);
}

struct Case {
    name: String,
    columns: usize,
    steps: usize,
    count: usize,
    sets: Vec<u32>,
    need: Vec<u8>,
    effect: Vec<u8>,
    costs: Vec<u16>,
    goal: Vec<u8>,
}

// By another way: (cost, steps) pairs relaxed until nothing changes, on marks.
fn slow(c: &Case) -> Vec<Option<(u64, u64)>> {
    let has = |m: u32, p: u8| m >> (p - 1) & 1 == 1;
    let mut d: Vec<Option<(u64, u64)>> = (0..c.count)
        .map(|a| (0..c.columns).all(|j| c.goal[j] == 0 || has(c.sets[a * 16 + j], c.goal[j])).then_some((0, 0)))
        .collect();
    loop {
        let mut changed = false;
        for a in 0..c.count {
            for b in 0..c.count {
                let Some((cost, n)) = d[b] else { continue };
                for s in 0..c.steps {
                    let v = (cost + c.costs[s] as u64, n + 1);
                    let leads = |j: usize| {
                        let (ne, ef) = (c.need[s * 16 + j], c.effect[s * 16 + j]);
                        let (x, y) = (c.sets[a * 16 + j], c.sets[b * 16 + j]);
                        (ne == 0 || has(x, ne)) && (if ef != 0 { has(y, ef) } else if ne != 0 { has(y, ne) } else { x & y != 0 })
                    };
                    if d[a].map_or(true, |x| v < x) && (0..c.columns).all(leads) {
                        d[a] = Some(v);
                        changed = true;
                    }
                }
            }
        }
        if !changed {
            return d;
        }
    }
}

fn run(c: &Case, reps: usize) {
    let bit = plain::mark_set;
    let mut needs = [0u32; 2048];
    let mut lands = [0u32; 2048];
    for i in 0..c.steps * 16 {
        needs[i] = bit(c.need[i]);
        lands[i] = if c.effect[i] != 0 { bit(c.effect[i]) } else { bit(c.need[i]) };
    }
    let mut goals = [0u32; 16];
    for j in 0..16 {
        goals[j] = bit(c.goal[j]);
    }
    let mut tables = Tables { shape: Shape { columns: c.columns, steps: c.steps }, rows: [0; (2 * 128 + 2) * 16], costs: [0; 128], sizes: [0; 16] };
    tables.rows[..2048].copy_from_slice(&needs);
    tables.rows[2048..4096].copy_from_slice(&lands);
    tables.rows[4096..4112].copy_from_slice(&goals);
    tables.costs[..c.steps].copy_from_slice(&c.costs[..c.steps]);
    let mut blocks = Blocks { count: c.count, sets: [0; 4096] };
    blocks.sets[..c.sets.len()].copy_from_slice(&c.sets);
    let (mut ours, mut theirs) = (f64::MAX, f64::MAX);
    let (mut d1, mut d2) = ([7u64; 256], [7u64; 256]);
    for _ in 0..reps {
        let t = on_cpu();
        unsafe { fill_distances(&tables, &blocks, &mut d1) };
        ours = ours.min(on_cpu() - t);
        let t = on_cpu();
        plain::fill_distances(c.columns, c.steps, c.count, &needs, &lands, &goals, &c.costs, &blocks.sets, &mut d2, &mut Unwatched);
        theirs = theirs.min(on_cpu() - t);
    }
    assert!(d1 == d2, "{}", c.name);
    for (a, d) in slow(c).iter().enumerate() {
        assert_eq!((d1[a] != NO_WAY).then_some((d1[a] >> 16, d1[a] & 65535)), *d, "{} {a}", c.name);
    }
    assert!(d1[c.count..].iter().all(|x| *x == 7), "{}", c.name);
    if reps > 1 {
        // the passes of a run that fills its room: one for each number of blocks
        let (mut all, mut plain_all) = (f64::MAX, f64::MAX);
        for _ in 0..3 {
            let t = on_cpu();
            for count in 1..=256 {
                blocks.count = count;
                unsafe { fill_distances(&tables, &blocks, &mut d1) };
            }
            all = all.min(on_cpu() - t);
            let t = on_cpu();
            for count in 1..=256 {
                plain::fill_distances(c.columns, c.steps, count, &needs, &lands, &goals, &c.costs, &blocks.sets, &mut d2, &mut Unwatched);
            }
            plain_all = plain_all.min(on_cpu() - t);
        }
        let reached = d1[..c.count].iter().filter(|x| **x < NO_WAY).count();
        println!("{:28} {:7.3} ms, plain Rust {:7.3} ms, ratio {:.2}, reached {reached}", c.name, ours * 1e3, theirs * 1e3, ours / theirs);
        println!("{:28} {:7.1} ms, plain Rust {:7.1} ms, ratio {:.2}", "    256 passes", all * 1e3, plain_all * 1e3, all / plain_all);
    }
}

fn random_graph(r: &mut Random, round: usize) -> Case {
    let count = 1 + r.below(30) as usize;
    let steps = r.below(50) as usize;
    let mark = |r: &mut Random| if r.below(3) == 0 { 0 } else { 1 + r.below(4) as u8 };
    Case {
        name: format!("random {round}"),
        columns: 1 + r.below(5) as usize,
        steps,
        count,
        sets: (0..count * 16).map(|_| loop { let v = (r.below(16) & r.below(16)) as u32; if v != 0 { break v } }).collect(),
        need: (0..steps * 16).map(|_| if r.below(2) == 0 { 0 } else { mark(r) }).collect(),
        effect: (0..steps * 16).map(|_| mark(r)).collect(),
        costs: (0..steps).map(|_| (r.below(5) * r.below(5)) as u16).collect(),
        goal: (0..16).map(|_| if r.below(2) == 0 { 0 } else { 1 + r.below(4) as u8 }).collect(),
    }
}

// The largest sizes: every column full but for what the case says, so that a test fails late.
fn largest(name: &str, set: impl Fn(usize, usize) -> u32, step: impl Fn(usize, &mut [u8], &mut [u8]), goal: &[(usize, u8)]) -> Case {
    let mut c = Case {
        name: name.into(), columns: 16, steps: 128, count: 256, sets: vec![0; 4096], need: vec![0; 2048], effect: vec![0; 2048],
        costs: (0..128).map(|s| 60000 + s).collect(), goal: vec![0; 16],
    };
    for i in 0..4096 {
        c.sets[i] = set(i / 16, i % 16);
    }
    for s in 0..128 {
        step(s, &mut c.need[s * 16..s * 16 + 16], &mut c.effect[s * 16..s * 16 + 16]);
    }
    for (j, m) in goal {
        c.goal[*j] = *m;
    }
    c
}

fn random_cuts(r: &mut Random, shift: bool) -> Case {
    let mut sets: Vec<Vec<u32>> = vec![vec![0xff; 16]];
    while sets.len() < 256 {
        let b = r.below(sets.len() as u64) as usize;
        let j = r.below(16) as usize;
        let v = sets[b][j];
        if v.count_ones() < 2 {
            continue;
        }
        let w = loop { let w = v & r.below(256) as u32; if w != 0 && w != v { break w } };
        let mut new = sets[b].clone();
        new[j] = w;
        sets[b][j] = v & !w;
        sets.push(new);
    }
    let flat = sets.concat();
    let mut c = largest(if shift { "random cuts, falling costs" } else { "random cuts" }, |a, j| flat[a * 16 + j], |_, _, _| (), &[]);
    for s in 0..128 {
        for _ in 0..3 { c.need[s * 16 + r.below(16) as usize] = 1 + r.below(8) as u8; }
        for _ in 0..2 { c.effect[s * 16 + r.below(16) as usize] = 1 + r.below(8) as u8; }
        if shift { c.costs[s] = 60000 - s as u16; }
    }
    for j in 0..8 {
        c.goal[j] = 1 + r.below(8) as u8;
    }
    c
}

fn main() {
    let mut r = Random(88172645463325252);
    for round in 0..200 {
        run(&random_graph(&mut r, round), 1);
    }
    println!("200 random graphs agree with a relaxation on marks");
    let full = u32::MAX;
    run(&largest("grid, late failures",
        |a, j| if j == 14 { 1 << (a / 16) } else if j == 15 { 1 << (a % 16) } else { full },
        |s, need, effect| { let k = s % 30; let (j, x) = if k < 15 { (14, k + 1) } else { (15, k - 14) }; need[j] = x as u8 + 1; effect[j] = x as u8; },
        &[(14, 1), (15, 1)]), 20);
    run(&largest("chain, late failures",
        |a, j| if j == 14 { 1 << (a / 32) } else if j == 15 { 1 << (a % 32) } else { full },
        |s, need, effect| {
            if (31..38).contains(&s) {
                let x = (s - 31) as u8;
                need[14] = x + 2; effect[14] = x + 1; need[15] = 1; effect[15] = 32;
            } else {
                let x = (s % 31) as u8;
                need[15] = x + 2; effect[15] = x + 1;
            }
        },
        &[(14, 1), (15, 1)]), 20);
    run(&largest("apart in the last column", |a, j| if j == 15 { if a < 128 { 1 } else { 2 } } else { full }, |_, _, effect| effect[0] = 1, &[(15, 1)]), 20);
    run(&random_cuts(&mut r, false), 20);
    run(&random_cuts(&mut r, true), 20);
}
