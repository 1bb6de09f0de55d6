// Models by seed, as model sheets: some at the limits whose runs fill the room or come near, some typical ones, and the marked ones.
#![allow(dead_code)] // each bench uses its part

pub struct Random(pub u64);

impl Random {
    // a seed of a few bits, spread
    pub fn seeded(seed: u64) -> Random {
        let mut r = Random((seed + 1).wrapping_mul(0x9e3779b97f4a7c15));
        r.below(2);
        r
    }

    pub fn below(&mut self, k: u64) -> u64 {
        self.0 ^= self.0 << 13;
        self.0 ^= self.0 >> 7;
        self.0 ^= self.0 << 17;
        (self.0 >> 11) % k
    }

    fn number(&mut self, k: usize) -> usize {
        self.below(k as u64) as usize
    }
}

// Fields one after another, most significant bit first.
struct Bits {
    bytes: Vec<u8>,
    used: usize,
}

impl Bits {
    fn new() -> Bits {
        Bits { bytes: Vec::new(), used: 0 }
    }

    fn put(&mut self, v: u32, w: usize) {
        for k in (0..w).rev() {
            if self.used % 8 == 0 {
                self.bytes.push(0);
            }
            let last = self.bytes.len() - 1;
            self.bytes[last] |= ((v >> k & 1) as u8) << (7 - self.used % 8);
            self.used += 1;
        }
    }
}

// A mark is 0 for none, else the position plus 1.
fn mark(p: Option<usize>) -> u32 {
    p.map_or(0, |p| p as u32 + 1)
}

#[derive(Clone)]
pub struct Column {
    pub size: usize,
    pub start: usize,
    pub goal: Option<usize>,
}

#[derive(Clone)]
pub struct Step {
    pub cost: u16,
    pub need: Vec<Option<usize>>,
    pub effect: Vec<Option<usize>>,
}

impl Step {
    fn can_be_taken(&self, state: &[usize]) -> bool {
        self.need.iter().zip(state).all(|(need, p)| need.map_or(true, |q| q == *p))
    }

    fn take(&self, state: &mut [usize]) {
        for (effect, p) in self.effect.iter().zip(state) {
            *p = effect.unwrap_or(*p);
        }
    }
}

#[derive(Clone)]
pub struct Model {
    pub name: String,
    pub room: u32,
    pub columns: Vec<Column>,
    pub steps: Vec<Step>,
}

impl Model {
    fn new(name: &str, room: u32, sizes: &[usize]) -> Model {
        let columns = sizes.iter().map(|&size| Column { size, start: 0, goal: None }).collect();
        Model { name: name.into(), room, columns, steps: Vec::new() }
    }

    // The largest sizes.
    fn largest(name: &str) -> Model {
        Model::new(name, 256, &[32; 16])
    }

    fn step(&mut self, cost: u16, need: &[(usize, usize)], effect: &[(usize, usize)]) {
        let n = self.columns.len();
        let mut s = Step { cost, need: vec![None; n], effect: vec![None; n] };
        for &(j, p) in need {
            s.need[j] = Some(p);
        }
        for &(j, p) in effect {
            s.effect[j] = Some(p);
        }
        self.steps.push(s);
    }

    fn goal(&mut self, j: usize, p: usize) {
        self.columns[j].goal = Some(p);
    }

    fn start(&self) -> Vec<usize> {
        self.columns.iter().map(|c| c.start).collect()
    }

    pub fn sheet(&self) -> Vec<u8> {
        let mut out = Bits::new();
        out.put(1, 4);
        out.put(self.columns.len() as u32, 5);
        out.put(self.steps.len() as u32, 8);
        for c in &self.columns {
            out.put(c.size as u32, 6);
            out.put(c.start as u32, 5);
            out.put(mark(c.goal), 6);
        }
        for s in &self.steps {
            out.put(s.cost as u32, 16);
            for j in 0..self.columns.len() {
                out.put(mark(s.need[j]), 6);
                out.put(mark(s.effect[j]), 6);
            }
        }
        out.bytes
    }

    // Steps in another order, so that the lowest number is not the oldest.
    fn shuffled(mut self, r: &mut Random) -> Model {
        for i in (1..self.steps.len()).rev() {
            self.steps.swap(i, r.number(i + 1));
        }
        self
    }

    // Columns backwards, so that a test of a row fails late.
    fn late(mut self) -> Model {
        self.columns.reverse();
        for s in &mut self.steps {
            s.need.reverse();
            s.effect.reverse();
        }
        self
    }
}

// A cut sheet: a model sheet, and from the next byte the cuts, three numbers for each.
pub fn cut_sheet(model: &[u8], cuts: &[u32]) -> Vec<u8> {
    let mut out = Bits::new();
    out.put(2, 4);
    out.put(cuts.len() as u32 / 3, 8);
    for c in cuts.chunks(3) {
        out.put(c[0], 8);
        out.put(c[1], 4);
        out.put(c[2], 32);
    }
    [model, &out.bytes].concat()
}

// Cuts that are accepted, of any kind: 255 of them.
pub fn random_cuts(m: &Model, r: &mut Random) -> Vec<u32> {
    let whole = |c: &Column| ((1u64 << c.size) - 1) as u32;
    let mut sets: Vec<Vec<u32>> = vec![m.columns.iter().map(whole).collect()];
    let mut cuts = Vec::new();
    while sets.len() < 256 {
        let a = r.number(sets.len());
        let j = r.number(m.columns.len());
        let old = sets[a][j];
        let wanted = old & r.below(1 << 32) as u32;
        if wanted == 0 || wanted == old {
            continue;
        }
        cuts.extend([a as u32, j as u32, wanted]);
        let mut new = sets[a].clone();
        new[j] = wanted;
        sets[a][j] = old ^ wanted;
        sets.push(new);
    }
    cuts
}

// States of a model, a byte for each column; the first is the start.
pub fn states(m: &Model, count: usize, r: &mut Random) -> Vec<u8> {
    let mut out: Vec<u8> = m.columns.iter().map(|c| c.start as u8).collect();
    for _ in 1..count {
        for c in &m.columns {
            // half of them near the start or the goal, where cuts are many
            let p = match r.below(4) {
                0 => c.start,
                1 => c.goal.unwrap_or(c.start),
                _ => r.number(c.size),
            };
            out.push(p as u8);
        }
    }
    out
}

// Steps that can be taken one after the other from the start, by chance. Fewer than wanted where nothing can be taken any more.
fn walk(m: &Model, wanted: usize, r: &mut Random) -> Vec<u32> {
    let mut state = m.start();
    let mut log = Vec::new();
    while log.len() < wanted {
        let able: Vec<usize> = (0..m.steps.len()).filter(|&s| m.steps[s].can_be_taken(&state)).collect();
        if able.is_empty() {
            break;
        }
        let s = able[r.number(able.len())];
        m.steps[s].take(&mut state);
        log.push(s as u32);
    }
    log
}

// A log: the longest of some walks.
pub fn log(m: &Model, wanted: usize, r: &mut Random) -> Vec<u32> {
    let mut longest = Vec::new();
    for _ in 0..100 {
        let log = walk(m, wanted, r);
        if longest.len() < log.len() {
            longest = log;
        }
        if longest.len() == wanted {
            break;
        }
    }
    longest
}

// The states along a log, a byte for each column: the start, and the state after each step.
pub fn along(m: &Model, log: &[u32]) -> Vec<u8> {
    let mut state = m.start();
    let mut out = state.clone();
    for &s in log {
        m.steps[s as usize].take(&mut state);
        out.extend(&state);
    }
    out.into_iter().map(|p| p as u8).collect()
}

// ---- at the limits

// Few columns in use, and each step with some needs and some effects at random.
pub fn scattered(seed: u64, used: usize, positions: usize, needs: usize, effects: usize) -> Model {
    let mut r = Random::seeded(seed);
    let mut m = Model::largest(&format!("scattered {used} by {positions}"));
    for _ in 0..128 {
        let need: Vec<_> = (0..needs).map(|_| (r.number(used), r.number(positions))).collect();
        let effect: Vec<_> = (0..effects).map(|_| (r.number(used), r.number(positions))).collect();
        m.step(100 + r.below(60000) as u16, &need, &effect);
    }
    for j in 0..used {
        m.goal(j, r.number(positions));
    }
    m
}

// Four chains of 32 positions; a link may need a place on another chain.
pub fn chains(seed: u64, locks: u64) -> Model {
    let mut r = Random::seeded(seed);
    let mut m = Model::largest("four chains with locks");
    for j in 0..4 {
        for p in 0..31usize {
            let mut need = vec![(j, p)];
            if r.below(10) < locks {
                need.push(((j + 1 + r.number(3)) % 4, p.saturating_sub(r.number(6))));
            }
            m.step(1000 + r.below(9000) as u16, &need, &[(j, p + 1)]);
        }
        m.goal(j, 31);
    }
    // ways back
    for j in 0..4 {
        m.step(500, &[], &[(j, 0)]);
    }
    m.shuffled(&mut r)
}

// A counter: the lowest digit counts up, and a full one goes back when the next counts. The rest are idle steps.
pub fn counter(seed: u64, digits: usize, base: usize, idle_first: bool) -> Model {
    let mut r = Random::seeded(seed);
    let mut m = Model::largest(&format!("counter of {digits} digits to base {base}{}", if idle_first { ", idle steps first" } else { "" }));
    let mut idle = Vec::new();
    for _ in 0..128 - digits * (base - 1) {
        idle.push((digits + r.number(16 - digits), r.number(32)));
    }
    let put_idle = |m: &mut Model| {
        for &(j, p) in &idle {
            m.step(65535, &[], &[(j, p)]);
        }
    };
    if idle_first {
        put_idle(&mut m);
    }
    for d in 0..digits {
        for p in 0..base - 1 {
            let mut need: Vec<_> = (0..d).map(|e| (e, base - 1)).collect();
            let mut effect: Vec<_> = (0..d).map(|e| (e, 0)).collect();
            need.push((d, p));
            effect.push((d, p + 1));
            m.step(65535, &need, &effect);
        }
        m.goal(d, base - 1);
    }
    if !idle_first {
        put_idle(&mut m);
    }
    m
}

// A place on a grid of 32 by 32, moved one way or the other; every fourth line has a door, and one of four doors is open at a time.
pub fn grid(seed: u64) -> Model {
    let mut r = Random::seeded(seed);
    let mut m = Model::largest("grid with doors");
    for j in 0..2 {
        for p in 0..31 {
            let door = if p % 4 == 3 { vec![(2, p / 4 % 4)] } else { Vec::new() };
            m.step(100 + r.below(100) as u16, &[vec![(j, p)], door.clone()].concat(), &[(j, p + 1)]);
            m.step(100 + r.below(100) as u16, &[vec![(j, p + 1)], door].concat(), &[(j, p)]);
        }
        m.goal(j, 31);
    }
    for k in 0..4 {
        m.step(300, &[], &[(2, k)]);
    }
    m.shuffled(&mut r)
}

// Ladders whose rungs need a toggle this way and that in turn.
pub fn ladders(seed: u64, cost: u64) -> Model {
    let mut r = Random::seeded(seed);
    let mut m = Model::largest(if cost == 0 { "ladders with a toggle, free" } else { "ladders with a toggle" });
    m.step(r.below(cost + 1) as u16, &[(4, 0)], &[(4, 1)]);
    m.step(r.below(cost + 1) as u16, &[(4, 1)], &[(4, 0)]);
    for j in 0..4 {
        for p in 0..31 {
            m.step(r.below(cost + 1) as u16, &[(j, p), (4, (p + j) % 2)], &[(j, p + 1)]);
        }
        m.goal(j, 31);
    }
    m.step(r.below(cost + 1) as u16, &[(4, 0)], &[(5, 1)]);
    m.step(r.below(cost + 1) as u16, &[(4, 1)], &[(5, 0)]);
    m
}

// Goods and carriers: a carrier goes between places, a good is at a place or on a carrier.
pub fn haulage(seed: u64, free: bool) -> Model {
    let mut r = Random::seeded(seed);
    let mut m = Model::largest(if free { "haulage, most steps free" } else { "haulage" });
    let (places, carriers) = (5, 2);
    for c in 0..carriers {
        for p in 0..places {
            for q in [(p + 1) % places, (p + 2) % places] {
                m.step(100 + r.below(900) as u16, &[(c, p)], &[(c, q)]);
            }
        }
    }
    let mut g = carriers;
    while m.steps.len() + carriers * places * 2 <= 128 {
        for c in 0..carriers {
            for p in 0..places {
                let cost = if free { 0 } else { 50 + r.below(50) as u16 };
                m.step(cost, &[(c, p), (g, p)], &[(g, places + c)]);
                m.step(cost, &[(c, p), (g, places + c)], &[(g, p)]);
            }
        }
        let from = r.number(places);
        m.columns[g].start = from;
        m.goal(g, (from + 1 + r.number(places - 1)) % places);
        g += 1;
    }
    while m.steps.len() < 128 {
        m.step(70, &[], &[(15, r.number(32))]);
    }
    m.shuffled(&mut r).late()
}

// Every column has a goal: seven or eight rungs each, and a rung needs its neighbour near the same height.
pub fn far_goal(seed: u64) -> Model {
    let mut r = Random::seeded(seed);
    let mut m = Model::largest("far goal in every column");
    for j in 0..16 {
        for p in 0..8 {
            let mut need = vec![(j, p)];
            if p > 0 && r.below(2) == 0 {
                need.push(((j + 1) % 16, p - r.number(2)));
            }
            m.step(1000 + r.below(1000) as u16, &need, &[(j, p + 1)]);
        }
        m.goal(j, 8);
    }
    m.shuffled(&mut r)
}

// Several ways over each link, dearer ones first, so that a distance is lowered again and again.
pub fn falling(seed: u64) -> Model {
    let mut r = Random::seeded(seed);
    let mut m = Model::largest("falling costs");
    let (links, ways) = (10, 4);
    for w in 0..ways {
        for j in 0..3 {
            for p in 0..links {
                // a dear way needs nothing else, a cheap one another column's place
                let mut need = vec![(13 + j, p)];
                if w > 0 {
                    need.push((13 + (j + w) % 3, r.number(links)));
                }
                m.step(60000 - (w * 12000 + j * 1000 + p * 10) as u16, &need, &[(13 + j, p + 1)]);
            }
        }
    }
    for j in 0..3 {
        m.goal(13 + j, links);
    }
    while m.steps.len() < 128 {
        m.step(40000, &[], &[(13 + r.number(3), 0)]);
    }
    m
}

// Steps that need nothing and set one place each: every block is reached over many arcs.
pub fn switches(seed: u64) -> Model {
    let mut r = Random::seeded(seed);
    let mut m = Model::largest("switches");
    for s in 0..128 {
        let (j, p) = (s % 16, s / 16);
        // what switches on switches something else off
        let other = (j + 1 + r.number(15)) % 16;
        m.step(60000 - s as u16, &[], &[(j, p), (other, r.number(8))]);
    }
    for j in 0..16 {
        m.columns[j].start = 8;
        m.goal(j, r.number(8));
    }
    m
}

// The chain that attains the largest distance: column 0 is gone through from end to end for each position of column 1.
pub fn chain(room: u32) -> Model {
    let mut m = Model::new(&format!("chain, room {room}"), room, &[32, 8]);
    for p in 0..31 {
        m.step(65535, &[(0, p)], &[(0, p + 1)]);
    }
    for q in 0..7 {
        m.step(65535, &[(0, 31), (1, q)], &[(0, 0), (1, q + 1)]);
    }
    m.goal(0, 31);
    m.goal(1, 7);
    m
}

// The same chain among 16 columns of 32, with 90 steps that do nothing for it, first or last in number.
pub fn long_chain(idle_first: bool) -> Model {
    let small = chain(256);
    let mut m = Model::largest(if idle_first { "long chain, idle steps first" } else { "long chain" });
    let idle = |m: &mut Model| {
        for k in 0..90 {
            m.step(65535, &[], &[(2 + k % 14, k / 14)]);
        }
    };
    if idle_first {
        idle(&mut m);
    }
    for s in &small.steps {
        let pairs = |v: &[Option<usize>]| v.iter().enumerate().filter_map(|(j, p)| p.map(|p| (j, p))).collect::<Vec<_>>();
        m.step(s.cost, &pairs(&s.need), &pairs(&s.effect));
    }
    if !idle_first {
        idle(&mut m);
    }
    m.goal(0, 31);
    m.goal(1, 7);
    m.late()
}

// ---- typical: 5 columns of 4 positions, 20 steps, room 64

pub fn typical(seed: u64) -> Model {
    let mut r = Random::seeded(seed);
    let mut m = Model::new(&format!("typical {seed}"), 64, &[4; 5]);
    for s in 0..20 {
        let j = s % 5;
        let p = r.number(4);
        let need = [(j, p), ((j + 1 + r.number(4)) % 5, r.number(4))];
        m.step(10 * (1 + r.below(60)) as u16, &need[..1 + r.number(2)], &[(j, (p + 1 + r.number(3)) % 4)]);
    }
    for j in 0..5 {
        if r.below(3) > 0 {
            m.goal(j, r.number(4));
        }
    }
    m
}

// ---- the small re-thread, with the cuts of its run

pub fn rethread(room: u32) -> Model {
    let mut m = Model::new(&format!("small re-thread, room {room}"), room, &[2, 3]);
    m.step(20, &[(0, 0)], &[(0, 1)]);
    m.step(10, &[(0, 1)], &[(0, 0)]);
    m.step(30, &[(0, 0), (1, 0)], &[(1, 1)]);
    m.step(50, &[(0, 1), (1, 1)], &[(1, 2)]);
    m.goal(1, 2);
    m
}

pub const RETHREAD_CUTS: [u32; 12] = [0, 1, 4, 0, 0, 2, 2, 1, 2, 0, 1, 2];

// ---- the lists; the seeds were found by trying

pub fn at_limits() -> Vec<Model> {
    vec![
        long_chain(false),
        long_chain(true),
        counter(0, 8, 2, false),
        counter(0, 4, 5, true),
        chains(2, 5),
        grid(1),
        ladders(1, 0),
        ladders(1, 60000),
        haulage(2, false),
        haulage(0, true),
        far_goal(2),
        falling(1),
        switches(2),
        scattered(1, 8, 6, 2, 3),
    ]
}

pub fn typicals() -> Vec<Model> {
    [1636, 409, 392, 624, 1659, 1717, 1315, 2568].map(typical).into()
}

// The marked ones, each with its answer: kind, blocks, steps, value.
pub fn marked() -> Vec<(Model, [u64; 4])> {
    vec![
        (rethread(1), [3, 1, 0, 0]),
        (rethread(2), [3, 2, 0, 50]),
        (rethread(3), [3, 3, 0, 70]),
        (rethread(4), [3, 4, 0, 70]),
        (rethread(5), [1, 5, 3, 100]),
        (chain(255), [3, 255, 0, 14614305]),
        (chain(256), [1, 256, 255, 16711425]),
    ]
}
