// The planner in safe plain Rust: the same algorithm as the crates, function by function, for the library to be measured against.
// A block's sets stand in a row of 16 numbers, a step's too; a cut is three numbers; a distance is one: cost * 65536 + steps.
#![allow(dead_code)] // each bench uses its part

pub const COLUMNS: usize = 16;
pub const POSITIONS: usize = 32;
pub const STEPS: usize = 128;
pub const BLOCKS: usize = 256;
pub const LOG: usize = 255;
pub const NO_WAY: u64 = 16777215 * 65536;

pub type Sets = [u32; BLOCKS * COLUMNS];
pub type Wants = [u32; STEPS * COLUMNS];
pub type Masks = [u32; COLUMNS];
pub type Far = [u64; BLOCKS];
pub type State = [u8; COLUMNS];

// Where a run's time goes. What is not watched costs nothing.
#[derive(Clone, Copy)]
pub enum Part {
    Reading,
    Tables,
    Distances,
    Trace,
    Walk,
}

pub trait Watch {
    // time counts for this part from here on
    fn enter(&mut self, _part: Part) {}
    // a round is done: the steps of its trace, and how many of them were walked
    fn round(&mut self, _trace: usize, _walked: usize) {}
}

pub struct Unwatched;

impl Watch for Unwatched {}

// ---- fields

fn bit(s: &[u8], at: usize) -> u32 {
    let k = at / 8;
    if s.len() <= k {
        return 0;
    }
    (s[k] as u32 >> (7 - at % 8)) % 2
}

pub fn field(s: &[u8], at: usize, w: usize) -> u32 {
    let mut v = 0;
    for k in 0..w {
        v = 2 * v + bit(s, at + k);
    }
    v
}

fn judge_field(s: &[u8], at: usize, w: usize, low: u32, high: u32, code: u8) -> u8 {
    if s.len() < (at + w + 7) / 8 {
        return 1;
    }
    let v = field(s, at, w);
    if v < low || high < v {
        return code;
    }
    0
}

fn judge_below(s: &[u8], at: usize, w: usize, end: u32, code: u8) -> u8 {
    if s.len() < (at + w + 7) / 8 {
        return 1;
    }
    if end <= field(s, at, w) {
        return code;
    }
    0
}

fn judge_free(s: &[u8], at: usize, w: usize) -> u8 {
    if s.len() < (at + w + 7) / 8 {
        return 1;
    }
    0
}

// ---- the model sheet

fn model_bits(columns: usize, steps: usize) -> usize {
    17 + columns * 17 + steps * (16 + columns * 12)
}

fn judge_header(s: &[u8]) -> u8 {
    let a = judge_field(s, 0, 4, 1, 1, 2);
    if a != 0 {
        return a;
    }
    let b = judge_field(s, 4, 5, 1, COLUMNS as u32, 3);
    if b != 0 {
        return b;
    }
    judge_field(s, 9, 8, 0, STEPS as u32, 3)
}

fn judge_column(s: &[u8], i: usize) -> u8 {
    let at = 17 + i * 17;
    let a = judge_field(s, at, 6, 1, POSITIONS as u32, 4);
    if a != 0 {
        return a;
    }
    let size = field(s, at, 6);
    let b = judge_below(s, at + 6, 5, size, 5);
    if b != 0 {
        return b;
    }
    judge_field(s, at + 6 + 5, 6, 0, size, 5)
}

fn judge_columns(s: &[u8], n: usize) -> u8 {
    for i in 0..n {
        let r = judge_column(s, i);
        if r != 0 {
            return r;
        }
    }
    0
}

fn judge_marks(s: &[u8], n: usize, j: usize, i: usize) -> u8 {
    let size = field(s, 17 + i * 17, 6);
    let at = model_bits(n, j) + 16 + i * 12;
    let a = judge_field(s, at, 6, 0, size, 5);
    if a != 0 {
        return a;
    }
    judge_field(s, at + 6, 6, 0, size, 5)
}

fn judge_step(s: &[u8], n: usize, j: usize) -> u8 {
    let a = judge_free(s, model_bits(n, j), 16);
    if a != 0 {
        return a;
    }
    for i in 0..n {
        let r = judge_marks(s, n, j, i);
        if r != 0 {
            return r;
        }
    }
    0
}

fn judge_steps(s: &[u8], n: usize, m: usize) -> u8 {
    for j in 0..m {
        let r = judge_step(s, n, j);
        if r != 0 {
            return r;
        }
    }
    0
}

// Without the test for bytes that follow.
fn judge_part(s: &[u8]) -> u8 {
    let a = judge_header(s);
    if a != 0 {
        return a;
    }
    let n = field(s, 4, 5) as usize;
    let m = field(s, 9, 8) as usize;
    let b = judge_columns(s, n);
    if b != 0 {
        return b;
    }
    let c = judge_steps(s, n, m);
    if c != 0 {
        return c;
    }
    let bits = model_bits(n, m);
    judge_field(s, bits, (8 - bits % 8) % 8, 0, 0, 6)
}

fn judge_sheet(s: &[u8]) -> u8 {
    let a = judge_part(s);
    if a != 0 {
        return a;
    }
    let n = field(s, 4, 5) as usize;
    let m = field(s, 9, 8) as usize;
    if (model_bits(n, m) + 7) / 8 < s.len() {
        return 6;
    }
    0
}

pub struct Model {
    pub columns: usize,
    pub steps: usize,
    pub size: [u8; COLUMNS],
    pub start: State,
    pub goal: [u8; COLUMNS],
    pub cost: [u16; STEPS],
    pub need: [u8; STEPS * COLUMNS],
    pub effect: [u8; STEPS * COLUMNS],
}

// A field of each column: `skip` is 0 for sizes, 6 for starts, 11 for goals.
fn frame(s: &[u8], n: usize, skip: usize, w: usize) -> [u8; COLUMNS] {
    let mut t = [0; COLUMNS];
    for i in 0..n {
        t[i] = field(s, 17 + i * 17 + skip, w) as u8;
    }
    t
}

fn costs(s: &[u8], n: usize, m: usize) -> [u16; STEPS] {
    let mut t = [0; STEPS];
    for j in 0..m {
        t[j] = field(s, model_bits(n, j), 16) as u16;
    }
    t
}

fn mark_at(s: &[u8], n: usize, skip: usize, k: usize) -> u8 {
    let i = k % COLUMNS;
    let j = k / COLUMNS;
    if i < n {
        return field(s, model_bits(n, j) + 16 + i * 12 + skip, 6) as u8;
    }
    0
}

fn marks(s: &[u8], n: usize, m: usize, skip: usize) -> [u8; STEPS * COLUMNS] {
    let mut t = [0; STEPS * COLUMNS];
    for k in 0..m * COLUMNS {
        t[k] = mark_at(s, n, skip, k);
    }
    t
}

// The model of an accepted sheet.
fn unpack_accepted(s: &[u8]) -> Model {
    let n = field(s, 4, 5) as usize;
    let m = field(s, 9, 8) as usize;
    Model {
        columns: n,
        steps: m,
        size: frame(s, n, 0, 6),
        start: frame(s, n, 6, 5),
        goal: frame(s, n, 11, 6),
        cost: costs(s, n, m),
        need: marks(s, n, m, 0),
        effect: marks(s, n, m, 6),
    }
}

pub fn unpack_model(s: &[u8]) -> Result<Model, u8> {
    let code = judge_sheet(s);
    if code != 0 {
        return Err(code);
    }
    Ok(unpack_accepted(s))
}

// ---- blocks

pub fn mark_set(m: u8) -> u32 {
    if m == 0 || 32 < m {
        return 0;
    }
    1 << (m - 1)
}

fn land_set(need: u8, effect: u8) -> u32 {
    if effect == 0 {
        return mark_set(need);
    }
    mark_set(effect)
}

pub fn fill_needs(model: &Model, needs: &mut Wants) {
    for i in 0..STEPS * COLUMNS {
        needs[i] = mark_set(model.need[i]);
    }
}

pub fn fill_lands(model: &Model, lands: &mut Wants) {
    for i in 0..STEPS * COLUMNS {
        lands[i] = land_set(model.need[i], model.effect[i]);
    }
}

pub fn fill_goals(model: &Model, goals: &mut Masks) {
    for j in 0..COLUMNS {
        goals[j] = mark_set(model.goal[j]);
    }
}

fn every_position(size: u8) -> u32 {
    ((1u64 << size) - 1) as u32
}

pub fn fill_first(model: &Model, sets: &mut Sets) {
    for j in 0..model.columns {
        sets[j] = every_position(model.size[j]);
    }
}

#[derive(Clone, Copy)]
pub struct Cut {
    pub block: u16,
    pub column: u8,
    pub wanted: u32,
}

pub fn make_cut(columns: usize, count: usize, cut: Cut, sets: &mut Sets) {
    let here = cut.block as usize * COLUMNS;
    let there = count * COLUMNS;
    let at = cut.column as usize;
    let old = sets[here + at];
    let wanted = old & cut.wanted;
    for j in 0..columns {
        sets[there + j] = sets[here + j];
    }
    sets[there + at] = wanted;
    sets[here + at] = old ^ wanted;
}

fn passes(need: u32, land: u32, a: u32, b: u32) -> bool {
    if a & need != need || b & land != land {
        return false;
    }
    land != 0 || a & b != 0
}

pub fn leads(columns: usize, s: usize, a: usize, b: usize, needs: &Wants, lands: &Wants, sets: &Sets) -> bool {
    let (rs, ra, rb) = (s * COLUMNS, a * COLUMNS, b * COLUMNS);
    for j in 0..columns {
        if !passes(needs[rs + j], lands[rs + j], sets[ra + j], sets[rb + j]) {
            return false;
        }
    }
    true
}

fn is_goal_block(columns: usize, a: usize, goals: &Masks, sets: &Sets) -> bool {
    for j in 0..columns {
        if sets[a * COLUMNS + j] & goals[j] != goals[j] {
            return false;
        }
    }
    true
}

fn may_part(wanted: u32, old: u32) -> bool {
    wanted != 0 && wanted ^ (wanted & old) == 0 && old ^ (old & wanted) != 0
}

pub fn cut_ok(columns: usize, count: usize, cut: Cut, sets: &Sets) -> bool {
    let (a, j) = (cut.block as usize, cut.column as usize);
    if count <= a || columns <= j {
        return false;
    }
    may_part(cut.wanted, sets[a * COLUMNS + j])
}

fn goes_on(block: u32, column: usize, wanted: u32, state: &State, a: u32) -> bool {
    block == a && (wanted >> state[column]) % 2 == 1
}

// The block of a state, by following the cuts.
pub fn block_of(count: usize, cuts: &[u32], state: &State) -> usize {
    let mut a = 0;
    for i in 0..count {
        if goes_on(cuts[i * 3], cuts[i * 3 + 1] as usize, cuts[i * 3 + 2], state, a) {
            a = i as u32 + 1;
        }
    }
    a as usize
}

// ---- the cut sheet

fn read_cut(s: &[u8], i: usize) -> Cut {
    let at = 12 + i * 44;
    Cut { block: field(s, at, 8) as u16, column: field(s, at + 8, 4) as u8, wanted: field(s, at + 8 + 4, 32) }
}

fn judge_cut(s: &[u8], i: usize, columns: usize, sets: &Sets) -> u8 {
    if s.len() < (12 + i * 44 + 44 + 7) / 8 {
        return 1;
    }
    if !cut_ok(columns, i + 1, read_cut(s, i), sets) {
        return 9;
    }
    0
}

fn judge_cuts(s: &[u8], count: usize, columns: usize, sets: &mut Sets) -> u8 {
    for i in 0..count {
        let r = judge_cut(s, i, columns, sets);
        if r != 0 {
            return r;
        }
        make_cut(columns, i + 1, read_cut(s, i), sets);
    }
    0
}

fn judge_cut_part(s: &[u8], columns: usize, sets: &mut Sets) -> u8 {
    let a = judge_field(s, 0, 4, 2, 2, 2);
    if a != 0 {
        return a;
    }
    let b = judge_field(s, 4, 8, 0, BLOCKS as u32 - 1, 9);
    if b != 0 {
        return b;
    }
    let count = field(s, 4, 8) as usize;
    let c = judge_cuts(s, count, columns, sets);
    if c != 0 {
        return c;
    }
    let bits = 12 + count * 44;
    let d = judge_field(s, bits, (8 - bits % 8) % 8, 0, 0, 6);
    if d != 0 {
        return d;
    }
    if (bits + 7) / 8 < s.len() {
        return 6;
    }
    0
}

fn at_front(a: &[u8], s: &[u8]) -> bool {
    if s.len() < a.len() {
        return false;
    }
    for i in 0..a.len() {
        if a[i] != s[i] {
            return false;
        }
    }
    true
}

// Block 0, from the sizes on an accepted sheet.
fn fill_whole(model: &[u8], columns: usize, sets: &mut Sets) {
    for j in 0..columns {
        sets[j] = every_position(field(model, 17 + j * 17, 6) as u8);
    }
}

fn judge_cut_sheet(model: &[u8], sheet: &[u8], sets: &mut Sets) -> u8 {
    let code = judge_sheet(model);
    if code != 0 {
        return code;
    }
    let inner = judge_part(sheet);
    if inner != 0 {
        return inner;
    }
    if !at_front(model, sheet) {
        return 10;
    }
    let columns = field(model, 4, 5) as usize;
    fill_whole(model, columns, sets);
    judge_cut_part(&sheet[model.len()..], columns, sets)
}

fn fill_cuts(part: &[u8], count: usize, cuts: &mut [u32]) {
    for i in 0..count {
        let at = 12 + i * 44;
        cuts[i * 3] = field(part, at, 8);
        cuts[i * 3 + 1] = field(part, at + 8, 4);
        cuts[i * 3 + 2] = field(part, at + 8 + 4, 32);
    }
}

// ---- distances

fn fits_in(columns: usize, s: usize, a: usize, wants: &Wants, sets: &Sets) -> bool {
    let (rs, ra) = (s * COLUMNS, a * COLUMNS);
    for j in 0..columns {
        if sets[ra + j] & wants[rs + j] != wants[rs + j] {
            return false;
        }
    }
    true
}

// Sets of blocks stand in words of 32 bits, a bit for each block.
const WORD: usize = 32;
const WORDS: usize = BLOCKS / WORD;

type Able = [u32; WORDS * STEPS];
type Meets = [u32; COLUMNS * WORDS];

fn bit_if(t: bool, i: usize) -> u32 {
    if t { 1 << i } else { 0 }
}

fn need_word(w: usize, j: usize, need: u32, sets: &Sets) -> u32 {
    let mut v = 0;
    for i in 0..WORD {
        v += bit_if(sets[(w * WORD + i) * COLUMNS + j] & need == need, i);
    }
    v
}

fn with_need(v: u32, w: usize, j: usize, need: u32, sets: &Sets) -> u32 {
    if v == 0 || need == 0 {
        return v;
    }
    v & need_word(w, j, need, sets)
}

// The blocks of word w from which step s can be taken.
fn able_word(columns: usize, s: usize, w: usize, needs: &Wants, sets: &Sets) -> u32 {
    let mut v = u32::MAX;
    for j in 0..columns {
        v = with_need(v, w, j, needs[s * COLUMNS + j], sets);
    }
    v
}

fn fill_able(columns: usize, steps: usize, used: usize, needs: &Wants, sets: &Sets, able: &mut Able) {
    for w in 0..used {
        for s in 0..steps {
            able[w * STEPS + s] = able_word(columns, s, w, needs, sets);
        }
    }
}

fn meet_word(w: usize, j: usize, set: u32, sets: &Sets) -> u32 {
    let mut v = 0;
    for i in 0..WORD {
        v += bit_if(sets[(w * WORD + i) * COLUMNS + j] & set != 0, i);
    }
    v
}

fn renew_column(used: usize, j: usize, old: u32, set: u32, sets: &Sets, meets: &mut Meets) {
    if old == set {
        return;
    }
    for w in 0..used {
        meets[j * WORDS + w] = meet_word(w, j, set, sets);
    }
}

// Which blocks meet block b in each column. The rows stand for the sets that are held.
fn fill_meets(columns: usize, used: usize, b: usize, sets: &Sets, held: &mut Masks, meets: &mut Meets) {
    for j in 0..columns {
        let set = sets[b * COLUMNS + j];
        renew_column(used, j, held[j], set, sets, meets);
        held[j] = set;
    }
}

fn open_word(count: usize, w: usize, done: &[u8; BLOCKS]) -> u32 {
    let mut v = 0;
    for i in 0..WORD {
        let a = w * WORD + i;
        v += bit_if(a < count && done[a] == 0, i);
    }
    v
}

fn fill_open(count: usize, used: usize, done: &[u8; BLOCKS], left: &mut [u32; WORDS]) {
    for w in 0..used {
        left[w] = open_word(count, w, done);
    }
}

fn is_wide(used: usize, j: usize, meets: &Meets, left: &[u32; WORDS]) -> bool {
    for w in 0..used {
        if meets[j * WORDS + w] & left[w] != left[w] {
            return false;
        }
    }
    true
}

// The columns in which an open block does not meet the settled block, and how many they are.
fn fill_narrow(columns: usize, used: usize, meets: &Meets, left: &[u32; WORDS], narrow: &mut [usize; COLUMNS]) -> usize {
    let mut few = 0;
    for j in 0..columns {
        narrow[few] = j;
        few += if is_wide(used, j, meets, left) { 0 } else { 1 };
    }
    few
}

fn nearest(count: usize, dist: &Far, done: &[u8; BLOCKS]) -> usize {
    let (mut best, mut low) = (count, NO_WAY);
    for i in 0..count {
        if done[i] == 0 && dist[i] < low {
            low = dist[i];
            best = i;
        }
    }
    best
}

// What a step adds to a distance.
fn weigh(cost: u16) -> u64 {
    cost as u64 * 65536 + 1
}

fn kept_part(v: u32, land: u32, meet: u32) -> u32 {
    if land == 0 {
        return v & meet;
    }
    v
}

// The blocks of a mask that meet the settled block in every narrow column that step s keeps.
fn kept_word(few: usize, s: usize, w: usize, first: u32, narrow: &[usize; COLUMNS], lands: &Wants, meets: &Meets) -> u32 {
    let mut v = first;
    for i in 0..few {
        if v == 0 {
            return 0;
        }
        let j = narrow[i];
        v = kept_part(v, lands[s * COLUMNS + j], meets[j * WORDS + w]);
    }
    v
}

fn lower_word(w: usize, v: u32, k: u64, dist: &mut Far) {
    if v == 0 {
        return;
    }
    for i in 0..WORD {
        if v & 1 << i != 0 && k < dist[w * WORD + i] {
            dist[w * WORD + i] = k;
        }
    }
}

fn sweep(
    few: usize, used: usize, s: usize, k: u64, narrow: &[usize; COLUMNS], lands: &Wants, able: &Able, meets: &Meets, left: &[u32; WORDS],
    dist: &mut Far,
) {
    for w in 0..used {
        let first = able[w * STEPS + s] & left[w];
        lower_word(w, kept_word(few, s, w, first, narrow, lands, meets), k, dist);
    }
}

#[inline(never)]
pub fn fill_distances<W: Watch>(
    columns: usize, steps: usize, count: usize, needs: &Wants, lands: &Wants, goals: &Masks, costs: &[u16],
    sets: &Sets, dist: &mut Far, watch: &mut W,
) {
    watch.enter(Part::Tables);
    let mut able = [0; WORDS * STEPS];
    let mut held = [0; COLUMNS];
    let mut meets = [0; COLUMNS * WORDS];
    let mut left = [0; WORDS];
    let mut narrow = [0; COLUMNS];
    let mut done = [0; BLOCKS];
    let used = (count + (WORD - 1)) / WORD;
    fill_able(columns, steps, used, needs, sets, &mut able);
    watch.enter(Part::Distances);
    for a in 0..count {
        dist[a] = if is_goal_block(columns, a, goals, sets) { 0 } else { NO_WAY };
    }
    loop {
        let b = nearest(count, dist, &done);
        if b >= count {
            break;
        }
        done[b] = 1;
        fill_open(count, used, &done, &mut left);
        fill_meets(columns, used, b, sets, &mut held, &mut meets);
        let few = fill_narrow(columns, used, &meets, &left, &mut narrow);
        let base = dist[b];
        for s in 0..steps {
            let k = base + weigh(costs[s]);
            if fits_in(columns, s, b, lands, sets) {
                sweep(few, used, s, k, &narrow, lands, &able, &meets, &left, dist);
            }
        }
    }
}

// ---- the question

fn judge_states(sizes: &[u8; COLUMNS], columns: usize, states: &[u8]) -> u8 {
    if states.len() % columns != 0 {
        return 11;
    }
    if 64 < states.len() / columns {
        return 11;
    }
    for i in 0..states.len() {
        if sizes[i % columns] <= states[i] {
            return 11;
        }
    }
    0
}

fn read_state(states: &[u8], columns: usize, k: usize) -> State {
    let mut state = [0; COLUMNS];
    for j in 0..columns {
        state[j] = states[k * columns + j];
    }
    state
}

fn fill_estimates(columns: usize, count: usize, cuts: &[u32], dist: &Far, states: &[u8], estimates: &mut [u32]) {
    for k in 0..states.len() / columns {
        let state = read_state(states, columns, k);
        estimates[k] = (dist[block_of(count, cuts, &state)] / 65536) as u32;
    }
}

fn measure<W: Watch>(model: &Model, count: usize, sets: &Sets, dist: &mut Far, watch: &mut W) {
    let mut needs = [0; STEPS * COLUMNS];
    fill_needs(model, &mut needs);
    let mut lands = [0; STEPS * COLUMNS];
    fill_lands(model, &mut lands);
    let mut goals = [0; COLUMNS];
    fill_goals(model, &mut goals);
    fill_distances(model.columns, model.steps, count, &needs, &lands, &goals, &model.cost, sets, dist, watch);
}

fn answer<W: Watch>(model: &Model, part: &[u8], sets: &Sets, states: &[u8], estimates: &mut [u32], watch: &mut W) {
    let count = field(part, 4, 8) as usize;
    let mut cuts = [0; (BLOCKS - 1) * 3];
    fill_cuts(part, count, &mut cuts);
    let mut dist = [0; BLOCKS];
    measure(model, count + 1, sets, &mut dist, watch);
    watch.enter(Part::Walk);
    fill_estimates(model.columns, count, &cuts, &dist, states, estimates);
}

// How many estimates were written, or a refusal.
pub fn question<W: Watch>(model: &[u8], sheet: &[u8], states: &[u8], estimates: &mut [u32], watch: &mut W) -> Result<usize, u8> {
    watch.enter(Part::Reading);
    let mut sets = [0; BLOCKS * COLUMNS];
    let r = judge_cut_sheet(model, sheet, &mut sets);
    if r != 0 {
        return Err(r);
    }
    let given = unpack_accepted(model);
    let bad = judge_states(&given.size, given.columns, states);
    if bad != 0 {
        return Err(bad);
    }
    let asked = states.len() / given.columns;
    if estimates.len() < asked {
        return Err(8);
    }
    answer(&given, &sheet[model.len()..], &sets, states, estimates, watch);
    Ok(asked)
}

// ---- the run

// The lowest step and, for that step, the lowest block that keep the distance of block a.
fn next_hop(
    columns: usize, steps: usize, count: usize, a: usize, needs: &Wants, lands: &Wants, costs: &[u16], sets: &Sets, dist: &Far,
) -> Option<(usize, usize)> {
    let own = dist[a];
    let (mut s, mut b) = (0, 0);
    'steps: while s < steps {
        let w = weigh(costs[s]);
        if w <= own && fits_in(columns, s, a, needs, sets) {
            b = 0;
            while b < count {
                if dist[b] == own - w && leads(columns, s, a, b, needs, lands, sets) {
                    break 'steps;
                }
                b += 1;
            }
        }
        s += 1;
    }
    (s < steps).then_some((s, b))
}

// The lowest column whose present position isn't one that a need or a goal gives.
fn unmet(columns: usize, row: usize, wants: &[u32], state: &Masks) -> Option<usize> {
    for j in 0..columns {
        if state[j] & wants[row + j] != wants[row + j] {
            return Some(j);
        }
    }
    None
}

// A state as sets of one position each.
fn stand(columns: usize, state: &State, here: &mut Masks) {
    for j in 0..columns {
        here[j] = 1 << state[j];
    }
}

// The state after a step that can be taken.
fn take(columns: usize, s: usize, lands: &Wants, state: &Masks) -> Masks {
    let mut after = *state;
    for j in 0..columns {
        let land = lands[s * COLUMNS + j];
        if land != 0 {
            after[j] = land;
        }
    }
    after
}

// The lowest column in which a state lies outside block b.
fn outside(columns: usize, b: usize, sets: &Sets, state: &Masks) -> Option<usize> {
    for j in 0..columns {
        if state[j] & sets[b * COLUMNS + j] == 0 {
            return Some(j);
        }
    }
    None
}

enum Walk {
    Arrived(usize),
    Flaw(Cut),
}

// The wanted positions of block a in one column.
fn cut_of(a: usize, j: usize, wanted: u32, sets: &Sets) -> Walk {
    Walk::Flaw(Cut { block: a as u16, column: j as u8, wanted: sets[a * COLUMNS + j] & wanted })
}

// Walks the start along the trace from its block a, hop by hop, until the goal or a flaw.
#[inline(never)]
fn walk<W: Watch>(
    columns: usize, steps: usize, count: usize, from: usize, start: &Masks, needs: &Wants, lands: &Wants, goals: &Masks,
    costs: &[u16], sets: &Sets, dist: &Far, list: &mut [u8; BLOCKS - 1], watch: &mut W,
) -> Walk {
    let (mut a, mut x, mut n) = (from, *start, 0);
    let end = loop {
        if dist[a] == 0 {
            break match unmet(columns, 0, goals, &x) {
                Some(j) => cut_of(a, j, goals[j], sets),
                None => Walk::Arrived(n),
            };
        }
        watch.enter(Part::Trace);
        let Some((s, b)) = next_hop(columns, steps, count, a, needs, lands, costs, sets, dist) else { unreachable!() };
        watch.enter(Part::Walk);
        let row = s * COLUMNS;
        if let Some(j) = unmet(columns, row, needs, &x) {
            break cut_of(a, j, needs[row + j], sets);
        }
        let after = take(columns, s, lands, &x);
        // where it lands by a need or an effect lies in b, so this column has neither
        if let Some(j) = outside(columns, b, sets, &after) {
            break cut_of(a, j, sets[b * COLUMNS + j], sets);
        }
        list[n] = s as u8;
        n += 1;
        x = after;
        a = b;
    };
    watch.round((dist[from] % 65536) as usize, n);
    end
}

fn fill_rows(n: usize, list: &[u8; BLOCKS - 1], costs: &[u16], rows: &mut [u32]) -> u32 {
    let mut left = 0;
    for i in (0..n).rev() {
        let s = list[i];
        rows[i * 3] = s as u32;
        rows[i * 3 + 1] = costs[s as usize] as u32;
        rows[i * 3 + 2] = left;
        left += costs[s as usize] as u32;
    }
    left
}

#[derive(Clone, Copy, PartialEq, Debug)]
pub enum Answer {
    Plan { cost: u32, steps: usize, blocks: usize },
    NoPlan { blocks: usize },
    Open { estimate: u32, blocks: usize },
    Refused(u8),
}

pub fn run<W: Watch>(sheet: &[u8], room: u32, cuts: &mut [u32], rows: &mut [u32], watch: &mut W) -> Answer {
    watch.enter(Part::Reading);
    let model = match unpack_model(sheet) {
        Ok(m) => m,
        Err(code) => return Answer::Refused(code),
    };
    if room < 1 || (BLOCKS as u32) < room {
        return Answer::Refused(7);
    }
    let room = room as usize;
    if cuts.len() / 3 < room - 1 || rows.len() / 3 < room - 1 {
        return Answer::Refused(8);
    }
    let (columns, steps) = (model.columns, model.steps);
    let mut needs = [0; STEPS * COLUMNS];
    fill_needs(&model, &mut needs);
    let mut lands = [0; STEPS * COLUMNS];
    fill_lands(&model, &mut lands);
    let mut goals = [0; COLUMNS];
    fill_goals(&model, &mut goals);
    let mut start = [0; COLUMNS];
    stand(columns, &model.start, &mut start);
    let mut sets = [0; BLOCKS * COLUMNS];
    fill_first(&model, &mut sets);
    let mut dist = [0; BLOCKS];
    let mut list = [0; BLOCKS - 1];
    let mut count = 1;
    let mut a = 0;
    loop {
        fill_distances(columns, steps, count, &needs, &lands, &goals, &model.cost, &sets, &mut dist, watch);
        watch.enter(Part::Walk);
        if NO_WAY <= dist[a] {
            return Answer::NoPlan { blocks: count };
        }
        match walk(columns, steps, count, a, &start, &needs, &lands, &goals, &model.cost, &sets, &dist, &mut list, watch) {
            Walk::Arrived(n) => {
                let cost = fill_rows(n, &list, &model.cost, rows);
                return Answer::Plan { cost, steps: n, blocks: count };
            }
            Walk::Flaw(cut) => {
                if count == room {
                    return Answer::Open { estimate: (dist[a] / 65536) as u32, blocks: count };
                }
                cuts[count * 3 - 3] = cut.block as u32;
                cuts[count * 3 - 2] = cut.column as u32;
                cuts[count * 3 - 1] = cut.wanted;
                make_cut(columns, count, cut, &mut sets);
                // only a cut of the start's own block can take it to the new one
                if cut.block as usize == a && start[cut.column as usize] & cut.wanted != 0 {
                    a = count;
                }
                count += 1;
            }
        }
    }
}

// ---- the replay

#[derive(Clone, Copy, PartialEq, Debug)]
pub enum Replayed {
    Rows(usize),
    Stopped(usize),
    Refused(u8),
}

const NO_COST: u32 = 16777215;

// Whether a log's number is a known step that can be taken.
fn may_go(columns: usize, steps: usize, s: u32, needs: &Wants, here: &Masks) -> bool {
    if steps as u32 <= s {
        return false;
    }
    unmet(columns, s as usize * COLUMNS, needs, here).is_none()
}

// The first row whose step is unknown or cannot be taken, counted from 1; 0 where there is none.
fn judge_log(columns: usize, steps: usize, needs: &Wants, lands: &Wants, log: &[u32], start: &Masks) -> usize {
    let mut here = *start;
    for i in 0..log.len() {
        if !may_go(columns, steps, log[i], needs, &here) {
            return i + 1;
        }
        here = take(columns, log[i] as usize, lands, &here);
    }
    0
}

fn sends_on(block: u32, wanted: u32, here: u32, a: u32) -> bool {
    block == a && here & wanted != 0
}

fn cost_here(count: usize, cuts: &[u32], dist: &Far, here: &Masks) -> u32 {
    let mut a = 0;
    for i in 0..count {
        if sends_on(cuts[i * 3], cuts[i * 3 + 2], here[cuts[i * 3 + 1] as usize], a) {
            a = i as u32 + 1;
        }
    }
    (dist[a as usize] / 65536) as u32
}

// The estimates along a log: one before each row, and one after the last.
fn fill_along(
    columns: usize, lands: &Wants, count: usize, cuts: &[u32], dist: &Far, log: &[u32], start: &Masks, estimates: &mut [u32; LOG + 1],
) {
    let mut here = *start;
    for i in 0..log.len() {
        estimates[i] = cost_here(count, cuts, dist, &here);
        here = take(columns, log[i] as usize, lands, &here);
    }
    estimates[log.len()] = cost_here(count, cuts, dist, &here);
}

// No step leads from a state without a way to one that has one, so the state after tells of a dash.
fn won(before: u32, after: u32) -> i32 {
    if after == NO_COST {
        return NO_COST as i32;
    }
    before as i32 - after as i32
}

fn detour(paid: u32, before: u32, after: u32) -> i32 {
    if after == NO_COST {
        return NO_COST as i32;
    }
    paid as i32 - won(before, after)
}

fn put_rows(costs: &[u16], log: &[u32], estimates: &[u32; LOG + 1], rows: &mut [i32]) {
    for i in 0..log.len() {
        let paid = costs[log[i] as usize] as u32;
        rows[i * 3] = paid as i32;
        rows[i * 3 + 1] = won(estimates[i], estimates[i + 1]);
        rows[i * 3 + 2] = detour(paid, estimates[i], estimates[i + 1]);
    }
}

// What is left of a model beside the tables of its needs, landings and goals.
struct Frame {
    columns: usize,
    steps: usize,
    costs: [u16; STEPS],
}

fn fill_tables(model: &[u8], needs: &mut Wants, lands: &mut Wants, goals: &mut Masks, here: &mut Masks) -> Frame {
    let given = unpack_accepted(model);
    fill_needs(&given, needs);
    fill_lands(&given, lands);
    fill_goals(&given, goals);
    stand(given.columns, &given.start, here);
    Frame { columns: given.columns, steps: given.steps, costs: given.cost }
}

fn replay_on<W: Watch>(model: &[u8], part: &[u8], sets: &Sets, log: &[u32], rows: &mut [i32], watch: &mut W) -> Replayed {
    let mut needs = [0; STEPS * COLUMNS];
    let mut lands = [0; STEPS * COLUMNS];
    let mut goals = [0; COLUMNS];
    let mut here = [0; COLUMNS];
    let Frame { columns, steps, costs } = fill_tables(model, &mut needs, &mut lands, &mut goals, &mut here);
    let bad = judge_log(columns, steps, &needs, &lands, log, &here);
    if bad != 0 {
        return Replayed::Stopped(bad);
    }
    if rows.len() < log.len() * 3 {
        return Replayed::Refused(8);
    }
    let count = field(part, 4, 8) as usize;
    let mut cuts = [0; (BLOCKS - 1) * 3];
    fill_cuts(part, count, &mut cuts);
    let mut dist = [0; BLOCKS];
    fill_distances(columns, steps, count + 1, &needs, &lands, &goals, &costs, sets, &mut dist, watch);
    watch.enter(Part::Walk);
    let mut estimates = [0; LOG + 1];
    fill_along(columns, &lands, count, &cuts, &dist, log, &here, &mut estimates);
    put_rows(&costs, log, &estimates, rows);
    Replayed::Rows(log.len())
}

pub fn replay<W: Watch>(model: &[u8], sheet: &[u8], log: &[u32], rows: &mut [i32], watch: &mut W) -> Replayed {
    watch.enter(Part::Reading);
    let mut sets = [0; BLOCKS * COLUMNS];
    let r = judge_cut_sheet(model, sheet, &mut sets);
    if r != 0 {
        return Replayed::Refused(r);
    }
    if LOG < log.len() {
        return Replayed::Refused(15);
    }
    replay_on(model, &sheet[model.len()..], &sets, log, rows, watch)
}

// ---- the entries for a C program: lists in bytes, each value four of them, most significant first

pub fn get_value(i: usize, bytes: &[u8]) -> u32 {
    let at = i * 4;
    (bytes[at] as u32) << 24 | (bytes[at + 1] as u32) << 16 | (bytes[at + 2] as u32) << 8 | bytes[at + 3] as u32
}

pub fn put_value(v: u32, i: usize, bytes: &mut [u8]) {
    bytes[i * 4] = (v >> 24) as u8;
    bytes[i * 4 + 1] = (v >> 16) as u8;
    bytes[i * 4 + 2] = (v >> 8) as u8;
    bytes[i * 4 + 3] = v as u8;
}

fn put_values(values: &[u32], bytes: &mut [u8]) {
    for i in 0..values.len() {
        put_value(values[i], i, bytes);
    }
}

pub fn answer_number(kind: u64, blocks: usize, steps: usize, value: u32) -> u64 {
    (kind << 56) + ((blocks as u64) << 44) + ((steps as u64) << 32) + value as u64
}

#[inline(never)]
pub fn run_entry<W: Watch>(sheet: &[u8], room: u32, cuts: &mut [u8], rows: &mut [u8], watch: &mut W) -> u64 {
    let mut cut_list = [0; (BLOCKS - 1) * 3];
    let mut row_list = [0; (BLOCKS - 1) * 3];
    let cut_room = (cuts.len() / 12).min(BLOCKS - 1);
    let row_room = (rows.len() / 12).min(BLOCKS - 1);
    match run(sheet, room, &mut cut_list[..cut_room * 3], &mut row_list[..row_room * 3], watch) {
        Answer::Plan { cost, steps, blocks } => {
            put_values(&cut_list[..blocks * 3 - 3], cuts);
            put_values(&row_list[..steps * 3], rows);
            answer_number(1, blocks, steps, cost)
        }
        Answer::NoPlan { blocks } => {
            put_values(&cut_list[..blocks * 3 - 3], cuts);
            answer_number(2, blocks, 0, 0)
        }
        Answer::Open { estimate, blocks } => {
            put_values(&cut_list[..blocks * 3 - 3], cuts);
            answer_number(3, blocks, 0, estimate)
        }
        Answer::Refused(code) => code as u64,
    }
}

#[inline(never)]
pub fn question_entry<W: Watch>(model: &[u8], sheet: &[u8], states: &[u8], estimates: &mut [u8], watch: &mut W) -> u32 {
    let mut list = [0; 64];
    let room = (estimates.len() / 4).min(64);
    match question(model, sheet, states, &mut list[..room], watch) {
        Ok(asked) => {
            put_values(&list[..asked], estimates);
            0
        }
        Err(code) => code as u32,
    }
}

#[inline(never)]
pub fn replay_entry<W: Watch>(model: &[u8], sheet: &[u8], log: &[u8], rows: &mut [u8], watch: &mut W) -> u64 {
    // one more than is accepted, to see that there are more
    let mut steps = [0; LOG + 1];
    let taken = (log.len() / 4).min(LOG + 1);
    for i in 0..taken {
        steps[i] = get_value(i, log);
    }
    let mut list = [0; LOG * 3];
    let room = (rows.len() / 12).min(LOG);
    match replay(model, sheet, &steps[..taken], &mut list[..room * 3], watch) {
        Replayed::Rows(n) => {
            for i in 0..n * 3 {
                put_value(list[i] as u32, i, rows);
            }
            answer_number(1, 0, n, 0)
        }
        Replayed::Stopped(row) => answer_number(0, 0, row, 14),
        Replayed::Refused(code) => code as u64,
    }
}
