//! The rules of document 01, written from its words alone and in its order.
//! Nothing here comes from the proved code. Plain on purpose: it is meant to be read beside 01.

/// "As a number, idle is 255 everywhere."
pub const IDLE: usize = 255;
/// "1 to 16 partitions."
pub const MOST_PARTITIONS: usize = 16;
/// "At most 64 tasks."
pub const MOST_TASKS: usize = 64;
/// "period T (1 to 4,096)"
pub const LONGEST_PERIOD: u16 = 4096;
/// The weight of the whole processor.
const WHOLE: u64 = 65536;

/// One record of the hook's table.
#[repr(C)]
#[derive(Clone, Copy, Debug, PartialEq, Eq)]
pub struct Part {
    pub period: u16,
    pub budget: u16,
    pub phase: u16,
}

/// A table by value. Entries beyond the count are no part of it.
#[repr(C)]
#[derive(Clone, Copy, Debug, PartialEq, Eq)]
pub struct Table {
    pub period: [u16; 16],
    pub budget: [u16; 16],
    pub phase: [u16; 16],
    pub count: usize,
}

/// The tasks by value. Entries beyond the count are no part of them.
#[repr(C)]
#[derive(Clone, Copy, Debug, PartialEq, Eq)]
pub struct Tasks {
    pub count: usize,
    pub partition: [u16; 64],
    pub gap: [u16; 64],
    pub cost: [u16; 64],
}

/// "A state holds 16 pairs: remaining budget b and ticks o until the next replenishment."
#[repr(C)]
#[derive(Clone, Copy, PartialEq, Eq)]
pub struct State {
    pub b: [u16; 16],
    pub o: [u16; 16],
}

/// A refusal's number, and its second number.
#[derive(Clone, Copy, Debug, PartialEq, Eq)]
pub struct Refusal {
    pub number: u32,
    pub second: usize,
}

/// The candidates: the first `length` of `members`; the rest is 0.
#[derive(Clone, Copy, Debug, PartialEq, Eq)]
pub struct List {
    pub length: usize,
    pub members: [u8; 17],
}

/// The candidates, and beside each its weight.
#[derive(Clone, Copy, Debug, PartialEq, Eq)]
pub struct Weights {
    pub list: List,
    pub weights: [u64; 17],
}

impl Table {
    pub const NONE: Table = Table {
        count: 0,
        period: [0; 16],
        budget: [0; 16],
        phase: [0; 16],
    };
}

impl Tasks {
    pub const NONE: Tasks = Tasks {
        count: 0,
        partition: [0; 64],
        gap: [0; 64],
        cost: [0; 64],
    };
}

impl State {
    pub const NONE: State = State {
        b: [0; 16],
        o: [0; 16],
    };
}

/// The pairs b/o up to the last that isn't 0/0.
impl std::fmt::Debug for State {
    fn fmt(&self, f: &mut std::fmt::Formatter) -> std::fmt::Result {
        let none = |&h: &usize| self.b[h] == 0 && self.o[h] == 0;
        let last = (0..MOST_PARTITIONS).rfind(|h| !none(h));
        let pairs = (0..=last.unwrap_or(0)).map(|h| format!("{}/{}", self.b[h], self.o[h]));
        write!(f, "b/o {}", pairs.collect::<Vec<_>>().join(" "))
    }
}

impl List {
    const NONE: List = List {
        length: 0,
        members: [0; 17],
    };

    fn add(&mut self, member: usize) {
        self.members[self.length] = member as u8;
        self.length += 1;
    }

    pub fn has(&self, pick: usize) -> bool {
        self.members[..self.length]
            .iter()
            .any(|&m| m as usize == pick)
    }
}

fn refuse<A>(number: u32, second: usize) -> Result<A, Refusal> {
    Err(Refusal { number, second })
}

fn ceil(number: i64, by: i64) -> i64 {
    (number + by - 1) / by
}

// Refusals 1, 3 and 9: what is in range.

fn partition_in_range(t: &Table, h: usize) -> bool {
    let (period, budget, phase) = (t.period[h], t.budget[h], t.phase[h]);
    (1..=LONGEST_PERIOD).contains(&period) && (1..=period).contains(&budget) && phase < period
}

/// Refusal 1: the count first, then the fields.
pub fn judge_table(t: &Table) -> Result<(), Refusal> {
    if t.count == 0 {
        return refuse(1, 0);
    }
    if t.count > MOST_PARTITIONS {
        return refuse(1, 16);
    }
    match (0..t.count).find(|&h| !partition_in_range(t, h)) {
        Some(h) => refuse(1, h),
        None => Ok(()),
    }
}

/// "A partition asked for that isn't there is 1 with its index, after the fields."
fn judge_asked_partition(t: &Table, h: usize) -> Result<(), Refusal> {
    judge_table(t)?;
    if h >= t.count {
        return refuse(1, h);
    }
    Ok(())
}

fn pair_in_range(t: &Table, s: &State, h: usize) -> bool {
    if h >= t.count {
        return s.b[h] == 0 && s.o[h] == 0;
    }
    s.b[h] <= t.budget[h] && (1..=t.period[h]).contains(&s.o[h])
}

/// Refusal 3: all 16 pairs, those beyond the table too.
pub fn judge_state(t: &Table, s: &State) -> Result<(), Refusal> {
    match (0..MOST_PARTITIONS).find(|&h| !pair_in_range(t, s, h)) {
        Some(h) => refuse(3, h),
        None => Ok(()),
    }
}

fn judge_table_and_state(t: &Table, s: &State) -> Result<(), Refusal> {
    judge_table(t)?;
    judge_state(t, s)
}

fn task_in_range(t: &Table, k: &Tasks, x: usize) -> bool {
    let there = (k.partition[x] as usize) < t.count;
    there && k.gap[x] >= 1 && (1..=k.gap[x]).contains(&k.cost[x])
}

/// Refusal 9: the count first, then the fields.
pub fn judge_tasks(t: &Table, k: &Tasks) -> Result<(), Refusal> {
    if k.count > MOST_TASKS {
        return refuse(9, 64);
    }
    match (0..k.count).find(|&x| !task_in_range(t, k, x)) {
        Some(x) => refuse(9, x),
        None => Ok(()),
    }
}

// Admission.

/// R: "the least W ≥ 1 with W = B_h + the sum over j above h of ceil(W/T_j)·B_j", where it is at most T_h.
fn least_response(t: &Table, h: usize) -> Option<i64> {
    let sum = |w: i64| -> i64 {
        let above = (0..h).map(|j| ceil(w, t.period[j].into()) * i64::from(t.budget[j]));
        i64::from(t.budget[h]) + above.sum::<i64>()
    };
    let mut w = 1;
    while w <= t.period[h].into() {
        let next = sum(w);
        if next == w {
            return Some(w);
        }
        w = next;
    }
    None
}

fn first_not_admitted(t: &Table) -> Option<usize> {
    (0..t.count).find(|&h| least_response(t, h).is_none())
}

/// None: admitted. Otherwise the first failing partition.
pub fn admission(t: &Table) -> Result<Option<usize>, Refusal> {
    judge_table(t)?;
    Ok(first_not_admitted(t))
}

/// R of one partition, or None where it is above T.
pub fn partition_response(t: &Table, h: usize) -> Result<Option<u64>, Refusal> {
    judge_asked_partition(t, h)?;
    Ok(least_response(t, h).map(|w| w as u64))
}

// Fresh start.

/// The pairs of a fresh start, whether or not the table is admitted.
pub fn fresh_pairs(t: &Table) -> State {
    let mut s = State::NONE;
    for h in 0..t.count {
        if t.phase[h] == 0 {
            s.b[h] = t.budget[h];
            s.o[h] = t.period[h];
        } else {
            s.o[h] = t.phase[h];
        }
    }
    s
}

/// Refusals 1 and 2.
pub fn fresh(t: &Table) -> Result<State, Refusal> {
    judge_table(t)?;
    match first_not_admitted(t) {
        Some(h) => refuse(2, h),
        None => Ok(fresh_pairs(t)),
    }
}

// Busy length.

/// "max(0, ceil((W − o_j)/T_j))·B_j"
fn replenished(t: &Table, s: &State, j: usize, w: i64) -> i64 {
    let past = w - i64::from(s.o[j]);
    if past <= 0 {
        return 0;
    }
    ceil(past, t.period[j].into()) * i64::from(t.budget[j])
}

/// The least W, where h passes. "a W above the deadline fails at once, the start value included"
fn busy(t: &Table, s: &State, h: usize, inversion: i64) -> Option<i64> {
    let inactive = s.b[h] == 0;
    let mut deadline = i64::from(s.o[h]);
    if inactive {
        deadline += i64::from(t.period[h]);
    }
    let start = inversion + (0..=h).map(|j| i64::from(s.b[j])).sum::<i64>();
    let mut w = start;
    while w <= deadline {
        let mut next = start + (0..h).map(|j| replenished(t, s, j, w)).sum::<i64>();
        if inactive {
            next += replenished(t, s, h, w);
        }
        if next == w {
            return Some(w);
        }
        w = next;
    }
    None
}

/// The busy length of one partition, or None where it doesn't pass.
pub fn busy_length(t: &Table, s: &State, h: usize, inversion: u32) -> Result<Option<u64>, Refusal> {
    judge_asked_partition(t, h)?;
    judge_state(t, s)?;
    Ok(busy(t, s, h, inversion.into()).map(|w| w as u64))
}

// Standing test.

/// None: every partition passes with w = 0. Otherwise the first that fails.
pub fn standing(t: &Table, s: &State) -> Result<Option<usize>, Refusal> {
    judge_table_and_state(t, s)?;
    Ok((0..t.count).find(|&h| busy(t, s, h, 0).is_none()))
}

// Candidates.

/// The search of 01. `t.count`, one past the last partition, stands for idle.
pub fn list_of(t: &Table, s: &State) -> List {
    let mut list = List::NONE;
    let Some(first) = (0..t.count).find(|&h| s.b[h] > 0) else {
        list.add(IDLE);
        return list;
    };
    list.add(first);
    // Partitions above this one have passed: a test doesn't depend on the candidate.
    let mut passed = 0;
    for candidate in first + 1..=t.count {
        let idle = candidate == t.count;
        if !idle && s.b[candidate] == 0 {
            continue;
        }
        while passed < candidate {
            if busy(t, s, passed, 1).is_none() {
                return list;
            }
            passed += 1;
        }
        list.add(if idle { IDLE } else { candidate });
    }
    list
}

pub fn candidates(t: &Table, s: &State) -> Result<List, Refusal> {
    judge_table_and_state(t, s)?;
    Ok(list_of(t, s))
}

// Weights.

/// Idle is listed last, so the others' sum is known when it is met.
pub fn weights_of(t: &Table, s: &State) -> Weights {
    let list = list_of(t, s);
    let mut weights = [0; 17];
    let mut others = 0;
    for place in 0..list.length {
        let member = list.members[place] as usize;
        weights[place] = if member == IDLE {
            WHOLE.saturating_sub(others)
        } else {
            WHOLE * u64::from(s.b[member]) / u64::from(s.o[member])
        };
        others += weights[place];
    }
    Weights { list, weights }
}

pub fn weights(t: &Table, s: &State) -> Result<Weights, Refusal> {
    judge_table_and_state(t, s)?;
    Ok(weights_of(t, s))
}

// Pick.

/// "The pick is the first candidate whose running sum of weights exceeds" the remainder of the word by S.
pub fn pick(w: &Weights, word: u32) -> usize {
    let remainder = u64::from(word) % w.weights.iter().sum::<u64>();
    let mut running = 0;
    for place in 0..w.list.length {
        running += w.weights[place];
        if running > remainder {
            return w.list.members[place] as usize;
        }
    }
    unreachable!("a remainder by S is below S")
}

/// A single decision: refusals 1, 3 and 4.
pub fn decide(t: &Table, s: &State, words: &[u32]) -> Result<usize, Refusal> {
    judge_table_and_state(t, s)?;
    match words.first() {
        Some(&word) => Ok(pick(&weights_of(t, s), word)),
        None => refuse(4, 0),
    }
}

// Tick, release and run.

/// "A picked partition loses one of b. Then every o falls by 1; where it reaches 0, b becomes B
/// and o becomes T."
pub fn ticked(t: &Table, mut s: State, pick: usize) -> State {
    if pick != IDLE {
        s.b[pick] -= 1;
    }
    for h in 0..t.count {
        s.o[h] -= 1;
        if s.o[h] == 0 {
            s.b[h] = t.budget[h];
            s.o[h] = t.period[h];
        }
    }
    s
}

/// Refusals 1, 3 and 7. Nothing is written on a refusal.
pub fn run(t: &Table, s: &State, words: &[u32], picks: &mut [u8]) -> Result<State, Refusal> {
    judge_table_and_state(t, s)?;
    if picks.len() < words.len() {
        return refuse(7, words.len());
    }
    let mut state = *s;
    for (place, &word) in words.iter().enumerate() {
        let pick = pick(&weights_of(t, &state), word);
        picks[place] = pick as u8;
        state = ticked(t, state, pick);
    }
    Ok(state)
}

// Task response.

fn judge_asked_task(t: &Table, k: &Tasks, x: usize) -> Result<(), Refusal> {
    judge_table(t)?;
    judge_tasks(t, k)?;
    if x >= k.count {
        return refuse(9, x);
    }
    Ok(())
}

/// "until r stands still or T − B + r exceeds p. The answer is T − B + r, or 0 for late."
pub fn response(t: &Table, k: &Tasks, x: usize) -> u64 {
    let home = k.partition[x];
    let budget = i64::from(t.budget[home as usize]);
    let gone = i64::from(t.period[home as usize]) - budget;
    let above = || (0..x).filter(|&y| k.partition[y] == home);
    let mut r = i64::from(k.cost[x]);
    while gone + r <= k.gap[x].into() {
        let load: i64 = above()
            .map(|y| ceil(gone + r, k.gap[y].into()) * i64::from(k.cost[y]))
            .sum();
        let load = i64::from(k.cost[x]) + load;
        let next = load + ceil(load, budget) * gone;
        if next == r {
            return (gone + r) as u64;
        }
        r = next;
    }
    0
}

/// Refusals 1 and 9.
pub fn task_response(t: &Table, k: &Tasks, x: usize) -> Result<u64, Refusal> {
    judge_asked_task(t, k, x)?;
    Ok(response(t, k, x))
}

// Inside the kernel: the hook's table is a run of records, and its one state is updated where it stands.

/// A run of records as a table. Of more than 16 only the count matters: every call refuses them.
pub fn table_of(parts: &[Part]) -> Table {
    let mut t = Table::NONE;
    t.count = parts.len();
    for (h, part) in parts.iter().take(MOST_PARTITIONS).enumerate() {
        t.period[h] = part.period;
        t.budget[h] = part.budget;
        t.phase[h] = part.phase;
    }
    t
}

/// One decision and its tick: refusals 1 and 3.
pub fn hook_tick(s: &mut State, parts: &[Part], word: u32) -> Result<usize, Refusal> {
    let t = table_of(parts);
    let pick = decide(&t, s, &[word])?;
    *s = ticked(&t, *s, pick);
    Ok(pick)
}

/// A tick for a pick made elsewhere: refusals 1, 3 and 5.
pub fn hook_tick_for(s: &mut State, parts: &[Part], pick: usize) -> Result<(), Refusal> {
    let t = table_of(parts);
    if !candidates(&t, s)?.has(pick) {
        return refuse(5, pick);
    }
    *s = ticked(&t, *s, pick);
    Ok(())
}

/// "An active partition's b becomes 0.": refusals 1, 3 and 6.
pub fn hook_release(s: &mut State, parts: &[Part], index: usize) -> Result<(), Refusal> {
    let t = table_of(parts);
    judge_table_and_state(&t, s)?;
    if index >= t.count || s.b[index] == 0 {
        return refuse(6, index);
    }
    s.b[index] = 0;
    Ok(())
}
