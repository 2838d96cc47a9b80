//! Random states of a table, standing or not, and words to draw with over them.

use crate::random::Random;
use crate::rules::{self, State, Table, IDLE, MOST_PARTITIONS};

// States.

/// Ticks for random members of the list and releases, from a fresh start.
fn reached(r: &mut Random, t: &Table) -> State {
    let mut s = rules::fresh_pairs(t);
    for _ in 0..r.below(24) {
        let list = rules::list_of(t, &s);
        let member = list.members[r.below(list.length)] as usize;
        if member != IDLE && r.one_in(6) {
            s.b[member] = 0;
        } else {
            s = rules::ticked(t, s, member);
        }
    }
    s
}

fn random_pair(r: &mut Random, budget: u16, period: u16, way: usize) -> (u16, u16) {
    match way {
        0 => (r.field(0, budget), r.field(1, period)),
        1 => (
            r.of(&[0, 1, budget]).min(budget),
            r.of(&[1, 2, period]).min(period),
        ),
        2 => {
            let o = r.field(1, period);
            (budget.min(o).saturating_sub(r.field(0, 1)), o)
        }
        3 => (
            if r.one_in(4) { r.field(1, budget) } else { 0 },
            r.field(1, period),
        ),
        _ => {
            let o = r.field(1, period);
            let fair = u32::from(budget) * u32::from(o) / u32::from(period);
            (fair as u16, o)
        }
    }
}

/// Each replenishment comes when all above, and what comes to them meanwhile, has just about run.
fn stairs(r: &mut Random, t: &Table) -> State {
    let (mut s, mut running) = (State::NONE, 0);
    for h in 0..t.count {
        let budget = t.budget[h];
        s.b[h] = r.of(&[0, 1, budget, budget.div_ceil(4)]).min(budget);
        running += s.b[h] as usize;
        let o = running + r.below(3);
        s.o[h] = o.clamp(1, t.period[h].into()) as u16;
        running += budget as usize;
    }
    s
}

/// A state in range for a table in range, standing or not.
pub fn in_range(r: &mut Random, t: &Table) -> State {
    let way = r.below(10);
    match way {
        5 => return rules::fresh_pairs(t),
        6..=8 => return reached(r, t),
        9 => return stairs(r, t),
        _ => (),
    }
    let mut s = State::NONE;
    for h in 0..t.count {
        (s.b[h], s.o[h]) = random_pair(r, t.budget[h], t.period[h], way);
    }
    s
}

fn damage_pair(r: &mut Random, t: &Table, s: &mut State) {
    let h = r.below(MOST_PARTITIONS);
    if h >= t.count {
        match r.below(3) {
            0 => s.b[h] = 1,
            1 => s.o[h] = 1,
            _ => (s.b[h], s.o[h]) = (r.next() as u16, r.next() as u16),
        }
        return;
    }
    match r.below(5) {
        0 => s.b[h] = t.budget[h] + 1,
        1 => s.o[h] = 0,
        2 => s.o[h] = t.period[h] + 1,
        3 => s.b[h] = r.field(t.budget[h] + 1, u16::MAX),
        _ => s.o[h] = r.field(t.period[h] + 1, u16::MAX),
    }
}

pub fn damage(r: &mut Random, t: &Table, s: &mut State) {
    for _ in 0..r.of(&[1, 1, 2, 3]) {
        damage_pair(r, t, s);
    }
}

// Words.

/// A word whose remainder by S is the last for one candidate or the first for the next.
pub fn edge_word(r: &mut Random, t: &Table, s: &State) -> u32 {
    let w = rules::weights_of(t, s);
    let all: u64 = w.weights.iter().sum();
    let place = r.below(w.list.length);
    let edge: u64 = w.weights[..=place].iter().sum();
    let remainder = (edge + r.below(2) as u64 + all - 1) % all;
    let turns = (u64::from(u32::MAX) - remainder) / all;
    let turn = r.next() % (turns + 1);
    (turn * all + remainder) as u32
}

pub fn word(r: &mut Random) -> u32 {
    match r.below(16) {
        0 => 0,
        1 => u32::MAX,
        2 => r.below(65537) as u32,
        _ => r.next() as u32,
    }
}
