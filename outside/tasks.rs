//! Random tasks over a table: in range first, then damaged by small steps.

use crate::random::Random;
use crate::rules::{self, Table, Tasks, LONGEST_PERIOD};

fn add(r: &mut Random, t: &Table, k: &mut Tasks) {
    let x = k.count;
    let home = r.below(t.count);
    let period = t.period[home] as usize;
    let gap = match r.below(4) {
        0 => r.between(1, 65535),
        1 => r.between(1, 20),
        _ => (period * r.between(1, 20) + r.below(3)).min(65535),
    };
    let most = if r.one_in(8) {
        gap
    } else {
        (gap / 20).clamp(1, 200)
    };
    k.partition[x] = home as u16;
    k.gap[x] = gap as u16;
    k.cost[x] = r.between(1, most) as u16;
    k.count += 1;
}

/// The gap of one task becomes its response, or one less: in time and late are one apart.
fn tighten(r: &mut Random, t: &Table, k: &mut Tasks) {
    let x = r.below(k.count);
    k.gap[x] = 65535;
    let ticks = rules::response(t, k, x);
    if ticks > 0 {
        let gap = ticks as u16 - r.field(0, 1);
        k.gap[x] = gap.max(k.cost[x]);
    }
}

/// Tasks in range over a table in range.
pub fn in_range(r: &mut Random, t: &Table) -> Tasks {
    let mut k = Tasks::NONE;
    let most = r.of(&[0, 1, 2, 4, 8, 8, 20, 64]);
    for _ in 0..r.between(most / 2, most) {
        add(r, t, &mut k);
    }
    if k.count > 0 && r.one_in(2) {
        tighten(r, t, &mut k);
    }
    k
}

/// Sums that leave 32 bits: a load of a multiple of 2^20, or just above, at 4,096 ticks for each of it.
pub fn overflowing(r: &mut Random, t: &mut Table) -> Tasks {
    let home = r.below(t.count);
    (t.period[home], t.budget[home]) = (LONGEST_PERIOD, 1);
    let above = r.of(&[16, 32, 48]);
    let mut k = Tasks::NONE;
    k.count = above + 1;
    for x in 0..k.count {
        (k.partition[x], k.gap[x], k.cost[x]) = (home as u16, 65535, 65535);
    }
    k.cost[above] = (above + r.below(12)) as u16;
    k
}

/// One task's field out of range, or too many tasks.
pub fn damage(r: &mut Random, t: &Table, k: &mut Tasks) {
    if k.count > 0 {
        damage_task(r, t, k);
    }
    if k.count == 0 || r.one_in(4) {
        k.count = r.of(&[65, 65, 66, 256, 320, (1 << 32) + 1, usize::MAX]);
    }
}

pub fn damage_task(r: &mut Random, t: &Table, k: &mut Tasks) {
    let x = r.below(k.count);
    match r.below(5) {
        0 => k.partition[x] = t.count as u16,
        1 => k.partition[x] = r.field(t.count as u16, u16::MAX),
        2 => k.gap[x] = 0,
        3 => k.cost[x] = 0,
        _ if k.gap[x] < u16::MAX => k.cost[x] = k.gap[x] + 1,
        _ => k.cost[x] = 0,
    }
}
