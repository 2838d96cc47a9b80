//! Random tables: in range first, then damaged by small steps.

use crate::random::Random;
use crate::rules::{self, Table, LONGEST_PERIOD, MOST_PARTITIONS};

// Tables in range.

fn some_count(r: &mut Random) -> usize {
    if r.one_in(12) {
        return MOST_PARTITIONS;
    }
    let most = r.of(&[1, 3, 4, 6, 8, 12, 16, 16]);
    r.between(1, most)
}

/// Small periods: admission is often borderline, and replenishments are close.
fn small(r: &mut Random, t: &mut Table) {
    let longest = r.field(2, 14);
    for h in 0..t.count {
        t.period[h] = r.field(1, longest);
        let most = if r.one_in(3) {
            t.period[h]
        } else {
            t.period[h].div_ceil(3)
        };
        t.budget[h] = r.field(1, most);
    }
}

/// Any fields in range.
fn any(r: &mut Random, t: &mut Table) {
    for h in 0..t.count {
        t.period[h] = r.field(1, LONGEST_PERIOD);
        t.budget[h] = r.field(1, t.period[h]);
    }
}

/// Budgets that together take about `thousandths` of the processor.
fn share_out(r: &mut Random, t: &mut Table, thousandths: usize) {
    let parts: Vec<usize> = (0..t.count).map(|_| r.between(1, 100)).collect();
    let all: usize = parts.iter().sum();
    for h in 0..t.count {
        let period = t.period[h] as usize;
        let budget = period * thousandths * parts[h] / (1000 * all);
        t.budget[h] = budget.clamp(1, period) as u16;
    }
}

/// Use near 1, periods of one size or of many, mostly in the order of their lengths.
fn nearly_full(r: &mut Random, t: &mut Table) {
    let longest = r.of(&[20, 60, 200, 1000, 4096]);
    for h in 0..t.count {
        let longest = if r.one_in(2) {
            longest
        } else {
            longest / r.field(1, 8)
        };
        t.period[h] = r.field(1, longest);
    }
    if !r.one_in(4) {
        let count = t.count;
        t.period[..count].sort_unstable();
    }
    let thousandths = r.between(500, 1060);
    share_out(r, t, thousandths);
}

/// Periods that double, and budgets that fill the processor exactly where that can be.
fn doubling(r: &mut Random, t: &mut Table) {
    let base = r.between(1, 6);
    let mut step = 0;
    for h in 0..t.count {
        step = (step + r.below(2)).min(9);
        t.period[h] = (base << step) as u16;
    }
    let longest = t.period[t.count - 1] as usize;
    let mut left = longest;
    for h in 0..t.count {
        let one = longest / t.period[h] as usize;
        let most = left / one;
        let last = h + 1 == t.count;
        let budget = if last { most } else { r.between(0, most / 2) };
        t.budget[h] = budget.clamp(1, t.period[h].into()) as u16;
        left = left.saturating_sub(t.budget[h] as usize * one);
    }
}

/// One period for all; the budgets add up to it, or to one more or less.
fn equal_periods(r: &mut Random, t: &mut Table) {
    let least = t.count.max(2) as u16;
    let period = r.of(&[least, 16, 100, 4095, 4096]).max(least);
    let mut left = period as usize - 1 + r.below(3);
    for h in 0..t.count {
        let waiting = t.count - h - 1;
        let most = left.saturating_sub(waiting).max(1);
        let budget = if waiting == 0 {
            left
        } else {
            r.between(1, most)
        };
        t.period[h] = period;
        t.budget[h] = budget.clamp(1, period.into()) as u16;
        left = left.saturating_sub(budget);
    }
}

/// Long periods, light budgets.
fn long(r: &mut Random, t: &mut Table) {
    for h in 0..t.count {
        t.period[h] = if r.one_in(4) {
            LONGEST_PERIOD
        } else {
            r.field(1000, LONGEST_PERIOD)
        };
        let most = (t.period[h] / t.count as u16).max(1);
        t.budget[h] = if r.one_in(3) { 1 } else { r.field(1, most) };
    }
}

/// A budget of one tick each.
fn single_ticks(r: &mut Random, t: &mut Table) {
    let longest = r.of(&[8, 40, 300, 4096]);
    for h in 0..t.count {
        t.period[h] = r.field(1, longest);
        t.budget[h] = 1;
    }
}

fn phases(r: &mut Random, t: &mut Table) {
    let way = r.below(3);
    for h in 0..t.count {
        t.phase[h] = match way {
            0 => 0,
            1 => r.field(0, t.period[h] - 1),
            _ => r.of(&[0, t.period[h] - 1, t.period[h] / 2]),
        };
    }
}

/// Entries beyond the count are no part of a table: half the time they are anything.
fn fill_beyond(r: &mut Random, t: &mut Table) {
    if r.one_in(2) {
        for h in t.count..MOST_PARTITIONS {
            t.period[h] = r.next() as u16;
            t.budget[h] = r.next() as u16;
            t.phase[h] = r.next() as u16;
        }
    }
}

/// A table in range, admitted or not.
pub fn in_range(r: &mut Random) -> Table {
    let mut t = Table::NONE;
    t.count = some_count(r);
    match r.below(12) {
        0 | 1 => small(r, &mut t),
        2 => any(r, &mut t),
        3..=6 => nearly_full(r, &mut t),
        7 | 8 => doubling(r, &mut t),
        9 => equal_periods(r, &mut t),
        10 => long(r, &mut t),
        _ => single_ticks(r, &mut t),
    }
    phases(r, &mut t);
    fill_beyond(r, &mut t);
    t
}

/// An admitted table; entries beyond the count are 0.
pub fn admitted(r: &mut Random) -> Table {
    loop {
        let mut t = in_range(r);
        for h in t.count..MOST_PARTITIONS {
            (t.period[h], t.budget[h], t.phase[h]) = (0, 0, 0);
        }
        if rules::admission(&t) == Ok(None) {
            return t;
        }
    }
}

// Tables out of range.

/// One field, out of range by one or far out.
pub fn damage_partition(r: &mut Random, t: &mut Table, h: usize) {
    match r.below(7) {
        0 => t.period[h] = 0,
        1 => t.period[h] = LONGEST_PERIOD + 1,
        2 => t.period[h] = r.field(LONGEST_PERIOD + 1, u16::MAX),
        3 => t.budget[h] = 0,
        4 => t.budget[h] = t.period[h] + 1,
        5 => t.phase[h] = t.period[h],
        _ => t.phase[h] = r.field(t.period[h], u16::MAX),
    }
}

/// A count that may not be. Many of these are small again when cut to fewer bits.
fn damage_count(r: &mut Random, t: &mut Table) {
    t.count = r.of(&[0, 0, 17, 17, 18, 33, 256, 258, (1 << 32) + 2, usize::MAX]);
    // Rare, as the hook is lent that many records.
    if r.one_in(200) {
        t.count = 65538;
    }
}

pub fn damage_table(r: &mut Random, t: &mut Table) {
    for _ in 0..r.of(&[1, 1, 2]) {
        let h = r.below(t.count);
        damage_partition(r, t, h);
    }
    if r.one_in(3) {
        damage_count(r, t);
    }
}
