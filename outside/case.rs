//! A case: everything that any call takes, and how one is made at random.

use crate::random::Random;
use crate::rules::{self, Part, State, Table, Tasks, IDLE, MOST_PARTITIONS};
use crate::states;
use crate::tables;
use crate::tasks;

#[derive(Clone)]
pub struct Case {
    pub table: Table,
    pub state: State,
    pub words: Vec<u32>,
    /// Bytes in the lent buffer of a run.
    pub room: usize,
    /// The partition asked for, and the inversion.
    pub partition: usize,
    pub inversion: u32,
    /// What a tick is for, and what is released.
    pub pick: usize,
    pub index: usize,
    pub tasks: Tasks,
    pub task: usize,
}

/// How many records the hook is lent for a count. Nobody has memory for the largest counts.
pub fn records(count: usize) -> usize {
    if count > 70_000 {
        return 20;
    }
    count
}

impl Case {
    pub fn of(table: Table, state: State) -> Case {
        Case {
            table,
            state,
            words: Vec::new(),
            room: 0,
            partition: 0,
            inversion: 0,
            pick: 0,
            index: 0,
            tasks: Tasks::NONE,
            task: 0,
        }
    }

    /// The table as the hook's records. Those past the sixteenth repeat the first ones.
    pub fn parts(&self) -> Vec<Part> {
        let t = &self.table;
        let part = |h: usize| Part {
            period: t.period[h],
            budget: t.budget[h],
            phase: t.phase[h],
        };
        (0..records(t.count))
            .map(|h| part(h % MOST_PARTITIONS))
            .collect()
    }
}

// At random.

/// An index that isn't there, some of them small when cut to fewer bits.
fn absent(r: &mut Random, count: usize) -> usize {
    let over = r.below(MOST_PARTITIONS);
    r.of(&[
        count,
        count,
        15,
        16,
        17,
        254,
        255,
        256,
        511,
        256 + over,
        65535,
        65536 + over,
        (1 << 32) + over,
        usize::MAX,
    ])
    .max(count)
}

fn asked(r: &mut Random, count: usize) -> usize {
    if r.one_in(8) {
        absent(r, count)
    } else {
        r.below(count)
    }
}

fn some_words(r: &mut Random, t: &Table, s: &State) -> Vec<u32> {
    let most = if r.one_in(64) {
        200
    } else {
        r.of(&[0, 1, 2, 6, 12])
    };
    let mut words: Vec<u32> = (0..r.between(most / 2, most))
        .map(|_| states::word(r))
        .collect();
    if !words.is_empty() && r.one_in(2) {
        words[0] = states::edge_word(r, t, s);
    }
    words
}

fn some_room(r: &mut Random, words: usize) -> usize {
    match r.below(4) {
        0 => words + r.between(1, 9),
        1 if words > 0 => r.of(&[0, words - 1, words / 2]),
        _ => words,
    }
}

/// Mostly 0 to 2; else about as long as the deadline allows, or far too long.
fn some_inversion(r: &mut Random, t: &Table, s: &State, h: usize) -> u32 {
    if r.one_in(8) {
        return r.of(&[u32::MAX, u32::MAX - 1, 1 << 31, 1 << 16]);
    }
    let Ok(Some(length)) = rules::busy_length(t, s, h, 0) else {
        return r.below(3) as u32;
    };
    let spare = u32::from(s.o[h]).saturating_sub(length as u32);
    match r.below(4) {
        0 => r.below(spare as usize + 1) as u32,
        1 => spare + r.below(2) as u32,
        _ => r.below(3) as u32,
    }
}

/// A task that is there, mostly the last one, as it has the most ranked above it; or one that isn't.
fn asked_task(r: &mut Random, count: usize) -> usize {
    match r.below(8) {
        0 => r.of(&[count, 64, 65, 256, (1 << 32) + count]),
        1..=3 => count.saturating_sub(1),
        _ => r.below(count.max(1)),
    }
}

/// In range so far: what each call is asked is chosen while the table can be read.
fn in_range(r: &mut Random, with_tasks: bool) -> Case {
    let mut table = tables::in_range(r);
    let tasks = match with_tasks {
        true if r.one_in(8) => tasks::overflowing(r, &mut table),
        true => tasks::in_range(r, &table),
        false => Tasks::NONE,
    };
    let state = states::in_range(r, &table);
    let mut case = Case::of(table, state);
    let count = table.count;
    case.words = some_words(r, &table, &state);
    case.room = some_room(r, case.words.len());
    case.partition = asked(r, count);
    case.inversion = some_inversion(r, &table, &state, case.partition);
    case.pick = if r.one_in(5) { IDLE } else { asked(r, count) };
    case.index = asked(r, count);
    case.tasks = tasks;
    case.task = asked_task(r, tasks.count);
    case
}

/// A table and a state, damaged now and then, with something to ask of each call.
pub fn random(r: &mut Random, with_tasks: bool) -> Case {
    let mut case = in_range(r, with_tasks);
    if r.one_in(9) {
        states::damage(r, &case.table, &mut case.state);
    }
    if with_tasks && r.one_in(7) {
        tasks::damage(r, &case.table, &mut case.tasks);
    }
    if r.one_in(9) {
        tables::damage_table(r, &mut case.table);
    }
    case
}
