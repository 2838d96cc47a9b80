//! A case made smaller by one step: a part of it less, or a number of it lower.

use crate::case::Case;
use crate::rules::{MOST_PARTITIONS, MOST_TASKS};
use crate::shrink::{lower, Steps};

fn without(list: &mut [u16], h: usize) {
    list.copy_within(h + 1.., h);
    list[list.len() - 1] = 0;
}

fn one_less_past(number: &mut usize, h: usize) {
    if *number > h && *number <= MOST_PARTITIONS {
        *number -= 1;
    }
}

/// The case without partition h; its tasks go too.
pub fn without_partition(case: &Case, h: usize) -> Case {
    let mut c = case.clone();
    c.table.count -= 1;
    for list in [
        &mut c.table.period,
        &mut c.table.budget,
        &mut c.table.phase,
        &mut c.state.b,
        &mut c.state.o,
    ] {
        without(list, h);
    }
    for number in [&mut c.partition, &mut c.pick, &mut c.index] {
        one_less_past(number, h);
    }
    for x in (0..c.tasks.count.min(MOST_TASKS)).rev() {
        let home = c.tasks.partition[x] as usize;
        if home == h {
            c = without_task(&c, x);
        } else if home > h {
            c.tasks.partition[x] -= 1;
        }
    }
    c
}

fn without_task(case: &Case, x: usize) -> Case {
    let mut c = case.clone();
    c.tasks.count -= 1;
    without(&mut c.tasks.partition, x);
    without(&mut c.tasks.gap, x);
    without(&mut c.tasks.cost, x);
    if c.task > x && c.task <= MOST_TASKS {
        c.task -= 1;
    }
    c
}

fn without_word(case: &Case, place: usize) -> Case {
    let mut c = case.clone();
    c.words.remove(place);
    c.room = c.room.saturating_sub(1);
    c
}

/// Every case that has one part less.
fn fewer(case: &Case) -> Vec<Case> {
    let mut found = Vec::new();
    if (2..=MOST_PARTITIONS).contains(&case.table.count) {
        found.extend((0..case.table.count).map(|h| without_partition(case, h)));
    }
    found.extend((0..case.words.len()).map(|place| without_word(case, place)));
    if case.tasks.count <= MOST_TASKS {
        found.extend((0..case.tasks.count).map(|x| without_task(case, x)));
    }
    found
}

/// Every case in which one number of one place is less.
pub fn lower_fields(case: &Case) -> Vec<Case> {
    type Field = fn(&mut Case, usize) -> &mut u16;
    let pairs: [Field; 5] = [
        |c, h| &mut c.table.period[h],
        |c, h| &mut c.table.budget[h],
        |c, h| &mut c.table.phase[h],
        |c, h| &mut c.state.b[h],
        |c, h| &mut c.state.o[h],
    ];
    let tasks: [Field; 3] = [
        |c, x| &mut c.tasks.partition[x],
        |c, x| &mut c.tasks.gap[x],
        |c, x| &mut c.tasks.cost[x],
    ];
    let mut found = Vec::new();
    for (fields, places) in [(&pairs[..], MOST_PARTITIONS), (&tasks[..], MOST_TASKS)] {
        for place in 0..places {
            for field in fields {
                let mut c = case.clone();
                for value in lower(u64::from(*field(&mut c, place))) {
                    *field(&mut c, place) = value as u16;
                    found.push(c.clone());
                }
            }
        }
    }
    found
}

/// Every case in which one of its other numbers is less.
fn lower_numbers(case: &Case) -> Vec<Case> {
    type Number = fn(&mut Case) -> &mut usize;
    let numbers: [Number; 7] = [
        |c| &mut c.table.count,
        |c| &mut c.room,
        |c| &mut c.partition,
        |c| &mut c.pick,
        |c| &mut c.index,
        |c| &mut c.tasks.count,
        |c| &mut c.task,
    ];
    let mut found = Vec::new();
    for number in numbers {
        let mut c = case.clone();
        for value in lower(*number(&mut c) as u64) {
            *number(&mut c) = value as usize;
            found.push(c.clone());
        }
    }
    found
}

fn lower_words(case: &Case) -> Vec<Case> {
    let mut found = Vec::new();
    for place in 0..case.words.len() {
        for value in lower(case.words[place].into()) {
            let mut c = case.clone();
            c.words[place] = value as u32;
            found.push(c);
        }
    }
    for value in lower(case.inversion.into()) {
        let mut c = case.clone();
        c.inversion = value as u32;
        found.push(c);
    }
    found
}

/// Every case that is a step smaller, the large steps first.
pub fn smaller(case: &Case) -> Steps<'_, Case> {
    let steps = [fewer, lower_numbers, lower_fields, lower_words];
    Box::new(steps.into_iter().flat_map(move |step| step(case)))
}
