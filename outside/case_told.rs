//! A case in words: the parts of it that a call is given.

use crate::calls::Call;
use crate::case::{records, Case};
use crate::rules::{MOST_PARTITIONS, MOST_TASKS};
use std::fmt::Write;

/// Rows of numbers, each after its index. Equal rows that follow each other are said once.
fn rows(found: &[(usize, String)]) -> String {
    let mut text = String::new();
    for same in found.chunk_by(|one, next| one.1 == next.1) {
        let (first, last) = (same[0].0, same[same.len() - 1].0);
        let places = match same.len() {
            1 => format!("{first}"),
            _ => format!("{first} to {last}"),
        };
        let _ = writeln!(text, "  {places:>9}{}", same[0].1);
    }
    text
}

fn in_columns(numbers: &[u16]) -> String {
    numbers.iter().map(|n| format!("{n:>7}")).collect()
}

pub fn partition_rows(case: &Case, with_state: bool) -> String {
    let (t, s) = (&case.table, &case.state);
    let mut found = Vec::new();
    for h in 0..MOST_PARTITIONS {
        let mut numbers = vec![t.period[h], t.budget[h], t.phase[h]];
        if with_state {
            numbers.extend([s.b[h], s.o[h]]);
        }
        let beyond = h >= t.count;
        if beyond && numbers.iter().all(|&n| n == 0) {
            continue;
        }
        let note = if beyond { "  beyond the table" } else { "" };
        found.push((h, in_columns(&numbers) + note));
    }
    let pair = if with_state { "      b      o" } else { "" };
    format!("  partition      T      B  phase{pair}\n{}", rows(&found))
}

fn task_rows(case: &Case) -> String {
    let k = &case.tasks;
    let row = |x| (x, in_columns(&[k.partition[x], k.gap[x], k.cost[x]]));
    let found: Vec<_> = (0..k.count.min(MOST_TASKS)).map(row).collect();
    let head = "       task     of      p      e";
    format!("  tasks: {}\n{head}\n{}", k.count, rows(&found))
}

/// The parts of a case that a call is given.
pub fn told(case: &Case, call: Call) -> String {
    let mut text = format!("  partitions: {}\n", case.table.count);
    if call.takes_records() {
        let _ = writeln!(text, "  records lent: {}", records(case.table.count));
    }
    text += &partition_rows(case, call.takes_state());
    if call == Call::TaskResponse {
        text += &task_rows(case);
    }
    let asked = match call {
        Call::PartitionResponse => format!("partition {}", case.partition),
        Call::BusyLength => format!("partition {}, inversion {}", case.partition, case.inversion),
        Call::Decide => format!("words {:?}", case.words),
        Call::Run => format!("words {:?}, room for {}", case.words, case.room),
        Call::Tick => format!("word {}", case.words.first().unwrap_or(&0)),
        Call::TickFor => format!("pick {}", case.pick),
        Call::Release => format!("index {}", case.index),
        Call::TaskResponse => format!("task {}", case.task),
        _ => return text,
    };
    text + "  asked: " + &asked + "\n"
}
