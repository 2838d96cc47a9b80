//! Document 01, "Meter file and printers": what each printer writes for a file, from 01's words alone.

use crate::rules::{self, Refusal, State, Table, Tasks, IDLE, MOST_PARTITIONS, MOST_TASKS};

/// "A file is at most 65,536 bytes."
pub const LONGEST_FILE: usize = 65536;

enum Event {
    Word(u32),
    Release(usize),
}

/// What a file holds that isn't malformed. More partitions or tasks than may be are counted, and not kept.
struct Meter {
    table: Table,
    tasks: Tasks,
    events: Vec<Event>,
}

fn number(bytes: &[u8], at: usize) -> u16 {
    u16::from_le_bytes([bytes[at], bytes[at + 1]])
}

/// The length that a record of this kind has, "counting kind and payload".
fn length_of(kind: u16) -> Option<usize> {
    match kind {
        1 | 2 => Some(8),
        3 => Some(6),
        4 => Some(4),
        _ => None,
    }
}

/// "All kind 1 come first, then kind 2, then 3 and 4 mixed."
fn stage(kind: u16) -> u16 {
    kind.min(3)
}

/// The kind, and where the next record begins; None for a malformed record.
fn record(file: &[u8], at: usize, before: u16) -> Option<(u16, usize)> {
    if file.len() < at + 4 {
        return None;
    }
    let length = number(file, at) as usize;
    let kind = number(file, at + 2);
    let next = at + 2 + length;
    let right = length_of(kind) == Some(length) && stage(kind) >= stage(before);
    (right && next <= file.len()).then_some((kind, next))
}

impl Meter {
    fn add_partition(&mut self, payload: &[u8]) {
        let t = &mut self.table;
        if t.count < MOST_PARTITIONS {
            t.period[t.count] = number(payload, 0);
            t.budget[t.count] = number(payload, 2);
            t.phase[t.count] = number(payload, 4);
        }
        t.count += 1;
    }

    fn add_task(&mut self, payload: &[u8]) {
        let k = &mut self.tasks;
        if k.count < MOST_TASKS {
            k.partition[k.count] = number(payload, 0);
            k.gap[k.count] = number(payload, 2);
            k.cost[k.count] = number(payload, 4);
        }
        k.count += 1;
    }

    fn add(&mut self, kind: u16, payload: &[u8]) {
        match kind {
            1 => self.add_partition(payload),
            2 => self.add_task(payload),
            3 => {
                let high = u32::from(number(payload, 2)) << 16;
                self.events
                    .push(Event::Word(high | u32::from(number(payload, 0))));
            }
            _ => self.events.push(Event::Release(number(payload, 0).into())),
        }
    }
}

/// Refusal 8: the size first, then the records.
fn read(file: &[u8]) -> Result<Meter, Refusal> {
    let malformed = |second| Refusal { number: 8, second };
    if file.len() > LONGEST_FILE {
        return Err(malformed(65536));
    }
    let mut meter = Meter {
        table: Table::NONE,
        tasks: Tasks::NONE,
        events: Vec::new(),
    };
    let (mut at, mut before) = (0, 1);
    while at < file.len() {
        let (kind, next) = record(file, at, before).ok_or(malformed(at))?;
        meter.add(kind, &file[at + 4..next]);
        (at, before) = (next, kind);
    }
    Ok(meter)
}

/// The whole file is judged before any line: 8, 1, 9, 2.
fn judged(file: &[u8]) -> Result<(Meter, State), Refusal> {
    let meter = read(file)?;
    rules::judge_table(&meter.table)?;
    rules::judge_tasks(&meter.table, &meter.tasks)?;
    let state = rules::fresh(&meter.table)?;
    Ok((meter, state))
}

fn refused(r: Refusal) -> String {
    format!("refused {} at {}\n", r.number, r.second)
}

/// What the schedule printer writes.
pub fn schedule(file: &[u8]) -> String {
    let (meter, mut state) = match judged(file) {
        Ok(both) => both,
        Err(r) => return refused(r),
    };
    let mut out = String::from("tick pick\n");
    let mut ticks = 0;
    for event in &meter.events {
        match *event {
            Event::Word(word) => {
                let pick = rules::pick(&rules::weights_of(&meter.table, &state), word);
                state = rules::ticked(&meter.table, state, pick);
                out += &match pick {
                    IDLE => format!("{ticks} idle\n"),
                    _ => format!("{ticks} {pick}\n"),
                };
                ticks += 1;
            }
            Event::Release(index) => {
                if index >= meter.table.count || state.b[index] == 0 {
                    let (number, second) = (6, index);
                    return out + &refused(Refusal { number, second });
                }
                state.b[index] = 0;
                out += &format!("{ticks} release {index}\n");
            }
        }
    }
    out + &format!("end {ticks}\n")
}

/// What the response printer writes.
pub fn response(file: &[u8]) -> String {
    let meter = match judged(file) {
        Ok((meter, _)) => meter,
        Err(r) => return refused(r),
    };
    let tasks = &meter.tasks;
    let mut out = String::from("partition task response\n");
    for x in 0..tasks.count {
        let home = tasks.partition[x];
        let rank = (0..x).filter(|&y| tasks.partition[y] == home).count();
        out += &match rules::response(&meter.table, tasks, x) {
            0 => format!("{home} {rank} late\n"),
            ticks => format!("{home} {rank} {ticks}\n"),
        };
    }
    out + &format!("end {}\n", tasks.count)
}
