//! Random meter files: valid ones, and ones damaged in every way that 01 names.

use crate::meter::LONGEST_FILE;
use crate::random::Random;
use crate::rules::{self, Table, Tasks, IDLE, MOST_PARTITIONS, MOST_TASKS};
use crate::states;
use crate::tables;
use crate::tasks;

/// A file as its records. A damaged record may be any bytes.
pub type Records = Vec<Vec<u8>>;

/// What was done to a valid file.
#[derive(Clone, Copy, Debug, PartialEq, Eq)]
pub enum Sort {
    Valid,
    AtTheLimit,
    HeaderCut,
    PayloadCut,
    OtherKind,
    OtherLength,
    OutOfOrder,
    OverTheLimit,
    PartitionField,
    NoPartition,
    ManyPartitions,
    TaskField,
    ManyTasks,
    NotAdmitted,
    NotActive,
    NotThere,
    Empty,
    Several,
    Noise,
}

/// Each sort, how many in a hundred, and the refusal that the schedule printer gives (0: none).
pub const SORTS: [(Sort, usize, Option<u32>); 19] = [
    (Sort::Valid, 21, Some(0)),
    (Sort::AtTheLimit, 1, Some(0)),
    (Sort::HeaderCut, 5, Some(8)),
    (Sort::PayloadCut, 5, Some(8)),
    (Sort::OtherKind, 5, Some(8)),
    (Sort::OtherLength, 5, Some(8)),
    (Sort::OutOfOrder, 5, Some(8)),
    (Sort::OverTheLimit, 2, Some(8)),
    (Sort::PartitionField, 6, Some(1)),
    (Sort::NoPartition, 2, Some(1)),
    (Sort::ManyPartitions, 3, Some(1)),
    (Sort::TaskField, 6, Some(9)),
    (Sort::ManyTasks, 3, Some(9)),
    (Sort::NotAdmitted, 6, Some(2)),
    (Sort::NotActive, 4, Some(6)),
    (Sort::NotThere, 4, Some(6)),
    (Sort::Empty, 1, Some(1)),
    (Sort::Several, 14, None),
    (Sort::Noise, 2, None),
];

pub fn bytes(records: &Records) -> Vec<u8> {
    records.concat()
}

// Records.

fn record(kind: u16, payload: &[u16]) -> Vec<u8> {
    let length = 2 + 2 * payload.len() as u16;
    let numbers = [length, kind].into_iter().chain(payload.iter().copied());
    numbers.flat_map(u16::to_le_bytes).collect()
}

fn word(word: u32) -> Vec<u8> {
    record(3, &[word as u16, (word >> 16) as u16])
}

fn release(index: usize) -> Vec<u8> {
    record(4, &[index as u16])
}

/// What the records will be made of.
struct Draft {
    partitions: Vec<[u16; 3]>,
    tasks: Vec<[u16; 3]>,
    events: Records,
}

impl Draft {
    fn of(t: &Table, k: &Tasks, events: Records) -> Draft {
        Draft {
            partitions: (0..t.count)
                .map(|h| [t.period[h], t.budget[h], t.phase[h]])
                .collect(),
            tasks: (0..k.count)
                .map(|x| [k.partition[x], k.gap[x], k.cost[x]])
                .collect(),
            events,
        }
    }

    fn records(self) -> Records {
        let partitions = self.partitions.iter().map(|fields| record(1, fields));
        let tasks = self.tasks.iter().map(|fields| record(2, fields));
        partitions.chain(tasks).chain(self.events).collect()
    }
}

/// Words and releases of active partitions.
fn some_events(r: &mut Random, t: &Table) -> Records {
    let mut s = rules::fresh_pairs(t);
    let most = r.of(&[0, 4, 12, 40]);
    let mut events = Records::new();
    for _ in 0..r.between(most / 2, most) {
        let w = rules::weights_of(t, &s);
        let member = w.list.members[r.below(w.list.length)] as usize;
        if member != IDLE && r.one_in(5) {
            s.b[member] = 0;
            events.push(release(member));
            continue;
        }
        let drawn = if r.one_in(4) {
            states::edge_word(r, t, &s)
        } else {
            states::word(r)
        };
        s = rules::ticked(t, s, rules::pick(&w, drawn));
        events.push(word(drawn));
    }
    events
}

// Damage to what the records hold.

fn not_admitted(r: &mut Random) -> Table {
    loop {
        let t = tables::in_range(r);
        if matches!(rules::admission(&t), Ok(Some(_))) {
            return t;
        }
    }
}

fn more_partitions(r: &mut Random, draft: &mut Draft) {
    let many = r.of(&[17, 17, 18, 40]);
    while draft.partitions.len() < many {
        let again = draft.partitions[r.below(draft.partitions.len())];
        draft
            .partitions
            .push(if r.one_in(4) { [0; 3] } else { again });
    }
}

fn more_tasks(r: &mut Random, draft: &mut Draft) {
    let many = r.of(&[65, 65, 66, 120]);
    while draft.tasks.len() < many {
        let gap = r.field(1, 65535);
        draft.tasks.push([0, gap, if r.one_in(20) { 0 } else { 1 }]);
    }
}

/// Two releases of one partition with no tick between: the second is refused, if not the first.
fn release_twice(r: &mut Random, draft: &mut Draft) {
    let index = r.below(draft.partitions.len().max(1));
    let place = r.below(draft.events.len() + 1);
    for _ in 0..2 {
        draft.events.insert(place, release(index));
    }
}

fn release_absent(r: &mut Random, draft: &mut Draft) {
    let count = draft.partitions.len();
    let index = r.of(&[count, 16, 17, 255, 256, 65535]).max(count);
    let place = r.below(draft.events.len() + 1);
    draft.events.insert(place, release(index));
}

fn draft(r: &mut Random, sort: Sort) -> Draft {
    let mut t = match sort {
        Sort::NotAdmitted => not_admitted(r),
        _ => tables::admitted(r),
    };
    let mut k = match r.one_in(12) {
        true if t.count < MOST_PARTITIONS && sort != Sort::NotAdmitted => with_overflow(r, &mut t),
        _ => tasks::in_range(r, &t),
    };
    let events = some_events(r, &t);
    if sort == Sort::PartitionField {
        let h = r.below(t.count);
        tables::damage_partition(r, &mut t, h);
    }
    if sort == Sort::TaskField {
        k.count = k.count.max(1);
        tasks::damage_task(r, &t, &mut k);
    }
    let mut draft = Draft::of(&t, &k, events);
    damage_draft(r, sort, &mut draft);
    draft
}

/// Sums that leave 32 bits, where the table stays admitted with them.
fn with_overflow(r: &mut Random, t: &mut Table) -> Tasks {
    let mut changed = *t;
    let k = tasks::overflowing(r, &mut changed);
    if rules::admission(&changed) != Ok(None) {
        return tasks::in_range(r, t);
    }
    *t = changed;
    k
}

fn damage_draft(r: &mut Random, sort: Sort, draft: &mut Draft) {
    match sort {
        Sort::NoPartition => draft.partitions.clear(),
        Sort::ManyPartitions => more_partitions(r, draft),
        Sort::ManyTasks => more_tasks(r, draft),
        Sort::NotActive => release_twice(r, draft),
        Sort::NotThere => release_absent(r, draft),
        _ => (),
    }
}

// Damage to the records themselves.

/// The file ends in this record, after at least `least` of its bytes.
fn cut(r: &mut Random, file: &mut Records, least: usize, most: usize) {
    let place = r.below(file.len());
    file.truncate(place + 1);
    let most = most.min(file[place].len().saturating_sub(1));
    let kept = r.between(least.min(most), most);
    file[place].truncate(kept);
}

pub fn set_number(record: &mut [u8], at: usize, number: u16) {
    if record.len() >= at + 2 {
        record[at..at + 2].copy_from_slice(&number.to_le_bytes());
    }
}

pub fn get_number(record: &[u8], at: usize) -> u16 {
    match record.get(at..at + 2) {
        Some(two) => u16::from_le_bytes([two[0], two[1]]),
        None => 0,
    }
}

fn other_kind(r: &mut Random, file: &mut Records) {
    let place = r.below(file.len());
    let kind = get_number(&file[place], 2);
    let other = r.of(&[0, 5, 6, 255, kind | 256, kind << 8, 65535]);
    set_number(&mut file[place], 2, other);
}

/// A length that isn't the kind's; half the time the record then has that length.
fn other_length(r: &mut Random, file: &mut Records) {
    let place = r.below(file.len());
    let right = get_number(&file[place], 0);
    let other = r.of(&[0, 1, 2, right - 1, right + 1, right + 2, right + 256, 65535]);
    if other < 300 && other >= 2 && r.one_in(2) {
        file[place].resize(2 + other as usize, 0);
    }
    set_number(&mut file[place], 0, other);
}

/// A partition after a task, a word or a release, or a task after a word or a release.
fn out_of_order(r: &mut Random, file: &mut Records) {
    if r.one_in(3) {
        file.insert(0, record(2, &[0, 10, 1]));
        return;
    }
    if file.iter().all(|record| get_number(record, 2) < 3) {
        file.push(word(r.next() as u32));
    }
    let first = file
        .iter()
        .position(|record| get_number(record, 2) >= 3)
        .unwrap_or(0);
    let place = r.between(first + 1, file.len());
    let late = if r.one_in(2) {
        record(1, &[4, 1, 0])
    } else {
        record(2, &[0, 10, 1])
    };
    file.insert(place, late);
}

pub fn size(file: &Records) -> usize {
    file.iter().map(Vec::len).sum()
}

/// Words until the file has exactly so many bytes; some tasks first, as 10 bytes make up for words of 8.
fn fill(r: &mut Random, file: &mut Records, bytes: usize) {
    let before = |kind| move |record: &Vec<u8>| get_number(record, 2) < kind;
    let first = file.partition_point(before(2));
    let tasks = file.partition_point(before(3)) - first;
    while (bytes - size(file)) % 8 != 0 {
        if tasks + 3 <= MOST_TASKS {
            file.insert(first, record(2, &[0, 5000, 1]));
        } else {
            file.remove(first);
        }
    }
    for _ in 0..(bytes - size(file)) / 8 {
        file.push(word(r.next() as u32));
    }
}

fn over_the_limit(r: &mut Random, file: &mut Records) {
    match r.below(4) {
        0 => {
            fill(r, file, LONGEST_FILE);
            file.push(vec![r.next() as u8]);
        }
        1 => fill(r, file, LONGEST_FILE + 8),
        2 => file.push(vec![0; LONGEST_FILE + 1]),
        _ => {
            other_kind(r, file);
            file.push(vec![r.next() as u8; 150_000]);
        }
    }
}

fn damage_records(r: &mut Random, sort: Sort, file: &mut Records) {
    if file.is_empty() {
        return;
    }
    match sort {
        Sort::HeaderCut => cut(r, file, 1, 3),
        Sort::PayloadCut => cut(r, file, 4, 9),
        Sort::OtherKind => other_kind(r, file),
        Sort::OtherLength => other_length(r, file),
        Sort::OutOfOrder => out_of_order(r, file),
        Sort::OverTheLimit => over_the_limit(r, file),
        Sort::AtTheLimit => fill(r, file, LONGEST_FILE),
        Sort::Empty => file.clear(),
        _ => (),
    }
}

/// Two to four faults in one file: 01 says which comes first.
fn several(r: &mut Random) -> Records {
    use Sort::*;
    let of_fields = r.of(&[PartitionField, TaskField, NotAdmitted, Valid]);
    let mut draft = draft(r, of_fields);
    for _ in 0..r.between(1, 2) {
        let of_counts = r.of(&[ManyPartitions, ManyTasks, NotActive, NotThere]);
        damage_draft(r, of_counts, &mut draft);
    }
    if r.one_in(6) {
        damage_draft(r, NoPartition, &mut draft);
    }
    let mut file = draft.records();
    if r.one_in(3) {
        let of_records = r.of(&[HeaderCut, PayloadCut, OtherKind, OutOfOrder]);
        damage_records(r, of_records, &mut file);
    }
    file
}

/// A valid file with a few bytes changed.
fn noise(r: &mut Random) -> Records {
    let mut file = draft(r, Sort::Valid).records();
    for _ in 0..r.between(1, 3) {
        let place = r.below(file.len());
        let at = r.below(file[place].len());
        file[place][at] = r.next() as u8;
    }
    file
}

/// The sort of the file at this place: every hundred files have all of them.
pub fn sort_at(place: usize) -> Sort {
    let mut left = place % 100;
    for (sort, share, _) in SORTS {
        if left < share {
            return sort;
        }
        left -= share;
    }
    Sort::Valid
}

pub fn random(r: &mut Random, sort: Sort) -> Records {
    match sort {
        Sort::Several => several(r),
        Sort::Noise => noise(r),
        _ => {
            let mut file = draft(r, sort).records();
            damage_records(r, sort, &mut file);
            file
        }
    }
}
