//! Each call of the C face beside its rule: the answers, the state behind the pointer, the lent bytes.

use crate::c_face::{self, Answer, Changed, Length, Listed, Picked, Response, Tested, Weighed};
use crate::case::Case;
use crate::rules::{self, Part, State, IDLE, MOST_PARTITIONS};
use crate::watch::{self, Asking};
use std::fmt::Debug;
use std::hint::black_box;

#[derive(Clone, Copy, Debug, PartialEq, Eq)]
pub enum Call {
    Admission,
    PartitionResponse,
    Standing,
    BusyLength,
    Candidates,
    Weights,
    Decide,
    Fresh,
    TableOf,
    Release,
    TickFor,
    Tick,
    Run,
    TaskResponse,
}

/// All but the task response, from the plainest up: the first that differs says most.
pub const WITHOUT_TASKS: [Call; 13] = [
    Call::Admission,
    Call::PartitionResponse,
    Call::Standing,
    Call::BusyLength,
    Call::Candidates,
    Call::Weights,
    Call::Decide,
    Call::Fresh,
    Call::TableOf,
    Call::Release,
    Call::TickFor,
    Call::Tick,
    Call::Run,
];

impl Call {
    /// The function's name in the header.
    pub fn name(self) -> &'static str {
        match self {
            Call::Admission => "nandoquip_admission",
            Call::PartitionResponse => "nandoquip_partition_response",
            Call::Standing => "nandoquip_standing",
            Call::BusyLength => "nandoquip_busy_length",
            Call::Candidates => "nandoquip_candidates",
            Call::Weights => "nandoquip_weights",
            Call::Decide => "nandoquip_decide",
            Call::Fresh => "nandoquip_fresh",
            Call::TableOf => "nandoquip_table_of",
            Call::Release => "nandoquip_release",
            Call::TickFor => "nandoquip_tick_for",
            Call::Tick => "nandoquip_tick",
            Call::Run => "nandoquip_run",
            Call::TaskResponse => "nandoquip_task_response",
        }
    }

    pub fn takes_state(self) -> bool {
        !matches!(
            self,
            Call::Admission | Call::PartitionResponse | Call::TableOf | Call::TaskResponse
        )
    }

    pub fn takes_records(self) -> bool {
        matches!(
            self,
            Call::TableOf | Call::Release | Call::TickFor | Call::Tick
        )
    }
}

/// What a comparison met: the refusal, and which sort of answer, as `coverage.rs` names them.
pub struct Met {
    pub refusal: u32,
    pub sort: usize,
}

/// Both sides of a difference, in words.
#[derive(Clone, Debug)]
pub struct Difference {
    pub rules: String,
    pub library: String,
}

type Compared = Result<Met, Difference>;

fn same<A: PartialEq + Debug>(rules: A, library: A, refusal: u32, sort: usize) -> Compared {
    if rules == library {
        return Ok(Met { refusal, sort });
    }
    Err(Difference {
        rules: format!("{rules:?}"),
        library: format!("{library:?}"),
    })
}

pub fn compare(call: Call, case: &Case) -> Compared {
    let _awaited = watch::ask(Asking::Call(call, case.clone()));
    match call {
        Call::Admission => admission(case),
        Call::PartitionResponse => partition_response(case),
        Call::Standing => standing(case),
        Call::BusyLength => busy_length(case),
        Call::Candidates => candidates(case),
        Call::Weights => weights(case),
        Call::Decide => decide(case),
        Call::Fresh => fresh(case),
        Call::TableOf => table_of(case),
        Call::Release => release(case),
        Call::TickFor => tick_for(case),
        Call::Tick => tick(case),
        Call::Run => run(case),
        Call::TaskResponse => task_response(case),
    }
}

// Which faults a case has beside the one that is named first. They are counted, as the order is 01's.

fn bad_state(case: &Case) -> bool {
    rules::judge_state(&case.table, &case.state).is_err()
}

/// For a refusal that is met: is there a later one too? For an answer: its own sort.
fn sort(refusal: u32, answer: usize, later_than_1: bool, later_than_3: bool) -> usize {
    match refusal {
        0 => answer,
        1 => later_than_1.into(),
        3 => later_than_3.into(),
        _ => 0,
    }
}

/// The sorts of a refusal 1 or 9 that may also be about what was asked for.
fn asked_sort(bad_fields: bool, later: bool) -> usize {
    match (bad_fields, later) {
        (true, false) => 0,
        (true, true) => 1,
        (false, false) => 2,
        (false, true) => 3,
    }
}

// By value.

fn admission(case: &Case) -> Compared {
    let due = Tested::due(rules::admission(&case.table));
    let sort = due.passes as usize;
    same(due, c_face::admission(&case.table), due.refusal, sort)
}

fn partition_response(case: &Case) -> Compared {
    let (t, h) = (&case.table, case.partition);
    let due = Length::due(rules::partition_response(t, h));
    let sort = match due.refusal {
        0 => due.within as usize,
        _ if rules::judge_table(t).is_ok() => asked_sort(false, false),
        _ => asked_sort(true, h >= t.count),
    };
    same(due, c_face::partition_response(t, h), due.refusal, sort)
}

fn standing(case: &Case) -> Compared {
    let (t, s) = (&case.table, &case.state);
    let due = Tested::due(rules::standing(t, s));
    let sort = sort(due.refusal, due.passes as usize, bad_state(case), false);
    same(due, c_face::standing(t, s), due.refusal, sort)
}

fn busy_length(case: &Case) -> Compared {
    let (t, s, h) = (&case.table, &case.state, case.partition);
    let due = Length::due(rules::busy_length(t, s, h, case.inversion));
    let sort = match due.refusal {
        0 => due.within as usize,
        1 if rules::judge_table(t).is_ok() => asked_sort(false, bad_state(case)),
        1 => asked_sort(true, h >= t.count || bad_state(case)),
        _ => 0,
    };
    let library = c_face::busy_length(t, s, h, case.inversion);
    same(due, library, due.refusal, sort)
}

fn candidates(case: &Case) -> Compared {
    let (t, s) = (&case.table, &case.state);
    let due = Listed::due(rules::candidates(t, s));
    let sort = sort(due.refusal, due.length, bad_state(case), false);
    same(due, c_face::candidates(t, s), due.refusal, sort)
}

/// Sorts of an answer: no idle listed, idle with a chance, idle with none.
fn weights(case: &Case) -> Compared {
    let (t, s) = (&case.table, &case.state);
    let due = Weighed::due(rules::weights(t, s));
    let last = due.length.saturating_sub(1);
    let idle = match (due.list[last] as usize == IDLE, due.weights[last]) {
        (false, _) => 0,
        (true, 0) => 2,
        (true, _) => 1,
    };
    let sort = sort(due.refusal, idle, bad_state(case), false);
    same(due, c_face::weights(t, s), due.refusal, sort)
}

fn decide(case: &Case) -> Compared {
    let (t, s) = (&case.table, &case.state);
    let due = Picked::due(rules::decide(t, s, &case.words));
    let none = case.words.is_empty();
    let idle = (due.pick as usize == IDLE).into();
    let sort = sort(due.refusal, idle, bad_state(case) || none, none);
    same(due, c_face::decide(t, s, &case.words), due.refusal, sort)
}

fn fresh(case: &Case) -> Compared {
    let (t, s) = (&case.table, &case.state);
    let due = Changed::due(rules::fresh(t), s);
    let sort = sort(due.refusal, 0, bad_state(case), false);
    same(due, c_face::fresh(s, t), due.refusal, sort)
}

fn task_response(case: &Case) -> Compared {
    let (t, k, x) = (&case.table, &case.tasks, case.task);
    let due = Response::due(rules::task_response(t, k, x));
    let bad_tasks = rules::judge_tasks(t, k).is_err();
    let absent = x >= k.count;
    let sort = match due.refusal {
        0 => (due.ticks > 0).into(),
        1 => (bad_tasks || absent).into(),
        _ => asked_sort(bad_tasks, bad_tasks && absent),
    };
    same(due, c_face::task_response(t, k, x), due.refusal, sort)
}

// A run. Its buffer has bytes past the end that the library isn't told of.

const PAST_THE_END: usize = 24;

#[derive(PartialEq)]
struct Ran {
    answer: Changed,
    buffer: Vec<u8>,
    words_kept: bool,
}

/// No pick has any of these values.
fn unwritten(length: usize) -> Vec<u8> {
    (0..length).map(|place| 96 + (place % 32) as u8).collect()
}

/// A byte that is as it was lent is shown as a dot, and a bar stands at the end of the room.
impl Debug for Ran {
    fn fmt(&self, f: &mut std::fmt::Formatter) -> std::fmt::Result {
        write!(
            f,
            "{:?}, words kept: {}, buffer",
            self.answer, self.words_kept
        )?;
        let room = self.buffer.len() - PAST_THE_END;
        for (place, lent) in unwritten(self.buffer.len()).into_iter().enumerate() {
            let bar = if place == room { " |" } else { "" };
            match self.buffer[place] {
                byte if byte == lent => write!(f, "{bar} .")?,
                byte => write!(f, "{bar} {byte}")?,
            }
        }
        Ok(())
    }
}

fn run(case: &Case) -> Compared {
    let (t, s, room) = (&case.table, &case.state, case.room);
    let mut due = unwritten(room + PAST_THE_END);
    let answer = Changed::due(rules::run(t, s, &case.words, &mut due[..room]), s);
    let words = case.words.clone();
    let mut lent = unwritten(room + PAST_THE_END);
    let gave = c_face::run(s, t, &words, &mut black_box(&mut lent)[..room]);
    let short = room < words.len();
    let length = match words.len() {
        0 => 0,
        exact if exact == room => 1,
        _ => 2,
    };
    let sort = sort(answer.refusal, length, bad_state(case) || short, short);
    let rules = Ran {
        answer,
        buffer: due,
        words_kept: true,
    };
    let library = Ran {
        answer: gave,
        buffer: black_box(lent),
        words_kept: words == case.words,
    };
    same(rules, library, answer.refusal, sort)
}

// The hook. Its state stands between numbers that must stay, and its records must stay too.

#[repr(C)]
struct Lent {
    before: [u16; 16],
    state: State,
    after: [u16; 16],
}

#[derive(Debug, PartialEq)]
struct Hooked<A> {
    answer: A,
    state: State,
    rest_kept: bool,
}

fn by_library<A>(case: &Case, hook: impl Fn(&mut State, &[Part]) -> A) -> Hooked<A> {
    let (kept, parts) = ([0xa5a5; 16], case.parts());
    let mut lent = Lent {
        before: kept,
        state: case.state,
        after: kept,
    };
    let answer = hook(&mut black_box(&mut lent).state, &parts);
    let lent = black_box(lent);
    let rest_kept = lent.before == kept && lent.after == kept && parts == case.parts();
    Hooked {
        answer,
        state: lent.state,
        rest_kept,
    }
}

fn by_rules<A>(case: &Case, hook: impl Fn(&mut State, &[Part]) -> A) -> Hooked<A> {
    let mut state = case.state;
    let answer = hook(&mut state, &case.parts());
    Hooked {
        answer,
        state,
        rest_kept: true,
    }
}

/// The word of a tick: the first of the case.
pub fn word_of(case: &Case) -> u32 {
    case.words.first().copied().unwrap_or(0)
}

fn tick(case: &Case) -> Compared {
    let word = word_of(case);
    let due = by_rules(case, |s, p| Picked::due(rules::hook_tick(s, p, word)));
    let library = by_library(case, |s, p| c_face::tick(s, p, word));
    let Picked { refusal, pick, .. } = due.answer;
    let idle = (pick as usize == IDLE).into();
    let sort = sort(refusal, idle, bad_state(case), false);
    same(due, library, refusal, sort)
}

fn tick_for(case: &Case) -> Compared {
    let pick = case.pick;
    let due = by_rules(case, |s, p| Answer::due(rules::hook_tick_for(s, p, pick)));
    let library = by_library(case, |s, p| c_face::tick_for(s, p, pick));
    let absent = pick >= case.table.count && pick != IDLE;
    let idle = (pick == IDLE).into();
    let sort = match due.answer.refusal {
        5 => absent.into(),
        refusal => sort(refusal, idle, bad_state(case) || absent, absent),
    };
    let refusal = due.answer.refusal;
    same(due, library, refusal, sort)
}

fn release(case: &Case) -> Compared {
    let index = case.index;
    let due = by_rules(case, |s, p| Answer::due(rules::hook_release(s, p, index)));
    let library = by_library(case, |s, p| c_face::release(s, p, index));
    let absent = index >= case.table.count;
    let sort = match due.answer.refusal {
        6 => absent.into(),
        refusal => sort(refusal, 0, bad_state(case) || absent, absent),
    };
    let refusal = due.answer.refusal;
    same(due, library, refusal, sort)
}

/// Of more than 16 records 01 fixes no table, but every call over it is refusal 1 at 16.
fn table_of(case: &Case) -> Compared {
    let parts = case.parts();
    let library = c_face::table_of(&parts);
    if parts.len() <= MOST_PARTITIONS {
        return same(rules::table_of(&parts), library, 0, 0);
    }
    let due = Tested::due(rules::admission(&rules::table_of(&parts)));
    same(due, c_face::admission(&library), 0, 1)
}
