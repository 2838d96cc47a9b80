//! The library's C face, as its header declares it, and a thin safe call for each function.
//! The answers can be built from a rule's answer too, so that both sides are compared whole.

use crate::rules::{List, Part, Refusal, State, Table, Tasks, Weights};

/// A refusal's number and its second number; 0, 0: not refused. The header has the two as a struct of their own
/// inside each answer, which lies in memory just as they do here.
#[repr(C)]
#[derive(Clone, Copy, Debug, PartialEq, Eq)]
pub struct Answer {
    pub refusal: u32,
    pub second: usize,
}

#[repr(C)]
#[derive(Clone, Copy, Debug, PartialEq, Eq)]
pub struct Picked {
    pub refusal: u32,
    pub second: usize,
    pub pick: u32,
}

#[repr(C)]
#[derive(Clone, Copy, Debug, PartialEq, Eq)]
pub struct Tested {
    pub refusal: u32,
    pub second: usize,
    pub passes: u32,
    pub failing: usize,
}

#[repr(C)]
#[derive(Clone, Copy, Debug, PartialEq, Eq)]
pub struct Length {
    pub refusal: u32,
    pub second: usize,
    pub within: u32,
    pub ticks: u64,
}

#[repr(C)]
#[derive(Clone, Copy, Debug, PartialEq, Eq)]
pub struct Response {
    pub refusal: u32,
    pub second: usize,
    pub ticks: u64,
}

#[repr(C)]
#[derive(Clone, Copy, Debug, PartialEq, Eq)]
pub struct Changed {
    pub refusal: u32,
    pub second: usize,
    pub state: State,
}

#[repr(C)]
#[derive(Clone, Copy, Debug, PartialEq, Eq)]
pub struct Listed {
    pub refusal: u32,
    pub second: usize,
    pub length: usize,
    pub list: [u8; 17],
}

#[repr(C)]
#[derive(Clone, Copy, Debug, PartialEq, Eq)]
pub struct Weighed {
    pub refusal: u32,
    pub second: usize,
    pub length: usize,
    pub list: [u8; 17],
    pub weights: [u32; 17],
}

mod raw {
    use super::*;
    extern "C" {
        pub fn nandoquip_tick(s: *mut State, p: *const Part, count: usize, word: u32) -> Picked;
        pub fn nandoquip_tick_for(
            s: *mut State,
            p: *const Part,
            count: usize,
            pick: usize,
        ) -> Answer;
        pub fn nandoquip_release(
            s: *mut State,
            p: *const Part,
            count: usize,
            index: usize,
        ) -> Answer;
        pub fn nandoquip_table_of(p: *const Part, count: usize) -> Table;
        pub fn nandoquip_fresh(s: State, t: Table) -> Changed;
        pub fn nandoquip_admission(t: Table) -> Tested;
        pub fn nandoquip_partition_response(t: Table, partition: usize) -> Length;
        pub fn nandoquip_standing(t: Table, s: State) -> Tested;
        pub fn nandoquip_busy_length(t: Table, s: State, partition: usize, w: u32) -> Length;
        pub fn nandoquip_candidates(t: Table, s: State) -> Listed;
        pub fn nandoquip_weights(t: Table, s: State) -> Weighed;
        pub fn nandoquip_decide(t: Table, s: State, words: *const u32, count: usize) -> Picked;
        pub fn nandoquip_run(
            s: State,
            t: Table,
            words: *const u32,
            count: usize,
            picks: *mut u8,
            room: usize,
        ) -> Changed;
        pub fn nandoquip_task_response(t: Table, k: Tasks, task: usize) -> Response;
    }
}

// The calls. Each pointer comes from a reference or a slice, with the slice's own length.

pub fn tick(s: &mut State, parts: &[Part], word: u32) -> Picked {
    unsafe { raw::nandoquip_tick(s, parts.as_ptr(), parts.len(), word) }
}

pub fn tick_for(s: &mut State, parts: &[Part], pick: usize) -> Answer {
    unsafe { raw::nandoquip_tick_for(s, parts.as_ptr(), parts.len(), pick) }
}

pub fn release(s: &mut State, parts: &[Part], index: usize) -> Answer {
    unsafe { raw::nandoquip_release(s, parts.as_ptr(), parts.len(), index) }
}

pub fn table_of(parts: &[Part]) -> Table {
    unsafe { raw::nandoquip_table_of(parts.as_ptr(), parts.len()) }
}

pub fn fresh(s: &State, t: &Table) -> Changed {
    unsafe { raw::nandoquip_fresh(*s, *t) }
}

pub fn admission(t: &Table) -> Tested {
    unsafe { raw::nandoquip_admission(*t) }
}

pub fn partition_response(t: &Table, partition: usize) -> Length {
    unsafe { raw::nandoquip_partition_response(*t, partition) }
}

pub fn standing(t: &Table, s: &State) -> Tested {
    unsafe { raw::nandoquip_standing(*t, *s) }
}

pub fn busy_length(t: &Table, s: &State, partition: usize, inversion: u32) -> Length {
    unsafe { raw::nandoquip_busy_length(*t, *s, partition, inversion) }
}

pub fn candidates(t: &Table, s: &State) -> Listed {
    unsafe { raw::nandoquip_candidates(*t, *s) }
}

pub fn weights(t: &Table, s: &State) -> Weighed {
    unsafe { raw::nandoquip_weights(*t, *s) }
}

pub fn decide(t: &Table, s: &State, words: &[u32]) -> Picked {
    unsafe { raw::nandoquip_decide(*t, *s, words.as_ptr(), words.len()) }
}

pub fn run(s: &State, t: &Table, words: &[u32], picks: &mut [u8]) -> Changed {
    let (from, to) = (words.as_ptr(), picks.as_mut_ptr());
    unsafe { raw::nandoquip_run(*s, *t, from, words.len(), to, picks.len()) }
}

pub fn task_response(t: &Table, k: &Tasks, task: usize) -> Response {
    unsafe { raw::nandoquip_task_response(*t, *k, task) }
}

// The answer that a rule's answer should look like: on a refusal all further values are 0.

fn numbers<A>(answer: &Result<A, Refusal>) -> (u32, usize) {
    match answer {
        Ok(_) => (0, 0),
        Err(r) => (r.number, r.second),
    }
}

impl Answer {
    pub fn due(answer: Result<(), Refusal>) -> Answer {
        let (refusal, second) = numbers(&answer);
        Answer { refusal, second }
    }
}

impl Picked {
    pub fn due(answer: Result<usize, Refusal>) -> Picked {
        let (refusal, second) = numbers(&answer);
        let pick = answer.unwrap_or(0) as u32;
        Picked {
            refusal,
            second,
            pick,
        }
    }
}

impl Tested {
    pub fn due(answer: Result<Option<usize>, Refusal>) -> Tested {
        let (refusal, second) = numbers(&answer);
        Tested {
            refusal,
            second,
            passes: (answer == Ok(None)).into(),
            failing: answer.ok().flatten().unwrap_or(0),
        }
    }
}

impl Length {
    pub fn due(answer: Result<Option<u64>, Refusal>) -> Length {
        let (refusal, second) = numbers(&answer);
        let length = answer.ok().flatten();
        Length {
            refusal,
            second,
            within: length.is_some().into(),
            ticks: length.unwrap_or(0),
        }
    }
}

impl Response {
    pub fn due(answer: Result<u64, Refusal>) -> Response {
        let (refusal, second) = numbers(&answer);
        let ticks = answer.unwrap_or(0);
        Response {
            refusal,
            second,
            ticks,
        }
    }
}

impl Changed {
    /// On a refusal the state that was given comes back.
    pub fn due(answer: Result<State, Refusal>, given: &State) -> Changed {
        let (refusal, second) = numbers(&answer);
        let state = answer.unwrap_or(*given);
        Changed {
            refusal,
            second,
            state,
        }
    }
}

impl Listed {
    pub fn due(answer: Result<List, Refusal>) -> Listed {
        let (refusal, second) = numbers(&answer);
        Listed {
            refusal,
            second,
            length: answer.map_or(0, |list| list.length),
            list: answer.map_or([0; 17], |list| list.members),
        }
    }
}

impl Weighed {
    pub fn due(answer: Result<Weights, Refusal>) -> Weighed {
        let (refusal, second) = numbers(&answer);
        Weighed {
            refusal,
            second,
            length: answer.map_or(0, |w| w.list.length),
            list: answer.map_or([0; 17], |w| w.list.members),
            weights: answer.map_or([0; 17], |w| w.weights.map(|weight| weight as u32)),
        }
    }
}
