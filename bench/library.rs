//! The proved library, through its C face: the two calls that are measured, and the table that one of them takes.

use crate::plain::{Part, State};

/// The partition table as the library's calls by value have it.
#[repr(C)]
#[derive(Clone, Copy)]
pub struct Table {
    period: [u16; 16],
    budget: [u16; 16],
    phase: [u16; 16],
    count: usize,
}

#[repr(C)]
struct Picked {
    number: u32,
    second: usize,
    pick: u32,
}

#[repr(C)]
struct After {
    number: u32,
    second: usize,
    state: State,
}

extern "C" {
    fn nandoquip_table_of(parts: *const Part, count: usize) -> Table;
    fn nandoquip_tick(state: *mut State, parts: *const Part, count: usize, word: u32) -> Picked;
    fn nandoquip_run(
        state: State,
        table: Table,
        words: *const u32,
        count: usize,
        picks: *mut u8,
        room: usize,
    ) -> After;
}

pub fn table_of(parts: &[Part]) -> Table {
    // SAFETY: pointer and length are those of one slice
    unsafe { nandoquip_table_of(parts.as_ptr(), parts.len()) }
}

/// One decision by the word, and its tick: the pick, or the refusal's two numbers.
pub fn tick(state: &mut State, parts: &[Part], word: u32) -> Result<u8, (u32, usize)> {
    // SAFETY: the state is lent for this call alone, pointer and length are those of one slice
    let answer = unsafe { nandoquip_tick(state, parts.as_ptr(), parts.len(), word) };
    match answer.number {
        0 => Ok(answer.pick as u8),
        number => Err((number, answer.second)),
    }
}

/// One decision and tick for each word: the state after them, or the refusal's two numbers.
pub fn run(
    state: State,
    table: &Table,
    words: &[u32],
    picks: &mut [u8],
) -> Result<State, (u32, usize)> {
    let (from, count) = (words.as_ptr(), words.len());
    let (to, room) = (picks.as_mut_ptr(), picks.len());
    // SAFETY: each pointer has the length of its own slice, and the picks are lent for this call alone
    let answer = unsafe { nandoquip_run(state, *table, from, count, to, room) };
    match answer.number {
        0 => Ok(answer.state),
        number => Err((number, answer.second)),
    }
}
