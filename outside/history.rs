//! What the kernel did over an admitted table from its fresh start. How it is made smaller, and printed.

use crate::case::Case;
use crate::rules::{State, Table};
use crate::shrink::{lower, shorter, Shrink, Steps};
use crate::{case_smaller, case_told};

#[derive(Clone, Copy, Debug)]
pub enum Event {
    /// A tick by a word.
    Word(u32),
    /// A tick for a pick.
    For(usize),
    Release(usize),
}

#[derive(Clone)]
pub struct History {
    pub table: Table,
    pub events: Vec<Event>,
}

const SHRINK: Shrink<History> = Shrink {
    smaller,
    cost: |history| 20 + history.events.len(),
    budget: 20_000_000,
};

/// Only the last events of a long history are printed.
const MOST_EVENTS: usize = 100;

impl History {
    pub fn of(table: Table) -> History {
        History {
            table,
            events: Vec::new(),
        }
    }

    pub fn smallest(&self, faulty: impl Fn(&History) -> bool) -> History {
        SHRINK.smallest(self, faulty)
    }

    pub fn told(&self) -> String {
        let case = Case::of(self.table, State::NONE);
        let skipped = self.events.len().saturating_sub(MOST_EVENTS);
        format!(
            "  from the fresh start of\n{}  after {skipped} events: {:?}\n",
            case_told::partition_rows(&case, false),
            &self.events[skipped..]
        )
    }
}

/// What becomes of an event when partition h goes.
fn moved(event: Event, h: usize) -> Option<Event> {
    let index = |index: usize| match index {
        _ if index == h => None,
        _ if index > h && index < 16 => Some(index - 1),
        _ => Some(index),
    };
    match event {
        Event::Word(word) => Some(Event::Word(word)),
        Event::For(pick) => index(pick).map(Event::For),
        Event::Release(released) => index(released).map(Event::Release),
    }
}

fn without_partition(history: &History, h: usize) -> History {
    let case = Case::of(history.table, State::NONE);
    let events = history.events.iter();
    History {
        table: case_smaller::without_partition(&case, h).table,
        events: events.filter_map(|&event| moved(event, h)).collect(),
    }
}

fn fewer(history: &History) -> Vec<History> {
    let count = history.table.count;
    let places = 0..if count > 1 { count } else { 0 };
    places.map(|h| without_partition(history, h)).collect()
}

fn lower_table(history: &History) -> Vec<History> {
    let case = Case::of(history.table, State::NONE);
    let lowered = case_smaller::lower_fields(&case).into_iter();
    let tables = lowered.filter(|case| case.state == State::NONE);
    let with = |case: Case| History {
        table: case.table,
        events: history.events.clone(),
    };
    tables.map(with).collect()
}

fn lower_words(history: &History) -> Vec<History> {
    let mut found = Vec::new();
    for (place, event) in history.events.iter().enumerate() {
        if let Event::Word(word) = *event {
            for value in lower(word.into()) {
                let mut next = history.clone();
                next.events[place] = Event::Word(value as u32);
                found.push(next);
            }
        }
    }
    found
}

fn smaller(history: &History) -> Steps<'_, History> {
    let stretches = shorter(&history.events).map(|events| History {
        table: history.table,
        events,
    });
    let steps = [fewer, lower_table, lower_words];
    let steps = steps.into_iter().flat_map(move |step| step(history));
    Box::new(stretches.chain(steps))
}
