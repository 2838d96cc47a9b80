//! Runs of the hook with releases, from fresh starts of admitted tables: one state, lent to every call.
//! Besides equality each run is held to the guarantee: no budget is lost.

use crate::c_face::{self, Answer, Changed, Picked};
use crate::calls::Call;
use crate::case::Case;
use crate::cases::{self, Found};
use crate::history::{Event, History};
use crate::random::Random;
use crate::rules::{self, Part, State, Table, IDLE};
use crate::states;
use crate::tables;
use crate::watch::{self, Asking};

/// What each partition ran and gave up since its last replenishment.
struct Ledger {
    ran: [u16; 16],
    given: [u16; 16],
    /// "The start counts as the replenishment of each phase 0 partition."
    whole: [bool; 16],
}

/// What was met, counted.
#[derive(Default)]
pub struct Counts {
    pub runs: u64,
    pub ticks: u64,
    pub releases: u64,
    pub refused: u64,
    pub periods: u64,
}

#[derive(Default)]
pub struct Runs {
    pub counts: Counts,
    pub fault: Option<Fault>,
}

/// What went wrong, and everything that led to it.
pub struct Fault {
    what: String,
    found: Option<Found>,
    history: History,
}

struct Run {
    history: History,
    parts: Vec<Part>,
    rules: State,
    library: State,
    ledger: Ledger,
    counts: Counts,
}

impl Ledger {
    fn start(t: &Table) -> Ledger {
        Ledger {
            ran: [0; 16],
            given: [0; 16],
            whole: t.phase.map(|phase| phase == 0),
        }
    }

    /// Whole periods that end with this tick, or the partition that lost some of its budget.
    fn tick(&mut self, t: &Table, before: &State, pick: usize) -> Result<u64, usize> {
        if pick != IDLE {
            self.ran[pick] += 1;
        }
        let mut periods = 0;
        for h in (0..t.count).filter(|&h| before.o[h] == 1) {
            let left = before.b[h] - u16::from(pick == h);
            let used = self.ran[h] + self.given[h];
            if left > 0 || (self.whole[h] && used != t.budget[h]) {
                return Err(h);
            }
            periods += u64::from(self.whole[h]);
            (self.ran[h], self.given[h], self.whole[h]) = (0, 0, true);
        }
        Ok(periods)
    }
}

impl Run {
    fn start(table: Table) -> Result<Run, Fault> {
        let mut run = Run {
            history: History::of(table),
            parts: Case::of(table, State::NONE).parts(),
            rules: rules::fresh_pairs(&table),
            library: State::NONE,
            ledger: Ledger::start(&table),
            counts: Counts::default(),
        };
        let gave = c_face::fresh(&State::NONE, &table);
        let due = Changed::due(rules::fresh(&table), &State::NONE);
        if gave != due {
            return Err(run.differs(State::NONE, format!("{due:?} but {gave:?}")));
        }
        run.library = gave.state;
        run.counts.runs = 1;
        Ok(run)
    }

    /// The last event as a call by itself.
    fn last_call(&self, before: State) -> Found {
        let mut case = Case::of(self.history.table, before);
        let call = match self.history.events.last() {
            Some(&Event::Word(word)) => {
                case.words = vec![word];
                Call::Tick
            }
            Some(&Event::For(pick)) => {
                case.pick = pick;
                Call::TickFor
            }
            Some(&Event::Release(index)) => {
                case.index = index;
                Call::Release
            }
            None => Call::Fresh,
        };
        Found { call, case }
    }

    fn differs(&self, before: State, both: String) -> Fault {
        let found = self.last_call(before);
        Fault {
            what: format!("differs: {}: {both}", found.call.name()),
            found: Some(found),
            history: self.history.clone(),
        }
    }

    /// Both answers, then both states.
    fn both(&self, due: impl std::fmt::Debug, gave: impl std::fmt::Debug) -> String {
        format!("{due:?} {:?} but {gave:?} {:?}", self.rules, self.library)
    }

    fn settle(&mut self, before: &State, pick: usize) -> Result<(), Fault> {
        self.counts.ticks += 1;
        match self.ledger.tick(&self.history.table, before, pick) {
            Ok(periods) => self.counts.periods += periods,
            Err(h) => {
                return Err(Fault {
                    what: format!("the guarantee fails: partition {h} lost some of its budget"),
                    found: None,
                    history: self.history.clone(),
                })
            }
        }
        Ok(())
    }

    fn word(&mut self, word: u32) -> Result<(), Fault> {
        let before = self.rules;
        let due = Picked::due(rules::hook_tick(&mut self.rules, &self.parts, word));
        let gave = c_face::tick(&mut self.library, &self.parts, word);
        if due != gave || self.rules != self.library {
            return Err(self.differs(before, self.both(due, gave)));
        }
        self.settle(&before, gave.pick as usize)
    }

    fn tick_for(&mut self, pick: usize) -> Result<(), Fault> {
        let before = self.rules;
        let due = Answer::due(rules::hook_tick_for(&mut self.rules, &self.parts, pick));
        let gave = c_face::tick_for(&mut self.library, &self.parts, pick);
        if due != gave || self.rules != self.library {
            return Err(self.differs(before, self.both(due, gave)));
        }
        if gave.refusal > 0 {
            self.counts.refused += 1;
            return Ok(());
        }
        self.settle(&before, pick)
    }

    fn release(&mut self, index: usize) -> Result<(), Fault> {
        let before = self.rules;
        let due = Answer::due(rules::hook_release(&mut self.rules, &self.parts, index));
        let gave = c_face::release(&mut self.library, &self.parts, index);
        if due != gave || self.rules != self.library {
            return Err(self.differs(before, self.both(due, gave)));
        }
        if gave.refusal > 0 {
            self.counts.refused += 1;
        } else {
            self.counts.releases += 1;
            self.ledger.given[index] += before.b[index];
        }
        Ok(())
    }

    /// Mostly words; ticks for a member of the list, releases, and what must be refused.
    fn next(&self, r: &mut Random) -> Event {
        let table = &self.history.table;
        let member = |r: &mut Random| {
            let list = rules::list_of(table, &self.rules);
            list.members[r.below(list.length)] as usize
        };
        match r.below(16) {
            0..=2 => Event::For(member(r)),
            3 => Event::For(r.of(&[0, 1, 15, 16, IDLE, 256])),
            4 => Event::Release(member(r)),
            5 => Event::Release(r.below(table.count + 1)),
            6 => Event::Word(states::edge_word(r, table, &self.rules)),
            _ => Event::Word(states::word(r)),
        }
    }

    fn step(&mut self, event: Event) -> Result<(), Fault> {
        self.history.events.push(event);
        let Found { call, case } = self.last_call(self.rules);
        let _awaited = watch::ask(Asking::Call(call, case));
        match event {
            Event::Word(word) => self.word(word),
            Event::For(pick) => self.tick_for(pick),
            Event::Release(index) => self.release(index),
        }
    }
}

fn one(r: &mut Random) -> Result<Counts, Fault> {
    let mut run = Run::start(tables::admitted(r))?;
    for _ in 0..r.of(&[20, 60, 200, 1000]) {
        let event = run.next(r);
        run.step(event)?;
    }
    Ok(run.counts)
}

impl Counts {
    pub fn add(&mut self, other: &Counts) {
        self.runs += other.runs;
        self.ticks += other.ticks;
        self.releases += other.releases;
        self.refused += other.refused;
        self.periods += other.periods;
    }
}

/// Stops at the first fault.
pub fn many(seed: u64, ticks: u64) -> Runs {
    let mut random = Random::new(seed);
    let mut done = Runs::default();
    while done.counts.ticks < ticks && done.fault.is_none() {
        match one(&mut random) {
            Ok(counts) => done.counts.add(&counts),
            Err(fault) => done.fault = Some(fault),
        }
    }
    done
}

/// The same again. What a shorter history can't do is refused on both sides, and no fault.
fn again(history: &History) -> Result<(), Fault> {
    if rules::admission(&history.table) != Ok(None) {
        return Ok(());
    }
    let mut run = Run::start(history.table)?;
    history.events.iter().try_for_each(|&event| run.step(event))
}

/// The call alone where it differs alone, else the shortest history with a fault.
pub fn told(fault: &Fault) -> String {
    if let Some(text) = fault.found.as_ref().and_then(cases::told) {
        return text;
    }
    let shortest = fault.history.smallest(|history| again(history).is_err());
    match again(&shortest) {
        Err(Fault { what, history, .. }) => format!("{what}\n{}", history.told()),
        Ok(()) => format!(
            "{}\nseen once: the same calls don't differ again\n{}",
            fault.what,
            fault.history.told()
        ),
    }
}
