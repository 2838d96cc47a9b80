//! How often each sort of answer was met, and how often it must be: the test can't silently become empty.

use crate::calls::{Call, Met, WITHOUT_TASKS};

const CALLS: usize = 14;
const REFUSALS: usize = 10;
const SORTS: usize = 18;

pub struct Coverage {
    met: Box<[[[u64; SORTS]; REFUSALS]; CALLS]>,
}

/// A sort that must be met: refusal, sorts from and to, what it is.
type Sort = (u32, usize, usize, &'static str);

/// Each sort of each call is met at least this often.
const LEAST: u64 = 500;

// What each call can meet. Several faults at once are sorts of their own, as 01 fixes their order.

const BAD_TABLE: Sort = (1, 0, 0, "table out of range");
const BAD_BOTH: Sort = (1, 1, 1, "table and more out of range");
const BAD_STATE: Sort = (3, 0, 0, "state out of range");
const PARTITION: Sort = (0, 0, 0, "a partition");
const IDLE: Sort = (0, 1, 1, "idle");

const ADMISSION: &[Sort] = &[(0, 1, 1, "admitted"), (0, 0, 0, "not admitted"), BAD_TABLE];
const PARTITION_RESPONSE: &[Sort] = &[
    (0, 1, 1, "R within T"),
    (0, 0, 0, "R over T"),
    BAD_TABLE,
    (1, 1, 1, "table out of range, index absent"),
    (1, 2, 2, "index absent"),
];
const STANDING: &[Sort] = &[
    (0, 1, 1, "standing"),
    (0, 0, 0, "not standing"),
    BAD_TABLE,
    BAD_BOTH,
    BAD_STATE,
];
const BUSY_LENGTH: &[Sort] = &[
    (0, 1, 1, "passes"),
    (0, 0, 0, "fails"),
    BAD_TABLE,
    BAD_BOTH,
    (1, 2, 2, "index absent"),
    (1, 3, 3, "index absent, state out of range"),
    BAD_STATE,
];
const CANDIDATES: &[Sort] = &[
    (0, 1, 1, "list of 1"),
    (0, 2, 2, "list of 2"),
    (0, 3, 3, "list of 3"),
    (0, 4, 5, "list of 4 or 5"),
    (0, 6, 8, "list of 6 to 8"),
    (0, 9, 12, "list of 9 to 12"),
    (0, 13, 16, "list of 13 to 16"),
    (0, 17, 17, "list of 17"),
    BAD_TABLE,
    BAD_BOTH,
    BAD_STATE,
];
const WEIGHTS: &[Sort] = &[
    (0, 0, 0, "no idle"),
    (0, 1, 1, "idle with a weight"),
    (0, 2, 2, "idle of weight 0"),
    BAD_TABLE,
    BAD_BOTH,
    BAD_STATE,
];
const DECIDE: &[Sort] = &[
    PARTITION,
    IDLE,
    BAD_TABLE,
    BAD_BOTH,
    BAD_STATE,
    (3, 1, 1, "state out of range, no word"),
    (4, 0, 0, "no word"),
];
const FRESH: &[Sort] = &[
    (0, 0, 0, "fresh"),
    (1, 0, 1, "table out of range"),
    (2, 0, 0, "not admitted"),
];
const TABLE_OF: &[Sort] = &[(0, 0, 0, "16 or fewer"), (0, 1, 1, "more than 16")];
const RELEASE: &[Sort] = &[
    (0, 0, 0, "released"),
    BAD_TABLE,
    BAD_BOTH,
    BAD_STATE,
    (3, 1, 1, "state out of range, index absent"),
    (6, 0, 0, "not active"),
    (6, 1, 1, "absent"),
];
const TICK_FOR: &[Sort] = &[
    PARTITION,
    IDLE,
    BAD_TABLE,
    BAD_BOTH,
    BAD_STATE,
    (3, 1, 1, "state out of range, pick absent"),
    (5, 0, 0, "not listed"),
    (5, 1, 1, "absent"),
];
const TICK: &[Sort] = &[PARTITION, IDLE, BAD_TABLE, BAD_BOTH, BAD_STATE];
const RUN: &[Sort] = &[
    (0, 0, 0, "no words"),
    (0, 1, 1, "exact room"),
    (0, 2, 2, "more room"),
    BAD_TABLE,
    BAD_BOTH,
    BAD_STATE,
    (3, 1, 1, "state out of range, too short"),
    (7, 0, 0, "too short"),
];
const TASK_RESPONSE: &[Sort] = &[
    (0, 1, 1, "in time"),
    (0, 0, 0, "late"),
    BAD_TABLE,
    BAD_BOTH,
    (9, 0, 0, "tasks out of range"),
    (9, 1, 1, "tasks out of range, task absent"),
    (9, 2, 2, "task absent"),
];

fn sorts(call: Call) -> &'static [Sort] {
    match call {
        Call::Admission => ADMISSION,
        Call::PartitionResponse => PARTITION_RESPONSE,
        Call::Standing => STANDING,
        Call::BusyLength => BUSY_LENGTH,
        Call::Candidates => CANDIDATES,
        Call::Weights => WEIGHTS,
        Call::Decide => DECIDE,
        Call::Fresh => FRESH,
        Call::TableOf => TABLE_OF,
        Call::Release => RELEASE,
        Call::TickFor => TICK_FOR,
        Call::Tick => TICK,
        Call::Run => RUN,
        Call::TaskResponse => TASK_RESPONSE,
    }
}

impl Coverage {
    pub fn none() -> Coverage {
        Coverage {
            met: Box::new([[[0; SORTS]; REFUSALS]; CALLS]),
        }
    }

    pub fn count(&mut self, call: Call, met: &Met) {
        self.met[call as usize][met.refusal as usize][met.sort] += 1;
    }

    pub fn add(&mut self, other: &Coverage) {
        let ours = self.met.iter_mut().flatten().flatten();
        for (sum, more) in ours.zip(other.met.iter().flatten().flatten()) {
            *sum += more;
        }
    }

    fn times(&self, call: Call, &(refusal, from, to, _): &Sort) -> u64 {
        self.met[call as usize][refusal as usize][from..=to]
            .iter()
            .sum()
    }

    pub fn calls(&self) -> u64 {
        self.met.iter().flatten().flatten().sum()
    }

    /// A line for each call, and what was met too rarely.
    pub fn report(&self) -> (String, Vec<String>) {
        let (mut lines, mut rare) = (String::new(), Vec::new());
        for call in WITHOUT_TASKS.into_iter().chain([Call::TaskResponse]) {
            let mut met = Vec::new();
            for sort in sorts(call) {
                let (times, what) = (self.times(call, sort), sort.3);
                met.push(match sort.0 {
                    0 => format!("{what} {times}"),
                    refusal => format!("({refusal}) {what} {times}"),
                });
                if times < LEAST {
                    rare.push(format!("{}: {what} only {times}", call.name()));
                }
            }
            lines += &format!("  {}: {}\n", call.name(), met.join(", "));
        }
        (lines, rare)
    }
}
