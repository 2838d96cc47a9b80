//! The many random tables and states: every call of the C face over each.

use crate::calls::{self, Call};
use crate::case::{self, Case};
use crate::coverage::Coverage;
use crate::random::Random;
use crate::shrink::Shrink;
use crate::{case_smaller, case_told};

const SHRINK: Shrink<Case> = Shrink {
    smaller: case_smaller::smaller,
    cost: |_| 1,
    budget: 2_000_000,
};
/// Task responses are asked over one case in so many.
const TASKS_IN: usize = 4;

/// A call that differs, and over what.
#[derive(Clone)]
pub struct Found {
    pub call: Call,
    pub case: Case,
}

pub struct Cases {
    pub coverage: Coverage,
    /// Tables by their count: none, 1 to 16, more.
    pub counts: [u64; 18],
    pub found: Option<Found>,
}

fn try_call(done: &mut Cases, call: Call, case: &Case) {
    match calls::compare(call, case) {
        Ok(met) => done.coverage.count(call, &met),
        Err(_) => {
            let case = case.clone();
            done.found.get_or_insert(Found { call, case });
        }
    }
}

/// Stops at the first case with a difference.
pub fn many(seed: u64, count: usize) -> Cases {
    let mut random = Random::new(seed);
    let mut done = Cases {
        coverage: Coverage::none(),
        counts: [0; 18],
        found: None,
    };
    for place in 0..count {
        let with_tasks = place % TASKS_IN == 0;
        let case = case::random(&mut random, with_tasks);
        done.counts[case.table.count.min(17)] += 1;
        for call in calls::WITHOUT_TASKS {
            try_call(&mut done, call, &case);
        }
        if with_tasks {
            try_call(&mut done, Call::TaskResponse, &case);
        }
        if done.found.is_some() {
            break;
        }
    }
    done
}

/// The smallest case found, in words; None where the call doesn't differ when made alone.
pub fn told(found: &Found) -> Option<String> {
    let call = found.call;
    let differs = |case: &Case| calls::compare(call, case).is_err();
    if !differs(&found.case) {
        return None;
    }
    let case = SHRINK.smallest(&found.case, differs);
    let difference = calls::compare(call, &case).err()?;
    Some(format!(
        "differs: {}\n{}  01's rules give: {}\n  the library gave: {}\n",
        call.name(),
        case_told::told(&case, call),
        difference.rules,
        difference.library,
    ))
}
