//! An independent implementation of document 01, held against the proved library through its C face,
//! and against the two printers. Usage: outside SCHEDULE RESPONSE, the paths of the printers.

mod c_face;
mod calls;
mod case;
mod case_smaller;
mod case_told;
mod cases;
mod coverage;
mod file_told;
mod files;
mod history;
mod meter;
mod printers;
mod random;
mod rules;
mod runs;
mod shrink;
mod states;
mod sums;
mod tables;
mod tasks;
mod watch;

use coverage::Coverage;
use printers::{Files, Programs};
use runs::Counts;
use std::process::ExitCode;
use std::thread;
use std::time::Instant;

const THREADS: usize = 2;
const CASES: usize = 1_000_000;
const TICKS: u64 = 400_000;
const FILES: usize = 5_000;

// Any other seeds would do; these make every run the same.
const CASE_SEED: u64 = 1_000;
const RUN_SEED: u64 = 2_000;
const FILE_SEED: u64 = 3_000_000;

/// A summary, or what differs.
type Part = Result<String, String>;

/// The same work on each thread, with the thread's number.
fn on_threads<A: Send>(work: impl Fn(usize) -> A + Sync) -> Vec<A> {
    thread::scope(|scope| {
        let work = &work;
        let started: Vec<_> = (0..THREADS)
            .map(|number| {
                scope.spawn(move || {
                    watch::use_slot(1 + number);
                    work(number)
                })
            })
            .collect();
        started
            .into_iter()
            .map(|thread| thread.join().expect("a thread stopped"))
            .collect()
    })
}

/// Fails where something was met too rarely, as then it wasn't tested.
fn enough(rare: Vec<String>) -> Result<(), String> {
    if rare.is_empty() {
        return Ok(());
    }
    Err(format!("met too rarely:\n  {}\n", rare.join("\n  ")))
}

fn rarely(what: &str, times: u64, least: u64) -> Option<String> {
    (times < least).then(|| format!("{what}: only {times}"))
}

fn shortest(mut told: Vec<String>) -> Result<(), String> {
    told.sort_by_key(String::len);
    match told.into_iter().next() {
        Some(text) => Err(text),
        None => Ok(()),
    }
}

fn cases() -> Part {
    let each = CASES / THREADS;
    let all = on_threads(|number| cases::many(CASE_SEED + number as u64, each));
    let found = all.iter().filter_map(|done| done.found.as_ref());
    shortest(found.filter_map(cases::told).collect())?;
    let mut coverage = Coverage::none();
    let mut counts = [0; 18];
    for done in &all {
        coverage.add(&done.coverage);
        for (sum, more) in counts.iter_mut().zip(done.counts) {
            *sum += more;
        }
    }
    let (lines, mut rare) = coverage.report();
    for (count, &times) in counts.iter().enumerate() {
        rare.extend(rarely(&format!("tables of {count}"), times, 5_000));
    }
    let (tables, calls) = (counts.iter().sum(), coverage.calls());
    rare.extend(rarely("tables with states", tables, 1_000_000));
    enough(rare)?;
    Ok(format!(
        "cases: {tables} tables with states, {calls} calls, all equal\n  \
         tables of 0, of 1 to 16, of more: {counts:?}\n{lines}"
    ))
}

fn runs() -> Part {
    let each = TICKS / THREADS as u64;
    let all = on_threads(|number| runs::many(RUN_SEED + number as u64, each));
    let faults = all.iter().filter_map(|done| done.fault.as_ref());
    shortest(faults.map(runs::told).collect())?;
    let mut sum = Counts::default();
    for done in &all {
        sum.add(&done.counts);
    }
    let Counts {
        runs,
        ticks,
        releases,
        refused,
        periods,
    } = sum;
    let rare = [
        rarely("ticks of runs", ticks, 100_000),
        rarely("releases", releases, 10_000),
        rarely("refused ticks and releases", refused, 10_000),
        rarely("whole periods", periods, 50_000),
    ];
    enough(rare.into_iter().flatten().collect())?;
    Ok(format!(
        "runs: {runs} fresh starts, {ticks} ticks, {releases} releases, {refused} refused, all equal\n  \
         in each of {periods} whole periods the budget was used to the tick\n"
    ))
}

/// How outputs ended: whole, or with which refusal.
fn endings(counts: &[u64; 10]) -> String {
    let refused = (1..10).filter(|&refusal| counts[refusal] > 0);
    let refused: Vec<String> = refused
        .map(|refusal| format!("({refusal}) {}", counts[refusal]))
        .collect();
    format!("whole {}, refused {}", counts[0], refused.join(", "))
}

/// The least number of files for each way that the schedule printer's output ends.
const LEAST_ENDINGS: [u64; 10] = [1_000, 500, 200, 0, 0, 0, 300, 0, 1_000, 400];

fn files(programs: &Programs) -> Part {
    let mut all = Files::default();
    for done in on_threads(|number| printers::many(FILE_SEED, programs, number, THREADS, FILES)) {
        all.add(done);
    }
    if let Some(text) = all.mislabelled {
        return Err(format!("a file of the wrong sort: {text}"));
    }
    if let Some(found) = &all.found {
        return Err(printers::told(found, programs));
    }
    let mut rare = Vec::new();
    for (end, least) in LEAST_ENDINGS.into_iter().enumerate() {
        let what = format!("files ending in {end}");
        rare.extend(rarely(&what, all.schedule[end], least));
    }
    rare.extend(rarely("files", all.files, 5_000));
    rare.extend(rarely("tasks in time", all.in_time, 2_000));
    rare.extend(rarely("tasks late", all.late, 2_000));
    enough(rare)?;
    Ok(format!(
        "files: {} of {} bytes in all, all equal\n  schedule: {}\n  response: {}, \
         tasks in time {}, late {}\n",
        all.files,
        all.bytes,
        endings(&all.schedule),
        endings(&all.response),
        all.in_time,
        all.late
    ))
}

fn main() -> ExitCode {
    let start = Instant::now();
    let paths: Vec<String> = std::env::args().skip(1).collect();
    let [schedule, response] = &paths[..] else {
        eprintln!("usage: outside SCHEDULE RESPONSE");
        return ExitCode::from(2);
    };
    let programs = Programs {
        schedule: schedule.clone(),
        response: response.clone(),
    };
    watch::start();
    sums::hold();
    println!("sums done by hand: as 01 has them");
    let parts: [&dyn Fn() -> Part; 3] = [&cases, &runs, &|| files(&programs)];
    for part in parts {
        match part() {
            Ok(summary) => print!("{summary}"),
            Err(difference) => {
                print!("{difference}");
                return ExitCode::FAILURE;
            }
        }
    }
    println!("outside: no difference, in {} s", start.elapsed().as_secs());
    ExitCode::SUCCESS
}
