//! The benchmark: one decision (list, weights, pick, tick) of the proved library beside the plain Rust one,
//! and whole meter files through the printers.

mod counts;
mod files;
mod library;
mod plain;
mod work;

use std::time::Instant;
use work::{Way, Work, DECISIONS, WAYS};

/// Rounds of each way at each size; the four ways take turns.
const ROUNDS: usize = 501;

const SIZES: [usize; 3] = [5, 10, 16];

/// Nanoseconds for one decision: the best round, and the median one.
#[derive(Clone, Copy)]
struct Time {
    best: f64,
    median: f64,
}

fn time_of(mut rounds: Vec<f64>) -> Time {
    rounds.sort_by(f64::total_cmp);
    Time {
        best: rounds[0],
        median: rounds[rounds.len() / 2],
    }
}

fn measure(work: &mut Work) -> [Time; 4] {
    let mut rounds: [Vec<f64>; 4] = Default::default();
    for _ in 0..ROUNDS {
        for (way, times) in WAYS.into_iter().zip(&mut rounds) {
            let began = Instant::now();
            work.round(way);
            times.push(began.elapsed().as_nanos() as f64 / DECISIONS as f64);
        }
    }
    rounds.map(time_of)
}

fn line(n: usize, name: &str, plain: Time, proved: Time) {
    println!(
        "{n:>10}  {name:<8} {:>7.1} {:>7.1} {:>6.2}   {:>7.1} {:>7.1} {:>6.2}",
        plain.best,
        proved.best,
        proved.best / plain.best,
        plain.median,
        proved.median,
        proved.median / plain.median,
    );
}

fn decisions() {
    println!("nanoseconds for one decision, {ROUNDS} rounds of {DECISIONS}, the four ways taking turns\n");
    println!("                      best of all              median");
    println!("partitions  by         plain  proved  ratio     plain  proved  ratio");
    let mut proved = Vec::new();
    for n in SIZES {
        let mut work = Work::new(n);
        work.check();
        let [a, b, c, d] = measure(&mut work);
        line(n, "the run", a, b);
        line(n, "the hook", c, d);
        proved.push(d.median);
    }
    println!(
        "\nfrom 5 to 10 partitions the proved hook's median grows by {:.2} (000's table IV: 2.22)",
        proved[1] / proved[0]
    );
}

fn instructions(this: &str) {
    println!("\ninstructions for one decision, counted by valgrind\n");
    println!("partitions  by         plain  proved  ratio");
    for n in SIZES {
        for (name, ways) in [
            ("the run", [Way::PlainRun, Way::ProvedRun]),
            ("the hook", [Way::PlainTick, Way::ProvedTick]),
        ] {
            let [plain, proved] = ways.map(|way| counts::of(this, way, n));
            let ratio = proved as f64 / plain as f64;
            println!("{n:>10}  {name:<8} {plain:>7} {proved:>7} {ratio:>6.2}");
        }
    }
}

fn main() {
    let words: Vec<String> = std::env::args().collect();
    if let [_, ask, way, n, rounds] = &words[..] {
        assert_eq!(ask, "rounds");
        return counts::rounds(way, n, rounds);
    }
    let [this, schedule, response] = &words[..] else {
        eprintln!("usage: bench SCHEDULE RESPONSE");
        std::process::exit(2);
    };
    decisions();
    if counts::available() {
        instructions(this);
    } else {
        println!("\nno valgrind here: instructions aren't counted");
    }
    files::measure(schedule, response);
}
