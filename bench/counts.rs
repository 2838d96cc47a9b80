//! Instructions, counted by valgrind: this program runs itself with one round and with two, and takes the difference.

use crate::work::{Way, Work, DECISIONS, WAYS};
use std::process::{Command, Stdio};

pub fn available() -> bool {
    let asked = Command::new("valgrind")
        .arg("--version")
        .stdout(Stdio::null())
        .stderr(Stdio::null())
        .status();
    asked.is_ok_and(|status| status.success())
}

/// What this program does under valgrind: so many rounds of one way, and nothing else.
pub fn rounds(way: &str, n: &str, rounds: &str) {
    let number = |text: &str| text.parse::<usize>().expect("a number");
    let mut work = Work::new(number(n));
    for _ in 0..number(rounds) {
        work.round(WAYS[number(way)]);
    }
}

/// Instructions for one decision.
pub fn of(this: &str, way: Way, n: usize) -> u64 {
    (total(this, way, n, 2) - total(this, way, n, 1)) / DECISIONS as u64
}

fn total(this: &str, way: Way, n: usize, rounds: usize) -> u64 {
    let place = WAYS
        .iter()
        .position(|&w| w == way)
        .expect("one of the four");
    let ran = Command::new("valgrind")
        .args([
            "--tool=callgrind",
            "--callgrind-out-file=/dev/null",
            this,
            "rounds",
        ])
        .args([place, n, rounds].map(|x| x.to_string()))
        .output()
        .expect("valgrind");
    // "==1234== Collected : 5678901"
    let said = String::from_utf8_lossy(&ran.stderr).into_owned();
    let collected = said.lines().find_map(|l| l.split("Collected : ").nth(1));
    let text = collected.unwrap_or_else(|| panic!("no count in what valgrind said:\n{said}"));
    text.trim().parse().expect("a count")
}
