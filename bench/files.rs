//! Whole meter files through the printers, as programs: standard input to standard output.

use crate::work;
use std::io::Write;
use std::process::{Command, Stdio};
use std::time::Instant;

/// Runs of each printer with each file.
const RUNS: usize = 101;

fn record(file: &mut Vec<u8>, kind: u16, payload: &[u8]) {
    file.extend((2 + payload.len() as u16).to_le_bytes());
    file.extend(kind.to_le_bytes());
    file.extend(payload);
}

fn numbers(fields: [u16; 3]) -> Vec<u8> {
    fields.iter().flat_map(|x| x.to_le_bytes()).collect()
}

/// Ten partitions of 000's table I with five tasks each, as 000 has them, and words until the file is full.
fn full_file() -> Vec<u8> {
    let mut file = Vec::new();
    let parts = work::parts(10);
    for p in &parts {
        record(&mut file, 1, &numbers([p.period, p.budget, p.phase]));
    }
    for (i, p) in parts.iter().enumerate() {
        for times in [2, 4, 8, 16, 32] {
            let gap = p.period * times;
            record(&mut file, 2, &numbers([i as u16, gap, gap * 3 / 200]));
        }
    }
    let mut word = 1u32;
    while file.len() + 8 <= 65536 {
        word = word.wrapping_mul(1664525).wrapping_add(1013904223);
        record(&mut file, 3, &word.to_le_bytes());
    }
    file
}

/// Seconds for one run, the median of many, and the bytes written.
fn seconds(printer: &str, file: &[u8]) -> (f64, usize) {
    let mut written = 0;
    let mut times: Vec<f64> = (0..RUNS)
        .map(|_| {
            let began = Instant::now();
            let mut child = Command::new(printer)
                .stdin(Stdio::piped())
                .stdout(Stdio::piped())
                .spawn()
                .expect("the printer");
            child
                .stdin
                .take()
                .expect("piped")
                .write_all(file)
                .expect("read to its end");
            written = child.wait_with_output().expect("its output").stdout.len();
            began.elapsed().as_secs_f64()
        })
        .collect();
    times.sort_by(f64::total_cmp);
    (times[RUNS / 2], written)
}

pub fn measure(schedule: &str, response: &str) {
    println!("\nwhole files through the printers, median of {RUNS} runs, with the start of the program\n");
    println!("printer    bytes read  bytes written  seconds  bytes read a second");
    let file = full_file();
    for (name, printer) in [("schedule", schedule), ("response", response)] {
        let (time, written) = seconds(printer, &file);
        let rate = file.len() as f64 / time;
        println!(
            "{name:<10} {:>10} {written:>14} {time:>8.4} {rate:>20.0}",
            file.len()
        );
    }
}
