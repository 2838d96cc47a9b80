//! A meter file made smaller by one step, and in words.

use crate::files::{get_number, set_number, size, Records};
use crate::shrink::{lower, shorter, Steps};
use std::fmt::Write;

/// The file with one number lower. The last records first: a task of partition 0 lets the others go.
fn lower_numbers(file: &Records) -> impl Iterator<Item = Records> + '_ {
    let places = (0..file.len())
        .rev()
        .flat_map(|place| (0..file[place].len()).step_by(2).map(move |at| (place, at)));
    places.flat_map(move |(place, at)| {
        let number = get_number(&file[place], at);
        lower(number.into()).into_iter().map(move |value| {
            let mut next = file.clone();
            set_number(&mut next[place], at, value as u16);
            next
        })
    })
}

pub fn smaller(file: &Records) -> Steps<'_, Records> {
    Box::new(shorter(file).chain(lower_numbers(file)))
}

// In words.

fn meaning(record: &[u8]) -> String {
    let number = |at| get_number(record, at);
    match (record.len(), number(0), number(2)) {
        (10, 8, 1) => format!(
            "partition T {} B {} phase {}",
            number(4),
            number(6),
            number(8)
        ),
        (10, 8, 2) => format!("task of {} p {} e {}", number(4), number(6), number(8)),
        (8, 6, 3) => {
            let word = u32::from(number(6)) << 16 | u32::from(number(4));
            format!("word {word}")
        }
        (6, 4, 4) => format!("release {}", number(4)),
        _ => String::from("damaged"),
    }
}

/// Lines that are enough to see any small file whole.
const MOST_LINES: usize = 60;

pub fn told(file: &Records) -> String {
    let mut text = format!("  file of {} bytes\n", size(file));
    let mut offset = 0;
    for (line, record) in file.iter().enumerate() {
        if line < MOST_LINES {
            let shown = record.iter().take(12).map(|byte| format!("{byte:02x} "));
            let shown: String = shown.collect();
            let _ = writeln!(text, "  {offset:>6}: {shown:<36} {}", meaning(record));
        }
        offset += record.len();
    }
    if file.len() > MOST_LINES {
        let _ = writeln!(text, "  and {} more records", file.len() - MOST_LINES);
    }
    text
}
