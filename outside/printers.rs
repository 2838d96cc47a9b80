//! The two printers as programs: each file goes to both on standard input, and what they write is compared.

use crate::file_told;
use crate::files::{self, Records, Sort};
use crate::meter;
use crate::random::Random;
use crate::shrink::Shrink;
use crate::watch::{self, Asking};
use std::io::{Read, Write};
use std::process::{Command, Stdio};
use std::thread;
use std::time::Duration;

/// A trial starts a program, and that takes as long as some twenty records.
const SHRINK: Shrink<Records> = Shrink {
    smaller: file_told::smaller,
    cost: |file| 20 + file.len(),
    budget: 500_000,
};

#[derive(Clone, Copy, Debug, PartialEq, Eq)]
pub enum Printer {
    Schedule,
    Response,
}

/// Where the two programs are.
pub struct Programs {
    pub schedule: String,
    pub response: String,
}

/// A file over which a printer differs.
pub struct Found {
    pub printer: Printer,
    pub file: Records,
    pub way: Way,
}

/// How a file is written to a printer: at once, or in two pieces, so that a read comes short.
#[derive(Clone, Copy, PartialEq, Eq)]
pub enum Way {
    AtOnce,
    InPieces,
}

/// One file in so many is written in pieces.
const PIECES_IN: usize = 29;

#[derive(Default)]
pub struct Files {
    pub files: u64,
    pub bytes: u64,
    /// Outputs of the schedule printer by how they end: 0 for whole, or the refusal.
    pub schedule: [u64; 10],
    pub response: [u64; 10],
    pub late: u64,
    pub in_time: u64,
    pub found: Option<Found>,
    /// A file that isn't refused as its sort should be: a fault of this program.
    pub mislabelled: Option<String>,
}

impl Programs {
    fn path(&self, printer: Printer) -> &str {
        match printer {
            Printer::Schedule => &self.schedule,
            Printer::Response => &self.response,
        }
    }

    /// What the program writes. One that can't be started, or is killed, says so in place of it.
    fn output(&self, printer: Printer, file: &Records, way: Way) -> Vec<u8> {
        let _awaited = watch::ask(Asking::File(printer, file.clone()));
        let path = self.path(printer);
        try_output(path, &files::bytes(file), way)
            .unwrap_or_else(|error| format!("{path}: {error}\n").into_bytes())
    }
}

fn try_output(path: &str, file: &[u8], way: Way) -> std::io::Result<Vec<u8>> {
    let mut child = Command::new(path)
        .stdin(Stdio::piped())
        .stdout(Stdio::piped())
        .stderr(Stdio::null())
        .spawn()?;
    watch::child(child.id());
    if let Some(mut input) = child.stdin.take() {
        let half = file.len() / 2;
        // A printer may stop reading a file that is over the limit: that is no error.
        let _ = input.write_all(&file[..half]);
        if way == Way::InPieces {
            thread::sleep(Duration::from_millis(3));
        }
        let _ = input.write_all(&file[half..]);
    }
    let mut written = Vec::new();
    if let Some(mut output) = child.stdout.take() {
        output.read_to_end(&mut written)?;
    }
    let status = child.wait()?;
    watch::child(0);
    if status.code().is_none() {
        written.extend(format!("ended by {status}\n").bytes());
    }
    Ok(written)
}

fn due(printer: Printer, file: &[u8]) -> String {
    match printer {
        Printer::Schedule => meter::schedule(file),
        Printer::Response => meter::response(file),
    }
}

/// How an output ends: 0 for the line `end`, or the number of the refusal.
fn ending(output: &str) -> usize {
    let last = output.lines().last().unwrap_or("");
    let number = last
        .strip_prefix("refused ")
        .and_then(|rest| rest.split(' ').next());
    number.and_then(|number| number.parse().ok()).unwrap_or(0)
}

/// Compares one output. Answers what 01's rules give.
fn try_printer(
    done: &mut Files,
    programs: &Programs,
    printer: Printer,
    file: &Records,
    way: Way,
) -> String {
    let bytes = files::bytes(file);
    let due = due(printer, &bytes);
    if programs.output(printer, file, way) != due.as_bytes() {
        let file = file.clone();
        done.found.get_or_insert(Found { printer, file, way });
    }
    due
}

fn count_responses(done: &mut Files, output: &str) {
    let late = output.lines().filter(|line| line.ends_with("late")).count() as u64;
    done.late += late;
    // The first line and the last are no task's.
    done.in_time += (output.lines().count() as u64).saturating_sub(2 + late);
}

fn try_file(done: &mut Files, programs: &Programs, sort: Sort, file: &Records, way: Way) {
    done.files += 1;
    done.bytes += files::bytes(file).len() as u64;
    let schedule = try_printer(done, programs, Printer::Schedule, file, way);
    let response = try_printer(done, programs, Printer::Response, file, way);
    let end = ending(&schedule);
    done.schedule[end] += 1;
    done.response[ending(&response)] += 1;
    count_responses(done, &response);
    let label = files::SORTS.iter().find(|(each, _, _)| *each == sort);
    if let Some(&(_, _, Some(refusal))) = label {
        if end != refusal as usize {
            let text = format!(
                "{sort:?} should end in {refusal}\n{}",
                file_told::told(file)
            );
            done.mislabelled.get_or_insert(text);
        }
    }
}

/// The files at `from`, `from + step`, and so on. Stops at the first difference.
pub fn many(seed: u64, programs: &Programs, from: usize, step: usize, count: usize) -> Files {
    let mut done = Files::default();
    for place in (from..count).step_by(step) {
        let sort = files::sort_at(place);
        let mut random = Random::new(seed + place as u64);
        let file = files::random(&mut random, sort);
        let way = match place % PIECES_IN {
            0 => Way::InPieces,
            _ => Way::AtOnce,
        };
        try_file(&mut done, programs, sort, &file, way);
        if done.found.is_some() || done.mislabelled.is_some() {
            break;
        }
    }
    done
}

impl Files {
    pub fn add(&mut self, other: Files) {
        self.files += other.files;
        self.bytes += other.bytes;
        for place in 0..10 {
            self.schedule[place] += other.schedule[place];
            self.response[place] += other.response[place];
        }
        self.late += other.late;
        self.in_time += other.in_time;
        self.found = self.found.take().or(other.found);
        self.mislabelled = self.mislabelled.take().or(other.mislabelled);
    }
}

// In words.

/// The lines of an output around the first place where the two differ.
fn around(output: &str, other: &str) -> String {
    let pairs = output.lines().zip(other.lines());
    let differ = pairs.take_while(|(one, two)| one == two).count();
    let from = differ.saturating_sub(20);
    let mut text = String::new();
    if from > 0 {
        text += &format!("    ({from} lines that are the same)\n");
    }
    for line in output.lines().skip(from).take(40) {
        text += &format!("    {line}\n");
    }
    text
}

/// The smallest file found, in words.
pub fn told(found: &Found, programs: &Programs) -> String {
    let (printer, way) = (found.printer, found.way);
    let differs = |file: &Records| {
        let bytes = files::bytes(file);
        programs.output(printer, file, way) != due(printer, &bytes).as_bytes()
    };
    let file = SHRINK.smallest(&found.file, differs);
    let bytes = files::bytes(&file);
    let due = due(printer, &bytes);
    let wrote = String::from_utf8_lossy(&programs.output(printer, &file, way)).into_owned();
    let pieces = match way {
        Way::AtOnce => "",
        Way::InPieces => ", its input written in two pieces",
    };
    let mut text = format!("differs: the printer {}{pieces}\n", programs.path(printer));
    text += &file_told::told(&file);
    text += &format!("  01's rules give:\n{}", around(&due, &wrote));
    text += &format!("  the printer wrote:\n{}", around(&wrote, &due));
    if due.lines().eq(wrote.lines()) {
        text += &format!("  the lines are the same, the bytes aren't: {due:?} and {wrote:?}\n");
    }
    text
}
