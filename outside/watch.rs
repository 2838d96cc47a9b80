//! What each thread is asking just now, so that a call that crashes or never ends can be shown too.

use crate::calls::Call;
use crate::case::Case;
use crate::case_told;
use crate::file_told;
use crate::files::Records;
use crate::printers::Printer;
use std::cell::Cell;
use std::sync::atomic::{AtomicI32, AtomicU64, Ordering::SeqCst};
use std::sync::Mutex;
use std::thread;
use std::time::Duration;

pub enum Asking {
    Call(Call, Case),
    File(Printer, Records),
}

/// `changes` is odd while an answer is awaited. `child` is the printer that runs for it, or 0.
struct Slot {
    asking: Mutex<Option<Asking>>,
    changes: AtomicU64,
    child: AtomicI32,
}

/// One for the main thread, which makes cases smaller, and one for each of the others.
static SLOTS: [Slot; 3] = [const {
    Slot {
        asking: Mutex::new(None),
        changes: AtomicU64::new(0),
        child: AtomicI32::new(0),
    }
}; 3];

/// No answer takes a second; so many allow for a machine with much else to do.
const MOST_SECONDS: u32 = 60;

thread_local! {
    static MINE: Cell<usize> = const { Cell::new(0) };
}

pub fn use_slot(number: usize) {
    MINE.set(number);
}

/// Lasts as long as the answer is awaited.
pub struct Awaited(&'static Slot);

impl Drop for Awaited {
    fn drop(&mut self) {
        self.0.changes.fetch_add(1, SeqCst);
    }
}

pub fn ask(asking: Asking) -> Awaited {
    let slot = &SLOTS[MINE.get()];
    if let Ok(mut shown) = slot.asking.lock() {
        *shown = Some(asking);
    }
    slot.changes.fetch_add(1, SeqCst);
    Awaited(slot)
}

/// Tells which program runs for this thread, or 0 when it has ended.
pub fn child(id: u32) {
    SLOTS[MINE.get()].child.store(id as i32, SeqCst);
}

/// Prints what was asked. A crash may have come anywhere, so nothing is waited for.
fn report(slot: &Slot, what: &str) {
    let text = match slot.asking.try_lock().as_deref() {
        Ok(Some(Asking::Call(call, case))) => {
            format!("{}\n{}", call.name(), case_told::told(case, *call))
        }
        Ok(Some(Asking::File(printer, file))) => {
            format!("the printer {printer:?}\n{}", file_told::told(file))
        }
        _ => String::from("not known\n"),
    };
    println!("{what}: {text}");
}

extern "C" {
    fn signal(number: i32, handler: extern "C" fn(i32)) -> usize;
    fn kill(process: i32, number: i32) -> i32;
    fn _exit(status: i32) -> !;
}

extern "C" fn crashed(number: i32) {
    let slot = &SLOTS[MINE.get()];
    if slot.changes.load(SeqCst) % 2 == 1 {
        report(slot, &format!("differs: ended by signal {number}"));
    }
    unsafe { _exit(1) }
}

/// A printer that never ends is ended with this program.
fn give_up(slot: &Slot) -> ! {
    report(slot, "differs: no answer in a minute");
    for slot in &SLOTS {
        let child = slot.child.load(SeqCst);
        if child > 0 {
            unsafe { kill(child, 9) };
        }
    }
    unsafe { _exit(1) }
}

/// Ends the program where a thread has awaited one answer for too long.
fn look() {
    let mut seconds = [0; 3];
    let mut before = [0; 3];
    loop {
        thread::sleep(Duration::from_secs(1));
        for (number, slot) in SLOTS.iter().enumerate() {
            let changes = slot.changes.load(SeqCst);
            let same = changes == before[number] && changes % 2 == 1;
            seconds[number] = if same { seconds[number] + 1 } else { 0 };
            before[number] = changes;
            if seconds[number] > MOST_SECONDS {
                give_up(slot);
            }
        }
    }
}

pub fn start() {
    // Linux's numbers of an illegal instruction, an abort, a bus error, a wrong division, a wrong address.
    for number in [4, 6, 7, 8, 11] {
        unsafe { signal(number, crashed) };
    }
    thread::spawn(look);
}
