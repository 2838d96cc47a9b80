//! What is measured: the same decisions by the plain program and by the proved library, by the run and by the hook.

use crate::library::{self, Table};
use crate::plain::{self, Part, State};
use std::hint::black_box;

/// Decisions in one measurement.
pub const DECISIONS: usize = 4000;

/// Who decides, and how he is called.
#[derive(Clone, Copy, PartialEq, Eq)]
pub enum Way {
    PlainRun,
    ProvedRun,
    PlainTick,
    ProvedTick,
}

pub const WAYS: [Way; 4] = [
    Way::PlainRun,
    Way::ProvedRun,
    Way::PlainTick,
    Way::ProvedTick,
];

/// 000's table I in tenths of a millisecond, with budgets of 16%. Where there are more than five partitions each is
/// there two, three or four times, with a part of the budget, as 000 does for table IV.
pub fn parts(n: usize) -> Vec<Part> {
    let times = n.div_ceil(5);
    let periods = [200u16, 300, 400, 500, 600];
    let each = periods.iter().flat_map(|&period| {
        let budget = (period as usize * 16 / 100 / times) as u16;
        std::iter::repeat_n(
            Part {
                period,
                budget,
                phase: 0,
            },
            times,
        )
    });
    each.take(n).collect()
}

pub struct Work {
    pub parts: Vec<Part>,
    table: Table,
    start: State,
    words: Vec<u32>,
    picks: Vec<u8>,
}

impl Work {
    pub fn new(n: usize) -> Work {
        let parts = parts(n);
        let mut start = State::default();
        for (i, p) in parts.iter().enumerate() {
            (start.b[i], start.o[i]) = (p.budget, p.period);
        }
        Work {
            table: library::table_of(&parts),
            parts,
            start,
            words: words(n as u64),
            picks: vec![0; DECISIONS],
        }
    }

    /// One round of decisions, from the fresh start.
    pub fn round(&mut self, way: Way) {
        let mut s = self.start;
        let (parts, words) = (black_box(&self.parts[..]), black_box(&self.words[..]));
        match way {
            Way::PlainRun => plain::run(&mut s, parts, words, &mut self.picks).expect("in range"),
            Way::ProvedRun => {
                s = library::run(s, &self.table, words, &mut self.picks).expect("in range")
            }
            Way::PlainTick => {
                for &word in words {
                    black_box(plain::tick(black_box(&mut s), parts, word)).expect("in range");
                }
            }
            Way::ProvedTick => {
                for &word in words {
                    black_box(library::tick(black_box(&mut s), parts, word)).expect("in range");
                }
            }
        }
        black_box(s);
    }

    /// Both decide alike, tick by tick, and so do the two runs: otherwise nothing is measured.
    pub fn check(&mut self) {
        let (mut a, mut b) = (self.start, self.start);
        for &word in &self.words {
            let pick = plain::tick(&mut a, &self.parts, word).expect("in range");
            assert_eq!(Ok(pick), library::tick(&mut b, &self.parts, word));
            assert_eq!(a, b);
        }
        let mut s = self.start;
        plain::run(&mut s, &self.parts, &self.words, &mut self.picks).expect("in range");
        let expected = self.picks.clone();
        let after = library::run(self.start, &self.table, &self.words, &mut self.picks);
        assert_eq!((Ok(a), &expected), (after, &self.picks));
        assert_eq!(a, s);
    }
}

/// Words by splitmix64: the same in each run.
fn words(seed: u64) -> Vec<u32> {
    let mut x = seed;
    let next = || {
        x = x.wrapping_add(0x9E37_79B9_7F4A_7C15);
        let mut z = x;
        z = (z ^ (z >> 30)).wrapping_mul(0xBF58_476D_1CE4_E5B9);
        z = (z ^ (z >> 27)).wrapping_mul(0x94D0_49BB_1331_11EB);
        Some((z ^ (z >> 31)) as u32)
    };
    std::iter::from_fn(next).take(DECISIONS).collect()
}
