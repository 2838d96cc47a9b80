//! 01's "Sums done by hand" and the printed file of its first case, held against the rules written here.
//! Run first, so that a wrong rule here is seen before anything is compared with it.

use crate::meter;
use crate::random::Random;
use crate::rules::{self, List, State, Table, Tasks};
use crate::tables;

fn table(rows: &[(u16, u16)]) -> Table {
    let mut t = Table::NONE;
    t.count = rows.len();
    for (h, &(period, budget)) in rows.iter().enumerate() {
        t.period[h] = period;
        t.budget[h] = budget;
    }
    t
}

fn state(pairs: &[(u16, u16)]) -> State {
    let mut s = State::NONE;
    for (h, &(b, o)) in pairs.iter().enumerate() {
        s.b[h] = b;
        s.o[h] = o;
    }
    s
}

fn members(list: &List) -> &[u8] {
    &list.members[..list.length]
}

fn weights(t: &Table, s: &State) -> Vec<u64> {
    let w = rules::weights_of(t, s);
    w.weights[..w.list.length].to_vec()
}

fn first_case() {
    let t = table(&[(4, 1), (6, 2)]);
    let fresh = rules::fresh(&t).expect("the first case is admitted");
    assert_eq!(weights(&t, &fresh), [16384, 21845, 27307]);
    let third = state(&[(1, 1), (1, 3)]);
    assert_eq!(members(&rules::list_of(&t, &third)), [0]);
    let other = state(&[(1, 4), (1, 2)]);
    assert_eq!(weights(&t, &other), [16384, 32768]);
    assert_eq!(50000 % (16384 + 32768), 848);
    assert_eq!(rules::decide(&t, &other, &[50000]), Ok(0));
}

fn admissions() {
    assert_eq!(rules::admission(&table(&[(4, 2), (4, 2)])), Ok(None));
    let refused = rules::fresh(&table(&[(4, 2), (4, 3)])).expect_err("too full");
    assert_eq!((refused.number, refused.second), (2, 1));
    let four = table(&[(10, 1), (20, 10), (30, 3), (50, 5)]);
    let all = [0, 1, 2, 3].map(|h| rules::partition_response(&four, h));
    assert_eq!(all, [1, 12, 15, 20].map(|r| Ok(Some(r))));
}

fn lists() {
    let full = table(&[(5, 5)]);
    let fresh = rules::fresh(&full).expect("alone");
    assert_eq!(members(&rules::list_of(&full, &fresh)), [0]);
    let t = table(&[(10, 4), (6, 2), (60, 1)]);
    let s = state(&[(4, 6), (0, 1), (1, 50)]);
    assert_eq!(members(&rules::list_of(&t, &s)), [0]);
    assert_eq!(rules::busy_length(&t, &s, 1, 1), Ok(None));
    let hundred = table(&[(100, 1); 4]);
    let s = state(&[(1, 2), (1, 4), (1, 6), (1, 8)]);
    assert_eq!(members(&rules::list_of(&hundred, &s)), [0, 1, 2, 3, 255]);
    assert_eq!(weights(&hundred, &s), [32768, 16384, 10922, 8192, 0]);
}

fn responses() {
    let t = table(&[(200, 32)]);
    let mut k = Tasks::NONE;
    k.count = 4;
    for (x, (gap, cost)) in [(400, 12), (800, 24), (1600, 48), (3200, 96)]
        .into_iter()
        .enumerate()
    {
        k.gap[x] = gap;
        k.cost[x] = cost;
    }
    let all = [0, 1, 2, 3].map(|x| rules::task_response(&t, &k, x));
    assert_eq!(all, [348, 552, 768, 2352].map(Ok));
}

fn printed_file() {
    let mut file = vec![8, 0, 1, 0, 4, 0, 1, 0, 0, 0, 8, 0, 1, 0, 6, 0, 2, 0, 0, 0];
    for word in [20000u32, 40000, 60000, 5, 50000, 0] {
        file.extend([6, 0, 3, 0]);
        file.extend(word.to_le_bytes());
    }
    let printed = "tick pick\n0 1\n1 idle\n2 idle\n3 0\n4 0\n5 1\nend 6\n";
    assert_eq!(meter::schedule(&file), printed);
    assert_eq!(meter::response(&file), "partition task response\nend 0\n");
}

/// R once more, by trying every W from 1 in turn as the definition says.
fn every_w(t: &Table, h: usize) -> Option<u64> {
    let sum = |w: u64| -> u64 {
        let above = (0..h).map(|j| w.div_ceil(t.period[j].into()) * u64::from(t.budget[j]));
        u64::from(t.budget[h]) + above.sum::<u64>()
    };
    (1..=t.period[h].into()).find(|&w| sum(w) == w)
}

fn least_by_trying() {
    let mut random = Random::new(1);
    for _ in 0..500 {
        let t = tables::in_range(&mut random);
        for h in 0..t.count {
            assert_eq!(rules::partition_response(&t, h), Ok(every_w(&t, h)));
        }
    }
}

/// Stops the program where a sum differs.
pub fn hold() {
    first_case();
    admissions();
    lists();
    responses();
    printed_file();
    least_by_trying();
}
