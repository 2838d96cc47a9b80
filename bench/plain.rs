//! The plain Rust scheduler: one decision and its tick, as a good programmer would write it by hand.
//! Over references, nothing is copied, each partition is tested once, and it has the library's own range checks.

/// A partition: period, budget and phase, in ticks.
#[repr(C)]
#[derive(Clone, Copy, Default)]
pub struct Part {
    pub period: u16,
    pub budget: u16,
    pub phase: u16,
}

/// What is left of each budget, and the ticks until it comes again.
#[repr(C)]
#[derive(Clone, Copy, Default, PartialEq, Eq, Debug)]
pub struct State {
    pub b: [u16; 16],
    pub o: [u16; 16],
}

/// Idle as a number.
pub const IDLE: u8 = 255;

/// The refusals that a tick or a run can meet, with their second number.
#[derive(Clone, Copy, PartialEq, Eq, Debug)]
pub enum Refusal {
    BadPartition(usize),
    BadPair(usize),
    ShortBuffer(usize),
}

fn judge_table(parts: &[Part]) -> Result<(), Refusal> {
    if parts.is_empty() {
        return Err(Refusal::BadPartition(0));
    }
    if parts.len() > 16 {
        return Err(Refusal::BadPartition(16));
    }
    let bad = |p: &Part| {
        p.period == 0
            || p.period > 4096
            || p.budget == 0
            || p.budget > p.period
            || p.phase >= p.period
    };
    match parts.iter().position(bad) {
        Some(i) => Err(Refusal::BadPartition(i)),
        None => Ok(()),
    }
}

fn judge_state(parts: &[Part], s: &State) -> Result<(), Refusal> {
    let pairs = || s.b.iter().zip(&s.o);
    let inside = parts
        .iter()
        .zip(pairs())
        .position(|(p, (&b, &o))| b > p.budget || o == 0 || o > p.period);
    if let Some(i) = inside {
        return Err(Refusal::BadPair(i));
    }
    match pairs()
        .skip(parts.len())
        .position(|(&b, &o)| b != 0 || o != 0)
    {
        Some(i) => Err(Refusal::BadPair(parts.len() + i)),
        None => Ok(()),
    }
}

/// What the replenishments of one partition before `w` add.
fn refill(p: &Part, o: u16, w: u32) -> u32 {
    let late = w.saturating_sub(o as u32);
    late.div_ceil(p.period as u32) * p.budget as u32
}

/// What the replenishments before `w` add. Up to `reach` nobody is replenished twice, which spares the divisions.
fn refills(parts: &[Part], o: &[u16], reach: u32, w: u32) -> u32 {
    let each = parts.iter().zip(o);
    if w <= reach {
        return each
            .map(|(p, &o)| if w > o as u32 { p.budget as u32 } else { 0 })
            .sum();
    }
    each.map(|(p, &o)| refill(p, o, w)).sum()
}

/// `h` passes with inversion 1, where that, its own budget and all above come to `start`.
fn passes(parts: &[Part], s: &State, h: usize, start: u32, reach: u32) -> bool {
    let o = s.o[h] as u32;
    let (deadline, top) = match s.b[h] {
        0 => (o + parts[h].period as u32, h + 1),
        _ => (o, h),
    };
    let mut length = start;
    while length <= deadline {
        let sum = start + refills(&parts[..top], &s.o[..top], reach, length);
        if sum == length {
            return true;
        }
        length = sum;
    }
    false
}

/// The pick that the word makes. Beside each candidate stands the sum of the weights up to it.
fn decide(parts: &[Part], s: &State, word: u32) -> u8 {
    let n = parts.len();
    let mut list = [0u8; 17];
    let mut sums = [0u32; 17];
    let mut length = 0;
    let (mut passed, mut start, mut reach) = (0, 1, u32::MAX);
    let mut sum = 0;
    'search: for c in 0..=n {
        if c < n && s.b[c] == 0 {
            continue;
        }
        while length > 0 && passed < c {
            start += s.b[passed] as u32;
            reach = reach.min(s.o[passed] as u32 + parts[passed].period as u32);
            if !passes(parts, s, passed, start, reach) {
                break 'search;
            }
            passed += 1;
        }
        // all but the last candidate pass, and so weigh less than 65,536 each: the sum stays below 2^32
        sum += match s.b.get(c).filter(|_| c < n) {
            Some(&b) => ((b as u32) << 16) / s.o[c] as u32,
            None => 65536u32.saturating_sub(sum),
        };
        list[length] = if c < n { c as u8 } else { IDLE };
        sums[length] = sum;
        length += 1;
    }
    let at = word % sum;
    let i = sums[..length].iter().position(|&x| at < x);
    list[i.unwrap_or(0)]
}

fn pass_tick(parts: &[Part], s: &mut State, pick: u8) {
    if pick != IDLE {
        s.b[pick as usize] -= 1;
    }
    for ((p, b), o) in parts.iter().zip(&mut s.b).zip(&mut s.o) {
        *o -= 1;
        if *o == 0 {
            *b = p.budget;
            *o = p.period;
        }
    }
}

/// One decision by the word, and its tick.
pub fn tick(s: &mut State, parts: &[Part], word: u32) -> Result<u8, Refusal> {
    judge_table(parts)?;
    judge_state(parts, s)?;
    let pick = decide(parts, s, word);
    pass_tick(parts, s, pick);
    Ok(pick)
}

/// One decision and tick for each word; picks go to the buffer.
pub fn run(s: &mut State, parts: &[Part], words: &[u32], picks: &mut [u8]) -> Result<(), Refusal> {
    judge_table(parts)?;
    judge_state(parts, s)?;
    if picks.len() < words.len() {
        return Err(Refusal::ShortBuffer(words.len()));
    }
    for (&word, place) in words.iter().zip(picks) {
        *place = decide(parts, s, word);
        pass_tick(parts, s, *place);
    }
    Ok(())
}
