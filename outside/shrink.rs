//! The smallest case that still differs, found by taking any smaller step that keeps the difference.

/// Cases that are a step smaller, made as they are asked for.
pub type Steps<'a, C> = Box<dyn Iterator<Item = C> + 'a>;

/// How to make a case of some kind smaller, and how long to try.
pub struct Shrink<C> {
    pub smaller: for<'a> fn(&'a C) -> Steps<'a, C>,
    /// What one trial costs; trials end when `budget` is spent.
    pub cost: fn(&C) -> usize,
    pub budget: usize,
}

impl<C: Clone> Shrink<C> {
    /// Takes the first smaller case that still differs, again and again.
    pub fn smallest(&self, start: &C, differs: impl Fn(&C) -> bool) -> C {
        let mut case = start.clone();
        let mut spent = 0;
        loop {
            let cost = (self.cost)(&case);
            let step = (self.smaller)(&case).find(|next| {
                spent += cost;
                spent > self.budget || differs(next)
            });
            match step {
                Some(next) if spent <= self.budget => case = next,
                _ => return case,
            }
        }
    }
}

/// Numbers below this one that are worth a try, the smallest first.
pub fn lower(number: u64) -> Vec<u64> {
    let mut found = vec![0, 1];
    found.extend([1, 2, 4, 6].map(|bits| number - (number >> bits)));
    found.push(number.saturating_sub(1));
    found.retain(|&value| value < number);
    found.dedup();
    found
}

/// A list without a stretch of it, the long stretches first.
pub fn shorter<T: Clone>(list: &[T]) -> impl Iterator<Item = Vec<T>> + '_ {
    let lengths = (0..usize::BITS).rev().map(|bits| 1usize << bits);
    let lengths = lengths.filter(|&length| length <= list.len());
    lengths.flat_map(move |length| {
        let starts = (0..=list.len() - length).step_by(length);
        starts.map(move |from| [&list[..from], &list[from + length..]].concat())
    })
}
