//! Small random jobs whose legal schedules can all be listed.

use super::{BOUND, MOST_HORIZON};
use crate::job::{CAGE_WORDS, EVENT_WORDS};
use crate::raw_job::RawJob;
use crate::rng::Rng;

/// A sound job with few events, minutes and amounts.
pub fn small_job(rng: &mut Rng) -> RawJob {
    let horizon = rng.within(0, MOST_HORIZON);
    let events = rng.pick(&[0, 1, 2, 2, 2, 3, 3, 3, 3, 3, 4]);
    let cages = rng.pick(&[1, 1, 2, 2, 3]);
    RawJob {
        horizon: horizon as i32,
        cages: (0..cages).flat_map(|_| small_cage(rng)).collect(),
        windows: (0..events)
            .flat_map(|_| small_window(rng, horizon, cages))
            .collect(),
        lags: small_lags(rng, events),
        sets: small_sets(rng, events),
        amount_bound: BOUND,
    }
}

fn small_cage(rng: &mut Rng) -> [i32; CAGE_WORDS] {
    let opening = rng.within(-3, 3);
    let lower = opening - rng.within(0, 4);
    let upper = opening + rng.within(0, 4);
    [lower, upper, opening, rng.within(0, 1)].map(|word| word as i32)
}

fn small_window(rng: &mut Rng, horizon: i64, cages: usize) -> [i32; EVENT_WORDS] {
    let (one, two) = (rng.within(0, horizon), rng.within(0, horizon));
    let (low, high) = (rng.within(1, BOUND), rng.within(1, BOUND));
    let (low, high) = (low.min(high), low.max(high));
    let (h_min, h_max) = match rng.below(7) {
        0 => (0, 0),
        1..=3 => (low, high),
        _ => (-high, -low),
    };
    let cage = rng.below(cages) as i64;
    [one.min(two), one.max(two), h_min, h_max, cage].map(|end| end as i32)
}

fn small_lags(rng: &mut Rng, events: usize) -> Vec<i32> {
    let count = if events < 2 {
        0
    } else {
        rng.pick(&[0, 0, 1, 1, 2])
    };
    let mut lags = Vec::new();
    for _ in 0..count {
        let a = rng.below(events);
        let b = (a + 1 + rng.below(events - 1)) % events;
        lags.extend([a as i32, b as i32, rng.within(-3, 3) as i32]);
    }
    lags
}

fn small_sets(rng: &mut Rng, events: usize) -> Vec<i32> {
    let count = if events == 0 {
        0
    } else {
        rng.pick(&[0, 0, 0, 1, 1, 2])
    };
    let mut sets = Vec::new();
    for _ in 0..count {
        let mut members: Vec<i32> = (0..events as i32).collect();
        rng.shuffle(&mut members);
        members.truncate(1 + rng.below(events));
        let least = rng.within(-6, 5);
        let most = rng.within(least, 6);
        sets.extend([least as i32, most as i32, members.len() as i32]);
        sets.extend(members);
    }
    sets
}
