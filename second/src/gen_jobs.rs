//! Random sound jobs for the stream: parts of one cage each, joined.

use crate::gen_parts::{at_odds, small_part, some_part, Part, PART_EVENT_WORDS};
use crate::gen_sets::add_sets;
use crate::job::{AMOUNT_BOUND, LAG_BOUND, LAG_WORDS, MAX_CAGES, MAX_EVENTS, MAX_LAGS};
use crate::raw_job::RawJob;
use crate::rng::Rng;

/// A sound job: one cage or several, with or without sets.
pub fn sound_job(rng: &mut Rng) -> RawJob {
    let mut job = job_of_cages(rng);
    add_sets(rng, &mut job);
    job
}

fn job_of_cages(rng: &mut Rng) -> RawJob {
    if rng.chance(1, 2) {
        let part = some_part(rng);
        return joined(rng, vec![part]);
    }
    let cages = 1 + rng.below(MAX_CAGES);
    let size = rng.pick(&[3, 5, 8, 8, 12]);
    let mut parts = Vec::new();
    let (mut events, mut lags) = (0, 0);
    for _ in 0..cages {
        let part = match rng.below(8) {
            0 => without_events(small_part(rng, size)),
            1 => some_part(rng),
            _ => small_part(rng, size),
        };
        if events + part.events() <= MAX_EVENTS && lags + part.lags.len() <= MAX_LAGS * LAG_WORDS {
            events += part.events();
            lags += part.lags.len();
            parts.push(part);
        }
    }
    if parts.is_empty() {
        parts.push(small_part(rng, size));
    }
    let mut job = joined(rng, parts);
    add_cross_lags(rng, &mut job);
    job
}

/// A sound job with few events, whose lists are short.
pub fn small_sound_job(rng: &mut Rng) -> RawJob {
    for _ in 0..20 {
        let job = sound_job(rng);
        if job.events() <= 8 {
            return job;
        }
    }
    let part = small_part(rng, 8);
    joined(rng, vec![part])
}

/// A long creep to a conflict, the only part of its job.
pub fn creeping_job(rng: &mut Rng, most_horizon: i64) -> RawJob {
    let part = at_odds(rng, most_horizon);
    joined(rng, vec![part])
}

/// The part's cage alone.
fn without_events(mut part: Part) -> Part {
    part.windows.clear();
    part.lags.clear();
    part
}

/// One job of all parts, their events mixed, each part with its own cage.
fn joined(rng: &mut Rng, parts: Vec<Part>) -> RawJob {
    let mut owners = Vec::new();
    for (cage, part) in parts.iter().enumerate() {
        owners.extend(std::iter::repeat_n(cage, part.events()));
    }
    rng.shuffle(&mut owners);
    let mut job = RawJob {
        horizon: parts
            .iter()
            .map(|part| part.numbers.horizon)
            .max()
            .unwrap_or(0),
        cages: Vec::new(),
        windows: Vec::new(),
        lags: Vec::new(),
        sets: Vec::new(),
        amount_bound: AMOUNT_BOUND,
    };
    // The events of a part keep their order.
    let mut numbers: Vec<Vec<i32>> = vec![Vec::new(); parts.len()];
    for (event, cage) in owners.into_iter().enumerate() {
        let at = numbers[cage].len() * PART_EVENT_WORDS;
        numbers[cage].push(event as i32);
        job.windows
            .extend(&parts[cage].windows[at..at + PART_EVENT_WORDS]);
        job.windows.push(cage as i32);
    }
    let mut lags = Vec::new();
    for (part, numbers) in parts.iter().zip(&numbers) {
        let n = &part.numbers;
        job.cages.extend([n.lower, n.upper, n.opening, n.cover]);
        for lag in part.lags.chunks_exact(LAG_WORDS) {
            lags.push([numbers[lag[0] as usize], numbers[lag[1] as usize], lag[2]]);
        }
    }
    if parts.len() > 1 {
        rng.shuffle(&mut lags);
    }
    job.lags = lags.concat();
    job
}

/// Lags between any two events, which cut their windows a little or not at all.
fn add_cross_lags(rng: &mut Rng, job: &mut RawJob) {
    if job.events() < 2 || rng.chance(1, 2) {
        return;
    }
    for _ in 0..1 + rng.below(3) {
        if job.lags.len() == MAX_LAGS * LAG_WORDS {
            return;
        }
        let a = rng.below(job.events());
        let b = (a + 1 + rng.below(job.events() - 1)) % job.events();
        let widest = i64::from(job.window(a)[1]) - i64::from(job.window(b)[0]);
        let d = (widest - rng.pick(&[0, 1, 1, 2, 5, 40])).clamp(-LAG_BOUND, LAG_BOUND);
        job.lags.extend([a as i32, b as i32, d as i32]);
    }
}
