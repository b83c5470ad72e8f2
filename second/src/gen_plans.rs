//! Random records for the propagator: a job, sound or faulty, and a buffer.

use crate::explanation::TRAILER_WORDS;
use crate::gen_faults::make_faulty;
use crate::gen_jobs::{creeping_job, sound_job};
use crate::propagator::{PlanAnswer, Tally};
use crate::raw_job::{slip_places, tally_of, RawJob, MOST_BUFFER_WORDS};
use crate::rng::Rng;
use crate::stream::{Call, Record};

/// A record for the propagator.
pub fn plan_record(rng: &mut Rng) -> Record {
    let (mut job, mut room, rounds) = job_and_room(rng);
    let mut limit = some_limit(rng, rounds);
    if rng.chance(1, 4) {
        make_faulty(rng, &mut job, &mut room);
        if rng.chance(1, 12) {
            limit = rng.pick(&[-1, 1_000_001, i32::MIN, i32::MAX]);
        }
    }
    let buffer = (0..room).map(|_| rng.word()).collect();
    Record {
        call: Call::Plan,
        job,
        limit,
        buffer,
    }
}

/// A round limit for a job that takes so many rounds without one.
fn some_limit(rng: &mut Rng, rounds: usize) -> i32 {
    let rounds = rounds as i32;
    match rng.below(12) {
        0..=3 => 0,
        4 => rng.pick(&[1, 2]),
        5 => 40,
        6 | 7 => rounds,
        8 | 9 => (rounds - 1).max(1),
        10 => rounds + 1,
        _ => rng.pick(&[1, 3, 1_000_000]),
    }
}

/// A sound job, a buffer length for it and its rounds; jobs on which no rule fires, and
/// those in conflict, are kept in one case of three.
fn job_and_room(rng: &mut Rng) -> (RawJob, usize, usize) {
    loop {
        let job = match rng.below(400) {
            0 => creeping_job(rng, 1_200),
            _ => sound_job(rng),
        };
        let (answer, buffer) = job.planned(MOST_BUFFER_WORDS);
        let Some(Tally { length, rounds, .. }) = tally_of(answer) else {
            continue;
        };
        let conflict = matches!(answer, PlanAnswer::Conflict(_));
        if length > TRAILER_WORDS && !conflict || rng.chance(1, 3) {
            let room = plan_room(rng, &buffer[..length]);
            return (job, room, rounds);
        }
    }
}

/// The buffer's length, given the whole list: enough, cut at some slip, or
/// just anything.
fn plan_room(rng: &mut Rng, list: &[i32]) -> usize {
    let length = list.len();
    let room = match rng.below(20) {
        0..=8 => length + rng.below(30),
        9..=16 => cut_room(rng, list),
        17 => TRAILER_WORDS + rng.below(12),
        18 => length.saturating_sub(rng.below(12)),
        _ => TRAILER_WORDS + rng.below(2 * length),
    };
    room.clamp(TRAILER_WORDS, MOST_BUFFER_WORDS)
}

/// A room that ends at a slip of the list, exactly or nearly.
pub fn cut_room(rng: &mut Rng, list: &[i32]) -> usize {
    let places = slip_places(list);
    let place = places[rng.below(places.len())] + TRAILER_WORDS;
    match rng.below(4) {
        0 => place.saturating_sub(1),
        1 => place + 1,
        _ => place,
    }
}
