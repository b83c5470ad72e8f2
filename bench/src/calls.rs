//! Planner and reader on both sides, with one kind of answer: what a call
//! returns and writes as its five words.

use second::raw_job::RawJob;
use second::{plan, read, PlanAnswer, ReadAnswer, Refusal, Tally};

/// The number that a call returns, and its five words: place, outcome, slips,
/// rounds, length.
#[derive(Clone, Copy, Debug, PartialEq, Eq)]
pub struct Answer {
    pub number: i32,
    pub words: [i32; 5],
}

pub const SETTLED: i32 = 0;
pub const CONFLICT: i32 = 1;
pub const STOPPED: i32 = 2;
pub const OPEN: i32 = 3;

// The static library: a table is a pointer and a length. Window table and slip
// buffer are written, the others only read.
#[allow(clippy::too_many_arguments)]
#[rustfmt::skip]
extern "C" {
    fn orthmuzi_plan(
        h: i32, cages: *const i32, cage_words: usize, table: *mut i32, table_words: usize, lags: *const i32, lag_words: usize,
        sets: *const i32, set_words: usize, limit: i32, buffer: *mut i32, buffer_words: usize, answer: *mut i32, answer_words: usize,
    ) -> i32;
    fn orthmuzi_read(
        h: i32, cages: *const i32, cage_words: usize, table: *mut i32, table_words: usize, lags: *const i32, lag_words: usize,
        sets: *const i32, set_words: usize, list: *const i32, list_words: usize, answer: *mut i32, answer_words: usize,
    ) -> i32;
}

/// No round limit.
const NO_LIMIT: i32 = 0;

/// The proved planner.
pub fn proved_plan(job: &RawJob, windows: &mut [i32], buffer: &mut [i32]) -> Answer {
    let mut words = [0; 5];
    // SAFETY: each pointer and length is that of a slice lent for the call.
    let number = unsafe {
        orthmuzi_plan(
            job.horizon,
            job.cages.as_ptr(),
            job.cages.len(),
            windows.as_mut_ptr(),
            windows.len(),
            job.lags.as_ptr(),
            job.lags.len(),
            job.sets.as_ptr(),
            job.sets.len(),
            NO_LIMIT,
            buffer.as_mut_ptr(),
            buffer.len(),
            words.as_mut_ptr(),
            words.len(),
        )
    };
    Answer { number, words }
}

/// The proved reader.
pub fn proved_read(job: &RawJob, windows: &mut [i32], list: &[i32]) -> Answer {
    let mut words = [0; 5];
    // SAFETY: each pointer and length is that of a slice lent for the call.
    let number = unsafe {
        orthmuzi_read(
            job.horizon,
            job.cages.as_ptr(),
            job.cages.len(),
            windows.as_mut_ptr(),
            windows.len(),
            job.lags.as_ptr(),
            job.lags.len(),
            job.sets.as_ptr(),
            job.sets.len(),
            list.as_ptr(),
            list.len(),
            words.as_mut_ptr(),
            words.len(),
        )
    };
    Answer { number, words }
}

fn taken(outcome: i32, tally: Tally) -> Answer {
    let words = [0, outcome as usize, tally.slips, tally.rounds, tally.length];
    Answer {
        number: 0,
        words: words.map(|word| word as i32),
    }
}

fn refused(refusal: Refusal) -> Answer {
    Answer {
        number: refusal.number,
        words: [refusal.place as i32, 0, 0, 0, 0],
    }
}

/// The second program's planner.
pub fn second_plan(job: &RawJob, windows: &mut [i32], buffer: &mut [i32]) -> Answer {
    match plan(&job.settings(), windows, NO_LIMIT, buffer) {
        PlanAnswer::Settled(tally) => taken(SETTLED, tally),
        PlanAnswer::Conflict(tally) => taken(CONFLICT, tally),
        PlanAnswer::Stopped(tally) => taken(STOPPED, tally),
        PlanAnswer::Refused(refusal) => refused(refusal),
    }
}

/// The second program's reader.
pub fn second_read(job: &RawJob, windows: &mut [i32], list: &[i32]) -> Answer {
    let none = Tally {
        slips: 0,
        rounds: 0,
        length: 0,
    };
    match read(&job.settings(), windows, list) {
        ReadAnswer::Open => taken(OPEN, none),
        ReadAnswer::Conflict => taken(CONFLICT, none),
        ReadAnswer::Refused(refusal) => refused(refusal),
    }
}
