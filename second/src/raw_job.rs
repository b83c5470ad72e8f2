//! A job as plain words, sound or not, and the list that the propagator writes
//! for it.

use crate::explanation::{explanation_words, HEAD_WORDS, TRAILER_WORDS};
use crate::job::{Job, Refusal, Settings, EVENT_WORDS};
use crate::propagator::{plan, PlanAnswer, Tally};

/// The most words that a record's tables have.
pub const MOST_CAGE_WORDS: usize = 40;
pub const MOST_WINDOW_WORDS: usize = 360;
pub const MOST_LAG_WORDS: usize = 800;
pub const MOST_SET_WORDS: usize = 1_200;
pub const MOST_BUFFER_WORDS: usize = 20_000;

/// A job as words, sound or not.
#[derive(Clone, Debug)]
pub struct RawJob {
    pub horizon: i32,
    pub cages: Vec<i32>,
    pub windows: Vec<i32>,
    pub lags: Vec<i32>,
    pub sets: Vec<i32>,
    /// The greatest amount that the job is meant for.
    pub amount_bound: i64,
}

impl RawJob {
    pub fn events(&self) -> usize {
        self.windows.len() / EVENT_WORDS
    }

    /// The words of an event.
    pub fn window(&self, event: usize) -> &[i32] {
        &self.windows[event * EVENT_WORDS..(event + 1) * EVENT_WORDS]
    }

    /// All of the job but its window table.
    pub fn settings(&self) -> Settings<'_> {
        Settings {
            horizon: self.horizon,
            cages: &self.cages,
            lags: &self.lags,
            sets: &self.sets,
            amount_bound: self.amount_bound,
        }
    }

    /// The job, if its own questions are all answered with yes.
    pub fn admitted(&self) -> Result<Job, Refusal> {
        Job::admit(&self.settings(), &self.windows)
    }

    /// Runs the propagator without a round limit on copies of the tables: the
    /// answer and the buffer.
    pub fn planned(&self, room: usize) -> (PlanAnswer, Vec<i32>) {
        self.planned_within(room, 0)
    }

    /// The same with a round limit.
    pub fn planned_within(&self, room: usize, limit: i32) -> (PlanAnswer, Vec<i32>) {
        let mut windows = self.windows.clone();
        let mut buffer = vec![0; room];
        let answer = plan(&self.settings(), &mut windows, limit, &mut buffer);
        (answer, buffer)
    }
}

/// The counts of an answer that is no refusal.
pub fn tally_of(answer: PlanAnswer) -> Option<Tally> {
    match answer {
        PlanAnswer::Settled(tally) | PlanAnswer::Conflict(tally) | PlanAnswer::Stopped(tally) => {
            Some(tally)
        }
        PlanAnswer::Refused(_) => None,
    }
}

/// Where the slips of a well-formed list begin, and where its trailer does.
pub fn slip_places(list: &[i32]) -> Vec<usize> {
    let end = list.len() - TRAILER_WORDS;
    let mut places = vec![0];
    let mut at = 0;
    while at < end {
        at += explanation_words(list[at + HEAD_WORDS - 1] as usize);
        places.push(at);
    }
    places
}
