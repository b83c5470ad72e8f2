//! The jobs that are timed.

use second::job::{
    AMOUNT_BOUND, CAGE_WORDS, EVENT_WORDS, HORIZON_BOUND, MAX_CAGES, MAX_EVENTS, MAX_LAGS,
};
use second::raw_job::RawJob;
use second::rng::Rng;
use second::sets::{MAX_SETS, TOTAL_BOUND};

/// The words of a window.
const WINDOW_WORDS: usize = EVENT_WORDS - 1;

/// A job of one cage, empty at first and with cover 1, and no set, from its windows.
pub fn job(limits: (i32, i32), horizon: i64, windows: Vec<i32>, lags: Vec<i32>) -> RawJob {
    RawJob {
        horizon: horizon as i32,
        cages: vec![limits.0, limits.1, 0, 1],
        windows: in_cage_0(&windows),
        lags,
        sets: Vec::new(),
        amount_bound: AMOUNT_BOUND,
    }
}

/// Windows with cage 0 behind each.
fn in_cage_0(windows: &[i32]) -> Vec<i32> {
    windows
        .chunks_exact(WINDOW_WORDS)
        .flat_map(|window| window.iter().copied().chain([0]))
        .collect()
}

/// The same job with cover 0.
pub fn pulled_later(job: &RawJob) -> RawJob {
    let mut job = job.clone();
    job.cages[CAGE_WORDS - 1] = 0;
    job
}

/// The same events in eight cages alike, eight neighbours in each.
pub fn in_eight_cages(job: &RawJob) -> RawJob {
    let mut job = job.clone();
    job.cages = job.cages.repeat(MAX_CAGES);
    let shared = job.events().div_ceil(MAX_CAGES);
    for (event, words) in job.windows.chunks_exact_mut(EVENT_WORDS).enumerate() {
        words[WINDOW_WORDS] = (event / shared) as i32;
    }
    job
}

/// The same job with 16 sets of all its events and totals as far off as they
/// can be.
pub fn with_idle_sets(job: &RawJob) -> RawJob {
    let mut job = job.clone();
    let events = job.events() as i32;
    let bound = TOTAL_BOUND as i32;
    for _ in 0..MAX_SETS {
        job.sets.extend([-bound, bound, events]);
        job.sets.extend(0..events);
    }
    job
}

/// Deliveries and pulls in turn, all windows crossing, limits far off.
pub fn silent() -> RawJob {
    let mut windows = Vec::new();
    for event in 0..MAX_EVENTS as i32 {
        let (h_min, h_max) = if event % 2 == 0 { (1, 10) } else { (-10, -1) };
        windows.extend([event, event + 100, h_min, h_max]);
    }
    job((-100_000, 100_000), HORIZON_BOUND, windows, Vec::new())
}

/// As the silent job, yet the sure part alone keeps no limit: rules 4, 7, 10
/// and 13 add deliveries for every event, and still nothing narrows.
pub fn tight() -> RawJob {
    let mut windows = Vec::new();
    for event in 0..MAX_EVENTS as i32 {
        let amount = if event % 2 == 0 { 5 } else { -5 };
        windows.extend([0, 200 - event, amount, amount]);
    }
    job((0, 0), HORIZON_BOUND, windows, Vec::new())
}

/// Six events of the dense job: earliest, planned and latest minute, counted
/// from the block's first, and amount. The first pull has to wait for its
/// delivery, since the cage is empty, and the third delivery for its pull,
/// since the cage is full.
const BLOCK: [(i64, i64, i64, i64); 6] = [
    (5, 8, 12, 60),
    (0, 10, 14, -60),
    (18, 20, 22, 60),
    (28, 30, 34, -60),
    (24, 31, 36, 60),
    (45, 50, 55, -60),
];

/// 64 events in such blocks, a few amounts wide open, limits 0 and 60, and 256
/// lags that the planned minutes keep with little to spare. Rules 1, 2, 10, 11,
/// 13 and 14 write 56 slips in the first round; the second is silent.
pub fn dense() -> RawJob {
    let mut rng = Rng::new(64);
    let mut windows = Vec::new();
    let mut minutes = Vec::new();
    for event in 0..MAX_EVENTS {
        let first = 60 * (event / BLOCK.len()) as i64 + 50;
        let (earliest, minute, latest, amount) = BLOCK[event % BLOCK.len()];
        let spread = if event % 7 == 2 { 50 } else { 0 };
        minutes.push(first + minute);
        let window = [
            first + earliest,
            first + latest,
            amount - spread,
            amount + spread,
        ];
        windows.extend(window.map(|end| end as i32));
    }
    let mut lags = Vec::new();
    for _ in 0..MAX_LAGS {
        let a = rng.below(MAX_EVENTS);
        let b = (a + 1 + rng.below(MAX_EVENTS - 1)) % MAX_EVENTS;
        let d = minutes[a] - minutes[b] + rng.within(2, 12);
        lags.extend([a as i32, b as i32, d as i32]);
    }
    job((0, 60), 1_000, windows, lags)
}

/// Two lags at odds by one minute over the whole horizon, and more events
/// that must keep the minute of the first.
pub fn creep(followers: i32) -> RawJob {
    let mut windows = Vec::new();
    for _ in 0..2 + followers {
        windows.extend([0, HORIZON_BOUND as i32, 0, 0]);
    }
    let mut lags = vec![0, 1, 0, 1, 0, -1];
    for follower in 2..2 + followers {
        lags.extend([follower, 0, 0, 0, follower, 0]);
    }
    job((0, 0), HORIZON_BOUND, windows, lags)
}
