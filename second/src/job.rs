//! The job: horizon, cages, windows, lags and sets, and the questions 1 to 11, 22
//! and 29 to 33 that decide whether a call is taken.

use crate::sets::{admit_sets, Set};

/// The greatest amount of an event in document 01. The inner functions take
/// it as a parameter, so that small jobs can be enumerated in full.
pub const AMOUNT_BOUND: i64 = 9_999;

pub const HORIZON_BOUND: i64 = 20_000;
pub const STOCK_BOUND: i64 = 1_000_000;
pub const LAG_BOUND: i64 = 20_000;
pub const MAX_EVENTS: usize = 64;
pub const MAX_LAGS: usize = 256;
pub const MAX_CAGES: usize = 8;
pub const CAGE_WORDS: usize = 4;
pub const EVENT_WORDS: usize = 5;
pub const LAG_WORDS: usize = 3;
/// 0 is no limit.
pub const ROUND_BOUND: i64 = 1_000_000;
pub const MIN_ROOM: usize = 3;
pub const MAX_ROOM: usize = 1_000_000;

/// All of a job that no call changes, as sent in: H and the lent tables but
/// the windows.
#[derive(Clone, Copy, Debug)]
pub struct Settings<'a> {
    pub horizon: i32,
    /// Lmin, Lmax, Q, cover for each cage.
    pub cages: &'a [i32],
    pub lags: &'a [i32],
    /// Least total, most total, member count, members for each set.
    pub sets: &'a [i32],
    /// The greatest amount; document 01's is `AMOUNT_BOUND`.
    pub amount_bound: i64,
}

/// A "no" to a question: its number and the first event, lag or explanation
/// (slip) concerned, 0 where none is.
#[derive(Clone, Copy, Debug, PartialEq, Eq)]
pub struct Refusal {
    pub number: i32,
    pub place: usize,
}

/// The windows of one event. Minutes and modems never meet in a sum.
#[derive(Clone, Copy, Debug, PartialEq, Eq)]
pub struct Window {
    pub t_min: i64,
    pub t_max: i64,
    pub h_min: i64,
    pub h_max: i64,
}

impl Window {
    /// The first four words of an event as a window.
    pub fn from_words(words: &[i32]) -> Window {
        Window {
            t_min: i64::from(words[0]),
            t_max: i64::from(words[1]),
            h_min: i64::from(words[2]),
            h_max: i64::from(words[3]),
        }
    }

    /// The window as the first four words of an event. Every end of an accepted
    /// job fits a word.
    pub fn to_words(self) -> [i32; 4] {
        [self.t_min, self.t_max, self.h_min, self.h_max].map(|end| end as i32)
    }

    /// The widest window of an event of the same kind: the whole horizon, and
    /// every amount of a delivery, a pull or a neutral event.
    pub fn widest(&self, horizon: i64, amount_bound: i64) -> Window {
        let (h_min, h_max) = if self.h_min > 0 {
            (1, amount_bound)
        } else if self.h_max < 0 {
            (-amount_bound, -1)
        } else {
            (0, 0)
        };
        Window {
            t_min: 0,
            t_max: horizon,
            h_min,
            h_max,
        }
    }

    /// Is the event neither a delivery nor a pull?
    pub fn is_neutral(&self) -> bool {
        self.h_min == 0
    }

    /// Question 5 for one event.
    fn times_in_order(&self, horizon: i64) -> bool {
        0 <= self.t_min && self.t_min <= self.t_max && self.t_max <= horizon
    }

    /// Question 6 for one event.
    fn amounts_of_one_kind(&self, amount_bound: i64) -> bool {
        let within = |low: i64, high: i64| low <= self.h_min && self.h_max <= high;
        self.h_min <= self.h_max
            && (within(1, amount_bound) || within(-amount_bound, -1) || within(0, 0))
    }
}

/// One lag: t(a) − t(b) ≤ d.
#[derive(Clone, Copy, Debug, PartialEq, Eq)]
pub struct Lag {
    pub a: usize,
    pub b: usize,
    pub d: i64,
}

/// From when on delivered goods can be pulled.
#[derive(Clone, Copy, Debug, PartialEq, Eq)]
pub enum Cover {
    /// Cover 1: in the minute of their delivery.
    SameMinute,
    /// Cover 0: from the minute after it. For the low limit at T pulls up to T
    /// and deliveries strictly before T count.
    NextMinute,
}

impl Cover {
    /// The cover that a word names (question 22).
    pub fn from_word(word: i32) -> Option<Cover> {
        match word {
            1 => Some(Cover::SameMinute),
            0 => Some(Cover::NextMinute),
            _ => None,
        }
    }
}

/// A cage: its limits, opening stock and cover.
#[derive(Clone, Copy, Debug, PartialEq, Eq)]
pub struct Cage {
    pub lower: i64,
    pub upper: i64,
    pub opening: i64,
    pub cover: Cover,
}

/// An accepted job.
#[derive(Clone, Debug)]
pub struct Job {
    pub horizon: i64,
    pub cages: Vec<Cage>,
    pub windows: Vec<Window>,
    /// The cage of each event.
    pub cage_of: Vec<usize>,
    /// The events of each cage, in event order.
    pub members: Vec<Vec<usize>>,
    pub lags: Vec<Lag>,
    pub sets: Vec<Set>,
    pub amount_bound: i64,
}

impl Job {
    /// Asks the job's own questions in their order: 1, 29, 2, 3, 22, 4, 5, 6,
    /// 30, 7, 8, 9, 10, 31, 32, 33.
    pub fn admit(settings: &Settings, windows: &[i32]) -> Result<Job, Refusal> {
        Job::admit_with_limit(settings, windows, 0)
    }

    /// The job's own questions, and 28 of a round limit after 10.
    fn admit_with_limit(settings: &Settings, windows: &[i32], limit: i32) -> Result<Job, Refusal> {
        let horizon = i64::from(settings.horizon);
        ask(1, (0..=HORIZON_BOUND).contains(&horizon))?;
        let cages = admit_cages(settings.cages)?;
        let entries = admit_windows(windows, horizon, settings.amount_bound)?;
        let cage_of = admit_cage_words(windows, cages.len())?;
        let lags = admit_lags(settings.lags, entries.len())?;
        ask(28, (0..=ROUND_BOUND).contains(&i64::from(limit)))?;
        let sets = admit_sets(settings.sets, entries.len())?;
        let mut members = vec![Vec::new(); cages.len()];
        for (event, cage) in cage_of.iter().enumerate() {
            members[*cage].push(event);
        }
        Ok(Job {
            horizon,
            cages,
            windows: entries,
            cage_of,
            members,
            lags,
            sets,
            amount_bound: settings.amount_bound,
        })
    }

    /// The checker's questions about all but its list's words: the job's own,
    /// then 11: has the list 3 to 1,000,000 words?
    pub fn admit_list(settings: &Settings, windows: &[i32], words: usize) -> Result<Job, Refusal> {
        Job::admit_run(settings, windows, 0, words)
    }

    /// The propagator's questions: the job's own with 28 of the round limit,
    /// then 11 of the slip buffer.
    pub fn admit_run(
        settings: &Settings,
        windows: &[i32],
        limit: i32,
        room: usize,
    ) -> Result<Job, Refusal> {
        let job = Job::admit_with_limit(settings, windows, limit)?;
        ask(11, (MIN_ROOM..=MAX_ROOM).contains(&room))?;
        Ok(job)
    }

    /// The widest windows of all events (question 16).
    pub fn widest_windows(&self) -> Vec<Window> {
        self.windows
            .iter()
            .map(|window| window.widest(self.horizon, self.amount_bound))
            .collect()
    }
}

/// A question that concerns no single event or lag.
fn ask(number: i32, yes: bool) -> Result<(), Refusal> {
    if yes {
        Ok(())
    } else {
        Err(Refusal { number, place: 0 })
    }
}

/// A question put to every entry of a table; the first "no" gives the place.
pub fn ask_all<T>(number: i32, entries: &[T], yes: impl Fn(&T) -> bool) -> Result<(), Refusal> {
    match entries.iter().position(|entry| !yes(entry)) {
        None => Ok(()),
        Some(place) => Err(Refusal { number, place }),
    }
}

/// Questions 29, 2, 3 and 22.
fn admit_cages(words: &[i32]) -> Result<Vec<Cage>, Refusal> {
    ask(
        29,
        !words.is_empty() && whole_entries(words, CAGE_WORDS, MAX_CAGES),
    )?;
    let entries: Vec<&[i32]> = words.chunks_exact(CAGE_WORDS).collect();
    let stock = -STOCK_BOUND..=STOCK_BOUND;
    ask_all(2, &entries, |cage| {
        cage[..3]
            .iter()
            .all(|word| stock.contains(&i64::from(*word)))
    })?;
    ask_all(3, &entries, |cage| cage[0] <= cage[2] && cage[2] <= cage[1])?;
    ask_all(22, &entries, |cage| Cover::from_word(cage[3]).is_some())?;
    let cages = entries.iter().filter_map(|cage| {
        Some(Cage {
            lower: i64::from(cage[0]),
            upper: i64::from(cage[1]),
            opening: i64::from(cage[2]),
            cover: Cover::from_word(cage[3])?,
        })
    });
    Ok(cages.collect())
}

/// Questions 4 to 6.
fn admit_windows(words: &[i32], horizon: i64, amount_bound: i64) -> Result<Vec<Window>, Refusal> {
    ask(4, whole_entries(words, EVENT_WORDS, MAX_EVENTS))?;
    let windows: Vec<Window> = words
        .chunks_exact(EVENT_WORDS)
        .map(Window::from_words)
        .collect();
    ask_all(5, &windows, |window| window.times_in_order(horizon))?;
    ask_all(6, &windows, |window| {
        window.amounts_of_one_kind(amount_bound)
    })?;
    Ok(windows)
}

/// Question 30: the cage of each event.
fn admit_cage_words(words: &[i32], cages: usize) -> Result<Vec<usize>, Refusal> {
    let entries: Vec<&[i32]> = words.chunks_exact(EVENT_WORDS).collect();
    let cage_of = |event: &&[i32]| index_below(event[4], cages);
    ask_all(30, &entries, |event| cage_of(event).is_some())?;
    Ok(entries.iter().filter_map(cage_of).collect())
}

/// Questions 7 to 10.
fn admit_lags(words: &[i32], events: usize) -> Result<Vec<Lag>, Refusal> {
    ask(7, whole_entries(words, LAG_WORDS, MAX_LAGS))?;
    let entries: Vec<&[i32]> = words.chunks_exact(LAG_WORDS).collect();
    let known = |word: i32| index_below(word, events).is_some();
    ask_all(8, &entries, |lag| known(lag[0]) && known(lag[1]))?;
    ask_all(9, &entries, |lag| lag[0] != lag[1])?;
    ask_all(10, &entries, |lag| {
        (-LAG_BOUND..=LAG_BOUND).contains(&i64::from(lag[2]))
    })?;
    let lags = entries.iter().map(|lag| Lag {
        a: lag[0] as usize,
        b: lag[1] as usize,
        d: i64::from(lag[2]),
    });
    Ok(lags.collect())
}

/// Is the table whole entries, and not more than allowed?
fn whole_entries(words: &[i32], entry: usize, most: usize) -> bool {
    words.len().is_multiple_of(entry) && words.len() / entry <= most
}

/// The word as the number of one of `count` entries, or nothing.
pub fn index_below(word: i32, count: usize) -> Option<usize> {
    usize::try_from(word).ok().filter(|index| *index < count)
}

/// Writes the windows back into the caller's table; an event's cage stays.
pub fn store_windows(windows: &[Window], words: &mut [i32]) {
    for (window, entry) in windows.iter().zip(words.chunks_exact_mut(EVENT_WORDS)) {
        entry[..4].copy_from_slice(&window.to_words());
    }
}
