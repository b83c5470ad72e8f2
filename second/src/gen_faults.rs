//! Faults put into a sound job, so that each refusal 1 to 11, 22
//! and 29 to 33 is reached.

use crate::job::{CAGE_WORDS, EVENT_WORDS, LAG_WORDS, MAX_CAGES, MAX_EVENTS, MAX_LAGS};
use crate::raw_job::{RawJob, MOST_CAGE_WORDS, MOST_LAG_WORDS, MOST_SET_WORDS, MOST_WINDOW_WORDS};
use crate::rng::Rng;
use crate::sets::{MAX_SETS, SET_HEAD_WORDS};

/// Puts one to three faults into a job. The last of them may be a number in
/// the middle of a table, so the place differs from 0 often.
pub fn make_faulty(rng: &mut Rng, job: &mut RawJob, room: &mut usize) {
    let faults = rng.pick(&[1, 1, 1, 2, 2, 3]);
    // Questions 5, 6 and 8 to 10 hide behind the others: they come more often.
    let mix = [
        1, 29, 2, 3, 22, 4, 5, 5, 6, 6, 30, 30, 7, 8, 8, 9, 9, 10, 10, 31, 31, 32, 32, 32, 33, 33,
        33, 11, 0,
    ];
    for _ in 0..faults {
        let question = rng.pick(&mix);
        one_fault(rng, job, room, question);
        if rng.chance(1, 3) {
            one_fault(rng, job, room, question);
        }
    }
}

fn one_fault(rng: &mut Rng, job: &mut RawJob, room: &mut usize, question: usize) {
    match question {
        1 => job.horizon = rng.pick(&[-1, 20_001, i32::MIN, i32::MAX]),
        2 | 3 | 22 => spoil_cage(rng, job, question),
        4 => {
            let most = (MAX_EVENTS, MOST_WINDOW_WORDS);
            odd_length(rng, &mut job.windows, EVENT_WORDS, most);
        }
        5 => spoil_times(rng, job),
        6 => spoil_amounts(rng, job),
        7 => odd_length(rng, &mut job.lags, LAG_WORDS, (MAX_LAGS, MOST_LAG_WORDS)),
        8..=10 => spoil_lag(rng, job, question),
        11 => *room = rng.below(3),
        29 if rng.chance(1, 4) => job.cages.clear(),
        29 => odd_length(
            rng,
            &mut job.cages,
            CAGE_WORDS,
            (MAX_CAGES, MOST_CAGE_WORDS),
        ),
        30 => spoil_home(rng, job),
        31 => cut_sets(rng, job),
        32 | 33 => spoil_set(rng, job, question),
        _ => wild_anywhere(rng, job),
    }
}

/// The fault of question 2, 3 or 22 at a random cage.
fn spoil_cage(rng: &mut Rng, job: &mut RawJob, question: usize) {
    let Some(cage) = random_entry(rng, &mut job.cages, CAGE_WORDS) else {
        return;
    };
    match question {
        2 => cage[rng.below(3)] = rng.pick(&[-1_000_001, 1_000_001, i32::MIN, i32::MAX]),
        3 if rng.chance(1, 2) => cage[0] = cage[2].saturating_add(1),
        3 => cage[1] = cage[2].saturating_sub(1),
        _ => cage[3] = rng.pick(&[-1, 2, 3, i32::MIN, i32::MAX]),
    }
}

/// Question 30's fault at a random event.
fn spoil_home(rng: &mut Rng, job: &mut RawJob) {
    let cages = (job.cages.len() / CAGE_WORDS) as i32;
    if let Some(window) = random_entry(rng, &mut job.windows, EVENT_WORDS) {
        window[4] = rng.pick(&[-1, cages, cages + 1, 8, i32::MIN, i32::MAX]);
    }
}

/// Question 31's fault: a set cut short, or too many.
fn cut_sets(rng: &mut Rng, job: &mut RawJob) {
    match rng.below(5) {
        0 | 1 if !job.sets.is_empty() => {
            let less = 1 + rng.below(job.sets.len().min(4));
            job.sets.truncate(job.sets.len() - less);
        }
        2 => {
            let words = [0, 5, 7, 0, 1, 2];
            job.sets.extend(&words[..1 + rng.below(6)]);
        }
        3 => {
            // One set too many, whole or cut short.
            job.sets.clear();
            for _ in 0..MAX_SETS + 1 + rng.below(2) {
                job.sets.extend([-1, 1, 1, 0]);
            }
            job.sets.truncate(job.sets.len() - rng.below(4));
        }
        _ => {
            let places = set_places(&job.sets);
            if let Some(place) = places.get(rng.below(places.len())) {
                let beyond = job.sets.len() as i32;
                job.sets[place + 2] = rng.pick(&[beyond, 65, i32::MAX]);
            }
        }
    }
    job.sets.truncate(MOST_SET_WORDS);
}

/// The fault of question 32 or 33 at a random set; there may be none yet.
fn spoil_set(rng: &mut Rng, job: &mut RawJob, question: usize) {
    let events = job.events() as i32;
    if job.sets.is_empty() {
        for _ in 0..1 + rng.below(3) {
            job.sets.extend([-5, 5, 1, 0]);
        }
    }
    let places = set_places(&job.sets);
    let number = rng.below(places.len());
    let Some(at) = places.get(number).copied() else {
        return;
    };
    let end = places.get(number + 1).copied().unwrap_or(job.sets.len());
    match (question, rng.below(5)) {
        (32, 0) => {
            // No members, or a count that is read as none.
            job.sets.drain(at + SET_HEAD_WORDS..end);
            job.sets[at + 2] = rng.pick(&[0, 0, -1, i32::MIN]);
        }
        (32, 1 | 2) => {
            // A member twice.
            let member = job.sets[at + SET_HEAD_WORDS + rng.below(end - at - SET_HEAD_WORDS)];
            job.sets.insert(end, member);
            job.sets[at + 2] += 1;
        }
        (32, _) => {
            let place = at + SET_HEAD_WORDS + rng.below(end - at - SET_HEAD_WORDS);
            job.sets[place] = rng.pick(&[-1, events, events + 3, i32::MIN, i32::MAX]);
        }
        (_, 0 | 1) => {
            let total = rng.below(2);
            let words = [-639_937, 639_937, i32::MIN, i32::MAX];
            job.sets[at + total] = rng.pick(&words);
        }
        _ => job.sets[at] = job.sets[at + 1].saturating_add(1),
    }
    job.sets.truncate(MOST_SET_WORDS);
}

/// Where the sets of a table begin that have a member; a damaged rest is left
/// out.
fn set_places(sets: &[i32]) -> Vec<usize> {
    let mut places = Vec::new();
    let mut at = 0;
    while let Some(head) = sets.get(at..at + SET_HEAD_WORDS) {
        let next = at + SET_HEAD_WORDS + usize::try_from(head[2]).unwrap_or(0);
        if next > sets.len() {
            break;
        }
        if head[2] > 0 {
            places.push(at);
        }
        at = next;
    }
    places
}

/// A table that is not whole entries, or has one entry too many.
fn odd_length(
    rng: &mut Rng,
    table: &mut Vec<i32>,
    entry: usize,
    (most_entries, most): (usize, usize),
) {
    let limit = entry * most_entries;
    let wanted = match rng.below(4) {
        0 => limit + entry,
        1 => limit + 1 + rng.below(most - limit),
        2 => table.len().saturating_sub(1 + rng.below(entry - 1)),
        _ => (table.len() + 1 + rng.below(entry - 1)).min(most),
    };
    let filler: Vec<i32> = table.iter().copied().take(entry).collect();
    while table.len() < wanted {
        let word = filler.get(table.len() % entry).copied().unwrap_or(0);
        table.push(word);
    }
    table.truncate(wanted);
}

/// Question 5's fault at a random event.
fn spoil_times(rng: &mut Rng, job: &mut RawJob) {
    let horizon = job.horizon;
    let Some(window) = random_entry(rng, &mut job.windows, EVENT_WORDS) else {
        return;
    };
    match rng.below(6) {
        0 => window[0] = -1,
        1 => window[1] = horizon.saturating_add(1),
        2 => window[0] = window[1].saturating_add(1),
        3 => window[1] = window[0].saturating_sub(1),
        4 => window[rng.below(2)] = i32::MIN,
        _ => window[rng.below(2)] = i32::MAX,
    }
}

/// Question 6's fault at a random event.
fn spoil_amounts(rng: &mut Rng, job: &mut RawJob) {
    let Some(window) = random_entry(rng, &mut job.windows, EVENT_WORDS) else {
        return;
    };
    let (low, high) = match rng.below(10) {
        0 => (-1, 1),
        1 => (0, 1),
        2 => (-1, 0),
        3 => (1, 10_000),
        4 => (-10_000, -1),
        5 => (5, 4),
        6 => (-4, -5),
        7 => (i32::MIN, window[3]),
        8 => (window[2], i32::MAX),
        _ => (i32::MAX, i32::MIN),
    };
    window[2] = low;
    window[3] = high;
}

/// The fault of question 8, 9 or 10 at a random lag; there may be none yet.
fn spoil_lag(rng: &mut Rng, job: &mut RawJob, question: usize) {
    let events = job.events() as i32;
    if job.lags.is_empty() && events > 1 {
        for _ in 0..1 + rng.below(4) {
            job.lags.extend([0, 1, 5]);
        }
    }
    if job.lags.is_empty() {
        job.lags.extend([0, 0, 0]);
    }
    let Some(lag) = random_entry(rng, &mut job.lags, LAG_WORDS) else {
        return;
    };
    match question {
        8 => lag[rng.below(2)] = rng.pick(&[-1, events, events + 7, i32::MIN, i32::MAX]),
        9 => lag[1] = lag[0],
        _ => lag[2] = rng.pick(&[-20_001, 20_001, i32::MIN, i32::MAX]),
    }
}

/// An extreme or odd word at any place of the job.
fn wild_anywhere(rng: &mut Rng, job: &mut RawJob) {
    let word = rng.wild_word();
    if rng.chance(1, 8) {
        job.horizon = word;
        return;
    }
    let tables = [
        &mut job.cages,
        &mut job.windows,
        &mut job.lags,
        &mut job.sets,
    ];
    let kind = rng.below(tables.len());
    for (number, table) in tables.into_iter().enumerate() {
        if number == kind && !table.is_empty() {
            let place = rng.below(table.len());
            table[place] = word;
        }
    }
}

fn random_entry<'t>(rng: &mut Rng, table: &'t mut [i32], entry: usize) -> Option<&'t mut [i32]> {
    let count = table.len() / entry;
    let place = rng.below(count);
    table.chunks_exact_mut(entry).nth(place)
}
