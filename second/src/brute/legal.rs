//! Schedules (document 01: day plans): which are legal, and what they meet.

use super::MOST_EVENTS;
use crate::explanation::End;
use crate::job::{Cage, Cover, Job, Window};

/// A minute and an amount for every event; unused entries are 0.
pub type Schedule = [(i64, i64); MOST_EVENTS];

/// Every legal schedule of the job with the given windows.
pub fn legal_schedules(job: &Job, windows: &[Window]) -> Vec<Schedule> {
    let mut found = Vec::new();
    let mut schedule = [(0, 0); MOST_EVENTS];
    assign(job, windows, 0, &mut schedule, &mut found);
    found
}

fn assign(
    job: &Job,
    windows: &[Window],
    event: usize,
    schedule: &mut Schedule,
    found: &mut Vec<Schedule>,
) {
    let Some(window) = windows.get(event) else {
        if is_legal(job, schedule) {
            found.push(*schedule);
        }
        return;
    };
    for minute in window.t_min..=window.t_max {
        for amount in window.h_min..=window.h_max {
            schedule[event] = (minute, amount);
            assign(job, windows, event + 1, schedule, found);
        }
    }
}

/// Do all lags and set totals hold, and in every cage both limits at every whole moment, also
/// before the first event?
fn is_legal(job: &Job, schedule: &Schedule) -> bool {
    lags_hold(job, schedule)
        && totals_hold(job, schedule)
        && (0..job.cages.len()).all(|cage| {
            (-1..=job.horizon + 1).all(|moment| limits_hold(job, schedule, cage, moment))
        })
}

fn lags_hold(job: &Job, schedule: &Schedule) -> bool {
    job.lags
        .iter()
        .all(|lag| schedule[lag.a].0 - schedule[lag.b].0 <= lag.d)
}

fn totals_hold(job: &Job, schedule: &Schedule) -> bool {
    job.sets.iter().all(|set| {
        let total: i64 = set.members.iter().map(|y| schedule[*y].1).sum();
        set.least <= total && total <= set.most
    })
}

/// Is the cage's stock within both limits at a moment? Under cover 0 the low
/// limit sees only deliveries strictly before it.
fn limits_hold(job: &Job, schedule: &Schedule, cage: usize, moment: i64) -> bool {
    let Cage {
        lower,
        upper,
        opening,
        cover,
    } = job.cages[cage];
    let stock = |delivered: i64| {
        let events = schedule.iter().zip(&job.cage_of);
        let counted = events.filter(|((minute, amount), home)| {
            **home == cage && *minute <= if *amount > 0 { delivered } else { moment }
        });
        opening + counted.map(|((_, amount), _)| amount).sum::<i64>()
    };
    let low = match cover {
        Cover::SameMinute => stock(moment),
        Cover::NextMinute => stock(moment - 1),
    };
    lower <= low && stock(moment) <= upper
}

pub fn lies_inside(schedule: &Schedule, windows: &[Window]) -> bool {
    windows
        .iter()
        .zip(schedule)
        .all(|(window, (minute, amount))| {
            (window.t_min..=window.t_max).contains(minute)
                && (window.h_min..=window.h_max).contains(amount)
        })
}

/// Has the schedule the premise or conclusion? None has a conflict.
pub fn meets(schedule: &Schedule, fact: &[i32; 3]) -> bool {
    let (minute, amount) = schedule[fact[0] as usize];
    let value = i64::from(fact[2]);
    match End::from_kind(fact[1]) {
        Some(End::Earliest) => minute >= value,
        Some(End::Latest) => minute <= value,
        Some(End::Smallest) => amount >= value,
        Some(End::Largest) => amount <= value,
        None => false,
    }
}
