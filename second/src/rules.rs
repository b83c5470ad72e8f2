//! The rules, 1 to 14 of document 01 and 17 and 18 of document 02: what each gives on given windows.

use crate::explanation::End;
use crate::job::{Job, Window};
use crate::sets::{least_total_bound, most_total_bound, Sums};
use crate::views::{Family, Order, Side, Standing, View};

/// A rule.
#[derive(Clone, Copy, Debug, PartialEq, Eq)]
pub enum Rule {
    /// Rule 1: t(a) ≤ t_max(b) + d.
    LagLatest,
    /// Rule 2: t(b) ≥ t_min(a) − d.
    LagEarliest,
    /// Rules 3, 6, 9, 12: the level cannot keep the limit.
    Level(Family),
    /// Rules 4, 7, 10, 13: e waits for what reaches the limit.
    Wait(Family),
    /// Rules 5, 8, 11, 14: the target must give its share.
    Share(Family),
    /// Rule 17: h(y) ≥ least − (sum of the others' h_max).
    LeastTotal,
    /// Rule 18: h(y) ≤ most − (sum of the others' h_min).
    MostTotal,
}

/// What the subject of a rule is.
#[derive(Clone, Copy, Debug, PartialEq, Eq)]
pub enum Subject {
    Lag,
    Event,
    Set,
}

impl Rule {
    /// The rule's number.
    pub fn number(self) -> i32 {
        match self {
            Rule::LagLatest => 1,
            Rule::LagEarliest => 2,
            Rule::Level(family) => family.first_number(),
            Rule::Wait(family) => family.first_number() + 1,
            Rule::Share(family) => family.first_number() + 2,
            Rule::LeastTotal => 17,
            Rule::MostTotal => 18,
        }
    }

    /// The rule with a number.
    pub fn from_number(number: i32) -> Option<Rule> {
        let family = |first: i32| {
            Family::ALL
                .into_iter()
                .find(|family| family.first_number() == first)
        };
        match number {
            1 => Some(Rule::LagLatest),
            2 => Some(Rule::LagEarliest),
            3 | 6 | 9 | 12 => family(number).map(Rule::Level),
            4 | 7 | 10 | 13 => family(number - 1).map(Rule::Wait),
            5 | 8 | 11 | 14 => family(number - 2).map(Rule::Share),
            17 => Some(Rule::LeastTotal),
            18 => Some(Rule::MostTotal),
            _ => None,
        }
    }

    /// What the subject is.
    pub fn subject(self) -> Subject {
        match self {
            Rule::LagLatest | Rule::LagEarliest => Subject::Lag,
            Rule::Level(_) | Rule::Wait(_) | Rule::Share(_) => Subject::Event,
            Rule::LeastTotal | Rule::MostTotal => Subject::Set,
        }
    }

    /// The end that the rule's bound is put at; none for a level rule.
    pub fn end(self) -> Option<End> {
        match self {
            Rule::LagLatest => Some(End::Latest),
            Rule::LagEarliest => Some(End::Earliest),
            Rule::Level(_) => None,
            Rule::Wait(_) => Some(End::Earliest),
            Rule::Share(family) => Some(family.side.bound_end()),
            Rule::LeastTotal => Some(End::Smallest),
            Rule::MostTotal => Some(End::Largest),
        }
    }
}

/// The sums of a view at an event, as the view's side sees them.
#[derive(Clone, Copy, Debug, PartialEq, Eq)]
pub struct Level {
    /// Q and the sure part.
    pub sure: i64,
    /// Most before e, or most by e.
    pub most: i64,
}

/// The level of a view at event e.
pub fn level(view: &View, windows: &[Window], e: usize) -> Level {
    // One loop for each case, made by the compiler.
    match (view.side, view.deliveries.step() - view.pulls.step()) {
        (Side::Lower, 0) => level_on(Side::Lower, 0, view, windows, e),
        (Side::Lower, later) => level_on(Side::Lower, later, view, windows, e),
        (Side::Upper, 0) => level_on(Side::Upper, 0, view, windows, e),
        (Side::Upper, later) => level_on(Side::Upper, later, view, windows, e),
    }
}

/// `later`: how many minutes earlier than a pull a delivery must come.
#[inline(always)]
fn level_on(side: Side, later: i64, view: &View, windows: &[Window], e: usize) -> Level {
    let at = &windows[e];
    // Pulls count when t(y) ≤ t(e) − step, deliveries when t(y) + later is.
    let surely_up_to = at.t_min - view.pulls.step();
    let possibly_up_to = at.t_max - view.pulls.step();
    let mut sure = view.opening;
    let mut extra = 0;
    for &y in view.members {
        if y == e {
            continue;
        }
        let window = &windows[y];
        let delivery = side.is_delivery(window);
        let later = i64::from(delivery) * later;
        if window.t_max + later <= surely_up_to {
            sure += side.most(window);
        } else if window.t_min + later <= possibly_up_to && delivery {
            extra += side.most(window);
        }
    }
    if view.order(at) == Order::By {
        sure += side.most(at);
    }
    Level {
        sure,
        most: sure + extra,
    }
}

/// A delivery that rule 4 may add: its t_min and its amount on that side.
pub type Candidate = (i64, i64);

/// The bound of rules 4, 7, 10 and 13: if the sure part is below the limit,
/// add the possible, not sure, deliveries by rising t_min until the limit is
/// reached. `candidates` is working room.
#[inline]
pub fn wait_bound(
    view: &View,
    windows: &[Window],
    e: usize,
    sure: i64,
    candidates: &mut Vec<Candidate>,
) -> Option<i64> {
    if sure >= view.limit {
        return None;
    }
    let side = view.side;
    candidates.clear();
    for &y in view.members {
        let window = &windows[y];
        if y == e || !side.is_delivery(window) {
            continue;
        }
        if view.deliveries.standing(&windows[e], window) == Standing::Possibly {
            candidates.push((window.t_min, side.most(window)));
        }
    }
    candidates.sort_unstable();
    let mut sum = sure;
    for (minute, amount) in candidates.iter() {
        sum += amount;
        if sum >= view.limit {
            return Some(minute + view.deliveries.step());
        }
    }
    None
}

/// The bound of rules 5, 8, 11 and 14 for a target, given the view's most at
/// e; nothing where the target, an event of the cage, is not one of the rule's.
#[inline]
pub fn share_bound(
    view: &View,
    windows: &[Window],
    e: usize,
    target: usize,
    most: i64,
) -> Option<i64> {
    let side = view.side;
    let window = &windows[target];
    let counted = match view.standing(windows, e, target) {
        Standing::Surely => side.is_delivery(window) || side.is_pull(window),
        Standing::Possibly => side.is_delivery(window),
        Standing::Not => false,
    };
    let others = most - side.most(window);
    counted.then(|| side.turn(view.limit - others))
}

/// The bound of rule 1.
pub fn lag_latest_bound(job: &Job, windows: &[Window], lag: usize) -> i64 {
    let lag = job.lags[lag];
    windows[lag.b].t_max + lag.d
}

/// The bound of rule 2.
pub fn lag_earliest_bound(job: &Job, windows: &[Window], lag: usize) -> i64 {
    let lag = job.lags[lag];
    windows[lag.a].t_min - lag.d
}

/// What a rule gives.
#[derive(Clone, Copy, Debug, PartialEq, Eq)]
pub enum Outcome {
    Nothing,
    /// A level rule's conflict.
    Conflict,
    /// A bound for the rule's end of the target.
    Bound(i64),
}

/// What a rule gives for a subject and a target, on any windows.
pub fn outcome(
    job: &Job,
    windows: &[Window],
    rule: Rule,
    subject: usize,
    target: usize,
    candidates: &mut Vec<Candidate>,
) -> Outcome {
    let bound = match rule {
        Rule::LagLatest => Some(lag_latest_bound(job, windows, subject)),
        Rule::LagEarliest => Some(lag_earliest_bound(job, windows, subject)),
        Rule::Level(family) => {
            let view = View::new(job, family, subject);
            return if level(&view, windows, subject).most < view.limit {
                Outcome::Conflict
            } else {
                Outcome::Nothing
            };
        }
        Rule::Wait(family) => {
            let view = View::new(job, family, subject);
            let sure = level(&view, windows, subject).sure;
            wait_bound(&view, windows, subject, sure, candidates)
        }
        Rule::Share(family) => {
            let view = View::new(job, family, subject);
            if job.cage_of[target] != job.cage_of[subject] {
                return Outcome::Nothing;
            }
            let most = level(&view, windows, subject).most;
            share_bound(&view, windows, subject, target, most)
        }
        Rule::LeastTotal => Some(least_total_bound(
            &job.sets[subject],
            other_sums(job, windows, subject, target),
        )),
        Rule::MostTotal => Some(most_total_bound(
            &job.sets[subject],
            other_sums(job, windows, subject, target),
        )),
    };
    bound.map_or(Outcome::Nothing, Outcome::Bound)
}

/// The sums of a set's members but the target, one of them.
fn other_sums(job: &Job, windows: &[Window], set: usize, target: usize) -> Sums {
    Sums::of(&job.sets[set], windows).without(&windows[target])
}
