//! The premises (document 01: facts) that stand on an explanation (slip).

use crate::explanation::{End, Premise};
use crate::job::{Job, Window};
use crate::rules::Rule;
use crate::views::{Order, Standing, View};

/// An explanation about to be written: which rule gave what for whom.
#[derive(Clone, Copy, Debug)]
pub struct Finding {
    pub rule: Rule,
    pub subject: usize,
    pub target: usize,
    /// The rule's bound; none for a level rule.
    pub bound: Option<i64>,
    /// Is it a conflict?
    pub conflict: bool,
}

/// Fills `out` with the premises of a finding on the windows as they stand
/// before it: by event, then by kind, each pair once.
pub fn premises(job: &Job, windows: &[Window], finding: &Finding, out: &mut Vec<Premise>) {
    out.clear();
    let e = finding.subject;
    match (finding.rule, finding.bound) {
        (Rule::LagLatest, _) => push_end(windows, job.lags[e].b, End::Latest, out),
        (Rule::LagEarliest, _) => push_end(windows, job.lags[e].a, End::Earliest, out),
        (Rule::Level(family), _) => {
            level_premises(&View::new(job, family, e), windows, e, None, out)
        }
        (Rule::Share(family), _) => {
            let target = Some(finding.target);
            level_premises(&View::new(job, family, e), windows, e, target, out);
        }
        (Rule::Wait(family), Some(bound)) => {
            wait_premises(&View::new(job, family, e), windows, e, bound, out)
        }
        (Rule::Wait(_), None) => {}
        (Rule::LeastTotal | Rule::MostTotal, _) => total_premises(job, windows, finding, out),
    }
    // A bound that passes the opposite end quotes that end too.
    if let (true, Some(end)) = (finding.conflict, finding.rule.end()) {
        push_end(windows, finding.target, end.opposite(), out);
    }
    out.sort_unstable();
    out.dedup();
}

/// The premise that an end stands where it stands.
fn push_end(windows: &[Window], event: usize, end: End, out: &mut Vec<Premise>) {
    let value = end.of(&windows[event]);
    out.push(Premise { event, end, value });
}

/// A premise about an event's minute.
fn push_time(event: usize, end: End, value: i64, out: &mut Vec<Premise>) {
    out.push(Premise { event, end, value });
}

/// A pull that surely counts: its amount, and that it is that early.
fn push_sure_pull(view: &View, windows: &[Window], e: usize, y: usize, out: &mut Vec<Premise>) {
    push_end(windows, y, view.side.most_end(), out);
    push_time(y, End::Latest, windows[e].t_min - view.pulls.step(), out);
}

/// Where e itself counts, its own amount, unless it is neutral.
fn push_own_amount(view: &View, windows: &[Window], e: usize, out: &mut Vec<Premise>) {
    let window = &windows[e];
    let neutral = !view.side.is_delivery(window) && !view.side.is_pull(window);
    if view.order(window) == Order::By && !neutral {
        push_end(windows, e, view.side.most_end(), out);
    }
}

/// Premises of rules 3, 6, 9, 12, and of 5, 8, 11, 14 with `target`, whose own
/// amount is left out.
fn level_premises(
    view: &View,
    windows: &[Window],
    e: usize,
    target: Option<usize>,
    out: &mut Vec<Premise>,
) {
    let side = view.side;
    let mut quotes_earliest = false;
    let mut quotes_latest = false;
    for y in view.others(e) {
        let window = &windows[y];
        let standing = view.standing(windows, e, y);
        if side.is_delivery(window) {
            if standing == Standing::Not {
                let earliest = windows[e].t_max + 1 - view.deliveries.step();
                push_time(y, End::Earliest, earliest, out);
                quotes_latest = true;
            } else {
                push_end(windows, y, side.most_end(), out);
            }
        } else if side.is_pull(window) && standing == Standing::Surely {
            push_sure_pull(view, windows, e, y, out);
            quotes_earliest = true;
        }
    }
    push_own_amount(view, windows, e, out);
    if let Some(target) = target {
        out.retain(|premise| premise.event != target || premise.end != side.most_end());
    }
    push_own_times(windows, e, quotes_earliest, quotes_latest, out);
}

/// Premises of rules 4, 7, 10, 13 with their bound.
fn wait_premises(view: &View, windows: &[Window], e: usize, bound: i64, out: &mut Vec<Premise>) {
    let side = view.side;
    let split = bound - view.deliveries.step();
    let mut quotes_earliest = false;
    for y in view.others(e) {
        let window = &windows[y];
        if side.is_delivery(window) {
            if window.t_min < split {
                push_end(windows, y, side.most_end(), out);
            } else {
                push_time(y, End::Earliest, split, out);
            }
        } else if side.is_pull(window) && view.standing(windows, e, y) == Standing::Surely {
            push_sure_pull(view, windows, e, y, out);
            quotes_earliest = true;
        }
    }
    push_own_amount(view, windows, e, out);
    push_own_times(windows, e, quotes_earliest, false, out);
}

/// Premises of rules 17 and 18: the ends used of the other members, neutral ones
/// left out.
fn total_premises(job: &Job, windows: &[Window], finding: &Finding, out: &mut Vec<Premise>) {
    let end = match finding.rule {
        Rule::LeastTotal => End::Largest,
        _ => End::Smallest,
    };
    for &y in &job.sets[finding.subject].members {
        if y != finding.target && !windows[y].is_neutral() {
            push_end(windows, y, end, out);
        }
    }
}

/// e's own minute, where another event's premise was measured against it.
fn push_own_times(
    windows: &[Window],
    e: usize,
    earliest: bool,
    latest: bool,
    out: &mut Vec<Premise>,
) {
    if earliest {
        push_end(windows, e, End::Earliest, out);
    }
    if latest {
        push_end(windows, e, End::Latest, out);
    }
}
