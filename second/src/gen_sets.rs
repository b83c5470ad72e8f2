//! Random contract totals for a sound job.

use crate::raw_job::RawJob;
use crate::rng::Rng;
use crate::sets::{MAX_SETS, TOTAL_BOUND};

/// Gives the job some sets, or none.
pub fn add_sets(rng: &mut Rng, job: &mut RawJob) {
    if job.events() == 0 {
        return;
    }
    let sets = match rng.below(16) {
        0 => MAX_SETS,
        1 => rng.below(MAX_SETS + 1),
        2..=7 => 1 + rng.below(3),
        _ => 0,
    };
    for _ in 0..sets {
        let set = some_set(rng, job);
        job.sets.extend(set);
    }
}

/// A set with totals that cut its members' amounts a little, not at all, or
/// wholly.
fn some_set(rng: &mut Rng, job: &RawJob) -> Vec<i32> {
    let members = some_members(rng, job.events());
    let sum = |end: usize| -> i64 {
        let ends = members.iter().map(|y| i64::from(job.window(*y)[end]));
        ends.sum()
    };
    let (smallest, largest) = (sum(2), sum(3));
    let total = rng.within(smallest, largest);
    let spare = |rng: &mut Rng| rng.pick(&[0, 0, 1, 2, 5, 30, 400, TOTAL_BOUND]);
    let (mut least, mut most) = (total - spare(rng), total + spare(rng));
    match rng.below(24) {
        0 => least = largest - rng.within(-1, 2),
        1 => most = smallest + rng.within(-1, 2),
        2 => (least, most) = (largest + 1, largest + 5),
        _ => {}
    }
    let least = least.clamp(-TOTAL_BOUND, TOTAL_BOUND);
    let most = most.clamp(least, TOTAL_BOUND);
    let mut set = vec![least as i32, most as i32, members.len() as i32];
    set.extend(members.iter().map(|y| *y as i32));
    set
}

/// One event to all of them, in any order.
fn some_members(rng: &mut Rng, events: usize) -> Vec<usize> {
    let count = match rng.below(8) {
        0 => 1,
        1 => events,
        2 => 1 + rng.below(events),
        _ => (1 + rng.below(4)).min(events),
    };
    let mut members: Vec<usize> = (0..events).collect();
    rng.shuffle(&mut members);
    members.truncate(count);
    members
}
