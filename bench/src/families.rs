//! Jobs with 64 events and up to 256 lags that drive the planner hard: creeps,
//! chases, hidden plans, open amounts, contract totals.

use second::job::{HORIZON_BOUND, MAX_EVENTS, MAX_LAGS, STOCK_BOUND};
use second::raw_job::RawJob;
use second::rng::Rng;
use second::sets::MAX_SETS;

use crate::jobs::job;

const HORIZON: i32 = HORIZON_BOUND as i32;

/// Limits that no level comes near.
const SLACK: (i32, i32) = (-(STOCK_BOUND as i32), STOCK_BOUND as i32);

// ---------------------------------------------------------------------------
// Creep
// ---------------------------------------------------------------------------

/// The two events in the middle that creep.
const PAIR: [usize; 2] = [31, 32];

/// What a creep's events carry.
#[derive(Clone, Copy, PartialEq, Eq)]
pub enum Amounts {
    /// The pair neutral, all others fixed.
    Fixed,
    /// The pair a delivery and a pull of 1, all others wide.
    Wide,
}

/// The tightest limits at which a creep narrows nothing but its pair.
fn tight_limits(amounts: Amounts) -> (i32, i32) {
    match amounts {
        Amounts::Fixed => (-1_460, 1),
        Amounts::Wide => (-987, 1),
    }
}

/// Two lags at odds by one minute between two events over the whole horizon;
/// the other 62 events have random windows, and the other 254 lags never narrow.
fn crept(amounts: Amounts, limits: (i32, i32)) -> RawJob {
    let mut rng = Rng::new(62);
    let mut windows = Vec::new();
    for event in 0..MAX_EVENTS {
        let ends = [rng.within(0, HORIZON_BOUND), rng.within(0, HORIZON_BOUND)];
        let least = rng.within(1, 1_000);
        let most = least + rng.within(100, 1_000);
        let window = match (PAIR.iter().position(|&one| one == event), amounts) {
            (Some(_), Amounts::Fixed) => [0, HORIZON_BOUND, 0, 0],
            (Some(0), Amounts::Wide) => [0, HORIZON_BOUND, 1, 1],
            (Some(_), Amounts::Wide) => [0, HORIZON_BOUND, -1, -1],
            (None, _) => {
                let most = if amounts == Amounts::Fixed {
                    least
                } else {
                    most
                };
                let (low, high) = if event % 2 == 0 {
                    (least, most)
                } else {
                    (-most, -least)
                };
                [ends[0].min(ends[1]), ends[0].max(ends[1]), low, high]
            }
        };
        windows.extend(window.map(|end| end as i32));
    }
    let mut lags = Vec::new();
    let [first, second] = PAIR.map(|event| event as i32);
    for lag in 0..MAX_LAGS {
        match lag {
            127 => lags.extend([first, second, 0]),
            128 => lags.extend([second, first, -1]),
            _ => {
                let (a, b) = two_events(&mut rng);
                lags.extend([a as i32, b as i32, HORIZON]);
            }
        }
    }
    job(limits, HORIZON_BOUND, windows, lags)
}

/// A creep with limits far off.
pub fn creep(amounts: Amounts) -> RawJob {
    crept(amounts, SLACK)
}

/// A creep with limits as tight as they can be.
pub fn tight_creep(amounts: Amounts) -> RawJob {
    crept(amounts, tight_limits(amounts))
}

fn two_events(rng: &mut Rng) -> (usize, usize) {
    let a = rng.below(MAX_EVENTS);
    let b = (a + 1 + rng.below(MAX_EVENTS - 1)) % MAX_EVENTS;
    (a, b)
}

// ---------------------------------------------------------------------------
// Chase
// ---------------------------------------------------------------------------

/// 32 pairs in an empty cage: a pull waits for the first delivery (rule 10),
/// and a lag pushes its own delivery a minute after the pull.
pub fn chase() -> RawJob {
    let mut rng = Rng::new(32);
    let mut windows = Vec::new();
    let mut lags = Vec::new();
    for pair in 0..MAX_EVENTS as i32 / 2 {
        let amount = rng.within(1, 9) as i32;
        let earliest = rng.within(0, 20) as i32;
        windows.extend([earliest, HORIZON, amount, amount]);
        windows.extend([0, HORIZON, -amount, -amount]);
        lags.extend([2 * pair + 1, 2 * pair, -1]);
    }
    job((0, SLACK.1), HORIZON_BOUND, windows, lags)
}

// ---------------------------------------------------------------------------
// Hidden plan
// ---------------------------------------------------------------------------

/// Seeds whose plans make many slips of rules 3 to 14.
pub const PLAN_SEEDS: [u64; 4] = [88, 331, 337, 368];

/// Windows and 256 lags around a random legal plan whose level swings between
/// both limits.
pub fn hidden_plan(seed: u64) -> RawJob {
    const TOP: i64 = 100;
    const HORIZON: i64 = 2_000;
    let mut rng = Rng::new(seed);
    let mut minutes: Vec<i64> = (0..MAX_EVENTS).map(|_| rng.within(0, HORIZON)).collect();
    minutes.sort_unstable();
    let mut level = 0;
    let mut rising = true;
    let mut plan = Vec::new();
    for minute in minutes {
        let room = if rising { TOP - level } else { level };
        let share = if rng.chance(2, 3) {
            room
        } else {
            rng.within(1, room)
        };
        let amount = if rising { share } else { -share };
        level += amount;
        rising = level < TOP && (rising || level == 0);
        plan.push((minute, amount));
    }
    rng.shuffle(&mut plan);
    let mut windows = Vec::new();
    for &(minute, amount) in &plan {
        let earliest = (minute - rng.within(0, 40)).max(0);
        let latest = (minute + rng.within(0, 40)).min(HORIZON);
        let spread = if rng.chance(1, 2) { 60 } else { 0 };
        let (low, high) = if amount > 0 {
            (
                (amount - rng.within(0, spread)).max(1),
                amount + rng.within(0, spread),
            )
        } else {
            (
                amount - rng.within(0, spread),
                (amount + rng.within(0, spread)).min(-1),
            )
        };
        windows.extend([earliest, latest, low, high].map(|end| end as i32));
    }
    let mut lags = Vec::new();
    for _ in 0..MAX_LAGS {
        let (a, b) = two_events(&mut rng);
        let d = plan[a].0 - plan[b].0 + rng.within(5, 100);
        lags.extend([a as i32, b as i32, d as i32]);
    }
    job((0, TOP as i32), HORIZON, windows, lags)
}

// ---------------------------------------------------------------------------
// Open amounts
// ---------------------------------------------------------------------------

/// 32 deliveries of any amount in the first minutes, 32 pulls at the end, and
/// a small cage.
pub fn open_amounts() -> RawJob {
    let mut rng = Rng::new(1);
    let mut windows = Vec::new();
    for event in 0..MAX_EVENTS {
        let start = rng.within(0, 20) as i32;
        let window = if event % 2 == 0 {
            [start, start + 10, 1, 9_999]
        } else {
            [HORIZON - 10 - start, HORIZON - start, -9_999, -1]
        };
        windows.extend(window);
    }
    let mut lags = Vec::new();
    for _ in 0..MAX_LAGS {
        let (a, b) = two_events(&mut rng);
        lags.extend([a as i32, b as i32, HORIZON]);
    }
    job((0, 100), HORIZON_BOUND, windows, lags)
}

// ---------------------------------------------------------------------------
// Contract totals
// ---------------------------------------------------------------------------

/// Deliveries and pulls that are each nearly as large as they can be, limits
/// far off, and 16 sets of 2 to 12 deliveries or pulls in any order, bound to
/// their hidden total or nearly so.
pub fn contract_totals() -> RawJob {
    let mut rng = Rng::new(17);
    let mut windows = Vec::new();
    let mut amounts = Vec::new();
    for event in 0..MAX_EVENTS as i32 {
        let amount = rng.within(100, 500);
        let (least, most) = (amount - rng.within(0, 60), amount + rng.within(0, 6));
        let (hidden, low, high) = if event % 2 == 0 {
            (amount, least, most)
        } else {
            (-amount, -most, -least)
        };
        amounts.push(hidden);
        windows.extend([event, event + 100, low as i32, high as i32]);
    }
    let mut job = job(SLACK, HORIZON_BOUND, windows, Vec::new());
    for set in 0..MAX_SETS {
        let mut members: Vec<usize> = (set % 2..MAX_EVENTS).step_by(2).collect();
        rng.shuffle(&mut members);
        members.truncate(rng.within(2, 12) as usize);
        let total: i64 = members.iter().map(|y| amounts[*y]).sum();
        let spare = rng.within(0, 5);
        let head = [total - spare, total + spare, members.len() as i64];
        job.sets.extend(head.map(|word| word as i32));
        job.sets.extend(members.iter().map(|y| *y as i32));
    }
    job
}
