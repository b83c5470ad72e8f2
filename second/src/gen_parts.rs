//! Parts of random jobs: a cage with its events and the lags between them, in
//! several makes, which between them make all rules fire.

use crate::job::{
    Cover, AMOUNT_BOUND, HORIZON_BOUND, LAG_BOUND, LAG_WORDS, MAX_EVENTS, MAX_LAGS, STOCK_BOUND,
};
use crate::rng::Rng;

/// Words of an event without its cage.
pub const PART_EVENT_WORDS: usize = 4;

/// The horizon of a part and the four words of its cage.
#[derive(Clone, Copy, Debug)]
pub struct Numbers {
    pub horizon: i32,
    pub lower: i32,
    pub upper: i32,
    pub opening: i32,
    pub cover: i32,
}

/// A cage, its events and the lags between them, events numbered from 0.
#[derive(Clone, Debug)]
pub struct Part {
    pub numbers: Numbers,
    /// Four words an event.
    pub windows: Vec<i32>,
    pub lags: Vec<i32>,
}

impl Part {
    pub fn events(&self) -> usize {
        self.windows.len() / PART_EVENT_WORDS
    }
}

/// A part of one of several makes.
pub fn some_part(rng: &mut Rng) -> Part {
    match rng.below(40) {
        0..=3 => squeeze(rng),
        4 => ladder(rng),
        5 | 6 => at_odds(rng, 30),
        7..=9 => scattered(rng),
        10..=14 => dense(rng),
        15 | 16 => brim(rng),
        _ => around_schedule(rng),
    }
}

/// A part with few events, whose lists are short.
pub fn small_part(rng: &mut Rng, most_events: usize) -> Part {
    for _ in 0..20 {
        let part = some_part(rng);
        if part.events() <= most_events {
            return part;
        }
    }
    squeeze(rng)
}

fn horizon(rng: &mut Rng) -> i64 {
    match rng.below(8) {
        0 => rng.within(0, 2),
        1..=3 => rng.within(3, 12),
        4 | 5 => rng.within(10, 100),
        6 => rng.within(100, HORIZON_BOUND),
        _ => HORIZON_BOUND,
    }
}

fn event_count(rng: &mut Rng) -> usize {
    match rng.below(24) {
        0..=3 => rng.below(MAX_EVENTS + 1),
        4 => MAX_EVENTS,
        5..=9 => 5 + rng.below(8),
        _ => 1 + rng.below(5),
    }
}

fn lag_count(rng: &mut Rng, events: usize) -> usize {
    if events < 2 {
        return 0;
    }
    match rng.below(24) {
        0 => rng.below(MAX_LAGS + 1),
        1 if rng.chance(1, 2) => MAX_LAGS,
        2..=6 => rng.below(events + 1),
        7..=12 => 1 + rng.below(3),
        _ => 0,
    }
}

/// How large the amounts of a job are.
fn amount_scale(rng: &mut Rng) -> i64 {
    rng.pick(&[1, 3, 3, 10, 10, 40, 500, AMOUNT_BOUND])
}

/// The opening stock.
fn opening_stock(rng: &mut Rng) -> i64 {
    match rng.below(8) {
        0..=2 => 0,
        3..=5 => rng.within(-20, 20),
        6 => rng.within(-STOCK_BOUND, STOCK_BOUND),
        _ => rng.pick(&[-STOCK_BOUND, STOCK_BOUND, 999_990, -999_990]),
    }
}

/// A hidden schedule: minute and amount of each event.
type Schedule = Vec<(i64, i64)>;

fn hidden_schedule(rng: &mut Rng, events: usize, horizon: i64) -> Schedule {
    let scale = amount_scale(rng);
    let few_minutes = rng.chance(1, 3);
    let minutes = [0; 3].map(|_| rng.within(0, horizon));
    let neutrals = rng.pick(&[0, 1, 1, 3]);
    let mut deliveries = rng.pick(&[1, 3, 3, 3, 5]);
    let mut schedule = Schedule::new();
    for _ in 0..events {
        let minute = if few_minutes {
            rng.pick(&minutes)
        } else {
            rng.within(0, horizon)
        };
        let amount = rng.within(1, scale);
        let amount = match rng.below(6 + neutrals) {
            k if k >= 6 => 0,
            k if k < deliveries => amount,
            _ => -amount,
        };
        // Deliveries and pulls tend to take turns.
        deliveries = if amount > 0 && rng.chance(1, 2) { 2 } else { 3 };
        schedule.push((minute, amount));
    }
    schedule
}

/// The least and the greatest stock that the limits see in a schedule. Events
/// of one minute are netted, yet under cover 0 its deliveries come too late for
/// the low limit.
fn stock_range(schedule: &Schedule, opening: i64, cover: Cover) -> (i64, i64) {
    // By minute, and pulls before deliveries in each.
    let mut sorted = schedule.clone();
    sorted.sort_unstable();
    let (mut low, mut high, mut stock) = (opening, opening, opening);
    for (index, (minute, amount)) in sorted.iter().enumerate() {
        stock += amount;
        let next = sorted.get(index + 1);
        let ends_minute = next.is_none_or(|next| next.0 != *minute);
        if ends_minute {
            high = high.max(stock);
        }
        if ends_minute || cover == Cover::NextMinute {
            low = low.min(stock);
        }
    }
    (low, high)
}

/// One of the two covers, and its word.
fn some_cover(rng: &mut Rng) -> (Cover, i32) {
    rng.pick(&[(Cover::SameMinute, 1), (Cover::NextMinute, 0)])
}

/// How far a limit lies outside the schedule's stock; below 0 it cuts into it.
fn slack(rng: &mut Rng) -> i64 {
    match rng.below(12) {
        0..=3 => 0,
        4..=6 => rng.within(1, 4),
        7 => rng.within(1, 60),
        8 => 2 * STOCK_BOUND,
        9 => -1,
        10 => -rng.within(1, 4),
        _ => -rng.within(1, 30),
    }
}

/// Limits near the stock of a schedule, around the opening stock.
fn numbers_around(rng: &mut Rng, schedule: &Schedule, horizon: i64) -> Numbers {
    let opening = opening_stock(rng);
    let (cover, cover_word) = some_cover(rng);
    let (low, high) = stock_range(schedule, opening, cover);
    let lower = (low - slack(rng)).min(opening).max(-STOCK_BOUND);
    let upper = (high + slack(rng)).max(opening).min(STOCK_BOUND);
    Numbers {
        horizon: horizon as i32,
        lower: lower as i32,
        upper: upper as i32,
        opening: opening as i32,
        cover: cover_word,
    }
}

/// How far a window reaches to either side.
fn reach(rng: &mut Rng, whole: i64) -> i64 {
    match rng.below(8) {
        0 | 1 => 0,
        2..=4 => rng.within(0, 3),
        5 | 6 => rng.within(0, whole),
        _ => whole,
    }
}

fn amount_ends(rng: &mut Rng, amount: i64) -> (i64, i64) {
    if amount == 0 {
        return (0, 0);
    }
    let size = amount.abs();
    let small = (size - reach(rng, 20)).max(1);
    let large = (size + reach(rng, 30)).min(AMOUNT_BOUND);
    let large = if rng.chance(1, 25) {
        AMOUNT_BOUND
    } else {
        large
    };
    if amount > 0 {
        (small, large)
    } else {
        (-large, -small)
    }
}

/// The four words of a window around a minute and an amount.
fn window_around(rng: &mut Rng, minute: i64, amount: i64, horizon: i64) -> [i32; PART_EVENT_WORDS] {
    let t_min = (minute - reach(rng, horizon)).max(0);
    let t_max = (minute + reach(rng, horizon)).min(horizon);
    let (h_min, h_max) = amount_ends(rng, amount);
    [t_min, t_max, h_min, h_max].map(|end| end as i32)
}

/// Lags that a schedule keeps, or nearly keeps.
fn lags_around(rng: &mut Rng, schedule: &Schedule) -> Vec<i32> {
    let count = lag_count(rng, schedule.len());
    let strict = rng.chance(1, 3);
    let mut lags = Vec::with_capacity(count * LAG_WORDS);
    for _ in 0..count {
        let a = rng.below(schedule.len());
        let b = (a + 1 + rng.below(schedule.len() - 1)) % schedule.len();
        let spare = match rng.below(8) {
            0 if strict => -rng.within(1, 3),
            0 | 1 => 0,
            2..=5 => rng.within(0, 5),
            6 => rng.within(0, 300),
            _ => 2 * LAG_BOUND,
        };
        let d = schedule[a].0 - schedule[b].0 + spare;
        let d = d.clamp(-LAG_BOUND, LAG_BOUND);
        lags.extend([a as i32, b as i32, d as i32]);
    }
    lags
}

/// Windows, limits and lags around a hidden schedule, some of them off it.
fn around_schedule(rng: &mut Rng) -> Part {
    let horizon = horizon(rng);
    let events = event_count(rng);
    let schedule = hidden_schedule(rng, events, horizon);
    let numbers = numbers_around(rng, &schedule, horizon);
    let lags = lags_around(rng, &schedule);
    let strays = rng.pick(&[0, 0, 1, 6]);
    let mut windows = Vec::with_capacity(events * PART_EVENT_WORDS);
    for (minute, amount) in schedule {
        let minute = if rng.chance(strays, 24) {
            rng.within(0, horizon)
        } else {
            minute
        };
        windows.extend(window_around(rng, minute, amount, horizon));
    }
    Part {
        numbers,
        windows,
        lags,
    }
}

/// Many events close to their minutes, amounts wide open, limits tight: long
/// explanations of rules 3 to 14.
fn dense(rng: &mut Rng) -> Part {
    let events = rng.below(MAX_EVENTS + 1);
    let horizon = rng.within(1, 3 * events as i64 + 1);
    let schedule = hidden_schedule(rng, events, horizon);
    let mut numbers = numbers_around(rng, &schedule, horizon);
    let (cover, cover_word) = some_cover(rng);
    let (low, high) = stock_range(&schedule, i64::from(numbers.opening), cover);
    numbers.cover = cover_word;
    let spare = rng.within(0, 2);
    numbers.lower = (low - spare).max(-STOCK_BOUND) as i32;
    numbers.upper = (high + spare).min(STOCK_BOUND) as i32;
    let times = rng.within(0, 3);
    let mut windows = Vec::with_capacity(events * PART_EVENT_WORDS);
    for (minute, amount) in &schedule {
        let t_min = (minute - rng.within(0, times)).max(0);
        let t_max = (minute + rng.within(0, times)).min(horizon);
        let (h_min, h_max) = amount_ends(rng, *amount);
        windows.extend([t_min, t_max, h_min, h_max].map(|end| end as i32));
    }
    Part {
        numbers,
        windows,
        lags: lags_around(rng, &schedule),
    }
}

/// A few events with windows all over, limits close around the opening stock.
fn scattered(rng: &mut Rng) -> Part {
    let horizon = rng.within(1, 12);
    let events = 1 + rng.below(6);
    let schedule = hidden_schedule(rng, events, horizon);
    let mut windows = Vec::new();
    for (_, amount) in &schedule {
        let (one, two) = (rng.within(0, horizon), rng.within(0, horizon));
        let (h_min, h_max) = amount_ends(rng, *amount);
        windows.extend([one.min(two), one.max(two), h_min, h_max].map(|end| end as i32));
    }
    let opening = rng.within(-10, 10);
    let numbers = Numbers {
        horizon: horizon as i32,
        lower: (opening - rng.within(0, 12)) as i32,
        upper: (opening + rng.within(0, 12)) as i32,
        opening: opening as i32,
        cover: some_cover(rng).1,
    };
    let lags = lags_around(rng, &schedule);
    Part {
        numbers,
        windows,
        lags,
    }
}

/// The mirror of a job: amounts, limits and opening stock negated.
fn mirrored(mut job: Part) -> Part {
    for window in job.windows.chunks_exact_mut(PART_EVENT_WORDS) {
        (window[2], window[3]) = (-window[3], -window[2]);
    }
    let Numbers { lower, upper, .. } = job.numbers;
    job.numbers.lower = -upper;
    job.numbers.upper = -lower;
    job.numbers.opening = -job.numbers.opening;
    job
}

/// The event at hand waits for a delivery, and by that a pull becomes sure
/// which the delivery cannot carry: the one way in which rules 5, 8, 11 and 14
/// end in a conflict.
fn squeeze(rng: &mut Rng) -> Part {
    let horizon = rng.within(2, 14);
    let turn = rng.within(1, horizon - 1);
    let first = rng.within(1, 8);
    let second = rng.within(1, 8);
    let delivery = first + rng.within(-1, second);
    let opening = rng.within(0, first);
    let by = rng.chance(1, 2);
    // With "by", e is itself the pull; with "before", one comes at minute 0.
    let (e_times, e_amount) = if by {
        ((rng.within(0, turn), horizon), -first)
    } else {
        ((rng.within(1, turn), horizon), 0)
    };
    let mut windows = vec![(e_times, e_amount)];
    let mut others = vec![
        ((rng.within(0, turn), turn), -second),
        ((turn, rng.within(turn, horizon)), delivery.max(1)),
    ];
    if !by {
        others.push(((0, 0), -first));
    }
    rng.shuffle(&mut others);
    windows.extend(others);
    if rng.chance(1, 3) {
        // A neutral event that surely counts, yet is never a target.
        windows.insert(rng.below(2), ((0, 0), 0));
    }
    let lower = -rng.within(0, 1);
    let job = Part {
        numbers: Numbers {
            horizon: horizon as i32,
            lower: lower as i32,
            upper: rng.pick(&[10, 30, 1_000_000]),
            opening: opening.max(lower) as i32,
            cover: some_cover(rng).1,
        },
        windows: windows
            .into_iter()
            .flat_map(|((t_min, t_max), h)| [t_min, t_max, h, h].map(|end| end as i32))
            .collect(),
        lags: Vec::new(),
    };
    if rng.chance(1, 2) {
        mirrored(job)
    } else {
        job
    }
}

/// Amounts that reach the greatest allowed, and stock that just serves them:
/// a premise that such an amount is no greater says nothing.
fn brim(rng: &mut Rng) -> Part {
    let horizon = rng.within(1, 6);
    let mut windows = Vec::new();
    for _ in 0..2 + rng.below(4) {
        let (one, two) = (rng.within(0, horizon), rng.within(0, horizon));
        let small = AMOUNT_BOUND - rng.pick(&[0, 1, 2, 10, 5_000, AMOUNT_BOUND - 1]);
        let (h_min, h_max) = if rng.chance(1, 2) {
            (small, AMOUNT_BOUND)
        } else {
            (-AMOUNT_BOUND, -small)
        };
        windows.extend([one.min(two), one.max(two), h_min, h_max].map(|end| end as i32));
    }
    let opening = rng.within(-3, 3) + AMOUNT_BOUND * rng.within(-1, 1);
    let near = [0, 1, 2, 5_000, AMOUNT_BOUND - 1, AMOUNT_BOUND];
    Part {
        numbers: Numbers {
            horizon: horizon as i32,
            lower: (opening - rng.pick(&near)) as i32,
            upper: (opening + rng.pick(&near)) as i32,
            opening: opening as i32,
            cover: some_cover(rng).1,
        },
        windows,
        lags: Vec::new(),
    }
}

/// Pulls that each wait for one more of many small deliveries: rules 4 and 10
/// add several events, some of them of one minute.
fn ladder(rng: &mut Rng) -> Part {
    let steps = 2 + rng.below(8) as i64;
    let horizon = steps + rng.within(1, 6);
    let mut windows: Vec<[i64; PART_EVENT_WORDS]> = Vec::new();
    for step in 0..steps {
        let t_min = (step + rng.within(-1, 1)).max(0);
        let amount = rng.within(1, 3);
        windows.push([t_min, rng.within(t_min, horizon), 1, amount]);
    }
    for _ in 0..1 + rng.below(4) {
        let amount = rng.within(1, 2 * steps);
        let t_max = rng.within(0, horizon);
        windows.push([rng.within(0, t_max), t_max, -amount, -rng.within(1, amount)]);
    }
    rng.shuffle(&mut windows);
    let opening = rng.within(0, 2);
    let job = Part {
        numbers: Numbers {
            horizon: horizon as i32,
            lower: 0,
            upper: rng.pick(&[5, 20, 1_000]),
            opening: opening as i32,
            cover: some_cover(rng).1,
        },
        windows: windows.concat().into_iter().map(|end| end as i32).collect(),
        lags: Vec::new(),
    };
    if rng.chance(1, 2) {
        mirrored(job)
    } else {
        job
    }
}

/// Two lags at odds by one minute (or a few): a long creep to a conflict.
pub fn at_odds(rng: &mut Rng, most_horizon: i64) -> Part {
    let horizon = rng.within(1, most_horizon);
    let d = rng.within(-3, 3);
    let gap = if rng.chance(3, 4) {
        1
    } else {
        rng.within(1, 4)
    };
    let mut windows = Vec::new();
    for amount in [rng.within(-2, 2), rng.within(-2, 2)] {
        windows.extend([0, horizon, amount, amount].map(|end| end as i32));
    }
    let mut lags = vec![[0, 1, d], [1, 0, -d - gap]];
    if rng.chance(1, 3) {
        windows.extend([0, horizon as i32, 0, 0]);
        lags.push([2, rng.within(0, 1), rng.within(-1, 1)]);
    }
    rng.shuffle(&mut lags);
    Part {
        numbers: Numbers {
            horizon: horizon as i32,
            lower: rng.pick(&[-100, -4, 0]),
            upper: rng.pick(&[4, 100]),
            opening: 0,
            cover: some_cover(rng).1,
        },
        windows,
        lags: lags.concat().into_iter().map(|word| word as i32).collect(),
    }
}
