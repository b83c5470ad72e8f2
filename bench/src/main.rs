//! Times of the proved planner and reader beside the second program's: the
//! same jobs, in one process, by turns, best of many. Before a job is timed,
//! both sides must give the same answer, windows and list. The target is what a
//! tuned program, kept apart, needs: a fraction of the second program's time.

mod calls;
mod families;
mod jobs;

use std::hint::black_box;
use std::time::{Duration, Instant};

use calls::{Answer, CONFLICT, OPEN, SETTLED, STOPPED};
use families::Amounts;
use second::job::MAX_ROOM;
use second::raw_job::RawJob;

/// Each case is run for so long, and at least so many times.
const TIME_FOR_CASE: Duration = Duration::from_secs(2);
const LEAST_RUNS: usize = 3;

/// What every buffer word holds before a call.
const JUNK: i32 = -777;

fn main() {
    println!(
        "| {:<44} | {:<8} | {:>6} | {:>6} | {:>7} | {:>13} | {:>11} | {:>6} | {:>11} | {:>15} |",
        "case",
        "outcome",
        "slips",
        "rounds",
        "words",
        "proved, ns",
        "second, ns",
        "ratio",
        "target, ns",
        "proved / target"
    );
    println!("|---|---|---:|---:|---:|---:|---:|---:|---:|---:|");

    time_plan(
        "plan: silent round, 64 events",
        &jobs::silent(),
        Some(0.142),
    );
    let sets = jobs::with_idle_sets(&jobs::silent());
    time_plan("plan: the same, 16 sets of all events", &sets, None);
    let tight = jobs::tight();
    time_plan("plan: the silent round, tight limits", &tight, None);
    let split = jobs::in_eight_cages(&tight);
    time_plan("plan: the same, in eight cages", &split, None);

    let dense = jobs::dense();
    let settled = time_plan("plan: dense, 64 events, 256 lags", &dense, None);
    time_plan("plan: one silent round on it, once settled", &settled, None);
    time_read("read: the dense job's list", &dense);

    let two = jobs::creep(0);
    time_plan("plan: two lags at odds by 1, H 20,000", &two, None);
    time_read("read: its list", &two);
    let five = jobs::creep(3);
    time_plan("plan: the same with three followers", &five, None);
    time_read("read: its list", &five);

    let creep = families::creep(Amounts::Fixed);
    time_plan(
        "plan: creep, 64 events, the pair neutral",
        &creep,
        Some(0.0145),
    );
    let creep = families::tight_creep(Amounts::Fixed);
    time_plan("plan: the same, limits tight", &creep, Some(0.0145));
    let creep = families::creep(Amounts::Wide);
    time_plan(
        "plan: creep, amounts wide, limits slack",
        &creep,
        Some(0.079),
    );
    let creep = families::tight_creep(Amounts::Wide);
    time_plan(
        "plan: creep, amounts wide, limits tight",
        &creep,
        Some(0.139),
    );

    let chase = families::chase();
    time_plan("plan: chase, room 1,000,000", &chase, Some(0.33));
    time_plan_in(16_000, "plan: chase, room 16,000", &chase, Some(0.41));
    let later = jobs::pulled_later(&chase);
    time_plan("plan: chase, room 1,000,000, cover 0", &later, None);
    let split = jobs::in_eight_cages(&chase);
    time_plan("plan: chase, room 1,000,000, eight cages", &split, None);
    for seed in families::PLAN_SEEDS {
        let name = format!("plan: hidden plan, seed {seed}");
        time_plan(&name, &families::hidden_plan(seed), Some(0.21));
    }
    let open = families::open_amounts();
    time_plan("plan: open amounts, small cage", &open, Some(0.23));
    let later = jobs::pulled_later(&open);
    time_plan("plan: the same, cover 0", &later, None);
    let split = jobs::in_eight_cages(&open);
    time_plan("plan: the same, cover 1, eight cages", &split, None);
    let totals = families::contract_totals();
    time_plan("plan: contract totals, 16 sets", &totals, None);
    time_read("read: its list", &totals);
}

/// The time that a call alone took.
fn timed(call: impl FnOnce() -> Answer) -> Duration {
    let begin = Instant::now();
    black_box(call());
    begin.elapsed()
}

/// The least time of each side, by turns.
fn best(mut proved: impl FnMut() -> Duration, mut second: impl FnMut() -> Duration) -> [f64; 2] {
    let begin = Instant::now();
    let mut least = [Duration::MAX; 2];
    let mut runs = 0;
    while runs < LEAST_RUNS || begin.elapsed() < TIME_FOR_CASE {
        least[0] = least[0].min(proved());
        least[1] = least[1].min(second());
        runs += 1;
    }
    least.map(|time| time.as_nanos() as f64)
}

/// A row: the target is a fraction of the second program's time.
fn print_row(
    name: &str,
    answer: Answer,
    counts: [String; 3],
    [proved, second]: [f64; 2],
    fraction: Option<f64>,
) {
    let outcome = match (answer.number, answer.words[1]) {
        (0, SETTLED) => "settled",
        (0, CONFLICT) => "conflict",
        (0, STOPPED) => "stopped",
        (0, OPEN) => "open",
        _ => "refused",
    };
    let [slips, rounds, length] = counts;
    let ratio = proved / second;
    let target = fraction.map(|part| part * second);
    let aim = target.map_or(String::new(), |target| format!("{target:.0}"));
    let reached = target.map_or(String::new(), |target| format!("{:.2}", proved / target));
    println!(
        "| {name:<44} | {outcome:<8} | {slips:>6} | {rounds:>6} | {length:>7} | {proved:>13} | {second:>11} | {ratio:>6.2} | {aim:>11} | {reached:>15} |"
    );
}

/// Times the planner on a job with all the room that there can be.
fn time_plan(name: &str, job: &RawJob, fraction: Option<f64>) -> RawJob {
    time_plan_in(MAX_ROOM, name, job, fraction)
}

/// Times the planner on a job; the job as the call leaves it.
fn time_plan_in(room: usize, name: &str, job: &RawJob, fraction: Option<f64>) -> RawJob {
    let mut windows = [job.windows.clone(), job.windows.clone()];
    let mut lists = [vec![JUNK; room], vec![JUNK; room]];
    let answer = calls::proved_plan(job, &mut windows[0], &mut lists[0]);
    let other = calls::second_plan(job, &mut windows[1], &mut lists[1]);
    assert_eq!(answer, other, "{name}: the answers differ");
    assert_eq!(windows[0], windows[1], "{name}: the windows differ");
    assert!(lists[0] == lists[1], "{name}: the lists differ");
    let left = RawJob {
        windows: windows[0].clone(),
        ..job.clone()
    };

    let ([mut own, mut its], [mut list, mut its_list]) = (windows, lists);
    let times = best(
        || {
            own.copy_from_slice(&job.windows);
            timed(|| calls::proved_plan(job, black_box(&mut own), &mut list))
        },
        || {
            its.copy_from_slice(&job.windows);
            timed(|| calls::second_plan(job, black_box(&mut its), &mut its_list))
        },
    );
    let [_, _, slips, rounds, length] = answer.words;
    let counts = [slips, rounds, length].map(|count| count.to_string());
    print_row(name, answer, counts, times, fraction);
    left
}

/// Times the reader on the list that the planner writes for a job.
fn time_read(name: &str, job: &RawJob) {
    let mut planned = job.windows.clone();
    let mut list = vec![JUNK; MAX_ROOM];
    let wrote = calls::proved_plan(job, &mut planned, &mut list);
    let [_, _, slips, _, length] = wrote.words;
    list.truncate(length as usize);

    let mut windows = [job.windows.clone(), job.windows.clone()];
    let answer = calls::proved_read(job, &mut windows[0], &list);
    let other = calls::second_read(job, &mut windows[1], &list);
    assert_eq!(answer.number, 0, "{name}: the list is refused");
    assert_eq!(answer, other, "{name}: the answers differ");
    assert_eq!(
        windows[0], planned,
        "{name}: the windows are not the planner's"
    );
    assert_eq!(windows[0], windows[1], "{name}: the windows differ");

    let [mut own, mut its] = windows;
    let times = best(
        || {
            own.copy_from_slice(&job.windows);
            timed(|| calls::proved_read(job, black_box(&mut own), &list))
        },
        || {
            its.copy_from_slice(&job.windows);
            timed(|| calls::second_read(job, black_box(&mut its), &list))
        },
    );
    let counts = [slips.to_string(), "-".to_string(), length.to_string()];
    print_row(name, answer, counts, times, None);
}
