//! Small jobs checked by enumeration: every legal schedule (document 01: day
//! plan) is listed and held against what propagator and checker say.
//!
//! The greatest amount is scaled down, so that the jobs with their windows
//! opened can be enumerated too.

mod legal;
mod small;

use std::fmt;
use std::io::{self, Write};

use crate::checker::{read, ReadAnswer};
use crate::explanation::{CONFLICT_KIND, TRAILER_WORDS};
use crate::gen_lists::{decode, edit, encode, rival_list, LooseSlip};
use crate::gen_plans::cut_room;
use crate::job::{Job, Window, CAGE_WORDS, EVENT_WORDS, LAG_WORDS};
use crate::propagator::{plan, PlanAnswer};
use crate::raw_job::RawJob;
use crate::rng::Rng;

use legal::{legal_schedules, lies_inside, meets, Schedule};
use small::small_job;

/// The greatest amount in these jobs.
const BOUND: i64 = 3;
/// The greatest horizon and the most events in these jobs.
const MOST_HORIZON: i64 = 4;
const MOST_EVENTS: usize = 4;
/// Room enough for every list of such a job.
const ROOM: usize = 20_000;
/// Lists tried for one job.
const OWN_CUTS: usize = 2;
const RIVALS: usize = 6;
const EDITS: usize = 24;

/// What was wrong, in words.
struct Failure {
    reason: &'static str,
    list: Vec<i32>,
}

#[derive(Default)]
struct Counts {
    jobs: usize,
    jobs_with_schedules: usize,
    schedules: usize,
    conflicts: usize,
    stopped: usize,
    lists: usize,
    accepted: usize,
    accepted_conflicts: usize,
    slips_alone: usize,
    conflicts_alone: usize,
}

impl fmt::Display for Counts {
    fn fmt(&self, out: &mut fmt::Formatter) -> fmt::Result {
        write!(
            out,
            "jobs {} with schedules {} legal schedules {} conflicts {} stopped {} \
             foreign lists {} accepted {} with conflict {} \
             bounds checked alone {} conflicts checked alone {}",
            self.jobs,
            self.jobs_with_schedules,
            self.schedules,
            self.conflicts,
            self.stopped,
            self.lists,
            self.accepted,
            self.accepted_conflicts,
            self.slips_alone,
            self.conflicts_alone
        )
    }
}

/// Checks so many small jobs; prints the counts, and the job where a check
/// failed. Says whether all checks held.
pub fn run(seed: u64, jobs: usize, out: &mut impl Write) -> io::Result<bool> {
    let mut rng = Rng::new(seed);
    let mut counts = Counts::default();
    for _ in 0..jobs {
        let raw = small_job(&mut rng);
        if let Err(failure) = check_job(&mut rng, &raw, &mut counts) {
            print_failure(&raw, &failure, out)?;
            return Ok(false);
        }
    }
    writeln!(out, "{counts}")?;
    Ok(true)
}

fn print_failure(raw: &RawJob, failure: &Failure, out: &mut impl Write) -> io::Result<()> {
    writeln!(out, "failed: {}", failure.reason)?;
    writeln!(out, "H {} greatest amount {BOUND}", raw.horizon)?;
    for cage in raw.cages.chunks(CAGE_WORDS) {
        writeln!(out, "cage {cage:?}")?;
    }
    for window in raw.windows.chunks(EVENT_WORDS) {
        writeln!(out, "event {window:?}")?;
    }
    for lag in raw.lags.chunks(LAG_WORDS) {
        writeln!(out, "lag {lag:?}")?;
    }
    writeln!(out, "sets {:?}", raw.sets)?;
    writeln!(out, "list {:?}", failure.list)
}

/// A job with all that is enumerated of it.
struct Enumerated<'a> {
    raw: &'a RawJob,
    job: Job,
    /// Legal schedules inside the windows sent in.
    inside: Vec<Schedule>,
    /// Legal schedules of the job with its windows opened.
    opened: Vec<Schedule>,
}

impl Enumerated<'_> {
    /// Every legal schedule stays inside the windows left; with a conflict
    /// there is none.
    fn check_windows(&self, left: &[i32], conflict: bool) -> Result<(), &'static str> {
        if conflict && !self.inside.is_empty() {
            return Err("conflict, yet there is a legal schedule");
        }
        let windows: Vec<Window> = left
            .chunks_exact(EVENT_WORDS)
            .map(Window::from_words)
            .collect();
        if !windows.iter().zip(&self.job.windows).all(only_narrowed) {
            return Err("a window was widened or emptied");
        }
        if self.inside.iter().all(|s| lies_inside(s, &windows)) {
            Ok(())
        } else {
            Err("a legal schedule was cut off")
        }
    }

    /// Every legal schedule of the opened job that has the slip's premises has
    /// its conclusion.
    fn check_alone(&self, slip: &LooseSlip) -> Result<(), &'static str> {
        let stands = self
            .opened
            .iter()
            .filter(|schedule| slip.premises.iter().all(|fact| meets(schedule, fact)))
            .all(|schedule| meets(schedule, &[slip.target, slip.kind, slip.value]));
        if stands {
            Ok(())
        } else {
            Err("a slip does not stand alone")
        }
    }

    /// An accepted list: its windows and each of its slips.
    fn check_accepted(
        &self,
        list: &[i32],
        left: &[i32],
        conflict: bool,
        counts: &mut Counts,
    ) -> Result<(), &'static str> {
        self.check_windows(left, conflict)?;
        for slip in decode(list) {
            self.check_alone(&slip)?;
            if slip.kind == CONFLICT_KIND {
                counts.conflicts_alone += 1;
            } else {
                counts.slips_alone += 1;
            }
        }
        Ok(())
    }
}

/// Is the first window inside the second, and not empty?
fn only_narrowed((left, sent): (&Window, &Window)) -> bool {
    let ordered = |ends: [i64; 4]| ends.is_sorted();
    ordered([sent.t_min, left.t_min, left.t_max, sent.t_max])
        && ordered([sent.h_min, left.h_min, left.h_max, sent.h_max])
}

fn check_job(rng: &mut Rng, raw: &RawJob, counts: &mut Counts) -> Result<(), Failure> {
    let job = raw.admitted().map_err(|_| Failure {
        reason: "a sound job was refused",
        list: Vec::new(),
    })?;
    let all = Enumerated {
        raw,
        inside: legal_schedules(&job, &job.windows),
        opened: legal_schedules(&job, &job.widest_windows()),
        job,
    };
    counts.jobs += 1;
    counts.schedules += all.inside.len();
    counts.jobs_with_schedules += usize::from(!all.inside.is_empty());
    let whole = check_own(&all, ROOM, 0, counts)?;
    for _ in 0..OWN_CUTS {
        let room = cut_room(rng, &whole).max(TRAILER_WORDS);
        let limit = rng.pick(&[0, 0, 1, 2, 3]);
        let cut = check_own(&all, room, limit, counts)?;
        check_beginning(&whole, cut)?;
    }
    for list in foreign_lists(rng, &all, &whole) {
        check_foreign(&all, list, counts)?;
    }
    Ok(())
}

/// The propagator's own list in some room and rounds: the windows it leaves, and that the
/// checker comes to the same windows and verdict.
fn check_own(
    all: &Enumerated,
    room: usize,
    limit: i32,
    counts: &mut Counts,
) -> Result<Vec<i32>, Failure> {
    let mut left = all.raw.windows.clone();
    let mut buffer = vec![0; room];
    let answer = plan(&all.raw.settings(), &mut left, limit, &mut buffer);
    let (conflict, tally) = match answer {
        PlanAnswer::Settled(tally) => (false, tally),
        PlanAnswer::Conflict(tally) => (true, tally),
        PlanAnswer::Stopped(tally) => {
            counts.stopped += 1;
            (false, tally)
        }
        PlanAnswer::Refused(_) => {
            return Err(Failure {
                reason: "the propagator refused a sound job",
                list: Vec::new(),
            })
        }
    };
    counts.conflicts += usize::from(conflict);
    buffer.truncate(tally.length);
    let fail = |reason| Failure {
        reason,
        list: buffer.clone(),
    };
    let mut checked = all.raw.windows.clone();
    let verdict = check_list(all, &buffer, &mut checked);
    let wanted = if conflict {
        ReadAnswer::Conflict
    } else {
        ReadAnswer::Open
    };
    if verdict != wanted {
        return Err(fail("the checker's verdict on the propagator's list"));
    }
    if checked != left {
        return Err(fail("the checker left other windows than the propagator"));
    }
    all.check_accepted(&buffer, &left, conflict, counts)
        .map_err(fail)?;
    Ok(buffer)
}

/// A run cut off by its room or its round limit wrote a beginning of the whole
/// list.
fn check_beginning(whole: &[i32], cut: Vec<i32>) -> Result<(), Failure> {
    let slips = cut.len() - TRAILER_WORDS;
    if whole[..slips] == cut[..slips] {
        return Ok(());
    }
    Err(Failure {
        reason: "a run cut off wrote something else",
        list: cut,
    })
}

fn check_list(all: &Enumerated, list: &[i32], windows: &mut [i32]) -> ReadAnswer {
    read(&all.raw.settings(), windows, list)
}

/// Lists that the propagator did not write.
fn foreign_lists(rng: &mut Rng, all: &Enumerated, whole: &[i32]) -> Vec<Vec<i32>> {
    let own = decode(whole);
    let mut lists = Vec::new();
    for _ in 0..RIVALS {
        lists.push(encode(&rival_list(rng, &all.job)));
    }
    for index in 0..EDITS {
        let mut slips = if index % 2 == 0 {
            own.clone()
        } else {
            rival_list(rng, &all.job)
        };
        for _ in 0..1 + rng.below(3) {
            edit(rng, all.raw, &mut slips);
        }
        lists.push(encode(&slips));
    }
    lists
}

fn check_foreign(all: &Enumerated, list: Vec<i32>, counts: &mut Counts) -> Result<(), Failure> {
    counts.lists += 1;
    let mut left = all.raw.windows.clone();
    let conflict = match check_list(all, &list, &mut left) {
        ReadAnswer::Refused(_) if left == all.raw.windows => return Ok(()),
        ReadAnswer::Refused(_) => {
            return Err(Failure {
                reason: "a refusal changed the windows",
                list,
            })
        }
        ReadAnswer::Open => false,
        ReadAnswer::Conflict => true,
    };
    counts.accepted += 1;
    counts.accepted_conflicts += usize::from(conflict);
    all.check_accepted(&list, &left, conflict, counts)
        .map_err(|reason| Failure { reason, list })
}
