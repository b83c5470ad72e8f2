//! The propagator (document 01: planner): rounds of the rules until a
//! round writes nothing, a conflict shows, or the log's room or the round limit
//! is out.

use crate::explain::{premises, Finding};
use crate::explanation::{
    explanation_words, write_explanation, write_trailer, Conclusion, Premise, TRAILER_WORDS,
};
use crate::job::{store_windows, Job, Refusal, Settings, Window};
use crate::rules::{
    lag_earliest_bound, lag_latest_bound, level, share_bound, wait_bound, Candidate, Level, Rule,
};
use crate::sets::{least_total_bound, most_total_bound, Sums};
use crate::views::{Family, View};

/// What a taken call counted.
#[derive(Clone, Copy, Debug, PartialEq, Eq)]
pub struct Tally {
    /// Explanations (slips) written.
    pub slips: usize,
    /// Rounds begun.
    pub rounds: usize,
    /// Words of the log (list), the trailer included.
    pub length: usize,
}

/// The propagator's answer.
#[derive(Clone, Copy, Debug, PartialEq, Eq)]
pub enum PlanAnswer {
    Settled(Tally),
    Conflict(Tally),
    Stopped(Tally),
    Refused(Refusal),
}

/// Narrows the window table and writes the log into the buffer. Takes any
/// numbers and any lengths; a refused call changes no word.
/// After `limit` rounds the run is stopped, unless the last wrote nothing; 0 is
/// no limit.
pub fn plan(
    settings: &Settings,
    windows: &mut [i32],
    limit: i32,
    buffer: &mut [i32],
) -> PlanAnswer {
    let job = match Job::admit_run(settings, windows, limit, buffer.len()) {
        Ok(job) => job,
        Err(refusal) => return PlanAnswer::Refused(refusal),
    };
    let open = open_amounts(&job);
    let mut run = Run::new(&job, &open, buffer);
    let halt = run.rounds(limit as usize);
    let tally = run.close();
    store_windows(&run.windows, windows);
    match halt {
        None => PlanAnswer::Settled(tally),
        Some(Halt::Conflict) => PlanAnswer::Conflict(tally),
        Some(Halt::Stopped) => PlanAnswer::Stopped(tally),
    }
}

/// Why a run ended before it was settled.
#[derive(Clone, Copy, Debug, PartialEq, Eq)]
enum Halt {
    Conflict,
    Stopped,
}

/// A run of the propagator over an accepted job.
struct Run<'a> {
    job: &'a Job,
    windows: Vec<Window>,
    buffer: &'a mut [i32],
    /// Words written so far.
    used: usize,
    slips: usize,
    rounds: usize,
    /// Where the last explanation begins.
    last: usize,
    premises: Vec<Premise>,
    candidates: Vec<Candidate>,
    /// The open amounts of each cage, when the run began.
    open: &'a [OpenAmounts],
}

/// The events of a cage whose amount is not fixed. While something is to
/// spare, no other can be narrowed by rules 5, 8, 11 and 14.
struct OpenAmounts {
    events: Vec<usize>,
    /// The widest range of amounts among them; 0 if there are none.
    widest: i64,
}

impl OpenAmounts {
    fn of(job: &Job, members: &[usize]) -> OpenAmounts {
        let range = |event: &usize| job.windows[*event].h_max - job.windows[*event].h_min;
        let open = members.iter().filter(|event| range(event) > 0);
        OpenAmounts {
            events: open.copied().collect(),
            widest: members.iter().map(range).max().unwrap_or(0),
        }
    }
}

impl<'a> Run<'a> {
    fn new(job: &'a Job, open: &'a [OpenAmounts], buffer: &'a mut [i32]) -> Run<'a> {
        Run {
            job,
            windows: job.windows.clone(),
            buffer,
            used: 0,
            slips: 0,
            rounds: 0,
            last: 0,
            premises: Vec::new(),
            candidates: Vec::new(),
            open,
        }
    }

    /// Rounds until one writes nothing, or until a halt. The limit's halt comes
    /// last.
    fn rounds(&mut self, limit: usize) -> Option<Halt> {
        loop {
            let before = self.slips;
            self.rounds += 1;
            match self.round() {
                Err(halt) => return Some(halt),
                Ok(()) if self.slips == before => return None,
                Ok(()) if self.rounds == limit => return Some(Halt::Stopped),
                Ok(()) => {}
            }
        }
    }

    /// One round: the lags in table order, the sets in order, then the events.
    fn round(&mut self) -> Result<(), Halt> {
        for lag in 0..self.job.lags.len() {
            self.lag(lag)?;
        }
        for set in 0..self.job.sets.len() {
            self.set(set)?;
        }
        for e in 0..self.windows.len() {
            for family in Family::ALL {
                self.family(family, e)?;
            }
        }
        Ok(())
    }

    /// Rules 1 and 2 for a lag.
    fn lag(&mut self, lag: usize) -> Result<(), Halt> {
        let bound = lag_latest_bound(self.job, &self.windows, lag);
        self.conclude(Rule::LagLatest, lag, self.job.lags[lag].a, bound)?;
        let bound = lag_earliest_bound(self.job, &self.windows, lag);
        self.conclude(Rule::LagEarliest, lag, self.job.lags[lag].b, bound)
    }

    /// Rules 17 and 18 for a set, members as listed. The ends that they move are
    /// those of the target alone, whose amounts they do not read.
    fn set(&mut self, number: usize) -> Result<(), Halt> {
        let set = &self.job.sets[number];
        let mut sums = Sums::of(set, &self.windows);
        for &y in &set.members {
            let others = sums.without(&self.windows[y]);
            let bound = least_total_bound(set, others);
            self.conclude(Rule::LeastTotal, number, y, bound)?;
            let bound = most_total_bound(set, others);
            self.conclude(Rule::MostTotal, number, y, bound)?;
            sums = others.with(&self.windows[y]);
        }
        Ok(())
    }

    /// The three rules of a family for an event.
    fn family(&mut self, family: Family, e: usize) -> Result<(), Halt> {
        let view = View::new(self.job, family, e);
        let mut at = level(&view, &self.windows, e);
        if at.most < view.limit {
            return self.level(family, e);
        }
        if self.wait(family, &view, e, at)? {
            // t_min(e) has moved: the sums are taken anew.
            at = level(&view, &self.windows, e);
        }
        self.shares(family, &view, e, at)
    }

    /// Rules 3, 6, 9, 12.
    fn level(&mut self, family: Family, e: usize) -> Result<(), Halt> {
        self.conflict(&Finding {
            rule: Rule::Level(family),
            subject: e,
            target: e,
            bound: None,
            conflict: true,
        })
    }

    /// Rules 4, 7, 10, 13; says whether a slip was written.
    fn wait(&mut self, family: Family, view: &View, e: usize, at: Level) -> Result<bool, Halt> {
        let before = self.slips;
        let bound = wait_bound(view, &self.windows, e, at.sure, &mut self.candidates);
        if let Some(bound) = bound {
            self.conclude(Rule::Wait(family), e, e, bound)?;
        }
        Ok(self.slips != before)
    }

    /// Rules 5, 8, 11, 14, targets in event order. The end moved is never one
    /// that the level reads, so one level serves all targets; and only a window
    /// wider than what is to spare can be narrowed.
    fn shares(&mut self, family: Family, view: &View, e: usize, at: Level) -> Result<(), Halt> {
        let spare = at.most - view.limit;
        let open = &self.open[self.job.cage_of[e]];
        if open.widest <= spare {
            return Ok(());
        }
        let targets = if spare < 0 {
            view.members
        } else {
            &open.events
        };
        for &target in targets {
            let window = &self.windows[target];
            if window.h_max - window.h_min <= spare {
                continue;
            }
            if let Some(bound) = share_bound(view, &self.windows, e, target, at.most) {
                self.conclude(Rule::Share(family), e, target, bound)?;
            }
        }
        Ok(())
    }

    /// A rule's bound: nothing, a narrowing, or a conflict.
    fn conclude(
        &mut self,
        rule: Rule,
        subject: usize,
        target: usize,
        bound: i64,
    ) -> Result<(), Halt> {
        let Some(end) = rule.end() else {
            return Ok(());
        };
        let window = self.windows[target];
        if !end.narrows(&window, bound) {
            return Ok(());
        }
        let finding = Finding {
            rule,
            subject,
            target,
            bound: Some(bound),
            conflict: end.passes(&window, bound),
        };
        if finding.conflict {
            return self.conflict(&finding);
        }
        self.write(&finding, Conclusion::Bound(end, bound))?;
        end.set(&mut self.windows[target], bound);
        Ok(())
    }

    /// Writes a conflict's explanation; if it does not fit, the run is stopped.
    fn conflict(&mut self, finding: &Finding) -> Result<(), Halt> {
        self.write(finding, Conclusion::Conflict)?;
        Err(Halt::Conflict)
    }

    /// Writes one explanation if it and the trailer both fit.
    fn write(&mut self, finding: &Finding, conclusion: Conclusion) -> Result<(), Halt> {
        premises(self.job, &self.windows, finding, &mut self.premises);
        let length = explanation_words(self.premises.len());
        if self.used + length + TRAILER_WORDS > self.buffer.len() {
            return Err(Halt::Stopped);
        }
        write_explanation(
            &mut self.buffer[self.used..],
            finding.rule.number(),
            finding.subject,
            finding.target,
            conclusion,
            &self.premises,
        );
        self.last = self.used;
        self.used += length;
        self.slips += 1;
        Ok(())
    }

    /// Writes the trailer and hands back the counts.
    fn close(&mut self) -> Tally {
        write_trailer(&mut self.buffer[self.used..], self.slips, self.last);
        Tally {
            slips: self.slips,
            rounds: self.rounds,
            length: self.used + TRAILER_WORDS,
        }
    }
}

fn open_amounts(job: &Job) -> Vec<OpenAmounts> {
    let cages = job.members.iter();
    cages.map(|members| OpenAmounts::of(job, members)).collect()
}
