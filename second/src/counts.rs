//! What a stream reaches: answers, refusals by number, and explanations by
//! rule, narrowing or conflict.

use std::io::{self, Read, Write};

use crate::answers::{run_plan, run_read};
use crate::checker::ReadAnswer;
use crate::explanation::CONFLICT_KIND;
use crate::gen_lists::decode;
use crate::job::{Refusal, CAGE_WORDS, MAX_CAGES, MAX_EVENTS};
use crate::propagator::{PlanAnswer, Tally};
use crate::raw_job::RawJob;
use crate::stream::{Call, Record, RecordReader, HEADER_WORDS};

/// One more than the greatest number of a question.
const QUESTIONS: usize = 34;
/// The numbers of the questions of document 01 and of those added since.
const ASKED: [std::ops::RangeInclusive<usize>; 3] = [1..=19, 22..=22, 28..=33];
/// One more than the greatest number of a rule.
const RULES: usize = 19;
/// The numbers of the rules.
const RULE_NUMBERS: [std::ops::RangeInclusive<usize>; 2] = [1..=14, 17..=18];

/// Explanations by rule number.
#[derive(Clone, Copy, Default)]
struct RuleCounts {
    narrowing: [u64; RULES],
    conflict: [u64; RULES],
}

impl RuleCounts {
    fn add(&mut self, rule: i32, kind: i32) {
        if kind == CONFLICT_KIND {
            self.conflict[rule as usize] += 1;
        } else {
            self.narrowing[rule as usize] += 1;
        }
    }
}

/// Counts the explanations of an accepted list by the cover of the cage they
/// speak of; those of rules 1, 2, 17 and 18 by the first cage's.
fn add_list(rules: &mut [RuleCounts; 2], job: &RawJob, list: &[i32]) {
    for slip in decode(list) {
        let cage = match slip.rule {
            1 | 2 | 17 | 18 => 0,
            _ => job.window(slip.subject as usize)[4] as usize,
        };
        let cover = job.cages[cage * CAGE_WORDS + 3];
        rules[cover as usize].add(slip.rule, slip.kind);
    }
}

/// Everything that is counted.
#[derive(Clone)]
struct Counts {
    settled: u64,
    conflict: u64,
    stopped: u64,
    plan_refused: [u64; QUESTIONS],
    plan_places: [u64; QUESTIONS],
    /// By cover.
    plan_rules: [RuleCounts; 2],
    most_rounds: usize,
    /// Ended in the last round that the limit allows.
    limit_settled: u64,
    limit_conflict: u64,
    limit_stopped: u64,
    events: [u64; MAX_EVENTS + 1],
    cages: [u64; MAX_CAGES + 1],
    open: u64,
    read_conflict: u64,
    read_refused: [u64; QUESTIONS],
    read_places: [u64; QUESTIONS],
    read_rules: [RuleCounts; 2],
    words: u64,
}

impl Counts {
    fn new() -> Counts {
        Counts {
            settled: 0,
            conflict: 0,
            stopped: 0,
            plan_refused: [0; QUESTIONS],
            plan_places: [0; QUESTIONS],
            plan_rules: [RuleCounts::default(); 2],
            most_rounds: 0,
            limit_settled: 0,
            limit_conflict: 0,
            limit_stopped: 0,
            events: [0; MAX_EVENTS + 1],
            cages: [0; MAX_CAGES + 1],
            open: 0,
            read_conflict: 0,
            read_refused: [0; QUESTIONS],
            read_places: [0; QUESTIONS],
            read_rules: [RuleCounts::default(); 2],
            words: 0,
        }
    }

    fn add(&mut self, record: &mut Record) {
        let words: usize = record.tables().iter().map(|table| table.len()).sum();
        self.words += (HEADER_WORDS + words) as u64;
        match record.call {
            Call::Plan => self.add_plan(record),
            Call::Read => self.add_read(record),
        }
    }

    fn add_plan(&mut self, record: &mut Record) {
        let answer = run_plan(record);
        let (counter, tally) = match answer {
            PlanAnswer::Settled(tally) => (&mut self.settled, tally),
            PlanAnswer::Conflict(tally) => (&mut self.conflict, tally),
            PlanAnswer::Stopped(tally) => (&mut self.stopped, tally),
            PlanAnswer::Refused(refusal) => {
                add_refusal(refusal, &mut self.plan_refused, &mut self.plan_places);
                return;
            }
        };
        *counter += 1;
        let Tally { rounds, length, .. } = tally;
        if record.limit != 0 && rounds == record.limit as usize {
            match answer {
                PlanAnswer::Settled(_) => self.limit_settled += 1,
                PlanAnswer::Stopped(_) => self.limit_stopped += 1,
                _ => self.limit_conflict += 1,
            }
        }
        self.most_rounds = self.most_rounds.max(rounds);
        self.events[record.job.events()] += 1;
        self.cages[record.job.cages.len() / CAGE_WORDS] += 1;
        add_list(&mut self.plan_rules, &record.job, &record.buffer[..length]);
    }

    fn add_read(&mut self, record: &mut Record) {
        let counter = match run_read(record) {
            ReadAnswer::Open => &mut self.open,
            ReadAnswer::Conflict => &mut self.read_conflict,
            ReadAnswer::Refused(refusal) => {
                add_refusal(refusal, &mut self.read_refused, &mut self.read_places);
                return;
            }
        };
        *counter += 1;
        add_list(&mut self.read_rules, &record.job, &record.buffer);
    }

    fn print(&self, out: &mut impl Write) -> io::Result<()> {
        writeln!(out, "words in the stream {}", self.words)?;
        writeln!(
            out,
            "plan: settled {} conflict {} stopped {} refused {} most rounds {}",
            self.settled,
            self.conflict,
            self.stopped,
            self.plan_refused.iter().sum::<u64>(),
            self.most_rounds
        )?;
        writeln!(
            out,
            "plan: in the last round allowed, settled {} conflict {} stopped {}",
            self.limit_settled, self.limit_conflict, self.limit_stopped
        )?;
        let fewest = self.events.iter().min().copied().unwrap_or(0);
        writeln!(
            out,
            "plan: taken jobs for the rarest event count {fewest}, events 0: {}, 64: {}",
            self.events[0], self.events[MAX_EVENTS]
        )?;
        writeln!(
            out,
            "plan: taken jobs with 1 to 8 cages {:?}",
            &self.cages[1..]
        )?;
        writeln!(
            out,
            "read: open {} conflict {} refused {}",
            self.open,
            self.read_conflict,
            self.read_refused.iter().sum::<u64>()
        )?;
        self.print_refusals(out)?;
        self.print_rules(out)
    }

    fn print_refusals(&self, out: &mut impl Write) -> io::Result<()> {
        writeln!(out, "refusal   plan  (place > 0)   read  (place > 0)")?;
        for number in ASKED.into_iter().flatten() {
            writeln!(
                out,
                "{number:>7} {:>6} {:>12} {:>6} {:>12}",
                self.plan_refused[number],
                self.plan_places[number],
                self.read_refused[number],
                self.read_places[number]
            )?;
        }
        Ok(())
    }

    fn print_rules(&self, out: &mut impl Write) -> io::Result<()> {
        for cover in [1, 0] {
            writeln!(
                out,
                "cover {cover}: rule  plan narrow  conflict  read narrow  conflict"
            )?;
            let (plan, read) = (&self.plan_rules[cover], &self.read_rules[cover]);
            for rule in RULE_NUMBERS.into_iter().flatten() {
                writeln!(
                    out,
                    "{rule:>13} {:>12} {:>9} {:>12} {:>9}",
                    plan.narrowing[rule],
                    plan.conflict[rule],
                    read.narrowing[rule],
                    read.conflict[rule]
                )?;
            }
        }
        Ok(())
    }
}

fn add_refusal(refusal: Refusal, numbers: &mut [u64; QUESTIONS], places: &mut [u64; QUESTIONS]) {
    let number = refusal.number as usize;
    numbers[number] += 1;
    places[number] += u64::from(refusal.place > 0);
}

/// Counts a whole stream, record by record.
pub fn write_counts(input: impl Read, out: &mut impl Write) -> io::Result<()> {
    let mut records = RecordReader::new(input);
    let mut counts = Counts::new();
    while let Some(mut record) = records.next_record()? {
        counts.add(&mut record);
    }
    counts.print(out)
}
