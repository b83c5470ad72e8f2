//! One text line for every record of a stream.

use std::io::{self, Read, Write};

use crate::checker::{read, ReadAnswer};
use crate::job::Refusal;
use crate::propagator::{plan, PlanAnswer, Tally};
use crate::stream::{checksum, Call, Record, RecordReader};

/// Runs the record's call; the tables of the record are the lent ones.
pub fn run_plan(record: &mut Record) -> PlanAnswer {
    let job = &mut record.job;
    let mut windows = std::mem::take(&mut job.windows);
    let answer = plan(
        &job.settings(),
        &mut windows,
        record.limit,
        &mut record.buffer,
    );
    job.windows = windows;
    answer
}

/// Runs the record's call; the tables of the record are the lent ones.
pub fn run_read(record: &mut Record) -> ReadAnswer {
    let job = &mut record.job;
    let mut windows = std::mem::take(&mut job.windows);
    let answer = read(&job.settings(), &mut windows, &record.buffer);
    job.windows = windows;
    answer
}

fn tally_words(word: &str, tally: Tally) -> String {
    let Tally {
        slips,
        rounds,
        length,
    } = tally;
    format!("{word} {slips} {rounds} {length}")
}

fn refusal_words(refusal: Refusal) -> String {
    format!("refused {} {}", refusal.number, refusal.place)
}

/// The words of the answer to a record, without the checksums.
fn answer_words(record: &mut Record) -> String {
    match record.call {
        Call::Plan => match run_plan(record) {
            PlanAnswer::Settled(tally) => tally_words("plan settled", tally),
            PlanAnswer::Conflict(tally) => tally_words("plan conflict", tally),
            PlanAnswer::Stopped(tally) => tally_words("plan stopped", tally),
            PlanAnswer::Refused(refusal) => format!("plan {}", refusal_words(refusal)),
        },
        Call::Read => match run_read(record) {
            ReadAnswer::Open => "read open".to_string(),
            ReadAnswer::Conflict => "read conflict".to_string(),
            ReadAnswer::Refused(refusal) => format!("read {}", refusal_words(refusal)),
        },
    }
}

/// The line for a record: the answer, then the checksums of the window table
/// and of the buffer as the call left them.
pub fn answer_line(record: &mut Record) -> String {
    let answer = answer_words(record);
    let windows = checksum(&record.job.windows);
    let buffer = checksum(&record.buffer);
    format!("{answer} {windows} {buffer}")
}

/// Answers a whole stream, record by record.
pub fn write_answers(input: impl Read, out: &mut impl Write) -> io::Result<()> {
    let mut records = RecordReader::new(input);
    while let Some(mut record) = records.next_record()? {
        writeln!(out, "{}", answer_line(&mut record))?;
    }
    Ok(())
}
