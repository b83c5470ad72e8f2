//! The text program: a job in decimal numbers on standard input, the answer
//! in lines on standard output.

use std::fmt::Write as _;
use std::io::{self, Read};

use crate::job::{
    Refusal, AMOUNT_BOUND, CAGE_WORDS, EVENT_WORDS, LAG_WORDS, MAX_CAGES, MAX_EVENTS, MAX_LAGS,
};
use crate::propagator::{plan, PlanAnswer, Tally};
use crate::raw_job::RawJob;
use crate::sets::{MAX_SETS, SET_HEAD_WORDS};

/// The log's room in words.
pub const TEXT_ROOM: usize = 16_000;
/// The round limit of a text that names none.
pub const DEFAULT_LIMIT: i32 = 40;
/// H, the cage count, n, m, the number of sets, the limit.
const COUNT_NUMBERS: usize = 6;
/// The most members of a set in a text.
const MOST_MEMBERS: usize = 64;
/// No well-formed text has more numbers than this.
const MOST_NUMBERS: usize = COUNT_NUMBERS
    + CAGE_WORDS * MAX_CAGES
    + EVENT_WORDS * MAX_EVENTS
    + LAG_WORDS * MAX_LAGS
    + (SET_HEAD_WORDS + MOST_MEMBERS) * MAX_SETS;
/// The number of the refusal of a text not formed as asked.
const MALFORMED: i32 = 20;
/// The size of the pieces that the text is read in.
const PIECE: usize = 16 * 1024;

/// The text is not formed as asked.
#[derive(Clone, Copy, Debug, PartialEq, Eq)]
pub struct Malformed;

/// A number being read.
#[derive(Clone, Copy)]
struct Pending {
    negative: bool,
    digits: bool,
    magnitude: i64,
}

/// Takes a text piece by piece and gathers its numbers.
#[derive(Default)]
pub struct NumberReader {
    numbers: Vec<i32>,
    pending: Option<Pending>,
}

impl NumberReader {
    /// Takes one more piece of the text.
    pub fn take(&mut self, piece: &[u8]) -> Result<(), Malformed> {
        piece.iter().try_for_each(|byte| self.byte(*byte))
    }

    /// The numbers of the whole text.
    pub fn finish(mut self) -> Result<Vec<i32>, Malformed> {
        self.end_number()?;
        Ok(self.numbers)
    }

    fn byte(&mut self, byte: u8) -> Result<(), Malformed> {
        match byte {
            b' ' | b'\t' | b'\n' | b'\r' => self.end_number(),
            b'-' if self.pending.is_none() => {
                self.pending = Some(Pending {
                    negative: true,
                    digits: false,
                    magnitude: 0,
                });
                Ok(())
            }
            b'0'..=b'9' => self.digit(i64::from(byte - b'0')),
            _ => Err(Malformed),
        }
    }

    /// One more digit. A value beyond 32 bits can only grow, so it ends here.
    fn digit(&mut self, digit: i64) -> Result<(), Malformed> {
        let pending = self.pending.get_or_insert(Pending {
            negative: false,
            digits: true,
            magnitude: 0,
        });
        pending.digits = true;
        pending.magnitude = pending.magnitude * 10 + digit;
        if pending.magnitude > 1 << 31 {
            return Err(Malformed);
        }
        Ok(())
    }

    /// A separator or the end of the text: stores the number, if there is one.
    fn end_number(&mut self) -> Result<(), Malformed> {
        let Some(pending) = self.pending.take() else {
            return Ok(());
        };
        if !pending.digits || self.numbers.len() == MOST_NUMBERS {
            return Err(Malformed);
        }
        let value = if pending.negative {
            -pending.magnitude
        } else {
            pending.magnitude
        };
        self.numbers
            .push(i32::try_from(value).map_err(|_| Malformed)?);
        Ok(())
    }
}

/// Takes the parts of a job from the numbers of a text, one after another.
struct Parts<'a> {
    rest: &'a [i32],
}

impl Parts<'_> {
    /// So many numbers.
    fn take(&mut self, count: usize) -> Result<Vec<i32>, Malformed> {
        let (taken, rest) = self.rest.split_at_checked(count).ok_or(Malformed)?;
        self.rest = rest;
        Ok(taken.to_vec())
    }

    fn number(&mut self) -> Result<i32, Malformed> {
        Ok(self.take(1)?[0])
    }

    /// A number that counts things, within what the text allows of them.
    fn count(&mut self, least: usize, most: usize) -> Result<usize, Malformed> {
        match usize::try_from(self.number()?) {
            Ok(count) if (least..=most).contains(&count) => Ok(count),
            _ => Err(Malformed),
        }
    }
}

impl Parts<'_> {
    /// The number of sets, and the words of each.
    fn sets(&mut self) -> Result<Vec<i32>, Malformed> {
        let mut words = Vec::new();
        for _ in 0..self.count(0, MAX_SETS)? {
            words.extend(self.take(SET_HEAD_WORDS - 1)?);
            let members = self.count(0, MOST_MEMBERS)?;
            words.push(members as i32);
            words.extend(self.take(members)?);
        }
        Ok(words)
    }
}

/// Splits the numbers into the parts of a job and its round limit.
fn job_of(numbers: &[i32]) -> Result<(RawJob, i32), Malformed> {
    let mut parts = Parts { rest: numbers };
    let horizon = parts.number()?;
    let cages = parts.count(1, MAX_CAGES)?;
    let cages = parts.take(cages * CAGE_WORDS)?;
    let events = parts.count(0, MAX_EVENTS)?;
    let lags = parts.count(0, MAX_LAGS)?;
    let windows = parts.take(events * EVENT_WORDS)?;
    let lags = parts.take(lags * LAG_WORDS)?;
    let sets = parts.sets()?;
    let limit = match parts.rest {
        [] => DEFAULT_LIMIT,
        [limit] => *limit,
        _ => return Err(Malformed),
    };
    let job = RawJob {
        horizon,
        cages,
        windows,
        lags,
        sets,
        amount_bound: AMOUNT_BOUND,
    };
    Ok((job, limit))
}

/// The lines that answer a job.
fn answer_job(job: &RawJob, limit: i32) -> String {
    let mut windows = job.windows.clone();
    let mut buffer = vec![0; TEXT_ROOM];
    let answer = plan(&job.settings(), &mut windows, limit, &mut buffer);
    match answer {
        PlanAnswer::Settled(tally) => taken("settled", tally, &windows),
        PlanAnswer::Conflict(tally) => taken("conflict", tally, &windows),
        PlanAnswer::Stopped(tally) => taken("stopped", tally, &windows),
        PlanAnswer::Refused(refusal) => refused(refusal),
    }
}

fn taken(word: &str, tally: Tally, windows: &[i32]) -> String {
    let mut out = format!("{word} {} {}\n", tally.slips, tally.rounds);
    for (event, ends) in windows.chunks_exact(EVENT_WORDS).enumerate() {
        // Writing into a string cannot fail.
        let _ = writeln!(
            out,
            "{event} {} {} {} {}",
            ends[0], ends[1], ends[2], ends[3]
        );
    }
    out
}

fn refused(refusal: Refusal) -> String {
    format!("refused {} {}\n", refusal.number, refusal.place)
}

/// The lines for numbers read, or for a text that gave none.
fn answer_numbers(numbers: Result<Vec<i32>, Malformed>) -> String {
    match numbers.and_then(|numbers| job_of(&numbers)) {
        Ok((job, limit)) => answer_job(&job, limit),
        Err(Malformed) => refused(Refusal {
            number: MALFORMED,
            place: 0,
        }),
    }
}

/// The answer to a whole text.
pub fn answer_text(text: &[u8]) -> String {
    let mut reader = NumberReader::default();
    let numbers = reader.take(text).and_then(|()| reader.finish());
    answer_numbers(numbers)
}

/// The answer to a text of any length, read in pieces.
pub fn answer_input(input: &mut impl Read) -> io::Result<String> {
    let mut reader = NumberReader::default();
    let mut piece = [0; PIECE];
    loop {
        let count = match input.read(&mut piece) {
            Ok(count) => count,
            Err(error) if error.kind() == io::ErrorKind::Interrupted => continue,
            Err(error) => return Err(error),
        };
        if count == 0 {
            return Ok(answer_numbers(reader.finish()));
        }
        if reader.take(&piece[..count]).is_err() {
            return Ok(answer_numbers(Err(Malformed)));
        }
    }
}
