//! The stream of records that two implementations are compared on: little-endian
//! 32-bit words, a header and its tables a record, a single 0 at the end.

use std::io::{self, Read, Write};

use crate::gen_lists::read_record;
use crate::gen_plans::plan_record;
use crate::job::AMOUNT_BOUND;
use crate::raw_job::RawJob;
use crate::rng::Rng;

const PLAN_KIND: i32 = 1;
const READ_KIND: i32 = 2;
const END_WORD: i32 = 0;
const WORD_BYTES: usize = 4;
/// Cages, windows, lags, sets, buffer.
const TABLES: usize = 5;
/// Kind, H, limit and the lengths of the tables.
pub const HEADER_WORDS: usize = 3 + TABLES;
/// A longer table in a header means that the stream is not one of ours.
const MOST_WORDS: i32 = 2_000_000;

/// Which call a record is for.
#[derive(Clone, Copy, Debug, PartialEq, Eq)]
pub enum Call {
    Plan,
    Read,
}

/// One call: the job's words, and the slip buffer's words at entry (for the
/// checker, the list).
#[derive(Clone, Debug)]
pub struct Record {
    pub call: Call,
    pub job: RawJob,
    /// The round limit; 0 for the checker.
    pub limit: i32,
    pub buffer: Vec<i32>,
}

impl Record {
    /// The record's tables in the order in which they are written.
    pub fn tables(&self) -> [&[i32]; TABLES] {
        let job = &self.job;
        [&job.cages, &job.windows, &job.lags, &job.sets, &self.buffer]
    }

    pub fn write(&self, out: &mut impl Write) -> io::Result<()> {
        let call = match self.call {
            Call::Plan => PLAN_KIND,
            Call::Read => READ_KIND,
        };
        write_words(out, &[call, self.job.horizon, self.limit])?;
        write_words(out, &self.tables().map(|table| table.len() as i32))?;
        self.tables()
            .iter()
            .try_for_each(|table| write_words(out, table))
    }
}

fn write_words(out: &mut impl Write, words: &[i32]) -> io::Result<()> {
    words
        .iter()
        .try_for_each(|word| out.write_all(&word.to_le_bytes()))
}

/// Reads the records of a stream one by one.
pub struct RecordReader<R> {
    input: R,
    bytes: Vec<u8>,
}

impl<R: Read> RecordReader<R> {
    pub fn new(input: R) -> RecordReader<R> {
        RecordReader {
            input,
            bytes: Vec::new(),
        }
    }

    /// The next record, or nothing at the end word.
    pub fn next_record(&mut self) -> io::Result<Option<Record>> {
        let call = match self.words(1)?[0] {
            END_WORD => return Ok(None),
            PLAN_KIND => Call::Plan,
            READ_KIND => Call::Read,
            _ => return Err(bad_stream("unknown kind of record")),
        };
        let numbers = self.words(2)?;
        let lengths = self.words(TABLES)?;
        let [cages, windows, lags, sets, buffer] = self.tables(&lengths)?;
        let job = RawJob {
            horizon: numbers[0],
            cages,
            windows,
            lags,
            sets,
            amount_bound: AMOUNT_BOUND,
        };
        Ok(Some(Record {
            call,
            job,
            limit: numbers[1],
            buffer,
        }))
    }

    fn tables(&mut self, lengths: &[i32]) -> io::Result<[Vec<i32>; TABLES]> {
        let mut tables = [const { Vec::new() }; TABLES];
        for (table, length) in tables.iter_mut().zip(lengths) {
            *table = self.table(*length)?;
        }
        Ok(tables)
    }

    fn table(&mut self, count: i32) -> io::Result<Vec<i32>> {
        if !(0..=MOST_WORDS).contains(&count) {
            return Err(bad_stream("table length out of range"));
        }
        self.words(count as usize)
    }

    fn words(&mut self, count: usize) -> io::Result<Vec<i32>> {
        self.bytes.resize(count * WORD_BYTES, 0);
        self.input.read_exact(&mut self.bytes)?;
        let words = self.bytes.chunks_exact(WORD_BYTES);
        Ok(words
            .map(|b| i32::from_le_bytes([b[0], b[1], b[2], b[3]]))
            .collect())
    }
}

fn bad_stream(message: &str) -> io::Error {
    io::Error::new(io::ErrorKind::InvalidData, message)
}

/// The checksum of a table's words.
pub fn checksum(words: &[i32]) -> u32 {
    words.iter().fold(2_166_136_261, |sum: u32, word| {
        sum.wrapping_mul(16_777_619).wrapping_add(*word as u32)
    })
}

/// Writes a seeded stream with so many records of each call, evenly mixed.
pub fn write_stream(out: &mut impl Write, seed: u64, jobs: usize, lists: usize) -> io::Result<()> {
    let mut rng = Rng::new(seed);
    let total = jobs + lists;
    let mut plans = 0;
    for done in 0..total {
        // The share of plan records written so far never falls behind.
        let record = if plans * total <= done * jobs && plans < jobs {
            plans += 1;
            plan_record(&mut rng)
        } else {
            read_record(&mut rng)
        };
        record.write(out)?;
    }
    write_words(out, &[END_WORD])
}
