//! The command line: `second plan | texts | stream | answers | counts | brute`.

use std::io::{self, BufReader, BufWriter, Write};
use std::path::Path;
use std::process::ExitCode;

use second::{answers, brute, counts, gen_texts, stream, text};

const USAGE: &str = "usage:
  second plan < TEXT                    answer one job given as text
  second texts SEED N FOLDER            write N texts as files, and what they are answered
  second stream SEED JOBS LISTS > FILE  write a seeded stream of records
  second answers < FILE                 one answer line for every record
  second counts < FILE                  what the stream reaches
  second brute SEED N                   check N small jobs by enumeration";

const BUFFER_BYTES: usize = 1 << 16;

fn main() -> ExitCode {
    let arguments: Vec<String> = std::env::args().skip(1).collect();
    let words: Vec<&str> = arguments.iter().map(String::as_str).collect();
    let done = match words.as_slice() {
        ["plan"] => run_text(),
        ["texts", seed, count, folder] => match (seed.parse(), count.parse()) {
            (Ok(seed), Ok(count)) => run_texts(seed, count, Path::new(folder)),
            _ => return usage(),
        },
        ["stream", seed, jobs, lists] => match (seed.parse(), jobs.parse(), lists.parse()) {
            (Ok(seed), Ok(jobs), Ok(lists)) => run_stream(seed, jobs, lists),
            _ => return usage(),
        },
        ["answers"] => run_answers(),
        ["counts"] => run_counts(),
        ["brute", seed, jobs] => match (seed.parse(), jobs.parse()) {
            (Ok(seed), Ok(jobs)) => run_brute(seed, jobs),
            _ => return usage(),
        },
        _ => return usage(),
    };
    match done {
        Ok(true) => ExitCode::SUCCESS,
        Ok(false) => ExitCode::FAILURE,
        Err(error) => {
            eprintln!("second: {error}");
            ExitCode::FAILURE
        }
    }
}

fn usage() -> ExitCode {
    eprintln!("{USAGE}");
    ExitCode::from(2)
}

fn input() -> impl io::Read {
    BufReader::with_capacity(BUFFER_BYTES, io::stdin().lock())
}

fn output() -> impl Write {
    BufWriter::with_capacity(BUFFER_BYTES, io::stdout().lock())
}

fn run_text() -> io::Result<bool> {
    let answer = text::answer_input(&mut io::stdin().lock())?;
    let mut out = output();
    out.write_all(answer.as_bytes())?;
    out.flush()?;
    Ok(true)
}

fn run_texts(seed: u64, count: usize, folder: &Path) -> io::Result<bool> {
    let mut out = output();
    gen_texts::write_texts(&mut out, seed, count, folder)?;
    out.flush()?;
    Ok(true)
}

fn run_stream(seed: u64, jobs: usize, lists: usize) -> io::Result<bool> {
    let mut out = output();
    stream::write_stream(&mut out, seed, jobs, lists)?;
    out.flush()?;
    Ok(true)
}

fn run_answers() -> io::Result<bool> {
    let mut out = output();
    answers::write_answers(input(), &mut out)?;
    out.flush()?;
    Ok(true)
}

fn run_counts() -> io::Result<bool> {
    let mut out = output();
    counts::write_counts(input(), &mut out)?;
    out.flush()?;
    Ok(true)
}

fn run_brute(seed: u64, jobs: usize) -> io::Result<bool> {
    let mut out = output();
    let sound = brute::run(seed, jobs, &mut out)?;
    out.flush()?;
    Ok(sound)
}
