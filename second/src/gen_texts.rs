//! Random texts for the text program: jobs written in many ways, and texts
//! with something broken.

use std::fs;
use std::io::{self, Write};
use std::path::Path;

use crate::gen_faults::make_faulty;
use crate::gen_jobs::{creeping_job, sound_job};
use crate::job::{CAGE_WORDS, EVENT_WORDS, LAG_WORDS};
use crate::raw_job::RawJob;
use crate::rng::Rng;
use crate::sets::SET_HEAD_WORDS;
use crate::text::answer_text;

/// Writes texts 0, 1, .. into a folder, one a file, and to `out` what the text
/// program answers to each, followed by a line that names it.
pub fn write_texts(out: &mut impl Write, seed: u64, count: usize, folder: &Path) -> io::Result<()> {
    let mut rng = Rng::new(seed);
    for number in 0..count {
        let name = format!("{number:06}");
        let text = random_text(&mut rng);
        fs::write(folder.join(&name), &text)?;
        writeln!(out, "{}-- {name}", answer_text(&text))?;
    }
    Ok(())
}

/// Six texts of ten are a job's, sound or faulty; the others have something
/// broken.
pub fn random_text(rng: &mut Rng) -> Vec<u8> {
    let mut numbers = job_numbers(rng);
    let kind = rng.below(10);
    if kind == 9 {
        return noise(rng);
    }
    if kind == 6 {
        miscount(rng, &mut numbers);
    }
    let mut words = spelled(rng, &numbers);
    if kind == 7 {
        misspell(rng, &mut words);
    }
    let mut text = join(rng, &words);
    if kind == 8 {
        damage(rng, &mut text);
    }
    text
}

// ---------------------------------------------------------------------------
// Numbers
// ---------------------------------------------------------------------------

/// Where the number of cages stands among a text's numbers.
const CAGE_COUNT: usize = 1;

/// The numbers of a job's text: H, the number of cages and their words, n, m,
/// the events, the lags, the number of sets and their words, in half of all
/// cases a round limit.
fn job_numbers(rng: &mut Rng) -> Vec<i64> {
    let job = random_job(rng);
    let counts = [
        (job.windows.len() / EVENT_WORDS) as i32,
        (job.lags.len() / LAG_WORDS) as i32,
    ];
    [job.horizon, (job.cages.len() / CAGE_WORDS) as i32]
        .iter()
        .chain(&job.cages)
        .chain(&counts)
        .chain(&job.windows)
        .chain(&job.lags)
        .chain(&[set_count(&job.sets)])
        .chain(&job.sets)
        .chain(&some_limit(rng))
        .map(|word| i64::from(*word))
        .collect()
}

/// A round limit, sound or not, or none.
fn some_limit(rng: &mut Rng) -> Vec<i32> {
    match rng.below(8) {
        0..=3 => Vec::new(),
        4 => vec![0],
        5 | 6 => vec![rng.pick(&[1, 2, 3, 40, 41, 1_000_000])],
        _ => vec![rng.pick(&[-1, 1_000_001, i32::MIN, i32::MAX])],
    }
}

/// How many sets a table holds, one cut short at its end counted too.
fn set_count(mut words: &[i32]) -> i32 {
    let mut count = 0;
    while !words.is_empty() {
        let members = words.get(SET_HEAD_WORDS - 1).copied().unwrap_or(0);
        let length = SET_HEAD_WORDS + usize::try_from(members).unwrap_or(0);
        words = words.get(length..).unwrap_or(&[]);
        count += 1;
    }
    count
}

fn random_job(rng: &mut Rng) -> RawJob {
    let mut job = match rng.below(100) {
        0 => creeping_job(rng, 20_000),
        _ => sound_job(rng),
    };
    if rng.chance(1, 4) {
        let mut room = 0;
        make_faulty(rng, &mut job, &mut room);
    }
    job
}

/// A number too few or too many, or counts that do not fit.
fn miscount(rng: &mut Rng, numbers: &mut Vec<i64>) {
    // n and m follow the cages, as many as the text says; m is next to n; the
    // number of sets follows the lags.
    let after_cages = CAGE_COUNT + 1 + CAGE_WORDS * numbers[CAGE_COUNT].max(0) as usize;
    let event_count = after_cages.min(numbers.len() - 2);
    let lag_count = event_count + 1;
    let event_words = EVENT_WORDS * numbers[event_count].max(0) as usize;
    let lag_words = LAG_WORDS * numbers[lag_count].max(0) as usize;
    let set_count = (lag_count + 1 + event_words + lag_words).min(numbers.len() - 1);
    match rng.below(11) {
        0 => {
            numbers.pop();
        }
        1 => {
            let more = 1 + rng.below(2);
            numbers.extend((0..more).map(|_| rng.within(-9, 9)));
        }
        2 => numbers.truncate(rng.below(numbers.len())),
        3 => numbers[event_count] = rng.pick(&[-1, 65, 64, i64::from(i32::MAX)]),
        4 => numbers[lag_count] = rng.pick(&[-1, 257, 256, i64::from(i32::MIN)]),
        5 => numbers[CAGE_COUNT] = rng.pick(&[-1, 0, 9, 8, i64::from(i32::MAX)]),
        6 => {
            let place = rng.pick(&[CAGE_COUNT, set_count]);
            numbers.remove(place);
        }
        7 => numbers[set_count] = rng.pick(&[-1, 17, 16, i64::from(i32::MAX)]),
        8 => {
            // The member count of the first set, if there is one.
            let place = (set_count + SET_HEAD_WORDS).min(numbers.len() - 1);
            numbers[place] = rng.pick(&[-1, 0, 64, 65, i64::from(i32::MIN)]);
        }
        _ => {
            let place = rng.pick(&[CAGE_COUNT, event_count, lag_count, set_count]);
            numbers[place] += rng.pick(&[-1, 1]);
        }
    }
}

// ---------------------------------------------------------------------------
// Words
// ---------------------------------------------------------------------------

/// Each number as it is printed, or some or all of them oddly.
fn spelled(rng: &mut Rng, numbers: &[i64]) -> Vec<Vec<u8>> {
    let odd_of_8 = rng.pick(&[0, 0, 0, 1, 8]);
    let mut words = Vec::new();
    for number in numbers {
        words.push(if rng.chance(odd_of_8, 8) {
            oddly(rng, *number)
        } else {
            number.to_string().into_bytes()
        });
    }
    words
}

/// Leading zeros, and a minus before zero.
fn oddly(rng: &mut Rng, number: i64) -> Vec<u8> {
    let minus = number < 0 || (number == 0 && rng.chance(1, 2));
    let zeros = rng.pick(&[0, 1, 2, 9, 40]);
    let sign = if minus { "-" } else { "" };
    format!("{sign}{}{}", "0".repeat(zeros), number.abs()).into_bytes()
}

/// One word that is no number of 32 bits.
fn misspell(rng: &mut Rng, words: &mut [Vec<u8>]) {
    const WRONG: &[&str] = &[
        "+5",
        "-",
        "--5",
        "5-",
        "5-3",
        "-5-",
        "1.0",
        "1,",
        "0x1",
        "1e2",
        "a",
        "2147483648",
        "-2147483649",
        "4294967296",
        "-4294967295",
        "99999999999999999999",
        "-00000000002147483649",
        "1\u{b}2",
        "\u{b2}",
    ];
    let place = rng.below(words.len());
    words[place] = rng.pick(WRONG).as_bytes().to_vec();
}

// ---------------------------------------------------------------------------
// Bytes
// ---------------------------------------------------------------------------

/// The words with blanks of all kinds between them, sometimes around them.
fn join(rng: &mut Rng, words: &[Vec<u8>]) -> Vec<u8> {
    let plain = rng.chance(1, 2);
    let mut text = Vec::new();
    if rng.chance(1, 4) {
        blanks(rng, plain, &mut text);
    }
    for (place, word) in words.iter().enumerate() {
        if place > 0 {
            blanks(rng, plain, &mut text);
        }
        text.extend(word);
    }
    if rng.chance(3, 4) {
        blanks(rng, plain, &mut text);
    }
    text
}

fn blanks(rng: &mut Rng, plain: bool, text: &mut Vec<u8>) {
    let count = if plain { 1 } else { 1 + rng.below(3) };
    for _ in 0..count {
        text.push(if plain { b' ' } else { rng.pick(b" \t\n\r") });
    }
}

/// A byte changed, added, taken away or doubled, up to three times; or the
/// text's end cut off.
fn damage(rng: &mut Rng, text: &mut Vec<u8>) {
    const BYTES: &[u8] = b"-+0 9.\n\0\xff\x0b\x0c:/x\"";
    if rng.chance(1, 5) {
        text.truncate(rng.below(text.len()));
        return;
    }
    for _ in 0..1 + rng.below(3) {
        let place = rng.below(text.len());
        match rng.below(4) {
            0 => text[place] = rng.pick(BYTES),
            1 => text.insert(place, rng.pick(BYTES)),
            2 => text.insert(place, text[place]),
            _ if text.len() > 1 => {
                text.remove(place);
            }
            _ => {}
        }
    }
}

/// Bytes that are mostly numbers' own, or any bytes.
fn noise(rng: &mut Rng) -> Vec<u8> {
    let count = rng.below(60);
    let any = rng.chance(1, 3);
    (0..count)
        .map(|_| {
            if any {
                rng.word() as u8
            } else {
                rng.pick(b"0123456789  \n\t--")
            }
        })
        .collect()
}
