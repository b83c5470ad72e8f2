//! The stream of records and the checks by enumeration.

use second::answers::{answer_line, write_answers};
use second::brute;
use second::counts::write_counts;
use second::raw_job::{
    MOST_BUFFER_WORDS, MOST_CAGE_WORDS, MOST_LAG_WORDS, MOST_SET_WORDS, MOST_WINDOW_WORDS,
};
use second::stream::{checksum, write_stream, Call, RecordReader};

fn small_stream(seed: u64) -> Vec<u8> {
    let mut bytes = Vec::new();
    write_stream(&mut bytes, seed, 300, 900).expect("writing to memory");
    bytes
}

#[test]
fn the_seed_decides_the_stream() {
    assert_eq!(small_stream(5), small_stream(5));
    assert_ne!(small_stream(5), small_stream(6));
}

#[test]
fn records_keep_their_limits() {
    let bytes = small_stream(7);
    let mut records = RecordReader::new(bytes.as_slice());
    let (mut plans, mut reads) = (0, 0);
    while let Some(record) = records.next_record().expect("a whole stream") {
        let most = [
            MOST_CAGE_WORDS,
            MOST_WINDOW_WORDS,
            MOST_LAG_WORDS,
            MOST_SET_WORDS,
            MOST_BUFFER_WORDS,
        ];
        for (table, most) in record.tables().iter().zip(most) {
            assert!(table.len() <= most);
        }
        match record.call {
            Call::Plan => plans += 1,
            Call::Read => reads += 1,
        }
    }
    assert_eq!((plans, reads), (300, 900));
}

#[test]
fn one_line_for_every_record() {
    let bytes = small_stream(8);
    let mut lines = Vec::new();
    write_answers(bytes.as_slice(), &mut lines).expect("a whole stream");
    let lines = String::from_utf8(lines).expect("plain text");
    assert_eq!(lines.lines().count(), 1_200);
    let mut records = RecordReader::new(bytes.as_slice());
    let mut first = records
        .next_record()
        .expect("a whole stream")
        .expect("a first record");
    assert_eq!(lines.lines().next(), Some(answer_line(&mut first).as_str()));
}

/// The rows of the tables of refusals and of rules, five columns each.
fn count_rows(text: &str) -> Vec<Vec<u64>> {
    text.lines()
        .filter_map(|line| {
            line.split_whitespace()
                .map(|word| word.parse().ok())
                .collect()
        })
        .collect()
}

#[test]
fn every_refusal_and_every_rule_is_reached() {
    let mut bytes = Vec::new();
    write_stream(&mut bytes, 9, 8_000, 16_000).expect("writing to memory");
    let mut text = Vec::new();
    write_counts(bytes.as_slice(), &mut text).expect("a whole stream");
    let text = String::from_utf8(text).expect("plain text");
    let rows = count_rows(&text);
    let (refusals, rules) = rows.split_at(26);
    assert_eq!(rules.len(), 2 * 16, "{text}");
    for row in refusals {
        let by_planner = !(12..=19).contains(&row[0]);
        let by_reader = row[0] != 28;
        assert_eq!([row[1] > 0, row[3] > 0], [by_planner, by_reader], "{text}");
    }
    for row in rules {
        let level = [3, 6, 9, 12].contains(&row[0]);
        let wait = [4, 7, 10, 13].contains(&row[0]);
        let plan_conflict = !wait && row[0] != 2;
        assert_eq!(row[1] > 0, !level, "{text}");
        assert_eq!(row[2] > 0, plan_conflict, "{text}");
        assert_eq!(row[3] > 0, !level, "{text}");
        assert_eq!(row[4] > 0, !wait, "{text}");
    }
}

#[test]
fn checksums() {
    assert_eq!(checksum(&[]), 2_166_136_261);
    // (2166136261 · 16777619 − 1) mod 2³², computed by hand.
    let by_hand = (2_166_136_261_u64 * 16_777_619 + 0xffff_ffff) % (1 << 32);
    assert_eq!(u64::from(checksum(&[-1])), by_hand);
}

#[test]
fn small_jobs_by_enumeration() {
    let mut lines = Vec::new();
    let sound = brute::run(11, 300, &mut lines).expect("writing to memory");
    assert!(sound, "{}", String::from_utf8_lossy(&lines));
}
