//! The text program: forms of text, and the lines it prints.

use std::io::{self, Read};

use second::gen_texts::random_text;
use second::rng::Rng;
use second::text::{answer_input, answer_text};

const MALFORMED: &str = "refused 20 0\n";

fn answer(text: &str) -> String {
    answer_text(text.as_bytes())
}

/// The text of a job without events, lags and sets.
const EMPTY: &str = "100 1 0 10 0 1 0 0 0";

#[test]
fn k1_as_text() {
    let text = "100 1 0 10 0 1 2 0\n5 40 6 6 0\n0 30 -4 -4 0\n0\n";
    let lines = "settled 1 2\n0 5 40 6 6\n1 5 30 -4 -4\n";
    assert_eq!(answer(text), lines);
}

#[test]
fn the_cover_follows_q() {
    let text = "100 1 0 10 0 0 2 0\n5 40 6 6 0\n0 30 -4 -4 0\n0\n";
    let lines = "settled 1 2\n0 5 40 6 6\n1 6 30 -4 -4\n";
    assert_eq!(answer(text), lines);
    assert_eq!(answer("100 1 0 10 0 2 0 0 0"), "refused 22 0\n");
}

#[test]
fn cages_follow_h() {
    let text = "100 2  0 10 4 1  0 10 0 0  3 0\n0 30 -4 -4 0\n5 40 6 6 1\n0 30 -4 -4 1\n0";
    let lines = "settled 1 2\n0 0 30 -4 -4\n1 5 40 6 6\n2 6 30 -4 -4\n";
    assert_eq!(answer(text), lines);
    assert_eq!(answer("100 2  0 10 4 1  0 10 11 0  0 0 0"), "refused 3 1\n");
    assert_eq!(
        answer("100 1  0 10 0 1  1 0  0 5 0 0 1  0"),
        "refused 30 0\n"
    );
    assert_eq!(answer("100 0 0 0 0"), MALFORMED);
    assert_eq!(answer("100 -1 0 0 0"), MALFORMED);
    let nine = "0 10 0 1 ".repeat(9);
    assert_eq!(answer(&format!("100 9 {nine} 0 0 0")), MALFORMED);
}

#[test]
fn sets_follow_the_lags() {
    let job = "100 1 -50 50 0 1 2 1  0 9 1 5 0  0 9 1 5 0  0 1 5";
    let text = |sets: &str| answer(&format!("{job} {sets}"));
    assert_eq!(text("1  7 8 2 1 0"), "settled 2 2\n0 0 9 2 5\n1 0 9 2 5\n");
    assert_eq!(text("0"), "settled 0 1\n0 0 9 1 5\n1 0 9 1 5\n");
    assert_eq!(text("2  0 9 1 0  0 9 0"), "refused 32 1\n");
    assert_eq!(text("1  9 0 1 0"), "refused 33 0\n");
    for wrong in [
        "",
        "-1",
        "17",
        "1",
        "1 0 9",
        "1 0 9 -1",
        "1 0 9 65",
        "1 0 9 2 0",
        "0 0 9",
    ] {
        assert_eq!(text(wrong), MALFORMED, "{wrong}");
    }
    // Sixteen sets of 64 members are read, and one member stands twice.
    let members = "0 ".repeat(64);
    let sets = format!("0 9 64 {members}").repeat(16);
    assert_eq!(text(&format!("16 {sets}")), "refused 32 0\n");
}

#[test]
fn blanks_of_all_kinds() {
    let text = " \t\r\n100\r\n1\n0\t10   0 1 2 0 5 40\n\n6 6 0 0 30 -4 -4 0 0";
    assert_eq!(answer(text), "settled 1 2\n0 5 40 6 6\n1 5 30 -4 -4\n");
    assert_eq!(answer(EMPTY), "settled 0 1\n");
    for wrong in ["\u{b}", "\u{c}", "\0", "\u{a0}"] {
        assert_eq!(answer(&format!("{EMPTY}{wrong}")), MALFORMED);
    }
}

#[test]
fn forms_of_numbers() {
    assert_eq!(answer("000100 1 -0 0010 -000 01 0 0 -0"), "settled 0 1\n");
    for wrong in [
        "+5", "-", "- 5", "1.0", "--5", "5-", "5-3", "0x1", "1e2", "1,", "a",
    ] {
        assert_eq!(
            answer(&format!("100 1 0 10 {wrong} 1 0 0 0")),
            MALFORMED,
            "{wrong}"
        );
    }
    let zeros = "0".repeat(100_000);
    assert_eq!(
        answer(&format!("{zeros}100 1 0 10 -{zeros} 1 0 0 0")),
        "settled 0 1\n"
    );
}

#[test]
fn numbers_outside_32_bits() {
    let with_h = |h: &str| answer(&format!("{h} 1 0 10 0 1 0 0 0"));
    assert_eq!(with_h("2147483647"), "refused 1 0\n");
    assert_eq!(with_h("-2147483648"), "refused 1 0\n");
    assert_eq!(with_h("2147483648"), MALFORMED);
    assert_eq!(with_h("-2147483649"), MALFORMED);
    assert_eq!(with_h(&"9".repeat(100_000)), MALFORMED);
}

#[test]
fn counts_of_numbers() {
    for wrong in ["", " \n", "100", "100 1 0 10 0 0", "100 1 0 10 0 1 0 0"] {
        assert_eq!(answer(wrong), MALFORMED, "{wrong}");
    }
    for wrong in [
        "65 0",
        "-1 0",
        "0 257",
        "0 -1",
        "1 0",
        "2147483647 2147483647",
    ] {
        assert_eq!(
            answer(&format!("100 1 0 10 0 1 {wrong} 0")),
            MALFORMED,
            "{wrong}"
        );
    }
    let too_many = format!("100 1 0 10 0 1 65 0 {} 0", "0 0 0 0 0 ".repeat(65));
    assert_eq!(answer(&too_many), MALFORMED);
}

#[test]
fn malformed_before_all_questions() {
    assert_eq!(answer("20001 1 5 4 0 1 0 0 0"), "refused 1 0\n");
    assert_eq!(answer("20001 1 5 4 0 1 0 0 0 x"), MALFORMED);
    assert_eq!(answer("20001 1 5 4 0 1 65 0 0"), MALFORMED);
}

#[test]
fn refusals_and_places() {
    assert_eq!(answer("100 1 0 10 11 1 0 0 0"), "refused 3 0\n");
    assert_eq!(
        answer("100 1 0 10 0 1 2 0 0 30 -1 1 0 5 4 2 2 0 0"),
        "refused 5 1\n"
    );
    assert_eq!(
        answer("100 1 0 10 0 1 2 2 0 1 0 0 0 0 1 0 0 0  0 1 3  1 1 3  0"),
        "refused 9 1\n"
    );
}

#[test]
fn the_largest_job() {
    let cages = "0 10 0 1\n".repeat(8);
    let events = "0 100 0 0 7\n".repeat(64);
    let lags = "0 1 20000\n".repeat(256);
    let members: String = (0..64).map(|event| format!(" {event}")).collect();
    let sets = format!("0 0 64{members}\n").repeat(16);
    let text = format!("100 8\n{cages}64 256\n{events}{lags}16\n{sets}");
    let lines = answer(&text);
    assert!(lines.starts_with("settled 0 1\n0 0 100 0 0\n"));
    assert!(lines.ends_with("\n63 0 100 0 0\n"));
    assert_eq!(lines.lines().count(), 65);
    assert_eq!(answer(&format!("{text} 0 0")), MALFORMED);
}

#[test]
fn windows_after_conflict_and_stopped() {
    // Two lags at odds: two slips in the first round, then four in each, of 10
    // words; 1,599 of them and the trailer fit into 16,000 words.
    let text = "20000 1 0 10 0 1 2 2  0 20000 0 0 0  0 20000 0 0 0  0 1 0  1 0 -1  0  0";
    assert_eq!(
        answer(text),
        "stopped 1599 401\n0 400 19600 0 0\n1 399 19600 0 0\n"
    );
    assert_eq!(
        answer("100 1 0 10 3 1 1 0 0 30 -4 -4 0 0"),
        "conflict 1 1\n0 0 30 -4 -4\n"
    );
}

#[test]
fn the_limit_ends_the_text() {
    let creep = "20000 1 0 10 0 1 2 2  0 20000 0 0 0  0 20000 0 0 0  0 1 0  1 0 -1  0";
    // Two slips in the first round, then four in each.
    let default = "stopped 158 40\n0 40 19961 0 0\n1 39 19960 0 0\n";
    assert_eq!(answer(creep), default);
    assert_eq!(answer(&format!("{creep} 40")), default);
    assert_eq!(
        answer(&format!("{creep} 1")),
        "stopped 2 1\n0 1 20000 0 0\n1 0 19999 0 0\n"
    );
    assert_eq!(answer(&format!("{EMPTY} 1")), "settled 0 1\n");
    for wrong in ["-1", "1000001", "-2147483648"] {
        assert_eq!(answer(&format!("{EMPTY} {wrong}")), "refused 28 0\n");
    }
    assert_eq!(answer(&format!("{EMPTY} 1000000")), "settled 0 1\n");
    assert_eq!(answer(&format!("{EMPTY} 0 0")), MALFORMED);
    assert_eq!(answer(&format!("{EMPTY} 2147483648")), MALFORMED);
    assert_eq!(
        answer("100 1 0 10 0 1 1 0 0 9 0 0 0  1 0 9 0  -1"),
        "refused 28 0\n"
    );
}

/// Gives its text one byte at a time.
struct Drip<'a>(&'a [u8]);

impl Read for Drip<'_> {
    fn read(&mut self, out: &mut [u8]) -> io::Result<usize> {
        let Some((first, rest)) = self.0.split_first() else {
            return Ok(0);
        };
        out[0] = *first;
        self.0 = rest;
        Ok(1)
    }
}

#[test]
fn pieces_of_any_size() {
    let text = b"100 1 0 10 0 1 2 0\n5 40 6 6 0\n0 30 -4 -4 0 0";
    let lines = answer_input(&mut Drip(text)).expect("reading from memory");
    assert_eq!(lines.as_bytes(), answer_text(text).as_bytes());
    let bad = answer_input(&mut Drip(b"100 1 0 10 0 1 0 0 0 -")).expect("reading from memory");
    assert_eq!(bad, MALFORMED);
}

/// The random texts of the gate's seed reach every answer that the program has.
#[test]
fn random_texts_reach_all_answers() {
    let mut rng = Rng::new(1);
    let answers: Vec<String> = (0..2_000)
        .map(|_| answer_text(&random_text(&mut rng)))
        .collect();
    let wanted = ["settled ", "conflict ", "stopped "]
        .map(String::from)
        .into_iter()
        .chain(
            [1, 2, 3, 5, 6, 8, 9, 10, 20, 22, 28, 30, 32, 33]
                .map(|number| format!("refused {number} ")),
        );
    for beginning in wanted {
        assert!(
            answers.iter().any(|answer| answer.starts_with(&beginning)),
            "{beginning}"
        );
    }
}
