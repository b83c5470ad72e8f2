//! The cases K1 to K11 of document 01, every word of both tables.

use second::job::AMOUNT_BOUND;
use second::{plan, read, PlanAnswer, ReadAnswer, Refusal, Settings, Tally};

/// What a buffer word holds before a call.
const JUNK: i32 = -777;

/// A job of the cases: H 100, one cage, Lmin 0, Lmax 10 unless changed.
#[derive(Clone)]
struct Case {
    h: i32,
    cages: Vec<i32>,
    windows: Vec<i32>,
    lags: Vec<i32>,
    sets: Vec<i32>,
    limit: i32,
    room: usize,
}

/// Events of four words, all put into cage 0.
fn in_cage_0(windows: &[i32]) -> Vec<i32> {
    let events = windows.chunks(4);
    events.flat_map(|event| [event, &[0]].concat()).collect()
}

fn case(q: i32, windows: &[i32]) -> Case {
    Case {
        h: 100,
        cages: vec![0, 10, q, 1],
        windows: in_cage_0(windows),
        lags: Vec::new(),
        sets: Vec::new(),
        limit: 0,
        room: 40,
    }
}

impl Case {
    fn with_cover(mut self, cover: i32) -> Case {
        self.cages[3] = cover;
        self
    }

    fn with_cages(mut self, cages: &[i32], windows: &[i32]) -> Case {
        self.cages = cages.to_vec();
        self.windows = windows.to_vec();
        self
    }

    fn with_lags(mut self, lags: &[i32]) -> Case {
        self.lags = lags.to_vec();
        self
    }

    fn with_sets(mut self, sets: &[i32]) -> Case {
        self.sets = sets.to_vec();
        self
    }

    fn with_limit(mut self, limit: i32) -> Case {
        self.limit = limit;
        self
    }

    fn with_room(mut self, room: usize) -> Case {
        self.room = room;
        self
    }

    fn settings(&self) -> Settings<'_> {
        Settings {
            horizon: self.h,
            cages: &self.cages,
            lags: &self.lags,
            sets: &self.sets,
            amount_bound: AMOUNT_BOUND,
        }
    }

    /// The answer, the window table and the buffer after the call.
    fn plan(&self) -> (PlanAnswer, Vec<i32>, Vec<i32>) {
        let mut windows = self.windows.clone();
        let mut buffer = vec![JUNK; self.room];
        let answer = plan(&self.settings(), &mut windows, self.limit, &mut buffer);
        (answer, windows, buffer)
    }

    /// The answer and the window table after the call.
    fn read(&self, list: &[i32]) -> (ReadAnswer, Vec<i32>) {
        let mut windows = self.windows.clone();
        let answer = read(&self.settings(), &mut windows, list);
        (answer, windows)
    }

    /// `gives_table` for windows of four words in cage 0.
    fn gives(&self, answer: PlanAnswer, windows: &[i32], list: &[i32]) {
        self.gives_table(answer, &in_cage_0(windows), list);
    }

    /// Checks all words of a call that is taken, and that the checker comes to
    /// the same windows and verdict.
    fn gives_table(&self, answer: PlanAnswer, windows: &[i32], list: &[i32]) {
        let mut buffer = list.to_vec();
        buffer.resize(self.room, JUNK);
        assert_eq!(self.plan(), (answer, windows.to_vec(), buffer));
        let verdict = match answer {
            PlanAnswer::Conflict(_) => ReadAnswer::Conflict,
            _ => ReadAnswer::Open,
        };
        assert_eq!(self.read(list), (verdict, windows.to_vec()));
    }

    /// Checks that a call is refused and changes no word.
    fn is_refused(&self, number: i32, place: usize) {
        let refusal = Refusal { number, place };
        let buffer = vec![JUNK; self.room];
        assert_eq!(
            self.plan(),
            (
                PlanAnswer::Refused(refusal),
                self.windows.clone(),
                buffer.clone()
            )
        );
        assert_eq!(
            self.read(&buffer),
            (ReadAnswer::Refused(refusal), self.windows.clone())
        );
    }
}

fn tally(slips: usize, rounds: usize, length: usize) -> Tally {
    Tally {
        slips,
        rounds,
        length,
    }
}

fn refused(number: i32, place: usize) -> ReadAnswer {
    ReadAnswer::Refused(Refusal { number, place })
}

const K1_WINDOWS: [i32; 8] = [5, 40, 6, 6, 0, 30, -4, -4];
const K1_LEFT: [i32; 8] = [5, 40, 6, 6, 5, 30, -4, -4];
const K1_LIST: [i32; 16] = [10, 1, 1, 1, 5, 2, 0, 1, 5, 1, 4, -4, 13, 1, 0, 4207];

#[test]
fn k1_pull_waits_for_delivery() {
    let answer = PlanAnswer::Settled(tally(1, 2, 16));
    case(0, &K1_WINDOWS).gives(answer, &K1_LEFT, &K1_LIST);
    case(0, &K1_WINDOWS)
        .with_room(16)
        .gives(answer, &K1_LEFT, &K1_LIST);
}

#[test]
fn k2_no_room() {
    let answer = PlanAnswer::Stopped(tally(0, 1, 3));
    for room in 3..16 {
        case(0, &K1_WINDOWS)
            .with_room(room)
            .gives(answer, &K1_WINDOWS, &[0, 0, 4207]);
    }
}

#[test]
fn k3_no_events() {
    case(0, &[]).gives(PlanAnswer::Settled(tally(0, 1, 3)), &[], &[0, 0, 4207]);
}

#[test]
fn k4_pull_beyond_stock() {
    let windows = [0, 30, -4, -4];
    case(3, &windows).gives(
        PlanAnswer::Conflict(tally(1, 1, 13)),
        &windows,
        &[9, 0, 0, 0, 0, 1, 0, 4, -4, 10, 1, 0, 4207],
    );
    let settled = PlanAnswer::Settled(tally(0, 1, 3));
    case(4, &windows).gives(settled, &windows, &[0, 0, 4207]);
}

#[test]
fn k5_pull_made_smaller() {
    case(5, &[0, 30, -9, -2]).gives(
        PlanAnswer::Settled(tally(1, 2, 10)),
        &[0, 30, -5, -2],
        &[11, 0, 0, 3, -5, 0, 7, 1, 0, 4207],
    );
}

#[test]
fn k6_delivery_made_smaller() {
    case(0, &[0, 30, 7, 20]).gives(
        PlanAnswer::Settled(tally(1, 2, 10)),
        &[0, 30, 7, 10],
        &[14, 0, 0, 4, 10, 0, 7, 1, 0, 4207],
    );
    case(0, &[0, 30, 11, 20]).gives(
        PlanAnswer::Conflict(tally(1, 1, 13)),
        &[0, 30, 11, 20],
        &[12, 0, 0, 0, 0, 1, 0, 3, 11, 10, 1, 0, 4207],
    );
}

#[test]
fn k7_one_minute_is_netted() {
    let windows = [7, 7, 6, 6, 7, 7, -4, -4];
    let settled = PlanAnswer::Settled(tally(0, 1, 3));
    case(0, &windows).gives(settled, &windows, &[0, 0, 4207]);
}

#[test]
fn k1_and_k7_under_cover_0() {
    case(0, &K1_WINDOWS).with_cover(0).gives(
        PlanAnswer::Settled(tally(1, 2, 16)),
        &[5, 40, 6, 6, 6, 30, -4, -4],
        &[10, 1, 1, 1, 6, 2, 0, 1, 5, 1, 4, -4, 13, 1, 0, 4207],
    );
    let windows = [7, 7, 6, 6, 7, 7, -4, -4];
    case(0, &windows).with_cover(0).gives(
        PlanAnswer::Conflict(tally(1, 1, 19)),
        &windows,
        &[9, 0, 0, 0, 0, 3, 0, 1, 7, 1, 2, 7, 1, 4, -4, 16, 1, 0, 4207],
    );
}

#[test]
fn a_delivery_of_its_own_minute_under_cover_0() {
    // The delivery's own amount is no part of most by it: no target, no fact.
    let windows = [3, 3, 2, 6, 0, 2, -4, -4];
    case(4, &windows).with_cover(0).gives(
        PlanAnswer::Settled(tally(0, 1, 3)),
        &windows,
        &[0, 0, 4207],
    );
    case(3, &windows).with_cover(0).gives(
        PlanAnswer::Conflict(tally(1, 1, 19)),
        &windows,
        &[3, 0, 0, 0, 0, 3, 0, 1, 3, 1, 2, 2, 1, 4, -4, 16, 1, 0, 4207],
    );
}

/// K1 in cage 1, K7 under cover 0 in cage 2, and a pull that cage 0's own
/// stock serves.
const THREE_CAGES: [i32; 12] = [0, 10, 4, 1, 0, 10, 0, 1, 0, 10, 0, 0];

#[test]
fn cages_do_not_see_one_another() {
    let windows = [0, 30, -4, -4, 0, 5, 40, 6, 6, 1, 0, 30, -4, -4, 1];
    case(0, &[]).with_cages(&THREE_CAGES, &windows).gives_table(
        PlanAnswer::Settled(tally(1, 2, 16)),
        &[0, 30, -4, -4, 0, 5, 40, 6, 6, 1, 5, 30, -4, -4, 1],
        &[10, 2, 2, 1, 5, 2, 1, 1, 5, 2, 4, -4, 13, 1, 0, 4207],
    );
    // The same two events under cover 0.
    let windows = [7, 7, 6, 6, 2, 0, 30, -4, -4, 0, 7, 7, -4, -4, 2];
    case(0, &[]).with_cages(&THREE_CAGES, &windows).gives_table(
        PlanAnswer::Conflict(tally(1, 1, 19)),
        &windows,
        &[9, 0, 0, 0, 0, 3, 0, 1, 7, 2, 2, 7, 2, 4, -4, 16, 1, 0, 4207],
    );
}

#[test]
fn lags_go_across_cages() {
    let windows = [0, 10, 0, 0, 0, 0, 6, 0, 0, 2];
    case(0, &[])
        .with_cages(&THREE_CAGES, &windows)
        .with_lags(&[0, 1, -2])
        .gives_table(
            PlanAnswer::Settled(tally(2, 2, 23)),
            &[0, 4, 0, 0, 0, 2, 6, 0, 0, 2],
            &[
                1, 0, 0, 2, 4, 1, 1, 2, 6, 10, //
                2, 0, 1, 1, 2, 1, 0, 1, 0, 10, //
                2, 10, 4207,
            ],
        );
}

#[test]
fn a_target_in_another_cage_is_16() {
    let job = case(0, &[]).with_cages(&THREE_CAGES, &[0, 30, -9, -2, 0, 0, 30, -9, -2, 1]);
    let list = |target: i32| [11, 0, target, 3, -4, 0, 7, 1, 0, 4207];
    assert_eq!(job.read(&list(0)).0, ReadAnswer::Open);
    assert_eq!(job.read(&list(1)).0, refused(16, 0));
    assert_eq!(job.read(&list(2)).0, refused(14, 0));
}

#[test]
fn questions_of_cages() {
    let job = |cages: &[i32], windows: &[i32]| case(0, &[]).with_cages(cages, windows);
    let cage = [0, 10, 0, 1];
    job(&[], &[]).is_refused(29, 0);
    job(&cage[..3], &[]).is_refused(29, 0);
    job(&cage.repeat(9), &[]).is_refused(29, 0);
    let settled = PlanAnswer::Settled(tally(0, 1, 3));
    job(&cage.repeat(8), &[]).gives_table(settled, &[], &[0, 0, 4207]);
    // Each question goes to all cages before the next.
    job(&[0, 10, 0, 2, 0, 10, 11, 1], &[]).is_refused(3, 1);
    job(&[0, 10, 11, 1, 0, 1_000_001, 0, 1], &[]).is_refused(2, 1);
    job(&[0, 10, 0, 1, 0, 10, 0, 2], &[1]).is_refused(22, 1);
    // 30 after 6, before 7.
    job(&cage, &[0, 5, 0, 0, 1, 0, 5, 1, 0, 0]).is_refused(6, 1);
    job(&cage, &[0, 5, 0, 0, 0, 0, 5, 0, 0, 1])
        .with_lags(&[1])
        .is_refused(30, 1);
    job(&cage, &[0, 5, 0, 0, -1]).is_refused(30, 0);
    job(&cage, &[0, 5, 0, 0]).is_refused(4, 0);
}

/// A job whose cage never matters: amounts that cancel, limits far off.
fn wide(windows: &[i32]) -> Case {
    let mut job = case(0, windows);
    job.cages = vec![-1_000, 1_000, 0, 1];
    job
}

#[test]
fn a_set_binds_its_members() {
    let windows = [0, 9, 1, 5, 0, 9, 1, 5, 0, 9, 0, 0, 0, 9, -7, -1];
    // The neutral event gives no fact; rule 18 reads what rule 17 left.
    wide(&windows).with_sets(&[7, 8, 3, 1, 2, 0]).gives(
        PlanAnswer::Settled(tally(2, 2, 23)),
        &[0, 9, 2, 5, 0, 9, 2, 5, 0, 9, 0, 0, 0, 9, -7, -1],
        &[
            17, 0, 1, 3, 2, 1, 0, 4, 5, 10, //
            17, 0, 0, 3, 2, 1, 1, 4, 5, 10, //
            2, 10, 4207,
        ],
    );
    // A pull among them: h(0) ≤ −6 − (−7), then h(3) ≤ −6 − 1.
    wide(&windows).with_sets(&[-6, -6, 2, 0, 3]).gives(
        PlanAnswer::Settled(tally(2, 2, 23)),
        &[0, 9, 1, 1, 0, 9, 1, 5, 0, 9, 0, 0, 0, 9, -7, -7],
        &[
            18, 0, 0, 4, 1, 1, 3, 3, -7, 10, //
            18, 0, 3, 4, -7, 1, 0, 3, 1, 10, //
            2, 10, 4207,
        ],
    );
}

#[test]
fn a_neutral_member_in_conflict() {
    let windows = [0, 9, 0, 0, 0, 9, 1, 5];
    wide(&windows).with_sets(&[6, 9, 2, 0, 1]).gives(
        PlanAnswer::Conflict(tally(1, 1, 16)),
        &windows,
        &[17, 0, 0, 0, 0, 2, 0, 4, 0, 1, 4, 5, 13, 1, 0, 4207],
    );
    wide(&windows).with_sets(&[-9, 0, 2, 0, 1]).gives(
        PlanAnswer::Conflict(tally(1, 1, 16)),
        &windows,
        &[18, 0, 0, 0, 0, 2, 0, 3, 0, 1, 3, 1, 13, 1, 0, 4207],
    );
}

#[test]
fn slips_of_sets_in_the_reader() {
    let job = wide(&[0, 9, 1, 5, 0, 9, 1, 5]).with_sets(&[7, 9, 1, 0, 7, 8, 2, 1, 0]);
    let slip = |words: [i32; 5]| [words.as_slice(), &[1, 1, 4, 5, 10, 1, 0, 4207]].concat();
    assert_eq!(job.read(&slip([17, 1, 0, 3, 2])).0, ReadAnswer::Open);
    // Stricter, another set's member, no such set, another kind, 18 in its place.
    assert_eq!(job.read(&slip([17, 1, 0, 3, 3])).0, refused(16, 0));
    assert_eq!(job.read(&slip([17, 0, 1, 3, 2])).0, refused(14, 0));
    assert_eq!(job.read(&slip([17, 2, 0, 3, 2])).0, refused(14, 0));
    assert_eq!(job.read(&slip([17, 1, 0, 4, 2])).0, refused(14, 0));
    assert_eq!(job.read(&slip([18, 1, 0, 4, 4])).0, refused(16, 0));
    assert_eq!(job.read(&slip([19, 1, 0, 4, 4])).0, refused(13, 0));
}

#[test]
fn questions_of_sets() {
    let job = |sets: &[i32]| wide(&[0, 9, 1, 5, 0, 9, 1, 5]).with_sets(sets);
    let settled = PlanAnswer::Settled(tally(0, 1, 3));
    let whole = [0, 9, 1, 0];
    let windows = [0, 9, 1, 5, 0, 9, 1, 5];
    job(&whole.repeat(16)).gives(settled, &windows, &[0, 0, 4207]);
    job(&whole.repeat(17)).is_refused(31, 16);
    job(&[whole.repeat(16).as_slice(), &[0]].concat()).is_refused(31, 16);
    job(&[0, 9, 1, 0, 0, 9]).is_refused(31, 1);
    job(&[0, 9, 2, 0]).is_refused(31, 0);
    job(&[0, 9, i32::MAX, 0]).is_refused(31, 0);
    // 31 of all before 32, 32 of all before 33; a count under 1 is walked as 0.
    job(&[0, 9, 0, 0]).is_refused(31, 1);
    job(&[0, 9, 0]).is_refused(32, 0);
    job(&[9, 0, 1, 0, 0, 9, -1]).is_refused(32, 1);
    job(&[0, 9, 2, 1, 1]).is_refused(32, 0);
    job(&[0, 9, 1, 2]).is_refused(32, 0);
    job(&[0, 9, 1, 0, 9, 8, 1, 0]).is_refused(33, 1);
    job(&[-639_936, 639_936, 1, 0]).gives(settled, &windows, &[0, 0, 4207]);
    job(&[-639_937, 0, 1, 0]).is_refused(33, 0);
    job(&[0, 639_937, 1, 0]).is_refused(33, 0);
    // After 10, before 11.
    job(&[0, 9, 0]).with_lags(&[0, 1, 20_001]).is_refused(10, 0);
    job(&[1, 0, 1, 0]).with_room(2).is_refused(33, 0);
}

#[test]
fn the_round_limit() {
    // K1 narrows in round 1; round 2 is silent.
    let settled = PlanAnswer::Settled(tally(1, 2, 16));
    for limit in [0, 2, 3, 1_000_000] {
        let job = case(0, &K1_WINDOWS).with_limit(limit);
        job.gives(settled, &K1_LEFT, &K1_LIST);
    }
    let stopped = PlanAnswer::Stopped(tally(1, 1, 16));
    let job = case(0, &K1_WINDOWS).with_limit(1);
    job.gives(stopped, &K1_LEFT, &K1_LIST);
    // A silent round settles, the last allowed one too; a conflict stays one.
    let silent = PlanAnswer::Settled(tally(0, 1, 3));
    case(0, &[]).with_limit(1).gives(silent, &[], &[0, 0, 4207]);
    let windows = [0, 30, -4, -4];
    let conflict = PlanAnswer::Conflict(tally(1, 1, 13));
    let list = [9, 0, 0, 0, 0, 1, 0, 4, -4, 10, 1, 0, 4207];
    case(3, &windows)
        .with_limit(1)
        .gives(conflict, &windows, &list);
    // The room is out before the limit is.
    let stopped = PlanAnswer::Stopped(tally(0, 1, 3));
    let job = case(0, &K1_WINDOWS).with_limit(2).with_room(15);
    job.gives(stopped, &K1_WINDOWS, &[0, 0, 4207]);
}

#[test]
fn question_28() {
    let plan = |case: Case| case.plan().0;
    for limit in [-1, 1_000_001, i32::MIN, i32::MAX] {
        let refused = |number: i32| PlanAnswer::Refused(Refusal { number, place: 0 });
        let job = || case(0, &[0, 9, 0, 0, 0, 9, 0, 0]).with_limit(limit);
        assert_eq!(plan(job()), refused(28));
        assert_eq!(plan(job().with_lags(&[0, 1, 20_001])), refused(10));
        assert_eq!(plan(job().with_sets(&[1])), refused(28));
        assert_eq!(plan(job().with_room(2)), refused(28));
    }
}

#[test]
fn another_cover_is_22() {
    for cover in [-1, 2, i32::MIN, i32::MAX] {
        case(0, &[]).with_cover(cover).is_refused(22, 0);
        // Between 3 and 4.
        case(11, &[]).with_cover(cover).is_refused(3, 0);
        case(0, &[1]).with_cover(cover).is_refused(22, 0);
    }
}

#[test]
fn k8_lag() {
    case(0, &[0, 10, 0, 0, 0, 6, 0, 0])
        .with_lags(&[0, 1, -2])
        .gives(
            PlanAnswer::Settled(tally(2, 2, 23)),
            &[0, 4, 0, 0, 2, 6, 0, 0],
            &[
                1, 0, 0, 2, 4, 1, 1, 2, 6, 10, //
                2, 0, 1, 1, 2, 1, 0, 1, 0, 10, //
                2, 10, 4207,
            ],
        );
}

#[test]
fn k9_edited_lists() {
    let job = case(0, &K1_WINDOWS);
    let edited = |place: usize, word: i32| {
        let mut list = K1_LIST;
        list[place] = word;
        job.read(&list)
    };
    assert_eq!(edited(4, 6), (refused(16, 0), in_cage_0(&K1_WINDOWS)));
    let left = in_cage_0(&[5, 40, 6, 6, 4, 30, -4, -4]);
    assert_eq!(edited(4, 4), (ReadAnswer::Open, left));
    assert_eq!(edited(8, 6), (refused(15, 0), in_cage_0(&K1_WINDOWS)));
}

#[test]
fn k10_order_of_questions() {
    let mut job = case(11, &[]);
    job.h = 20_001;
    job.is_refused(1, 0);
    job.h = 20_000;
    job.is_refused(3, 0);
    case(0, &[0, 30, -1, 1, 5, 4, 2, 2]).is_refused(5, 1);
}

#[test]
fn k11_limits_of_the_tables() {
    let events = |count: usize| [0, 100, 0, 0].repeat(count);
    let settled = PlanAnswer::Settled(tally(0, 1, 3));
    case(0, &events(64)).gives(settled, &events(64), &[0, 0, 4207]);
    case(0, &events(65)).is_refused(4, 0);
    let two = || case(0, &events(2));
    two()
        .with_lags(&[0, 1, 20_000])
        .gives(settled, &events(2), &[0, 0, 4207]);
    two().with_lags(&[0, 1, 20_001]).is_refused(10, 0);
    two().with_lags(&[0, 0, 1]).is_refused(9, 0);
    two().with_room(3).gives(settled, &events(2), &[0, 0, 4207]);
    two().with_room(2).is_refused(11, 0);
}

// ---------------------------------------------------------------------------
// Readings of the paper that the cases do not show
// ---------------------------------------------------------------------------

#[test]
fn a_count_too_large_or_too_small() {
    let job = case(0, &K1_WINDOWS);
    let mut list = K1_LIST;
    list[13] = 2;
    assert_eq!(job.read(&list).0, refused(13, 1));
    list[13] = 0;
    assert_eq!(job.read(&list).0, refused(19, 0));
    list[13] = -1;
    assert_eq!(job.read(&list).0, refused(12, 0));
    let conflict = case(3, &[0, 30, -4, -4]);
    let list = [9, 0, 0, 0, 0, 1, 0, 4, -4, 10, 2, 0, 4207];
    assert_eq!(conflict.read(&list).0, refused(18, 0));
}

#[test]
fn a_lag_that_passes_the_opposite_end() {
    // Rule 1 gives t(0) ≤ 0 − 1, below 0 and past t_min.
    case(0, &[0, 5, 0, 0, 0, 0, 0, 0])
        .with_lags(&[0, 1, -1])
        .gives(
            PlanAnswer::Conflict(tally(1, 1, 16)),
            &[0, 5, 0, 0, 0, 0, 0, 0],
            &[1, 0, 0, 0, 0, 2, 0, 1, 0, 1, 2, 0, 13, 1, 0, 4207],
        );
    // The same conflict by rule 2 is accepted in a list.
    let job = case(0, &[0, 5, 0, 0, 0, 0, 0, 0]).with_lags(&[0, 1, -1]);
    let list = [2, 0, 1, 0, 0, 2, 0, 1, 0, 1, 2, 0, 13, 1, 0, 4207];
    assert_eq!(job.read(&list).0, ReadAnswer::Conflict);
}

#[test]
fn extreme_words_are_harmless() {
    let job = case(0, &K1_WINDOWS);
    for place in 0..K1_LIST.len() {
        for word in [i32::MIN, i32::MIN + 1, -1, i32::MAX] {
            let mut list = K1_LIST;
            list[place] = word;
            // "h ≤ −1" or weaker is enough for the rule.
            let enough = place == 11 && word >= -1;
            let accepted = job.read(&list).0 == ReadAnswer::Open;
            assert_eq!(accepted, enough, "word {word} at {place}");
        }
    }
    let word = i32::MIN;
    let refusal = Refusal {
        number: 1,
        place: 0,
    };
    let settings = Settings {
        horizon: word,
        cages: &[word; 4],
        lags: &[word; 3],
        sets: &[word; 3],
        amount_bound: AMOUNT_BOUND,
    };
    let answer = plan(&settings, &mut [word; 5], word, &mut [word; 3]);
    assert_eq!(answer, PlanAnswer::Refused(refusal));
}

#[test]
fn many_premises() {
    let job = case(0, &K1_WINDOWS);
    let list = |count: usize| {
        let mut list = vec![10, 1, 1, 1, 5, count as i32, 0, 1, 5];
        list.extend([1, 4, -4].repeat(count - 1));
        list.extend([7 + 3 * count as i32, 1, 0, 4207]);
        list
    };
    assert_eq!(
        job.read(&list(256)),
        (ReadAnswer::Open, in_cage_0(&K1_LEFT))
    );
    assert_eq!(job.read(&list(257)).0, refused(13, 0));
}

#[test]
fn longest_creep() {
    let mut job = case(0, &[0, 20_000, 0, 0].repeat(2))
        .with_lags(&[0, 1, 0, 1, 0, -1])
        .with_room(1_000_000);
    job.h = 20_000;
    let answer = job.plan().0;
    assert!(matches!(
        answer,
        PlanAnswer::Conflict(Tally { rounds: 10_001, .. })
    ));
}
