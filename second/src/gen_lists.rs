//! Random lists for the checker: as the propagator writes them, as a rival
//! propagator with another order might, edited, and damaged.

use crate::explain::{premises, Finding};
use crate::explanation::{
    explanation_words, End, Premise, CONFLICT_KIND, HEAD_WORDS, MARK, MAX_PREMISES, PREMISE_WORDS,
    TRAILER_WORDS,
};
use crate::gen_faults::make_faulty;
use crate::gen_jobs::{creeping_job, small_sound_job, sound_job};
use crate::gen_plans::cut_room;
use crate::job::{Job, Window, EVENT_WORDS, LAG_WORDS};
use crate::raw_job::{slip_places, tally_of, RawJob, MOST_BUFFER_WORDS};
use crate::rng::Rng;
use crate::rules::{outcome, Outcome, Rule, Subject};
use crate::stream::{Call, Record};

/// An explanation (slip) as plain words, sound or not.
#[derive(Clone, Debug, PartialEq, Eq)]
pub struct LooseSlip {
    pub rule: i32,
    pub subject: i32,
    pub target: i32,
    pub kind: i32,
    pub value: i32,
    pub premises: Vec<[i32; PREMISE_WORDS]>,
}

/// The slips of a well-formed list.
pub fn decode(list: &[i32]) -> Vec<LooseSlip> {
    let places = slip_places(list);
    places
        .windows(2)
        .map(|ends| decode_slip(&list[ends[0]..ends[1]]))
        .collect()
}

fn decode_slip(words: &[i32]) -> LooseSlip {
    let body = &words[HEAD_WORDS..words.len() - 1];
    LooseSlip {
        rule: words[0],
        subject: words[1],
        target: words[2],
        kind: words[3],
        value: words[4],
        premises: body
            .chunks_exact(PREMISE_WORDS)
            .map(|fact| [fact[0], fact[1], fact[2]])
            .collect(),
    }
}

/// The list of some slips, with a right trailer.
pub fn encode(slips: &[LooseSlip]) -> Vec<i32> {
    let mut list = Vec::new();
    let mut last = 0;
    for slip in slips {
        last = list.len();
        let count = slip.premises.len();
        list.extend([
            slip.rule,
            slip.subject,
            slip.target,
            slip.kind,
            slip.value,
            count as i32,
        ]);
        list.extend(slip.premises.iter().flatten());
        list.push(explanation_words(count) as i32);
    }
    list.extend([slips.len() as i32, last as i32, MARK]);
    list
}

// ---------------------------------------------------------------------------
// Where lists come from
// ---------------------------------------------------------------------------

/// The list that the propagator writes for a job in some room.
pub fn own_list(rng: &mut Rng, raw: &RawJob, most: usize) -> Vec<i32> {
    let (answer, buffer) = raw.planned(most);
    let length = tally_of(answer).map_or(TRAILER_WORDS, |tally| tally.length);
    if rng.chance(3, 4) {
        return buffer[..length].to_vec();
    }
    let room = cut_room(rng, &buffer[..length]).max(TRAILER_WORDS);
    let limit = rng.pick(&[0, 0, 0, 1, 2, 5]);
    let (answer, buffer) = raw.planned_within(room, limit);
    let length = tally_of(answer).map_or(TRAILER_WORDS, |tally| tally.length);
    buffer[..length].to_vec()
}

/// A list by a propagator that takes the rules in a random order and does not
/// always narrow as far as it could.
pub fn rival_list(rng: &mut Rng, job: &Job) -> Vec<LooseSlip> {
    let mut windows = job.windows.clone();
    let mut slips = Vec::new();
    let most = 1 + rng.below(6);
    for _ in 0..150 {
        if slips.len() == most {
            break;
        }
        let Some(slip) = rival_slip(rng, job, &windows) else {
            continue;
        };
        let conflict = slip.kind == CONFLICT_KIND;
        if let Some(end) = End::from_kind(slip.kind) {
            end.set(&mut windows[slip.target as usize], i64::from(slip.value));
        }
        slips.push(slip);
        if conflict && rng.chance(7, 8) {
            break;
        }
    }
    slips
}

/// The number of some rule.
fn some_rule(rng: &mut Rng) -> i32 {
    rng.pick(&[1, 2, 3, 4, 5, 6, 7, 8, 9, 10, 11, 12, 13, 14, 17, 18])
}

/// A random rule on random events; the slip it gives, if any.
fn rival_slip(rng: &mut Rng, job: &Job, windows: &[Window]) -> Option<LooseSlip> {
    let rule = Rule::from_number(some_rule(rng))?;
    let (subject, target) = random_places(rng, job, rule)?;
    let given = outcome(job, windows, rule, subject, target, &mut Vec::new());
    let (bound, conflict) = match (given, rule.end()) {
        (Outcome::Conflict, _) => (None, true),
        (Outcome::Bound(bound), Some(end)) if end.narrows(&windows[target], bound) => {
            (Some(bound), end.passes(&windows[target], bound))
        }
        _ => return None,
    };
    let finding = Finding {
        rule,
        subject,
        target,
        bound,
        conflict,
    };
    Some(loose(rng, job, windows, &finding))
}

/// A subject and a target that fit a rule.
fn random_places(rng: &mut Rng, job: &Job, rule: Rule) -> Option<(usize, usize)> {
    if rule.subject() == Subject::Lag {
        let subject = rng.below(job.lags.len());
        let lag = job.lags.get(subject)?;
        let target = if rule == Rule::LagLatest {
            lag.a
        } else {
            lag.b
        };
        return Some((subject, target));
    }
    if rule.subject() == Subject::Set {
        let subject = rng.below(job.sets.len());
        let set = job.sets.get(subject)?;
        return Some((subject, rng.pick(&set.members)));
    }
    if job.windows.is_empty() {
        return None;
    }
    let subject = rng.below(job.windows.len());
    let target = match rule {
        Rule::Share(_) => rng.below(job.windows.len()),
        _ => subject,
    };
    Some((subject, target))
}

/// The finding as a slip, its bound perhaps weakened.
fn loose(rng: &mut Rng, job: &Job, windows: &[Window], finding: &Finding) -> LooseSlip {
    let mut found: Vec<Premise> = Vec::new();
    premises(job, windows, finding, &mut found);
    let (kind, value) = match (finding.conflict, finding.bound, finding.rule.end()) {
        (false, Some(bound), Some(end)) => {
            let standing = end.of(&windows[finding.target]);
            (end.kind(), weakened(rng, bound, standing))
        }
        // Now and then a bound past the opposite end is written as a bound.
        (true, Some(bound), Some(end)) if rng.chance(1, 6) => (end.kind(), bound),
        _ => (CONFLICT_KIND, 0),
    };
    LooseSlip {
        rule: finding.rule.number(),
        subject: finding.subject as i32,
        target: finding.target as i32,
        kind,
        value: value as i32,
        premises: found
            .iter()
            .map(|premise| {
                [
                    premise.event as i32,
                    premise.end.kind(),
                    premise.value as i32,
                ]
            })
            .collect(),
    }
}

/// The bound, or one between it and the standing end.
fn weakened(rng: &mut Rng, bound: i64, standing: i64) -> i64 {
    if rng.chance(2, 3) {
        bound
    } else if bound > standing {
        rng.within(standing + 1, bound)
    } else {
        rng.within(bound, standing - 1)
    }
}

// ---------------------------------------------------------------------------
// Edits: the list stays well formed
// ---------------------------------------------------------------------------

/// Makes one edit in the slips of a list for a job.
pub fn edit(rng: &mut Rng, raw: &RawJob, slips: &mut Vec<LooseSlip>) {
    if slips.is_empty() {
        slips.push(random_slip(rng, raw));
        return;
    }
    let place = rng.below(slips.len());
    match rng.below(14) {
        0 | 1 => edit_order(rng, slips, place),
        2 => slips.insert(rng.below(slips.len() + 1), random_slip(rng, raw)),
        3..=7 => edit_premises(rng, raw, &mut slips[place]),
        8 => drop_empty_premises(raw, &mut slips[place]),
        9 => conflict_as_share(rng, raw, &mut slips[place]),
        _ => edit_head(rng, raw, &mut slips[place]),
    }
}

/// Drops, repeats or moves whole slips.
fn edit_order(rng: &mut Rng, slips: &mut Vec<LooseSlip>, place: usize) {
    match rng.below(5) {
        0 => {
            slips.remove(place);
        }
        1 => slips.truncate(place),
        2 => {
            let copy = slips[place].clone();
            slips.insert(place, copy);
        }
        3 => {
            let other = rng.below(slips.len());
            slips.swap(place, other);
        }
        _ => {
            // Often puts a slip behind a conflict.
            let copy = slips[place].clone();
            slips.push(copy);
        }
    }
}

/// Changes the rule, the subject, the target, the kind or the value.
fn edit_head(rng: &mut Rng, raw: &RawJob, slip: &mut LooseSlip) {
    let events = raw.events() as i64;
    match rng.below(12) {
        0 => slip.value = slip.value.wrapping_add(1),
        1 => slip.value = slip.value.wrapping_sub(1),
        2 => slip.value = slip.value.wrapping_add(rng.within(-20, 20) as i32),
        3 => slip.value = rng.wild_word(),
        4 => slip.target = rng.within(0, events - 1) as i32,
        5 => slip.subject = rng.within(0, events - 1) as i32,
        6 => slip.target = rng.pick(&[-1, events as i32, i32::MIN, i32::MAX]),
        7 => slip.subject = rng.pick(&[-1, events as i32, i32::MIN, i32::MAX]),
        8 => slip.rule = some_rule(rng),
        9 => {
            slip.kind = CONFLICT_KIND;
            slip.value = 0;
        }
        10 => slip.kind = rng.within(0, 5) as i32,
        _ => sibling_rule(rng, slip),
    }
}

/// Drops the premises that the widest windows say already.
fn drop_empty_premises(raw: &RawJob, slip: &mut LooseSlip) {
    slip.premises.retain(|fact| {
        let window = raw.windows.chunks_exact(EVENT_WORDS).nth(fact[0] as usize);
        let (Some(words), Some(end)) = (window, End::from_kind(fact[1])) else {
            return true;
        };
        let horizon = i64::from(raw.horizon);
        let widest = Window::from_words(words).widest(horizon, raw.amount_bound);
        end.narrows(&widest, i64::from(fact[2]))
    });
}

/// A level rule's conflict told as a share that nobody can give: rule 5 in
/// place of 3, for any target, a neutral one first.
fn conflict_as_share(rng: &mut Rng, raw: &RawJob, slip: &mut LooseSlip) {
    if matches!(slip.rule, 3 | 6 | 9 | 12) {
        let windows = raw.windows.chunks_exact(EVENT_WORDS);
        let neutral = windows.map(|words| words[2]).position(|h_min| h_min == 0);
        let any = rng.below(raw.events());
        slip.rule += 2;
        slip.target = neutral.filter(|_| rng.chance(1, 2)).unwrap_or(any) as i32;
    } else {
        edit_head(rng, raw, slip);
    }
}

/// The same rule of another family: 4 becomes 7, 10 or 13, and so on; 1 and 2,
/// 17 and 18 change places.
fn sibling_rule(rng: &mut Rng, slip: &mut LooseSlip) {
    if (3..=14).contains(&slip.rule) {
        slip.rule = 3 + (slip.rule - 3) % 3 + 3 * rng.within(0, 3) as i32;
    } else if slip.rule <= 2 {
        slip.rule = 3 - slip.rule;
    } else {
        slip.rule = 35 - slip.rule;
    }
}

/// Changes the premises.
fn edit_premises(rng: &mut Rng, raw: &RawJob, slip: &mut LooseSlip) {
    let count = slip.premises.len();
    if count == 0 {
        slip.premises.push(random_premise(rng, raw));
        return;
    }
    let place = rng.below(count);
    match rng.below(12) {
        0 | 1 => {
            slip.premises.remove(place);
        }
        2 => slip.premises.push(slip.premises[place]),
        3 => rng.shuffle(&mut slip.premises),
        4 => slip.premises.insert(place, random_premise(rng, raw)),
        5 => {
            // Very many premises: the most that are taken, or one more.
            let wanted = MAX_PREMISES + rng.below(2);
            while slip.premises.len() < wanted {
                slip.premises.push(slip.premises[rng.below(count)]);
            }
            slip.premises.truncate(wanted);
        }
        6..=8 => move_premise(rng, &mut slip.premises[place], true),
        9 => move_premise(rng, &mut slip.premises[place], false),
        10 => slip.premises[place] = random_premise(rng, raw),
        _ => slip.premises[place][rng.below(PREMISE_WORDS)] = rng.wild_word(),
    }
}

/// Weakens or strengthens a premise, mostly by one.
fn move_premise(rng: &mut Rng, fact: &mut [i32; PREMISE_WORDS], weaken: bool) {
    let step = if rng.chance(2, 3) {
        1
    } else {
        rng.within(1, 9) as i32
    };
    let lower_end = fact[1] == 1 || fact[1] == 3;
    fact[2] = if lower_end == weaken {
        fact[2].wrapping_sub(step)
    } else {
        fact[2].wrapping_add(step)
    };
}

/// A premise about a random end: as the job's windows have it, weaker, or wild.
fn random_premise(rng: &mut Rng, raw: &RawJob) -> [i32; PREMISE_WORDS] {
    let events = raw.events();
    let event = rng.below(events);
    let kind = rng.within(1, 4) as i32;
    let Some(end) = End::from_kind(kind) else {
        return [0; PREMISE_WORDS];
    };
    let Some(words) = raw.windows.chunks_exact(EVENT_WORDS).nth(event) else {
        return [event as i32, kind, 0];
    };
    let stands = end.of(&Window::from_words(words)) as i32;
    let mut fact = [event as i32, kind, stands];
    match rng.below(6) {
        0..=2 => {}
        3 | 4 => move_premise(rng, &mut fact, true),
        _ => fact[2] = rng.wild_word(),
    }
    fact
}

/// A made-up slip, mostly one whose numbers fit together.
fn random_slip(rng: &mut Rng, raw: &RawJob) -> LooseSlip {
    let events = raw.events() as i64;
    let number = some_rule(rng);
    let subject = rng.within(0, events - 1) as i32;
    let target = match number {
        1 | 2 => lag_event(raw, subject, number as usize - 1),
        5 | 8 | 11 | 14 => rng.within(0, events - 1) as i32,
        _ => subject,
    };
    let own_end = Rule::from_number(number).and_then(Rule::end);
    let (kind, value) = match own_end {
        Some(end) if rng.chance(3, 4) => (end.kind(), near_end(rng, raw, target, end)),
        _ => (CONFLICT_KIND, 0),
    };
    let premises = (0..rng.below(4))
        .map(|_| random_premise(rng, raw))
        .collect();
    let mut slip = LooseSlip {
        rule: number,
        subject,
        target,
        kind,
        value,
        premises,
    };
    if rng.chance(1, 4) {
        edit_head(rng, raw, &mut slip);
    }
    slip
}

/// Event a (part 0) or b (part 1) of a lag; 0 if there is no such lag.
fn lag_event(raw: &RawJob, lag: i32, part: usize) -> i32 {
    let lag = raw.lags.chunks_exact(LAG_WORDS).nth(lag as usize);
    lag.map_or(0, |words| words[part])
}

/// A value near an end of an event's window.
fn near_end(rng: &mut Rng, raw: &RawJob, event: i32, end: End) -> i32 {
    let words = raw.windows.chunks_exact(EVENT_WORDS).nth(event as usize);
    let stands = words.map_or(0, |words| end.of(&Window::from_words(words)));
    (stands + rng.within(-3, 3)) as i32
}

// ---------------------------------------------------------------------------
// Damage: any word or length may be wrong
// ---------------------------------------------------------------------------

/// Damages a list, one change of words or length.
pub fn damage(rng: &mut Rng, list: &mut Vec<i32>) {
    if list.len() < TRAILER_WORDS {
        list.push(rng.wild_word());
        return;
    }
    let trailer = list.len() - TRAILER_WORDS;
    let place = rng.below(list.len());
    match rng.below(14) {
        0 | 1 => list[place] = rng.pick(&[i32::MIN, i32::MAX]),
        2 => list[place] = rng.wild_word(),
        3 => list[place] = list[place].wrapping_add(rng.pick(&[-1, 1])),
        4 => list[trailer] = list[trailer].wrapping_add(rng.pick(&[-1, 1])),
        5 => list[trailer] = rng.pick(&[-1, i32::MIN, i32::MAX, 0, 1]),
        6 => list[trailer + 1] = list[trailer + 1].wrapping_add(rng.pick(&[-1, 1, 7])),
        7 => list[trailer + 1] = rng.wild_word(),
        8 => list[trailer + 2] = rng.pick(&[4206, 4208, -4207, 0, i32::MIN, i32::MAX]),
        9 => list.truncate(place),
        10 => list.insert(place, rng.wild_word()),
        11 => {
            list.remove(place);
        }
        12 => extend_before_trailer(rng, list),
        _ => damage_a_count(rng, list),
    }
}

/// Words between the last slip and the trailer, or after the trailer.
fn extend_before_trailer(rng: &mut Rng, list: &mut Vec<i32>) {
    let words = 1 + rng.below(12);
    let at = if rng.chance(2, 3) {
        list.len() - TRAILER_WORDS
    } else {
        list.len()
    };
    for _ in 0..words {
        let word = rng.wild_word();
        list.insert(at, word);
    }
}

/// Changes a slip's number of premises, or its length word, in a list that is
/// still well formed.
fn damage_a_count(rng: &mut Rng, list: &mut [i32]) {
    let end = list.len() - TRAILER_WORDS;
    if end < explanation_words(0) {
        return;
    }
    let count = HEAD_WORDS - 1;
    let word = rng.pick(&[-1, 0, 1, 2, 256, 257, i32::MIN, i32::MAX, 715_827_882]);
    if rng.chance(1, 2) {
        list[count] = word;
    } else {
        list[end - 1] = word;
    }
}

// ---------------------------------------------------------------------------
// Read records
// ---------------------------------------------------------------------------

/// A record for the checker.
pub fn read_record(rng: &mut Rng) -> Record {
    let (mut job, slips) = job_and_slips(rng);
    let mut list = some_list(rng, &job, slips);
    if rng.chance(1, 8) {
        let mut room = usize::MAX;
        make_faulty(rng, &mut job, &mut room);
        list.truncate(room);
    }
    list.truncate(MOST_BUFFER_WORDS);
    Record {
        call: Call::Read,
        job,
        limit: 0,
        buffer: list,
    }
}

/// A sound job and slips for it; jobs on which no rule fires stay few.
fn job_and_slips(rng: &mut Rng) -> (RawJob, Vec<LooseSlip>) {
    loop {
        let job = list_job(rng);
        let slips = base_slips(rng, &job);
        if !slips.is_empty() || rng.chance(1, 20) {
            return (job, slips);
        }
    }
}

/// Mostly small jobs, now and then a large one or a long creep.
fn list_job(rng: &mut Rng) -> RawJob {
    match rng.below(500) {
        0 => creeping_job(rng, 1_200),
        1..=39 => sound_job(rng),
        _ => small_sound_job(rng),
    }
}

/// A list for a sound job: whole, edited or damaged.
fn some_list(rng: &mut Rng, raw: &RawJob, mut slips: Vec<LooseSlip>) -> Vec<i32> {
    match rng.below(16) {
        0..=2 => encode(&slips),
        3..=11 => {
            for _ in 0..rng.pick(&[1, 1, 1, 2, 3]) {
                edit(rng, raw, &mut slips);
            }
            if rng.chance(1, 5) {
                for slip in &mut slips {
                    drop_empty_premises(raw, slip);
                }
            }
            encode(&slips)
        }
        _ => {
            let mut list = encode(&slips);
            for _ in 0..rng.pick(&[1, 1, 1, 2]) {
                damage(rng, &mut list);
            }
            list
        }
    }
}

/// The slips that a list starts from: the propagator's own or a rival's.
fn base_slips(rng: &mut Rng, raw: &RawJob) -> Vec<LooseSlip> {
    let most = rng.pick(&[60, 200, 600, 600, MOST_BUFFER_WORDS - 900]);
    match raw.admitted() {
        Ok(job) if rng.chance(2, 5) => rival_list(rng, &job),
        _ => decode(&own_list(rng, raw, most)),
    }
}
