//! Contract totals: sets of events whose amounts are bound together, and the
//! questions 31 to 33 asked of their table.

use crate::job::{ask_all, index_below, Refusal, Window};

pub const MAX_SETS: usize = 16;
/// Least total, most total, member count; the members follow.
pub const SET_HEAD_WORDS: usize = 3;
/// The greatest total: 64 amounts of 9,999.
pub const TOTAL_BOUND: i64 = 639_936;

/// One set: least ≤ sum of the members' amounts ≤ most.
#[derive(Clone, Debug, PartialEq, Eq)]
pub struct Set {
    pub least: i64,
    pub most: i64,
    /// As listed, each once.
    pub members: Vec<usize>,
}

/// Questions 31 to 33, each to all sets before the next.
pub fn admit_sets(words: &[i32], events: usize) -> Result<Vec<Set>, Refusal> {
    let entries = walk(words)?;
    ask_all(32, &entries, |set| members_of(set, events).is_some())?;
    ask_all(33, &entries, |set| {
        let totals = -TOTAL_BOUND..=TOTAL_BOUND;
        let in_range = |word: i32| totals.contains(&i64::from(word));
        in_range(set[0]) && in_range(set[1]) && set[0] <= set[1]
    })?;
    let sets = entries.iter().filter_map(|set| {
        Some(Set {
            least: i64::from(set[0]),
            most: i64::from(set[1]),
            members: members_of(set, events)?,
        })
    });
    Ok(sets.collect())
}

/// Question 31: the words of each set. A member count under 1 is walked as 0.
fn walk(mut words: &[i32]) -> Result<Vec<&[i32]>, Refusal> {
    let mut sets = Vec::new();
    while !words.is_empty() {
        let cut = Refusal {
            number: 31,
            place: sets.len(),
        };
        if sets.len() == MAX_SETS || words.len() < SET_HEAD_WORDS {
            return Err(cut);
        }
        let members = usize::try_from(words[2]).unwrap_or(0);
        let (set, rest) = words
            .split_at_checked(SET_HEAD_WORDS + members)
            .ok_or(cut)?;
        sets.push(set);
        words = rest;
    }
    Ok(sets)
}

/// Question 32: the members, at least one, all events, none of them twice.
fn members_of(set: &[i32], events: usize) -> Option<Vec<usize>> {
    let mut members = Vec::new();
    for word in &set[SET_HEAD_WORDS..] {
        let event = index_below(*word, events)?;
        if members.contains(&event) {
            return None;
        }
        members.push(event);
    }
    (!members.is_empty()).then_some(members)
}

/// The sums of the greatest and of the least amounts of some events.
#[derive(Clone, Copy, Debug, Default, PartialEq, Eq)]
pub struct Sums {
    /// Of h_max.
    pub largest: i64,
    /// Of h_min.
    pub smallest: i64,
}

impl Sums {
    /// The sums of a set's members.
    pub fn of(set: &Set, windows: &[Window]) -> Sums {
        let members = set.members.iter();
        members.fold(Sums::default(), |sums, y| sums.with(&windows[*y]))
    }

    pub fn with(self, window: &Window) -> Sums {
        Sums {
            largest: self.largest + window.h_max,
            smallest: self.smallest + window.h_min,
        }
    }

    pub fn without(self, window: &Window) -> Sums {
        Sums {
            largest: self.largest - window.h_max,
            smallest: self.smallest - window.h_min,
        }
    }
}

/// The bound of rule 17, h(y) ≥, given the sums of the other members.
pub fn least_total_bound(set: &Set, others: Sums) -> i64 {
    set.least - others.largest
}

/// The bound of rule 18, h(y) ≤, given the sums of the other members.
pub fn most_total_bound(set: &Set, others: Sums) -> i64 {
    set.most - others.smallest
}
