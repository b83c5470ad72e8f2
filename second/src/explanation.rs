//! Explanations (document 01: slips), their premises (facts) and the log
//! (list) they stand in: how they lie in words.

use crate::job::Window;

/// The mark at the end of every log.
pub const MARK: i32 = 4207;
/// Number of explanations, place of the last one, mark.
pub const TRAILER_WORDS: usize = 3;
/// Rule, subject, target, kind, value, number of premises.
pub const HEAD_WORDS: usize = 6;
/// Event, kind, value.
pub const PREMISE_WORDS: usize = 3;
/// The most premises that the checker takes in one explanation.
pub const MAX_PREMISES: usize = 256;
/// The kind word of a conflict.
pub const CONFLICT_KIND: i32 = 0;

/// The number of words of an explanation with so many premises.
pub fn explanation_words(premises: usize) -> usize {
    HEAD_WORDS + PREMISE_WORDS * premises + 1
}

/// One end of an event's windows; the kinds 1 to 4.
#[derive(Clone, Copy, Debug, PartialEq, Eq, PartialOrd, Ord)]
pub enum End {
    /// Kind 1: t ≥ value.
    Earliest,
    /// Kind 2: t ≤ value.
    Latest,
    /// Kind 3: h ≥ value.
    Smallest,
    /// Kind 4: h ≤ value.
    Largest,
}

impl End {
    pub const ALL: [End; 4] = [End::Earliest, End::Latest, End::Smallest, End::Largest];

    /// The kind word.
    pub fn kind(self) -> i32 {
        match self {
            End::Earliest => 1,
            End::Latest => 2,
            End::Smallest => 3,
            End::Largest => 4,
        }
    }

    /// The end that a kind word 1 to 4 names.
    pub fn from_kind(kind: i32) -> Option<End> {
        End::ALL.into_iter().find(|end| end.kind() == kind)
    }

    /// The other end of the same window.
    pub fn opposite(self) -> End {
        match self {
            End::Earliest => End::Latest,
            End::Latest => End::Earliest,
            End::Smallest => End::Largest,
            End::Largest => End::Smallest,
        }
    }

    /// What this end of the window stands at.
    pub fn of(self, window: &Window) -> i64 {
        match self {
            End::Earliest => window.t_min,
            End::Latest => window.t_max,
            End::Smallest => window.h_min,
            End::Largest => window.h_max,
        }
    }

    /// Moves this end of the window.
    pub fn set(self, window: &mut Window, value: i64) {
        match self {
            End::Earliest => window.t_min = value,
            End::Latest => window.t_max = value,
            End::Smallest => window.h_min = value,
            End::Largest => window.h_max = value,
        }
    }

    /// Is the first value stricter for this end than the second?
    pub fn stricter(self, first: i64, second: i64) -> bool {
        match self {
            End::Earliest | End::Smallest => first > second,
            End::Latest | End::Largest => first < second,
        }
    }

    /// Would the bound, put at this end, narrow the window or empty it?
    pub fn narrows(self, window: &Window, bound: i64) -> bool {
        self.stricter(bound, self.of(window))
    }

    /// Does the bound, put at this end, pass the opposite end?
    pub fn passes(self, window: &Window, bound: i64) -> bool {
        self.stricter(bound, self.opposite().of(window))
    }

    /// Does every value of the window meet the bound (document 01: is the
    /// fact true of the window)?
    pub fn holds(self, window: &Window, bound: i64) -> bool {
        !self.stricter(bound, self.of(window))
    }
}

/// A premise (document 01: fact). The order is by event, then by kind.
#[derive(Clone, Copy, Debug, PartialEq, Eq, PartialOrd, Ord)]
pub struct Premise {
    pub event: usize,
    pub end: End,
    pub value: i64,
}

/// What an explanation concludes for its target.
#[derive(Clone, Copy, Debug, PartialEq, Eq)]
pub enum Conclusion {
    Conflict,
    Bound(End, i64),
}

impl Conclusion {
    /// The kind word and the value word.
    pub fn words(self) -> (i32, i32) {
        match self {
            Conclusion::Conflict => (CONFLICT_KIND, 0),
            Conclusion::Bound(end, value) => (end.kind(), value as i32),
        }
    }
}

/// Writes one explanation (slip) at the start of `out`, which has the room,
/// and hands back its number of words.
pub fn write_explanation(
    out: &mut [i32],
    rule: i32,
    subject: usize,
    target: usize,
    conclusion: Conclusion,
    premises: &[Premise],
) -> usize {
    let length = explanation_words(premises.len());
    let (kind, value) = conclusion.words();
    out[..HEAD_WORDS].copy_from_slice(&[
        rule,
        subject as i32,
        target as i32,
        kind,
        value,
        premises.len() as i32,
    ]);
    let body = &mut out[HEAD_WORDS..length];
    for (entry, premise) in body.chunks_exact_mut(PREMISE_WORDS).zip(premises) {
        entry.copy_from_slice(&[
            premise.event as i32,
            premise.end.kind(),
            premise.value as i32,
        ]);
    }
    out[length - 1] = length as i32;
    length
}

/// Writes the trailer at the start of `out`.
pub fn write_trailer(out: &mut [i32], count: usize, last: usize) {
    out[..TRAILER_WORDS].copy_from_slice(&[count as i32, last as i32, MARK]);
}
