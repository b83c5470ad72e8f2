//! The checker (document 01: slip reader): takes a log (list) by whomever
//! written, and answers open, conflict, or the first question failed.

use crate::explanation::{
    explanation_words, Conclusion, End, CONFLICT_KIND, HEAD_WORDS, MARK, MAX_PREMISES,
    PREMISE_WORDS, TRAILER_WORDS,
};
use crate::job::{index_below, store_windows, Job, Refusal, Settings, Window};
use crate::rules::{outcome, Candidate, Outcome, Rule, Subject};

/// The checker's answer.
#[derive(Clone, Copy, Debug, PartialEq, Eq)]
pub enum ReadAnswer {
    Open,
    Conflict,
    Refused(Refusal),
}

/// Checks a log for a job; on acceptance the window table is left narrowed.
/// Takes any numbers, any lengths and any words.
pub fn read(settings: &Settings, windows: &mut [i32], list: &[i32]) -> ReadAnswer {
    let job = match Job::admit_list(settings, windows, list.len()) {
        Ok(job) => job,
        Err(refusal) => return ReadAnswer::Refused(refusal),
    };
    let mut check = Check::new(&job);
    match check.log(list) {
        Err(refusal) => ReadAnswer::Refused(refusal),
        Ok(conflict) => {
            store_windows(&check.standing, windows);
            if conflict {
                ReadAnswer::Conflict
            } else {
                ReadAnswer::Open
            }
        }
    }
}

/// The last three words of a log.
struct Trailer {
    count: usize,
    last: i32,
}

/// An explanation (slip) as its words came apart (question 13).
struct Raw<'a> {
    rule: Rule,
    subject: i32,
    target: i32,
    kind: i32,
    value: i32,
    premises: &'a [i32],
}

/// An explanation whose numbers all name something (question 14).
struct Checked<'a> {
    rule: Rule,
    subject: usize,
    target: usize,
    conclusion: Conclusion,
    premises: &'a [i32],
}

/// A premise's three words, known to name an event and an end.
fn premise_parts(words: &[i32], events: usize) -> Option<(usize, End, i64)> {
    let event = index_below(words[0], events)?;
    let end = End::from_kind(words[1])?;
    Some((event, end, i64::from(words[2])))
}

/// Takes the explanation at a place in the words before the trailer, and the
/// place after it; nothing is question 13's "no".
fn take(body: &[i32], at: usize) -> Option<(Raw<'_>, usize)> {
    let rest = body.get(at..)?;
    let head = rest.get(..HEAD_WORDS)?;
    let rule = Rule::from_number(head[0])?;
    let count = index_below(head[5], MAX_PREMISES + 1)?;
    let length = explanation_words(count);
    let words = rest.get(..length)?;
    if words[length - 1] != length as i32 {
        return None;
    }
    let raw = Raw {
        rule,
        subject: head[1],
        target: head[2],
        kind: head[3],
        value: head[4],
        premises: &words[HEAD_WORDS..length - 1],
    };
    Some((raw, at + length))
}

/// A check of one log for an accepted job.
struct Check<'a> {
    job: &'a Job,
    /// The windows as they stand after the explanations read so far.
    standing: Vec<Window>,
    /// The widest windows.
    widest: Vec<Window>,
    /// The widest windows narrowed by one explanation's premises only.
    quoted: Vec<Window>,
    candidates: Vec<Candidate>,
}

impl<'a> Check<'a> {
    fn new(job: &'a Job) -> Check<'a> {
        let widest = job.widest_windows();
        Check {
            job,
            standing: job.windows.clone(),
            quoted: widest.clone(),
            widest,
            candidates: Vec::new(),
        }
    }

    /// Questions 12 to 19; says whether the last explanation is a conflict.
    fn log(&mut self, list: &[i32]) -> Result<bool, Refusal> {
        let (body, trailer) = list.split_at(list.len() - TRAILER_WORDS);
        let trailer = read_trailer(trailer).ok_or(refusal(12, 0))?;
        let (mut at, mut last, mut conflict) = (0, 0, false);
        for number in 0..trailer.count {
            let Some((raw, next)) = take(body, at) else {
                return Err(refusal(13, number));
            };
            let is_last = number + 1 == trailer.count;
            conflict = self
                .explanation(&raw, is_last)
                .map_err(|question| refusal(question, number))?;
            last = at;
            at = next;
        }
        if at == body.len() && usize::try_from(trailer.last) == Ok(last) {
            Ok(conflict)
        } else {
            Err(refusal(19, 0))
        }
    }

    /// Questions 14 to 18 for one explanation, and its narrowing. Gives
    /// whether it is a conflict, or the number of the question failed.
    fn explanation(&mut self, raw: &Raw, is_last: bool) -> Result<bool, i32> {
        let checked = self.names(raw).ok_or(14)?;
        self.ask(15, self.premises_hold(&checked))?;
        self.quote(&checked);
        let follows = self.follows(&checked);
        self.ask(16, follows)?;
        match checked.conclusion {
            Conclusion::Conflict => {
                self.ask(18, is_last)?;
                Ok(true)
            }
            Conclusion::Bound(end, value) => {
                let window = &mut self.standing[checked.target];
                if !end.narrows(window, value) || end.passes(window, value) {
                    return Err(17);
                }
                end.set(window, value);
                Ok(false)
            }
        }
    }

    fn ask(&self, question: i32, yes: bool) -> Result<(), i32> {
        if yes {
            Ok(())
        } else {
            Err(question)
        }
    }

    /// Question 14: do all numbers name something that fits the rule?
    fn names<'r>(&self, raw: &Raw<'r>) -> Option<Checked<'r>> {
        let events = self.standing.len();
        let subjects = match raw.rule.subject() {
            Subject::Lag => self.job.lags.len(),
            Subject::Event => events,
            Subject::Set => self.job.sets.len(),
        };
        let subject = index_below(raw.subject, subjects)?;
        let target = index_below(raw.target, events)?;
        let all_premises = raw
            .premises
            .chunks_exact(PREMISE_WORDS)
            .all(|words| premise_parts(words, events).is_some());
        if !all_premises || !self.target_fits(raw.rule, subject, target) {
            return None;
        }
        Some(Checked {
            rule: raw.rule,
            subject,
            target,
            conclusion: conclusion_of(raw)?,
            premises: raw.premises,
        })
    }

    /// Does the target fit the rule: a, b, or e; any event in 5, 8, 11, 14; a
    /// member in 17, 18?
    fn target_fits(&self, rule: Rule, subject: usize, target: usize) -> bool {
        match rule {
            Rule::LagLatest => target == self.job.lags[subject].a,
            Rule::LagEarliest => target == self.job.lags[subject].b,
            Rule::Level(_) | Rule::Wait(_) => target == subject,
            Rule::Share(_) => true,
            Rule::LeastTotal | Rule::MostTotal => self.job.sets[subject].members.contains(&target),
        }
    }

    /// The premises of an explanation that passed question 14.
    fn parts<'s>(&'s self, checked: &'s Checked) -> impl Iterator<Item = (usize, End, i64)> + 's {
        let events = self.standing.len();
        checked
            .premises
            .chunks_exact(PREMISE_WORDS)
            .filter_map(move |words| premise_parts(words, events))
    }

    /// Question 15: is every premise true of the windows as they stand?
    fn premises_hold(&self, checked: &Checked) -> bool {
        self.parts(checked)
            .all(|(event, end, value)| end.holds(&self.standing[event], value))
    }

    /// Narrows the widest windows by the premises; a weaker one changes nothing.
    fn quote(&mut self, checked: &Checked) {
        let mut quoted = std::mem::take(&mut self.quoted);
        quoted.copy_from_slice(&self.widest);
        for (event, end, value) in self.parts(checked) {
            if end.narrows(&quoted[event], value) {
                end.set(&mut quoted[event], value);
            }
        }
        self.quoted = quoted;
    }

    /// Question 16: does the rule give the conclusion, or a stricter one, on
    /// the quoted windows?
    fn follows(&mut self, checked: &Checked) -> bool {
        let given = outcome(
            self.job,
            &self.quoted,
            checked.rule,
            checked.subject,
            checked.target,
            &mut self.candidates,
        );
        match (checked.conclusion, given) {
            (Conclusion::Conflict, Outcome::Conflict) => true,
            (Conclusion::Conflict, Outcome::Bound(bound)) => checked
                .rule
                .end()
                .is_some_and(|end| end.passes(&self.quoted[checked.target], bound)),
            (Conclusion::Bound(end, value), Outcome::Bound(bound)) => !end.stricter(value, bound),
            (_, Outcome::Nothing) | (Conclusion::Bound(..), Outcome::Conflict) => false,
        }
    }
}

/// Question 12: is the last word the mark and the count not negative?
fn read_trailer(words: &[i32]) -> Option<Trailer> {
    let count = usize::try_from(words[0]).ok()?;
    (words[2] == MARK).then_some(Trailer {
        count,
        last: words[1],
    })
}

/// The last part of question 14: is the kind the rule's own, or 0 with value 0?
fn conclusion_of(raw: &Raw) -> Option<Conclusion> {
    if raw.kind == CONFLICT_KIND {
        return (raw.value == 0).then_some(Conclusion::Conflict);
    }
    let end = raw.rule.end()?;
    (raw.kind == end.kind()).then_some(Conclusion::Bound(end, i64::from(raw.value)))
}

fn refusal(number: i32, place: usize) -> Refusal {
    Refusal { number, place }
}
