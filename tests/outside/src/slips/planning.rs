//! Wrong plans, after document 02's M-110: other numbers of questions, a target settled otherwise, other codes given and other questions
//! chosen, lists taken that may not be asked or the other way round, and what is found or refused told otherwise.

use super::calling::{before, if_accepted, if_refused, refuse_where, with_place};
use super::places::unseen;
use super::pointing::{if_none, none_for};
use super::{
    Listed, Seen,
    Wrong::{Least, Left},
};
use crate::calls::{self, Call};
use crate::compare::UNWRITTEN;
use crate::filter::{allowed, has_empty, largest};
use crate::plan::{least, settles, told, Planned, Position, Search, LONGEST, MOST};
use crate::sheet::{NO_ANSWER, PLACES};

const PLAN: &[&str] = &["plan"];

const fn seeking(what: &'static str, search: Search) -> Listed {
    (what, PLAN, Least(search))
}

const fn telling(what: &'static str, change: fn(&Seen, &mut calls::Left)) -> Listed {
    (what, PLAN, Left(change))
}

pub const SLIPS: &[Listed] = &[
    seeking("none always", |_, _| None),
    seeking("no question always", |_, _| Some(0)),
    seeking("one question too many", |at, p| least(at, p).map(|k| k + 1)),
    seeking("one question too many, and three at most", |at, p| least(at, p).map(|k| (k + 1).min(MOST))),
    seeking("one question too few", |at, p| least(at, p).map(|k| k.saturating_sub(1))),
    seeking("two questions at most", |at, p| least(at, p).filter(|&k| k < MOST)),
    seeking("one question at most", |at, p| least(at, p).filter(|&k| k < 2)),
    seeking("four questions at most", |at, p| (0..=MOST + 1).find(|&k| settles(at, p, k))),
    seeking("the most questions that settle", |at, p| (0..=MOST).rev().find(|&k| settles(at, p, k))),
    seeking("as many questions as the list has, if some settle", |at, p| least(at, p).map(|_| p.questions.len())),
    seeking("a question where none is needed", |at, p| least(at, p).map(|k| k.max(1))),
    seeking("none where no question is needed", |at, p| least(at, p).filter(|&k| k > 0)),
    seeking("none by an empty list", |at, p| least(at, p).filter(|_| !p.questions.is_empty())),
    seeking("a target without a code not settled", |at, p| settled_by(at, p, |at, target| at.standing(target) == 1)),
    seeking("settled with two codes", |at, p| settled_by(at, p, |at, target| at.standing(target) <= 2)),
    seeking("settled without a code alone", |at, p| settled_by(at, p, |at, target| at.standing(target) == 0)),
    seeking("settled where it is answered", |at, p| settled_by(at, p, |at, target| !at.is_open(target))),
    seeking("an answered target not settled", |at, p| {
        settled_by(at, p, |at, target| at.is_open(target) && at.standing(target) <= 1)
    }),
    seeking("settled only where no field is empty", |at, p| {
        settled_by(at, p, |at, target| at.is_settled(target) && !has_empty(&at.standing))
    }),
    seeking("settled wherever a field is empty", |at, p| {
        settled_by(at, p, |at, target| at.is_settled(target) || has_empty(&at.standing))
    }),
    seeking("codes that the answers allow counted", |at, p| {
        settled_by(at, p, |at, target| allowed(at.book, &at.answers)[target].iter().filter(|&&stands| stands).count() <= 1)
    }),
    seeking("code 0 of the target not counted", |at, p| settled_by(at, p, |at, target| codes(at, target, |code| code > 0) <= 1)),
    seeking("codes of the target from 4 on not counted", |at, p| {
        settled_by(at, p, |at, target| codes(at, target, |code| code < 4) <= 1)
    }),
    seeking("the field before the target", |at, p| least(at, Planned { target: p.target.saturating_sub(1), ..p })),
    seeking("the field behind the target", |at, p| least(at, Planned { target: (p.target + 1).min(at.standing.len() - 1), ..p })),
    seeking("codes that leave a field empty given too", |at, p| given_by(at, p, |at, q, _| at.behind_each(q).collect())),
    seeking("all codes given", |at, p| {
        given_by(at, p, |at, q, _| (0..at.standing[q].len()).map(|code| at.behind(q, code)).collect())
    }),
    seeking("empty fields looked for before the answer", |at, p| {
        given_by(at, p, |at, q, _| if has_empty(&at.standing) { Vec::new() } else { at.behind_each(q).collect() })
    }),
    seeking("empty fields looked for in the target alone", |at, p| {
        given_by(at, p, |at, q, p| given_where(at, q, |behind, field| behind.standing(field) > 0 || field != p.target))
    }),
    seeking("empty fields looked for in the question alone", |at, p| {
        given_by(at, p, |at, q, _| given_where(at, q, |behind, field| behind.standing(field) > 0 || field != q))
    }),
    seeking("empty fields looked for in the list alone", |at, p| {
        given_by(at, p, |at, q, p| {
            given_where(at, q, |behind, field| behind.standing(field) > 0 || !p.questions.contains(&(field as u8)))
        })
    }),
    seeking("empty fields looked for in open fields alone", |at, p| {
        given_by(at, p, |at, q, _| given_where(at, q, |behind, field| behind.standing(field) > 0 || !at.is_open(field)))
    }),
    seeking("empty fields looked for in answered fields alone", |at, p| {
        given_by(at, p, |at, q, _| given_where(at, q, |behind, field| behind.standing(field) > 0 || behind.is_open(field)))
    }),
    seeking("empty fields looked for in fields of one table with the question", |at, p| {
        given_by(at, p, |at, q, _| given_where(at, q, |behind, field| behind.standing(field) > 0 || !are_tied(at, q, field)))
    }),
    seeking("field 0 not looked at for codes", |at, p| given_by(at, p, |at, q, _| looking_at(at, q, |field, _| field > 0))),
    seeking("field 0 alone looked at for codes", |at, p| given_by(at, p, |at, q, _| looking_at(at, q, |field, _| field == 0))),
    seeking("the last field not looked at for codes", |at, p| {
        given_by(at, p, |at, q, _| looking_at(at, q, |field, last| field < last))
    }),
    seeking("the last field alone looked at for codes", |at, p| {
        given_by(at, p, |at, q, _| looking_at(at, q, |field, last| field == last))
    }),
    seeking("fields from 32 on not looked at for codes", |at, p| {
        given_by(at, p, |at, q, _| looking_at(at, q, |field, _| field < 32))
    }),
    seeking("a field of one code not looked at for codes", |at, p| {
        given_by(at, p, |at, q, _| given_where(at, q, |behind, field| behind.standing(field) > 0 || at.book.counts[field] == 1))
    }),
    seeking("a branch without a code to give not settled", |at, p| {
        answered_by(at, p, |settled| settled.next() == Some(true) && all(settled))
    }),
    seeking("one answer that settles suffices", |at, p| {
        answered_by(at, p, |settled| settled.next().is_none_or(|so| so || any(settled)))
    }),
    seeking("only the first answer looked at", |at, p| answered_by(at, p, |settled| all(settled.take(1)))),
    seeking("only the last answer looked at", |at, p| answered_by(at, p, |settled| settled.last() != Some(false))),
    seeking("the first answer not looked at", |at, p| answered_by(at, p, |settled| all(settled.skip(1)))),
    seeking("two answers looked at", |at, p| answered_by(at, p, |settled| all(settled.take(2)))),
    seeking("sixteen answers looked at", |at, p| answered_by(at, p, |settled| all(settled.take(16)))),
    seeking("answers given before forgotten", |at, p| (0..=MOST).find(|&k| forgetting(at, p, &at.answers, k))),
    seeking("the sheet's answers forgotten behind a question", |at, p| {
        (0..=MOST).find(|&k| forgetting(at, p, &[NO_ANSWER; PLACES], k))
    }),
    seeking("the sheet's answers not looked at", |at, p| least(&Position::of(at.book, &[NO_ANSWER; PLACES], at.largest), p)),
    seeking("answers from field 32 on not looked at", |at, p| {
        let answers: Vec<u8> = at.answers.iter().enumerate().map(|(f, &code)| if f < 32 { code } else { NO_ANSWER }).collect();
        least(&Position::of(at.book, &answers, at.largest), p)
    }),
    seeking("each question has to settle", |at, p| {
        by(at, p, Rules { chosen: |settled| settled.next() == Some(true) && all(settled), ..RIGHT })
    }),
    seeking("only the first question that is open chosen", |at, p| {
        open_by(at, p, |_, _, open| open.into_iter().take(1).collect())
    }),
    seeking("only the last question that is open chosen", |at, p| {
        open_by(at, p, |_, _, open| open.into_iter().last().into_iter().collect())
    }),
    seeking("only the open question with the lowest number chosen", |at, p| open_by(at, p, |_, _, open| first_by(open, |q| q))),
    seeking("the first question that is open not chosen", |at, p| {
        open_by(at, p, |_, _, open| open.into_iter().skip(1).collect())
    }),
    seeking("the question with the fewest codes chosen", |at, p| {
        open_by(at, p, |at, _, open| first_by(open, |q| at.standing(q)))
    }),
    seeking("the question with the most codes chosen", |at, p| {
        open_by(at, p, |at, _, open| first_by(open, |q| usize::MAX - at.standing(q)))
    }),
    seeking("a question chosen that leaves the target the fewest codes", |at, p| {
        open_by(at, p, |at, p, open| {
            first_by(open, |q| at.behind_answers(q).map(|behind| behind.standing(p.target)).max().unwrap_or(0))
        })
    }),
    seeking("questions chosen before the first answer", |at, p| (0..=MOST).find(|&k| settles_by_set(at, p, k))),
    seeking("questions chosen in the list's order", |at, p| (0..=MOST).find(|&k| in_order(at, p, k))),
    seeking("the last question of the list not chosen", |at, p| with(at, p, &p.questions[..p.questions.len().max(1) - 1])),
    seeking("five questions of the list looked at", |at, p| with(at, p, &p.questions[..p.questions.len().min(5)])),
    seeking("three questions of the list looked at", |at, p| with(at, p, &p.questions[..p.questions.len().min(3)])),
    seeking("question 0 not chosen", |at, p| only(at, p, |q| q > 0)),
    seeking("questions from 32 on not chosen", |at, p| only(at, p, |q| q < 32)),
    seeking("questions of the target's tables alone chosen", |at, p| only(at, p, |q| are_tied(at, p.target, q))),
    seeking("all open fields chosen from", |at, p| {
        let open: Vec<u8> =
            (0..at.standing.len()).filter(|&q| q != p.target && at.is_open(q)).map(|q| q as u8).take(LONGEST).collect();
        with(at, p, &open)
    }),
    seeking("the target asked too", |at, p| least(at, p).or((!p.questions.is_empty()).then_some(1))),
    telling("found not told", |_, left| if_accepted(left, |left| left.cells[1] = 0)),
    telling("the number of questions not told", |_, left| if_accepted(left, |left| left.cells[2] = 0)),
    telling("found and questions exchanged", |_, left| if_accepted(left, |left| left.cells.swap(1, 2))),
    telling("place and questions exchanged", |_, left| if_accepted(left, |left| left.cells.swap(0, 2))),
    telling("no question told as none", |_, left| if_accepted(left, |left| left.cells[1] = left.cells[2].min(1))),
    telling("none told as no question", |_, left| if_none(left, |left| left.cells[1] = 1)),
    telling("none told as three questions", |_, left| if_none(left, |left| left.cells[1..].copy_from_slice(&[1, 3]))),
    telling("none told as four questions", |_, left| if_none(left, |left| left.cells[1..].copy_from_slice(&[1, 4]))),
    telling("none told with three questions", |_, left| if_none(left, |left| left.cells[2] = 3)),
    telling("none told by the largest number", |_, left| if_none(left, |left| left.cells[2] = u64::MAX)),
    telling("none told by the length of the list", |seen, left| {
        if_none(left, |left| left.cells[2] = seen.planned().questions.len() as u64)
    }),
    telling("none told with place 1", |_, left| if_none(left, |left| left.cells[0] = 1)),
    telling("none told as 27", |_, left| if_none(left, |left| left.number = 27)),
    telling("none told as 17", |_, left| if_none(left, |left| left.number = 17)),
    telling("found not written", |_, left| if_accepted(left, |left| left.cells[1] = UNWRITTEN)),
    telling("the number of questions not written", |_, left| if_accepted(left, |left| left.cells[2] = UNWRITTEN)),
    telling("the number of questions not written where there is no plan", |_, left| {
        if_none(left, |left| left.cells[2] = UNWRITTEN)
    }),
    telling("found not written by a refusal", |_, left| if_refused(left, |left| left.cells[1] = UNWRITTEN)),
    telling("the number of questions not written by a refusal", |_, left| if_refused(left, |left| left.cells[2] = UNWRITTEN)),
    telling("a refusal tells found", |_, left| if_refused(left, |left| left.cells[1] = 1)),
    telling("a refusal tells a question", |_, left| if_refused(left, |left| left.cells[2] = 1)),
    telling("15 with the target for its place", |seen, left| with_place(left, 15, |_| seen.planned().target as u64)),
    telling("27 with the length of the list for its place", |seen, left| {
        with_place(left, 27, |_| seen.planned().questions.len() as u64)
    }),
    telling("27 with the question for its place", |seen, left| with_place(left, 27, |_| seen.first_reason().1 as u64)),
    telling("27 with the place in the list for its place", |seen, left| with_place(left, 27, |_| seen.first_reason().0 as u64)),
    telling("27 with the target for its place", |seen, left| with_place(left, 27, |_| seen.planned().target as u64)),
    telling("27 tested before 15", |seen, left| before(left, 15, 27, || seen.is_bad())),
    telling("27 tested before 14", |seen, left| before(left, 14, 27, || seen.has_target() && seen.is_bad())),
    telling("27 told as none", |_, left| none_for(left, 27, || true)),
    telling("27 told as 26", |_, left| before(left, 27, 26, || true)),
    telling("27 told as 28", |_, left| before(left, 27, 28, || true)),
    telling("27 told as 20", |_, left| before(left, 27, 20, || true)),
    telling("15 told as 27", |_, left| before(left, 15, 27, || true)),
    telling("15 for a missing question", |seen, left| {
        before(left, 27, 15, || seen.is_for(|reason, _| reason == Reason::Missing))
    }),
    telling("17 for an answered question", |seen, left| {
        before(left, 27, 17, || seen.is_for(|reason, _| reason == Reason::Answered))
    }),
    telling("22 for a photographed question", |seen, left| {
        before(left, 27, 22, || seen.is_for(|reason, q| reason == Reason::Answered && seen.sheet.is_photographed(q)))
    }),
    telling("18 for a list that is too long", |seen, left| {
        before(left, 27, 18, || seen.is_for(|reason, _| reason == Reason::Long))
    }),
    telling("27 for an empty list", |seen, left| refuse_where(left, 27, || seen.planned().questions.is_empty())),
    telling("27 for an answered target", |seen, left| refuse_where(left, 27, || seen.sheet.is_answered(seen.planned().target))),
    telling("22 for a photographed target", |seen, left| {
        refuse_where(left, 22, || seen.sheet.is_photographed(seen.planned().target))
    }),
    telling("17 for an open target", |seen, left| refuse_where(left, 17, || !seen.sheet.is_answered(seen.planned().target))),
    telling("27 for a question of one code", |seen, left| {
        refuse_where(left, 27, || seen.planned().questions.iter().any(|&q| seen.accepted().counts[q as usize] == 1))
    }),
    telling("27 for a list of six", |seen, left| refuse_where(left, 27, || seen.planned().questions.len() == LONGEST)),
    telling("27 for a list that does not rise", |seen, left| refuse_where(left, 27, || !seen.planned().questions.is_sorted())),
    telling("27 where a field is empty", |seen, left| {
        refuse_where(left, 27, || has_empty(&largest(seen.accepted(), &seen.sheet.answers)))
    }),
    telling("seven questions taken", |seen, left| {
        taken(seen, left, |seen, reason, _, _| reason == Reason::Long && seen.listed() == 7)
    }),
    telling("any number of questions taken", |seen, left| taken(seen, left, |_, reason, _, _| reason == Reason::Long)),
    telling("the length of the list by a byte", |seen, left| {
        taken(seen, left, |seen, reason, place, _| {
            seen.listed() % 256 <= LONGEST && (reason == Reason::Long || place >= seen.listed() % 256)
        })
    }),
    telling("six questions of a longer list taken, and the others not looked at", |seen, left| {
        taken(seen, left, |_, reason, place, _| reason == Reason::Long || place >= LONGEST)
    }),
    telling("questions that come again taken", |seen, left| taken(seen, left, |_, reason, _, _| reason == Reason::Again)),
    telling("questions that come again next to them alone seen", |seen, left| {
        taken(seen, left, |seen, reason, place, q| reason == Reason::Again && seen.planned().questions[place - 1] as usize != q)
    }),
    telling("questions that come again next to them taken", |seen, left| {
        taken(seen, left, |seen, reason, place, q| reason == Reason::Again && seen.planned().questions[place - 1] as usize == q)
    }),
    telling("the first question again taken", |seen, left| {
        taken(seen, left, |seen, reason, _, q| reason == Reason::Again && seen.planned().questions[0] as usize == q)
    }),
    telling("a question that comes again in the last place taken", |seen, left| {
        taken(seen, left, |seen, reason, place, _| reason == Reason::Again && place + 1 == seen.listed())
    }),
    telling("answered questions taken", |seen, left| taken(seen, left, |_, reason, _, _| reason == Reason::Answered)),
    telling("answered questions without a photograph taken", |seen, left| {
        taken(seen, left, |seen, reason, _, q| reason == Reason::Answered && !seen.sheet.is_photographed(q))
    }),
    telling("photographed questions taken", |seen, left| {
        taken(seen, left, |seen, reason, _, q| reason == Reason::Answered && seen.sheet.is_photographed(q))
    }),
    telling("questions answered by code 0 taken", |seen, left| {
        taken(seen, left, |seen, reason, _, q| reason == Reason::Answered && seen.sheet.answers[q] == 0)
    }),
    telling("an answered question in the first place taken", |seen, left| {
        taken(seen, left, |_, reason, place, _| reason == Reason::Answered && place == 0)
    }),
    telling("an answered question behind the first place taken", |seen, left| {
        taken(seen, left, |_, reason, place, _| reason == Reason::Answered && place > 0)
    }),
    telling("missing questions taken", |seen, left| taken(seen, left, |_, reason, _, _| reason == Reason::Missing)),
    telling("the question behind the last field taken", |seen, left| {
        taken(seen, left, |seen, reason, _, q| reason == Reason::Missing && q == seen.accepted().counts.len())
    }),
    telling("missing questions that a sheet has a place for taken", |seen, left| {
        taken(seen, left, |_, reason, _, q| reason == Reason::Missing && q < PLACES)
    }),
    telling("question 255 taken", |seen, left| taken(seen, left, |_, reason, _, q| reason == Reason::Missing && q == 255)),
    telling("missing questions but 255 taken", |seen, left| {
        taken(seen, left, |_, reason, _, q| reason == Reason::Missing && q < 255)
    }),
    telling("a missing question in the first place taken", |seen, left| {
        taken(seen, left, |_, reason, place, _| reason == Reason::Missing && place == 0)
    }),
    telling("a missing question behind the first place taken", |seen, left| {
        taken(seen, left, |_, reason, place, _| reason == Reason::Missing && place > 0)
    }),
    telling("the target among the questions taken", |seen, left| taken(seen, left, |_, reason, _, _| reason == Reason::Target)),
    telling("the target in the first place taken", |seen, left| {
        taken(seen, left, |_, reason, place, _| reason == Reason::Target && place == 0)
    }),
    telling("the target behind the first place taken", |seen, left| {
        taken(seen, left, |_, reason, place, _| reason == Reason::Target && place > 0)
    }),
    telling("27 only where a question would be needed", |seen, left| {
        taken(seen, left, |seen, _, _, _| {
            Position::of(seen.accepted(), &seen.sheet.answers, largest).is_settled(seen.planned().target)
        })
    }),
    telling("a sheet at fault taken as one without that answer", |seen, left| unseen(seen, left, |_, _, _| true)),
];

/// Why a list may not be asked.
#[derive(Clone, Copy, PartialEq)]
enum Reason {
    Long,
    Again,
    Answered,
    Missing,
    Target,
}

/// How a search goes on from a position; each slip has another of these.
#[derive(Clone, Copy)]
struct Rules {
    /// Whether the target is settled.
    settled: fn(&Position, usize) -> bool,
    /// The positions behind the answers to a question.
    given: for<'a> fn(&Position<'a>, usize, Planned) -> Vec<Position<'a>>,
    /// Whether a question settles, by whether each answer to it does.
    answered: fn(&mut dyn Iterator<Item = bool>) -> bool,
    /// The questions to choose from, of those that are open.
    open: fn(&Position, Planned, Vec<usize>) -> Vec<usize>,
    /// Whether a choice settles, by whether each question does.
    chosen: fn(&mut dyn Iterator<Item = bool>) -> bool,
}

const RIGHT: Rules = Rules {
    settled: |at, target| at.is_settled(target),
    given: |at, q, _| at.behind_answers(q).collect(),
    answered: |settled| all(settled),
    open: |_, _, open| open,
    chosen: |settled| any(settled),
};

fn all(mut settled: impl Iterator<Item = bool>) -> bool {
    settled.all(|so| so)
}

fn any(mut settled: impl Iterator<Item = bool>) -> bool {
    settled.any(|so| so)
}

/// The least number of questions by other rules.
fn by(at: &Position, planned: Planned, rules: Rules) -> Option<usize> {
    (0..=MOST).find(|&questions| settles_by(at, planned, questions, rules))
}

fn settles_by(at: &Position, planned: Planned, questions: usize, rules: Rules) -> bool {
    if (rules.settled)(at, planned.target) || questions == 0 {
        return (rules.settled)(at, planned.target);
    }
    let open = planned.questions.iter().map(|&q| q as usize).filter(|&q| at.is_open(q)).collect();
    let settles = |q: usize| {
        let given = (rules.given)(at, q, planned);
        (rules.answered)(&mut given.iter().map(|behind| settles_by(behind, planned, questions - 1, rules)))
    };
    (rules.chosen)(&mut (rules.open)(at, planned, open).into_iter().map(settles))
}

fn settled_by(at: &Position, planned: Planned, settled: fn(&Position, usize) -> bool) -> Option<usize> {
    by(at, planned, Rules { settled, ..RIGHT })
}

fn given_by(
    at: &Position,
    planned: Planned,
    given: for<'a> fn(&Position<'a>, usize, Planned) -> Vec<Position<'a>>,
) -> Option<usize> {
    by(at, planned, Rules { given, ..RIGHT })
}

fn answered_by(at: &Position, planned: Planned, answered: fn(&mut dyn Iterator<Item = bool>) -> bool) -> Option<usize> {
    by(at, planned, Rules { answered, ..RIGHT })
}

fn open_by(at: &Position, planned: Planned, open: fn(&Position, Planned, Vec<usize>) -> Vec<usize>) -> Option<usize> {
    by(at, planned, Rules { open, ..RIGHT })
}

/// The least number of questions where others may be asked.
fn with(at: &Position, planned: Planned, questions: &[u8]) -> Option<usize> {
    least(at, Planned { questions, ..planned })
}

fn only(at: &Position, planned: Planned, so: impl Fn(usize) -> bool) -> Option<usize> {
    let questions: Vec<u8> = planned.questions.iter().copied().filter(|&q| so(q as usize)).collect();
    with(at, planned, &questions)
}

/// The first of the questions, by this key, is the one that is chosen.
fn first_by(open: Vec<usize>, key: impl Fn(usize) -> usize) -> Vec<usize> {
    open.into_iter().min_by_key(|&q| key(q)).into_iter().collect()
}

/// How many codes of the field stand and are so.
fn codes(at: &Position, field: usize, so: fn(usize) -> bool) -> usize {
    (0..at.standing[field].len()).filter(|&code| at.standing[field][code] && so(code)).count()
}

/// The positions behind the codes that stand, where each field is so behind the answer.
fn given_where<'a>(at: &Position<'a>, q: usize, so: impl Fn(&Position, usize) -> bool) -> Vec<Position<'a>> {
    at.behind_each(q).filter(|behind| (0..behind.standing.len()).all(|field| so(behind, field))).collect()
}

/// Looks for empty fields among some alone, by their number and the last one's.
fn looking_at<'a>(at: &Position<'a>, q: usize, looked_at: fn(usize, usize) -> bool) -> Vec<Position<'a>> {
    given_where(at, q, |behind, field| behind.standing(field) > 0 || !looked_at(field, behind.standing.len() - 1))
}

fn are_tied(at: &Position, one: usize, other: usize) -> bool {
    at.book.tables.iter().any(|table| [one, other].iter().all(|&field| table.fields.contains(&(field as u8))))
}

/// Behind each answer stand these answers and it alone.
fn forgetting(at: &Position, planned: Planned, answers: &[u8], questions: usize) -> bool {
    let from = Position::of(at.book, answers, at.largest);
    let settles = |q: usize| {
        let given = at.behind_answers(q).map(|behind| from.behind(q, behind.answers[q] as usize));
        given.into_iter().all(|behind| forgetting(&behind, planned, answers, questions - 1))
    };
    let mut open = planned.questions.iter().map(|&q| q as usize).filter(|&q| at.is_open(q));
    at.is_settled(planned.target) || questions > 0 && open.any(settles)
}

/// Some of the questions, so many, settle when no other is chosen.
fn settles_by_set(at: &Position, planned: Planned, questions: usize) -> bool {
    let all = planned.questions;
    let chosen = |set: u32| (0..all.len()).filter(|k| set >> k & 1 == 1).map(|k| all[k]).collect::<Vec<u8>>();
    let mut sets = (0..1u32 << all.len()).filter(|set| set.count_ones() as usize == questions);
    sets.any(|set| settles(at, Planned { questions: &chosen(set), ..planned }, questions))
}

/// Each question stands in the list behind those asked before.
fn in_order(at: &Position, planned: Planned, questions: usize) -> bool {
    let behind = |place: usize| Planned { questions: &planned.questions[place + 1..], ..planned };
    let settles = |place: usize| {
        let q = planned.questions[place] as usize;
        at.behind_answers(q).all(|answered| in_order(&answered, behind(place), questions - 1))
    };
    at.is_settled(planned.target) || questions > 0 && (0..planned.questions.len()).any(settles)
}

impl Seen<'_> {
    fn planned(&self) -> Planned<'_> {
        match self.call {
            Call::Plan { target, questions } => Planned { target: *target, questions },
            _ => unreachable!("it is looked for in the calls for a plan alone"),
        }
    }

    fn listed(&self) -> usize {
        self.planned().questions.len()
    }

    fn has_target(&self) -> bool {
        self.planned().target < self.accepted().counts.len()
    }

    fn is_bad(&self) -> bool {
        self.planned().is_refused(self.accepted(), self.sheet)
    }

    /// Each reason for 27, with a place in the list and the question there.
    fn reasons(&self) -> Vec<(Reason, usize, usize)> {
        let (planned, fields) = (self.planned(), self.accepted().counts.len());
        let mut reasons = Vec::new();
        for (place, &q) in planned.questions.iter().enumerate() {
            let holds = [
                (Reason::Long, place == LONGEST),
                (Reason::Again, planned.questions[..place].contains(&q)),
                (Reason::Missing, q as usize >= fields),
                (Reason::Answered, (q as usize) < fields && self.sheet.is_answered(q as usize)),
                (Reason::Target, q as usize == planned.target),
            ];
            reasons.extend(holds.iter().filter(|(_, so)| *so).map(|&(reason, _)| (reason, place, q as usize)));
        }
        reasons
    }

    fn is_for(&self, so: impl Fn(Reason, usize) -> bool) -> bool {
        self.reasons().iter().any(|&(reason, _, q)| so(reason, q))
    }

    /// The place in the list of the first reason, and the question there.
    fn first_reason(&self) -> (usize, usize) {
        self.reasons().first().map_or((0, 0), |&(_, place, q)| (place, q))
    }
}

/// Takes a list where each reason against it is so, by its place in the list and the question there. What may not be asked is not chosen.
fn taken(seen: &Seen, left: &mut calls::Left, so: fn(&Seen, Reason, usize, usize) -> bool) {
    let is_so = |&(reason, place, q): &(Reason, usize, usize)| so(seen, reason, place, q);
    if left.number == 27 && seen.reasons().iter().all(is_so) {
        let (book, planned) = (seen.accepted(), seen.planned());
        let may_be_asked = |q: usize| q < book.counts.len() && !seen.sheet.is_answered(q) && q != planned.target;
        let found = only(&Position::of(book, &seen.sheet.answers, largest), planned, may_be_asked);
        left.number = 0;
        left.cells[1..].copy_from_slice(&told(found.map(|questions| questions as u64)));
    }
}
