//! What calls show of document 02's M-110: how many questions are needed and why no fewer, where there is no plan, and why a call is
//! refused.

use std::ops::RangeInclusive;

use crate::book::Book;
use crate::calls::{Call, Left};
use crate::compare::Trial;
use crate::filter::{has_empty, largest};
use crate::plan::{settles, Planned, Position, LONGEST, MOST};
use crate::row_shapes::{is_above, next};
use crate::sheet::Sheet;

/// A call for a plan as it was made on an accepted book.
pub struct Asked<'a> {
    pub call: &'a Call,
    book: &'a Book,
    sheet: &'a Sheet,
    at: &'a Position<'a>,
    planned: Planned<'a>,
    left: &'a Left,
}

/// A shape: its name, how often it has to be reached in a run of 52,500 cases, and what has it.
type Shape = (&'static str, u64, fn(&Asked) -> bool);

/// A place of a list beside its last one.
type Place = fn(usize, usize) -> bool;

const ANY: Place = |_, _| true;
const FIRST: Place = |place, _| place == 0;
const LAST: Place = |place, last| 0 < place && place == last;
const BETWEEN: Place = |place, last| 0 < place && place < last;

const NO_QUESTION: [Shape; 7] = [
    ("no question", 8_900, |asked| asked.takes(0)),
    ("no question for an answered target", 4_400, |asked| asked.takes(0) && asked.sheet.is_answered(asked.planned.target)),
    ("no question for an open target with one code", 1_700, |asked| asked.takes(0) && asked.is_open() && asked.codes() == 1),
    ("no question for an open target without a code", 2_600, |asked| asked.takes(0) && asked.is_open() && asked.codes() == 0),
    ("no question by an empty list", 5_000, |asked| asked.takes(0) && asked.listed(0..=0)),
    ("no question of six", 220, |asked| asked.takes(0) && asked.listed(6..=6)),
    ("no question though another field is empty", 880, |asked| asked.takes(0) && asked.codes() == 1 && asked.contradicts()),
];

const QUESTIONS: [Shape; 25] = [
    ("one question", 1_000, |asked| asked.takes(1)),
    ("one question of one", 270, |asked| asked.takes(1) && asked.listed(1..=1)),
    ("one question of six", 130, |asked| asked.takes(1) && asked.listed(6..=6)),
    ("one question, the first of several alone", 58, |asked| asked.takes(1) && asked.settles_alone(FIRST)),
    ("one question, the last of several alone", 76, |asked| asked.takes(1) && asked.settles_alone(LAST)),
    ("one question, one between others alone", 55, |asked| asked.takes(1) && asked.settles_alone(BETWEEN)),
    ("one question where a field is empty already", 530, |asked| asked.takes(1) && asked.contradicts()),
    ("one question to which no code may be given", 100, |asked| asked.takes(1) && !asked.contradicts() && asked.has_dead_end()),
    ("one question of more codes than two", 620, |asked| asked.takes(1) && asked.settling().any(|q| asked.at.standing(q) > 2)),
    ("one question of 32 codes", 44, |asked| asked.takes(1) && asked.settling().any(|q| asked.at.standing(q) == 32)),
    ("two questions", 86, |asked| asked.takes(2)),
    ("two questions of two", 26, |asked| asked.takes(2) && asked.listed(2..=2)),
    ("two questions of six", 10, |asked| asked.takes(2) && asked.listed(6..=6)),
    ("two questions, the second by the first answer", 12, |asked| asked.takes(2) && !asked.is_settled_by_any(2)),
    ("three questions", 49, |asked| asked.takes(3)),
    ("three questions of three", 21, |asked| asked.takes(3) && asked.listed(3..=3)),
    ("three questions of six", 6, |asked| asked.takes(3) && asked.listed(6..=6)),
    ("three questions, the others by the answers before", 7, |asked| asked.takes(3) && !asked.is_settled_by_any(3)),
    ("a plan though some standing code may not be given", 52, |asked| asked.found() > Some(0) && asked.has_struck_answer()),
    ("a plan beside a photograph", 220, |asked| asked.found() > Some(0) && asked.sheet.has_photograph()),
    ("a plan for target 0", 88, |asked| asked.found() > Some(0) && asked.planned.target == 0),
    ("a plan for a target from 32 to 58", 140, |asked| asked.found() > Some(0) && (32..=58).contains(&asked.planned.target)),
    ("a plan for target 59", 18, |asked| asked.found() > Some(0) && asked.planned.target == 59),
    ("a plan that begins with question 0", 390, |asked| asked.begins_with(0..=0)),
    ("a plan that begins with a question from 32 on", 150, |asked| asked.begins_with(32..=59)),
];

const NONE: [Shape; 10] = [
    ("none", 2_800, |asked| asked.none()),
    ("none by an empty list", 1_100, |asked| asked.none() && asked.listed(0..=0)),
    ("none by one question", 580, |asked| asked.none() && asked.listed(1..=1)),
    ("none by two questions", 470, |asked| asked.none() && asked.listed(2..=2)),
    ("none by three questions", 230, |asked| asked.none() && asked.listed(3..=3)),
    ("none by six questions", 140, |asked| asked.none() && asked.listed(6..=6)),
    ("none, but with one question more", 7, |asked| asked.none() && settles(asked.at, asked.planned, MOST + 1)),
    ("none for an answer that leaves three codes", 1_000, |asked| asked.none() && asked.leaves_three_codes()),
    ("none though some question has an answer that settles", 250, |asked| asked.none() && asked.settles_by_some_answer()),
    ("none for an answer behind fifteen others that settle", 4, |asked| asked.none() && asked.settles_but_late()),
];

const LISTS: [Shape; 22] = [
    ("27 for seven questions alone", 150, |asked| asked.is_long(7..=7)),
    ("27 for more alone", 55, |asked| asked.is_long(8..=59)),
    ("27 for as many as a byte counts and up to six", 350, |asked| asked.number() == 27 && asked.listed(256..=256 + LONGEST)),
    ("27 for a question that comes again next to it", 400, |asked| asked.repeats(|first, again, _| first + 1 == again)),
    ("27 for a question that comes again behind others", 170, |asked| asked.repeats(|first, again, _| first + 1 < again)),
    ("27 for the first question as the last", 160, |asked| {
        asked.repeats(|first, again, last| first + 1 < again && first == 0 && again == last)
    }),
    ("27 for a question that comes again in a list of six", 47, |asked| asked.repeats(|_, _, last| last == 5)),
    ("27 for an answered question in the first place", 700, |asked| asked.has_bad(FIRST, |asked, q| asked.is_answered(q))),
    ("27 for an answered question in the last place", 300, |asked| asked.has_bad(LAST, |asked, q| asked.is_answered(q))),
    ("27 for an answered question between others", 34, |asked| asked.has_bad(BETWEEN, |asked, q| asked.is_answered(q))),
    ("27 for a photographed question", 240, |asked| {
        asked.has_bad(ANY, |asked, q| asked.is_answered(q) && asked.sheet.is_photographed(q))
    }),
    ("27 for a missing question in the first place", 750, |asked| asked.has_bad(FIRST, |asked, q| asked.is_missing(q))),
    ("27 for a missing question in the last place", 320, |asked| asked.has_bad(LAST, |asked, q| asked.is_missing(q))),
    ("27 for a missing question between others", 47, |asked| asked.has_bad(BETWEEN, |asked, q| asked.is_missing(q))),
    ("27 for the question behind the last field", 300, |asked| asked.has_bad(ANY, |asked, q| q == asked.fields())),
    ("27 for a question that the sheet has a place for", 520, |asked| {
        asked.has_bad(ANY, |asked, q| asked.is_missing(q) && q < 60)
    }),
    ("27 for question 60 of 60 fields", 52, |asked| asked.has_bad(ANY, |asked, q| q == 60 && asked.fields() == 60)),
    ("27 for question 255", 140, |asked| asked.has_bad(ANY, |_, q| q == 255)),
    ("27 for the target in the first place", 380, |asked| asked.has_bad(FIRST, |asked, q| asked.is_open_target(q))),
    ("27 for the target in the last place", 330, |asked| asked.has_bad(LAST, |asked, q| asked.is_open_target(q))),
    ("27 for the target between others", 35, |asked| asked.has_bad(BETWEEN, |asked, q| asked.is_open_target(q))),
    ("27 for the answered target", 570, |asked| asked.has_bad(ANY, |asked, q| q == asked.planned.target && !asked.is_open())),
];

const REFUSALS: [Shape; 14] = [
    ("27 for a list with two faults", 1_800, |asked| asked.number() == 27 && asked.faults_of_list() > 1),
    ("27 for an answered target", 2_000, |asked| asked.number() == 27 && asked.sheet.is_answered(asked.planned.target)),
    ("27 where no question would be needed", 4_200, |asked| asked.number() == 27 && asked.codes() <= 1),
    ("27 where a field is empty", 3_000, |asked| asked.number() == 27 && asked.contradicts()),
    ("14 before 27", 1_700, |asked| asked.number() == 14 && asked.has_target() && asked.is_bad()),
    ("14 before a target that the book lacks", 790, |asked| asked.number() == 14 && !asked.has_target()),
    ("15 before 27", 1_800, |asked| asked.number() == 15 && asked.is_bad()),
    ("15 by a list that may be asked", 820, |asked| asked.number() == 15 && !asked.is_bad()),
    ("15 for the target behind the last field", 560, |asked| asked.lacks(next)),
    ("15 for target 255", 260, |asked| asked.lacks(|target, _| target == 255)),
    ("15 for target 256", 290, |asked| asked.lacks(|target, _| target == 256)),
    ("15 for 2^16 and a target", 350, |asked| asked.lacks(|target, fields| is_above(target, 16, fields))),
    ("15 for 2^32 and a target", 360, |asked| asked.lacks(|target, fields| is_above(target, 32, fields))),
    ("15 for the largest number", 170, |asked| asked.lacks(|target, _| target == usize::MAX)),
];

/// The names of all shapes, and how often each has to be reached.
pub fn all() -> impl Iterator<Item = (&'static str, u64)> {
    every().map(|(name, least, _)| (*name, *least))
}

fn every() -> impl Iterator<Item = &'static Shape> {
    NO_QUESTION.iter().chain(&QUESTIONS).chain(&NONE).chain(&LISTS).chain(&REFUSALS)
}

/// What stands on the sheet by an accepted book.
pub fn position<'a>(book: &'a Book, sheet: &Sheet) -> Position<'a> {
    Position::of(book, &sheet.answers, largest)
}

impl<'a> Asked<'a> {
    /// None where the trial is of another call.
    pub fn by(sheet: &'a Sheet, at: &'a Position<'a>, trial: &'a Trial) -> Option<Asked<'a>> {
        let Call::Plan { target, questions } = trial.call else {
            return None;
        };
        let planned = Planned { target: *target, questions };
        Some(Asked { call: trial.call, book: at.book, sheet, at, planned, left: &trial.left })
    }

    /// The names of the shapes that the call has.
    pub fn shapes(&self) -> impl Iterator<Item = &'static str> + '_ {
        every().filter(|(_, _, has)| has(self)).map(|(name, ..)| *name)
    }

    fn number(&self) -> u64 {
        self.left.number
    }

    /// The number of questions, if there is a plan.
    fn found(&self) -> Option<usize> {
        (self.number() == 0 && self.left.cells[1] == 1).then_some(self.left.cells[2] as usize)
    }

    fn takes(&self, questions: usize) -> bool {
        self.found() == Some(questions)
    }

    fn none(&self) -> bool {
        self.number() == 0 && self.found().is_none()
    }

    fn fields(&self) -> usize {
        self.book.counts.len()
    }

    fn has_target(&self) -> bool {
        self.planned.target < self.fields()
    }

    fn is_open(&self) -> bool {
        self.at.is_open(self.planned.target)
    }

    /// How many codes of the target stand.
    fn codes(&self) -> usize {
        self.at.standing(self.planned.target)
    }

    fn contradicts(&self) -> bool {
        has_empty(&self.at.standing)
    }

    fn listed(&self, questions: RangeInclusive<usize>) -> bool {
        questions.contains(&self.planned.questions.len())
    }

    fn questions(&self) -> impl Iterator<Item = usize> + '_ {
        self.planned.questions.iter().map(|&q| q as usize)
    }

    /// The list without the others.
    fn only<'q>(&self, questions: &'q [u8]) -> Planned<'q> {
        Planned { target: self.planned.target, questions }
    }

    /// The questions of which each settles the target by itself.
    fn settling(&self) -> impl Iterator<Item = usize> + '_ {
        self.questions().filter(|&q| settles(self.at, self.only(&[q as u8]), 1))
    }

    /// One question of several settles the target by itself, and its place is so beside the last one's.
    fn settles_alone(&self, so: Place) -> bool {
        let settling: Vec<usize> = self.settling().collect();
        let place = self.questions().position(|q| [q] == settling[..]);
        self.listed(2..=LONGEST) && place.is_some_and(|place| so(place, self.planned.questions.len() - 1))
    }

    /// Some question has codes that stand, and none of them may be given.
    fn has_dead_end(&self) -> bool {
        self.questions().any(|q| self.at.behind_answers(q).next().is_none())
    }

    /// Some question has a code that stands and may not be given, and another that may.
    fn has_struck_answer(&self) -> bool {
        let given = |q: usize| self.at.behind_answers(q).count();
        self.questions().any(|q| (1..self.at.standing(q)).contains(&given(q)))
    }

    /// So many questions of the list that were chosen before the first answer settle the target.
    fn is_settled_by_any(&self, how_many: usize) -> bool {
        let all = &self.planned.questions;
        let chosen = |set: u32| (0..all.len()).filter(|k| set >> k & 1 == 1).map(|k| all[k]).collect::<Vec<u8>>();
        let mut sets = (0..1u32 << all.len()).filter(|set| set.count_ones() as usize == how_many);
        sets.any(|set| settles(self.at, self.only(&chosen(set)), how_many))
    }

    /// Some question, of a number that is so, is one to begin with.
    fn begins_with(&self, numbers: RangeInclusive<usize>) -> bool {
        let Some(behind) = self.found().and_then(|found| found.checked_sub(1)) else {
            return false;
        };
        let begins = |q: usize| self.at.behind_answers(q).all(|at| settles(&at, self.planned, behind));
        self.questions().filter(|q| numbers.contains(q)).any(begins)
    }

    /// Some answer to some question leaves the target three codes or more.
    fn leaves_three_codes(&self) -> bool {
        self.questions().any(|q| self.at.behind_answers(q).any(|behind| behind.standing(self.planned.target) > 2))
    }

    fn settles_by_some_answer(&self) -> bool {
        self.questions().any(|q| self.at.behind_answers(q).any(|behind| behind.is_settled(self.planned.target)))
    }

    /// To one question or more the first fifteen answers settle the target, and another does not.
    fn settles_but_late(&self) -> bool {
        let settled =
            |q: usize| self.at.behind_answers(q).map(|behind| behind.is_settled(self.planned.target)).collect::<Vec<bool>>();
        self.questions().map(settled).any(|settled| settled.iter().position(|so| !so) >= Some(15))
    }

    fn is_answered(&self, q: usize) -> bool {
        !self.is_missing(q) && self.sheet.is_answered(q) && q != self.planned.target
    }

    fn is_missing(&self, q: usize) -> bool {
        q >= self.fields()
    }

    fn is_open_target(&self, q: usize) -> bool {
        q == self.planned.target && self.is_open()
    }

    /// The places of the list with a question that may not be asked, wherever it stands.
    fn bad(&self) -> Vec<usize> {
        let is_bad = |q: usize| self.is_missing(q) || self.sheet.is_answered(q) || q == self.planned.target;
        (0..self.planned.questions.len()).filter(|&place| is_bad(self.planned.questions[place] as usize)).collect()
    }

    fn is_bad(&self) -> bool {
        self.planned.is_refused(self.book, self.sheet)
    }

    /// How many of the reasons for 27 hold, and how often.
    fn faults_of_list(&self) -> usize {
        self.bad().len() + self.planned.has_repeat() as usize + (self.planned.questions.len() > LONGEST) as usize
    }

    /// The list is too long, and nothing else is wrong with it.
    fn is_long(&self, questions: RangeInclusive<usize>) -> bool {
        self.number() == 27 && self.listed(questions) && self.faults_of_list() == 1
    }

    /// One question of the list comes again, nothing else is wrong with it, and both places are so beside the last one.
    fn repeats(&self, so: fn(usize, usize, usize) -> bool) -> bool {
        let list = self.planned.questions;
        let again = || (1..list.len()).filter(|&place| list[..place].contains(&list[place]));
        let is_so =
            |place: usize| list.iter().position(|q| *q == list[place]).is_some_and(|first| so(first, place, list.len() - 1));
        self.number() == 27 && self.faults_of_list() == 1 && again().count() == 1 && again().all(is_so)
    }

    /// One question of the list may not be asked and is so, nothing else is wrong with the list, and its place is so beside the last one.
    fn has_bad(&self, so: Place, is_bad: fn(&Asked, usize) -> bool) -> bool {
        let [place] = self.bad()[..] else {
            return false;
        };
        let list = self.planned.questions;
        self.number() == 27 && self.faults_of_list() == 1 && so(place, list.len() - 1) && is_bad(self, list[place] as usize)
    }

    /// 15, and target and number of fields are so.
    fn lacks(&self, so: fn(usize, usize) -> bool) -> bool {
        self.number() == 15 && so(self.planned.target, self.fields())
    }
}

#[cfg(test)]
mod tests {
    use super::{position, Asked};
    use crate::book::{Book, Table};
    use crate::calls::Call;
    use crate::cases::Case;
    use crate::compare::trials;
    use crate::examples::{e1, e4, two_pairs};
    use crate::sheet::{Sheet, PLACES};

    /// The shapes of a call for a plan on this book, with these answers.
    fn names(book: &Book, answers: &[u8], target: usize, questions: &[u8]) -> Vec<&'static str> {
        let case = Case::new(book.write(), Sheet::of(answers), vec![Call::Plan { target, questions: questions.to_vec() }]);
        let (at, trials) = (position(book, &case.sheet), trials(&case, &Ok(book.clone()), 1, 0));
        let asked = Asked::by(&case.sheet, &at, &trials[0]).expect("it is a call for a plan");
        asked.shapes().collect()
    }

    #[test]
    fn shapes_of_e1() {
        let one = ["one question", "one question of one", "one question of more codes than two", "a plan for target 0"];
        assert_eq!(names(&e1(), &[], 0, &[2]), one);
        let last = ["one question", "one question, the last of several alone", "one question of more codes than two"];
        assert_eq!(names(&e1(), &[], 0, &[1, 2]), [&last[..], &["a plan for target 0"]].concat());
        let two = ["two questions", "two questions of two", "a plan that begins with question 0"];
        assert_eq!(names(&e1(), &[], 2, &[1, 0]), two);
        let none = ["none", "none by one question", "none though some question has an answer that settles"];
        assert_eq!(names(&e1(), &[], 0, &[1]), none);
        assert_eq!(names(&e1(), &[], 2, &[]), ["none", "none by an empty list"]);
        let answered = ["no question", "no question for an answered target", "no question by an empty list"];
        assert_eq!(names(&e1(), &[1], 0, &[]), answered);
        assert_eq!(names(&e1(), &[0, 1], 2, &[])[..2], ["no question", "no question for an open target with one code"]);
        assert_eq!(names(&e1(), &[1, 0], 2, &[])[1], "no question for an open target without a code");
    }

    #[test]
    fn shapes_of_contradictions() {
        let dead = ["one question", "one question of one", "one question to which no code may be given"];
        assert_eq!(names(&e4(), &[], 1, &[2]), dead);
        let empty = ["one question", "one question of one", "one question where a field is empty already"];
        assert_eq!(names(&two_pairs(), &[0, 1], 2, &[3]), empty);
        let beside = "no question though another field is empty";
        assert!(names(&two_pairs(), &[0, 1, 0], 3, &[]).contains(&beside));
    }

    /// The first field says which of the next two is the last; or the last has a code more than can be ruled out by three of four.
    #[test]
    fn shapes_of_choices() {
        let rows = (0..8u8).map(|i| vec![i >> 2, i >> 1 & 1, i & 1, if i < 4 { i >> 1 & 1 } else { i & 1 }]).collect();
        let which = Book::new(vec![2; 4], vec![Table { fields: vec![0, 1, 2, 3], rows }]);
        assert!(names(&which, &[], 3, &[1, 2, 0]).contains(&"two questions, the second by the first answer"));
        let rules_out = |q: u8| {
            let rows = (0..5).flat_map(|code| [vec![0, code], vec![1, code]]).filter(|row| (row[0] == 1) == (row[1] == q));
            Table { fields: vec![q, 4], rows: rows.collect() }
        };
        let many = Book::new(vec![2, 2, 2, 2, 5], (0..4).map(rules_out).collect());
        let none = ["none", "none, but with one question more", "none for an answer that leaves three codes"];
        let settles = "none though some question has an answer that settles";
        assert_eq!(names(&many, &[], 4, &[0, 1, 2, 3]), [&none[..], &[settles]].concat());
    }

    #[test]
    fn shapes_of_lists() {
        let book = Book::new(vec![2; PLACES], Vec::new());
        let refused = |questions: &[u8]| names(&book, &[0, 0], 9, questions);
        assert_eq!(refused(&[2, 3, 4, 5, 6, 7, 8]), ["27 for seven questions alone"]);
        assert_eq!(refused(&[2, 3, 4, 5, 6, 7, 8, 10]), ["27 for more alone"]);
        let long = ["27 for as many as a byte counts and up to six", "27 for a list with two faults"];
        assert_eq!(refused(&[2; 257]), long);
        assert_eq!(refused(&[2, 2]), ["27 for a question that comes again next to it"]);
        let again = ["27 for a question that comes again behind others", "27 for the first question as the last"];
        assert_eq!(refused(&[2, 3, 2]), again);
        assert_eq!(refused(&[1]), ["27 for an answered question in the first place"]);
        assert_eq!(refused(&[2, 1]), ["27 for an answered question in the last place"]);
        assert_eq!(refused(&[2, 1, 3]), ["27 for an answered question between others"]);
        let missing = ["27 for a missing question in the last place", "27 for the question behind the last field"];
        assert_eq!(refused(&[2, 60]), [&missing[..], &["27 for question 60 of 60 fields"]].concat());
        assert_eq!(refused(&[255, 2]), ["27 for a missing question in the first place", "27 for question 255"]);
        assert_eq!(refused(&[2, 9, 3]), ["27 for the target between others"]);
        assert_eq!(refused(&[1, 9]), ["27 for a list with two faults"]);
        let target = ["27 for the answered target", "27 for an answered target", "27 where no question would be needed"];
        assert_eq!(names(&book, &[0, 0], 1, &[1]), target);
        let mut at_fault = [0; PLACES];
        at_fault[7] = 2;
        assert_eq!(names(&book, &at_fault, 9, &[9]), ["14 before 27"]);
        assert_eq!(names(&book, &at_fault, 60, &[9]), ["14 before a target that the book lacks"]);
        let lacks = ["15 before 27", "15 for the target behind the last field"];
        assert_eq!(names(&book, &[], 60, &[2, 2]), lacks);
        assert_eq!(names(&book, &[], (1 << 16) + 59, &[2]), ["15 by a list that may be asked", "15 for 2^16 and a target"]);
    }
}
