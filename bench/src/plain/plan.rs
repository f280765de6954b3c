//! The debrief plan: my turn and the observer's follow each other, in two forms. In the library's a question's pass begins with what its
//! parent's left standing behind the code that was given, and the question that settled one code is tried first for the next; in the first
//! one each pass began anew from the answers, and the questions were tried in the order of the list.

use super::engine::Engine;
use super::reader::{check, Checked};
use super::sheet::{Sheet, NO_ANSWER, SHEET_BYTES};
use super::{Refused, CODES, PLACES};

/// The most questions of a list, and of a plan.
const LIST: usize = 6;
const QUESTIONS: u64 = 3;

/// The least number of questions, if three do, and how many were tried: each takes one pass.
#[derive(Clone, Copy, Debug, PartialEq, Eq)]
pub struct Plan {
    pub questions: Option<u64>,
    pub passes: u64,
}

/// What is known between two turns.
trait Position<'a> {
    /// Whether the question that settled one code is tried first for the next.
    const SETTLING_FIRST: bool;

    fn answers(&self) -> &[u8; PLACES];

    /// What the pass begins with that asks for this field's codes, a case for each.
    fn ask(&self, field: usize) -> Engine<'a>;

    /// What is known with code c given.
    fn behind(&self, asked: &Engine<'a>, field: usize, c: usize) -> Self;
}

fn added(answers: &[u8; PLACES], field: usize, c: usize) -> [u8; PLACES] {
    let mut answers = *answers;
    answers[field] = c as u8;
    answers
}

/// The answers, and for each field the codes that stand.
struct Begun<'a> {
    book: &'a Checked<'a>,
    watch: &'a [u64; PLACES],
    answers: [u8; PLACES],
    standing: [u32; PLACES],
}

/// For each field the codes that stand in case k.
fn standing(engine: &Engine, fields: usize, k: usize) -> [u32; PLACES] {
    let mut numbers = [0; PLACES];
    for (f, number) in numbers[..fields].iter_mut().enumerate() {
        *number = engine.standing(k, f);
    }
    numbers
}

impl<'a> Position<'a> for Begun<'a> {
    const SETTLING_FIRST: bool = true;

    fn answers(&self) -> &[u8; PLACES] {
        &self.answers
    }

    fn ask(&self, field: usize) -> Engine<'a> {
        Engine::begun(self.book, self.watch, &self.standing, field)
    }

    fn behind(&self, asked: &Engine<'a>, field: usize, c: usize) -> Self {
        let (answers, standing) = (added(&self.answers, field, c), standing(asked, self.book.view.fields, c));
        Begun { answers, standing, ..*self }
    }
}

/// The answers alone.
struct Anew<'a> {
    book: &'a Checked<'a>,
    answers: [u8; PLACES],
}

impl<'a> Position<'a> for Anew<'a> {
    const SETTLING_FIRST: bool = false;

    fn answers(&self) -> &[u8; PLACES] {
        &self.answers
    }

    fn ask(&self, field: usize) -> Engine<'a> {
        Engine::begun_anew(self.book, &self.answers, field)
    }

    fn behind(&self, _: &Engine<'a>, field: usize, c: usize) -> Self {
        Anew { answers: added(&self.answers, field, c), ..*self }
    }
}

struct Search<'a> {
    target: usize,
    questions: &'a [u8],
    passes: u64,
}

impl Search<'_> {
    /// My turn, with so many questions behind the one that I choose now: the place of a question that settles the target. All are tried, from
    /// that at `from` on.
    fn chooser<'a, P: Position<'a>>(&mut self, at: &P, from: usize, behind: u64) -> Option<usize> {
        let many = self.questions.len();
        (from..many).chain(0..from).find(|&place| {
            let q = self.questions[place] as usize;
            at.answers()[q] == NO_ANSWER && self.answerer(at, q, behind)
        })
    }

    /// The observer's turn: whether the target is settled whatever he may give.
    fn answerer<'a, P: Position<'a>>(&mut self, at: &P, q: usize, left: u64) -> bool {
        self.passes += 1;
        let mut asked = at.ask(q);
        asked.propagate();
        let unsettled = asked.crowded_cases(self.target) & !asked.empty_cases();
        if left == 0 || unsettled == 0 {
            return unsettled == 0;
        }
        let mut first = 0;
        for c in (0..CODES).filter(|c| unsettled >> c & 1 == 1) {
            let Some(settling) = self.chooser(&at.behind(&asked, q, c), first, left - 1) else {
                return false;
            };
            if P::SETTLING_FIRST {
                first = settling;
            }
        }
        true
    }

    fn plan<'a, P: Position<'a>>(mut self, start: &P, before: u32) -> Plan {
        let questions = if before.count_ones() <= 1 {
            Some(0)
        } else {
            (0..QUESTIONS).find(|&behind| self.chooser(start, 0, behind).is_some()).map(|behind| behind + 1)
        };
        Plan { questions, passes: self.passes }
    }
}

/// One case, with nothing relaxed.
fn filtered<'a>(book: &'a Checked, answers: &[u8; PLACES]) -> Engine<'a> {
    let mut engine = Engine::start(book, answers, 1, &[0; PLACES]);
    engine.propagate();
    engine
}

/// Whether the list may be asked.
fn list_ok(book: &Checked, answers: &[u8; PLACES], target: usize, questions: &[u8]) -> bool {
    let may_ask = |q: usize| q < book.view.fields && answers[q] == NO_ANSWER && q != target;
    let new = |i: usize, q: u8| !questions[..i].contains(&q);
    questions.len() <= LIST && questions.iter().enumerate().all(|(i, &q)| may_ask(q as usize) && new(i, q))
}

/// Refuses what cannot be asked, and searches otherwise.
fn planned(
    sheet: &[u8; SHEET_BYTES],
    bytes: &[u8],
    target: usize,
    questions: &[u8],
    search: impl Fn(&Checked, &[u8; PLACES], Search) -> Plan,
) -> Result<Plan, Refused> {
    let book = check(bytes)?;
    let sheet = Sheet::held(sheet);
    sheet.check(&book.view)?;
    if target >= book.view.fields {
        return Err((15, 0));
    }
    if !list_ok(&book, &sheet.answers, target, questions) {
        return Err((27, 0));
    }
    Ok(search(&book, &sheet.answers, Search { target, questions, passes: 0 }))
}

/// Each pass begins with what stands before it, and looks first at the tables with the field that is asked; what settled is tried first.
pub fn plan(sheet: &[u8; SHEET_BYTES], bytes: &[u8], target: usize, questions: &[u8]) -> Result<Plan, Refused> {
    planned(sheet, bytes, target, questions, |book, answers, search| {
        let engine = filtered(book, answers);
        let standing = standing(&engine, book.view.fields, 0);
        search.plan(&Begun { book, watch: &engine.watch, answers: *answers, standing }, standing[target])
    })
}

/// Each pass begins with the answers, and looks at all tables; what is tried first is the list's first.
pub fn plan_anew(sheet: &[u8; SHEET_BYTES], bytes: &[u8], target: usize, questions: &[u8]) -> Result<Plan, Refused> {
    planned(sheet, bytes, target, questions, |book, answers, search| {
        let before = filtered(book, answers).standing(0, target);
        search.plan(&Anew { book, answers: *answers }, before)
    })
}
