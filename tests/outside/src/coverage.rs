//! Which refusals of which calls a run has reached, how often and at how many places, and what else its cases had.

use std::collections::{BTreeMap, BTreeSet};

use crate::book::Book;
use crate::calls::{Call, COUNTING, LISTING, MAKING, OF_A_SHEET, OF_SHORT_FORMS, OF_TREES, WITH_PAIRS};
use crate::cases::{boundaries, Case};
use crate::compare::{of_each_call, Asked, Trial};
use crate::desk::{opened, Desk, Reading};
use crate::faults::FAULTS;
use crate::joining_asked::Asked as JoinAsked;
use crate::joining_shapes;
use crate::listing::book_bytes;
use crate::listings::{reason, ways, REASONS};
use crate::made::{self, of_list, Made, Shape};
use crate::meaning_shapes::{self, Asked as MeaningAsked};
use crate::nearest_shapes::{self, Asked as ReadingAsked};
use crate::photograph_shapes;
use crate::plan_shapes::{self, Asked as PlanAsked};
use crate::reader::Reader;
use crate::resend_shapes;
use crate::row_shapes::{self, Asked as RowAsked};
use crate::shapes::{shapes, PHOTOGRAPHED, SHAPES};
use crate::sheet::Sheet;
use crate::short_shapes;
use crate::tables;
use crate::tree_asked::Asked as TreeAsked;
use crate::tree_shapes;
use crate::versions;

/// A refusal as counted: its number, and for 14 whether the place lies behind the book's fields.
type Kind = (u64, bool);

#[derive(Default)]
pub struct Coverage {
    seen: BTreeMap<&'static str, BTreeMap<Kind, (u64, BTreeSet<u64>)>>,
    accepted: BTreeMap<&'static str, u64>,
    /// What the cases had beside that, by its name.
    had: BTreeMap<String, u64>,
    /// What the calls that list had to list, the lengths lent for it, what the calls that count had to count, what the calls for a row, a
    /// reading or a plan had to find, what the calls that join had to join, which links and rings the calls of tree books had to look at,
    /// how lines hang on full readings, and what each call had of M-103, M-105, M-107 and M-108, by call and name.
    by_call: BTreeMap<(&'static str, &'static str), u64>,
}

/// The refusals that each call has beside 1 to 13; `true` for a place behind the book's fields.
const BESIDE: [(&str, &[Kind]); 20] = [
    ("read", &[]),
    ("enter", &[(14, false), (14, true), (15, false), (16, false), (22, false)]),
    ("withdraw", &[(14, false), (14, true), (15, false), (17, false), (22, false)]),
    ("photograph", &[(14, false), (14, true), (15, false), (17, false)]),
    ("filtered", &[(14, false), (14, true), (15, false), (17, false), (18, false)]),
    ("alternatives", &[(14, false), (14, true), (18, false)]),
    ("row", &[(14, false), (14, true), (15, false), (16, false), (21, false)]),
    ("nearest", &[(14, false), (14, true), (23, false), (18, false)]),
    ("plan", &[(14, false), (14, true), (15, false), (27, false)]),
    ("load", &[(14, false), (19, false)]),
    ("store", &[(14, false), (14, true), (22, false), (18, false)]),
    ("load_short", &[(24, false), (14, false)]),
    ("store_short", &[(14, false), (14, true), (18, false)]),
    ("shorten", &[(19, false), (14, false), (18, false)]),
    ("lengthen", &[(24, false), (14, false), (22, false), (18, false)]),
    ("join", &[(25, false), (26, false), (18, false)]),
    ("replay", &[(18, false)]),
    ("report", &[(14, false), (18, false), (19, false)]),
    ("show", &[(18, false)]),
    ("read_tree", &[(28, false), (29, false)]),
];

/// How often something was had, and how often it has to be.
struct Had {
    name: String,
    times: u64,
    least: u64,
}

/// The calls that read no book, and their refusals.
const WITHOUT_BOOK: [(&str, &[Kind]); 2] =
    [("write", &[(20, false), (18, false)]), ("write_tree", &[(20, false), (28, false), (29, false), (18, false)])];

/// What the refusals of a second book are noted by: they are 1 to 13 too.
const SECOND: &str = "join, of the second book";

/// At how many different places a refusal has to be reached: 1 and 15 to 27 have place 0 alone, and in a writer all have.
fn places_asked(call: &str, number: u64) -> usize {
    match number {
        2..=11 | 13 | 14 => 3,
        12 => 2,
        28..=29 if call == "read_tree" => 3,
        _ => 1,
    }
}

/// A name for what a call's arguments are.
type Arguments = (&'static str, fn(&Call) -> bool);

/// What the arguments of a call have to be in some case.
const ARGUMENTS: [Arguments; 7] = [
    ("a field above a byte", |call| matches!(call, Call::Enter { field: 256.., .. })),
    ("a code above a byte", |call| matches!(call, Call::Enter { code: 256.., .. })),
    ("a field to withdraw above a byte", |call| matches!(call, Call::Withdraw { field: 256.. })),
    ("a field to photograph above a byte", |call| matches!(call, Call::Photograph { field: 256.. })),
    ("a field to relax above a byte", |call| matches!(call, Call::Filtered { relaxed: 256.. })),
    ("a list of more than ten calls", |call| matches!(call, Call::Replay { calls } if calls.len() > 30)),
    ("a listing of more than 65,535 numbers", |call| call.listing().len() > 65_535),
];

/// A name for a length that is lent, and what has it.
type Length = (&'static str, fn(usize, &Asked) -> bool);

/// The lengths to lend to a call that passes a field over, so that the wider list asks for more.
const LENGTHS: [Length; 5] = [
    ("one less than the list", |lent, asked| lent + 1 == asked.written),
    ("the list's", |lent, asked| lent == asked.written),
    ("between both lists", |lent, asked| (asked.written + 1..asked.wider).contains(&lent)),
    ("one less than the wider list", |lent, asked| lent + 1 == asked.wider),
    ("the wider list's", |lent, asked| lent == asked.wider),
];

/// How often each of them has to be lent in a run of 52,500 cases.
const LENGTHS_ASKED: u64 = 200;

/// The sheet whose alternatives the call lists; none where it is refused.
fn listed_sheet(case: &Case, reading: &Reading, call: &Call) -> Option<Sheet> {
    let desk = Desk::default();
    match call {
        Call::Alternatives => opened(reading, &case.sheet).is_ok().then_some(case.sheet),
        Call::Replay { calls } => Some(desk.after(reading, calls).1),
        Call::Report { form } => desk.loaded(reading, form).ok(),
        _ => None,
    }
}

/// Whether the call counts the different rows of the book; it does not where it is refused.
fn counts_rows(reading: &Reading, call: &Call) -> bool {
    match call {
        Call::Read => reading.is_ok(),
        Call::Report { form } => Desk::default().loaded(reading, form).is_ok(),
        _ => false,
    }
}

/// The name of a pair of faults, by their places in the order.
fn pair(first: usize, second: usize) -> String {
    format!("{} with {}", FAULTS[first].0, FAULTS[second].0)
}

/// Why no book has the listing of the call, by name.
fn why_20(call: &Call) -> Option<String> {
    book_bytes(&Reader::default(), call.listing()).err().map(reason)
}

/// What a case has, by its name.
fn names(case: &Case) -> Vec<String> {
    let arguments = ARGUMENTS.iter().filter(|(_, is)| case.calls.iter().any(is)).map(|(name, _)| name.to_string());
    let faults = case.faults.windows(2).map(|faults| pair(faults[0], faults[1]));
    let reasons = case.calls.iter().filter(|call| call.name() == "write").filter_map(why_20);
    let names = case.boundary.into_iter().chain([case.listing]).map(str::to_string);
    names.chain(arguments).chain(faults).chain(reasons).collect()
}

impl Coverage {
    /// Notes a case and its book as it was read.
    pub fn note(&mut self, case: &Case, reading: &Reading, trials: &[Trial]) {
        for name in names(case) {
            *self.had.entry(name).or_default() += 1;
        }
        if let Ok(book) = reading {
            self.note_book(case, reading, book);
            self.note_rows(case, book, trials);
            self.note_readings(case, book, trials);
            self.note_plans(case, book, trials);
            self.note_meaning(case, reading);
        }
        self.note_joins(case, reading, trials);
        self.note_trees(case, reading, trials);
        trials.iter().for_each(|trial| self.note_trial(reading, trial));
        for of_call in of_each_call(trials) {
            let steps = of_list(reading, of_call[0].call);
            let made: Vec<Made> = of_call.iter().map(|trial| Made { case, reading, trial, steps: &steps }).collect();
            for all in [versions::SHAPES, photograph_shapes::SHAPES, resend_shapes::SHAPES, short_shapes::SHAPES] {
                made::shapes(all, &made).for_each(|shape| self.count(of_call[0].call, shape));
            }
        }
    }

    /// Notes what the calls had to list and to count of an accepted book.
    fn note_book(&mut self, case: &Case, reading: &Reading, book: &Book) {
        let of_tables: Vec<&'static str> = tables::shapes(book).collect();
        for call in &case.calls {
            if let Some(sheet) = listed_sheet(case, reading, call) {
                shapes(book, &sheet).for_each(|shape| self.count(call, shape));
            }
            if counts_rows(reading, call) {
                of_tables.iter().for_each(|shape| self.count(call, shape));
            }
        }
    }

    /// Notes what the calls for a row had to find, by an accepted book.
    fn note_rows(&mut self, case: &Case, book: &Book, trials: &[Trial]) {
        let standing = row_shapes::standing(book, &case.sheet);
        for asked in trials.iter().filter_map(|trial| RowAsked::by(book, &case.sheet, &standing, trial)) {
            asked.shapes().for_each(|shape| self.count(asked.call, shape));
        }
    }

    /// Notes what the calls for the nearest full reading had to find, by an accepted book.
    fn note_readings(&mut self, case: &Case, book: &Book, trials: &[Trial]) {
        for asked in of_each_call(trials).filter_map(|of_call| ReadingAsked::by(book, &case.sheet, of_call)) {
            asked.shapes().for_each(|shape| self.count(asked.call, shape));
        }
    }

    /// Notes what the calls for a plan had to find, by an accepted book.
    fn note_plans(&mut self, case: &Case, book: &Book, trials: &[Trial]) {
        let at = plan_shapes::position(book, &case.sheet);
        for asked in trials.iter().filter_map(|trial| PlanAsked::by(&case.sheet, &at, trial)) {
            asked.shapes().for_each(|shape| self.count(asked.call, shape));
        }
    }

    /// Notes how what alternatives had to list hangs on full readings.
    fn note_meaning(&mut self, case: &Case, reading: &Reading) {
        let asked = opened(reading, &case.sheet).ok().and_then(|book| MeaningAsked::by(book, &case.sheet));
        asked.iter().flat_map(|asked| asked.shapes()).for_each(|shape| self.count(&Call::Alternatives, shape));
    }

    /// Notes what the calls that join had to join, or why they are refused.
    fn note_joins(&mut self, case: &Case, reading: &Reading, trials: &[Trial]) {
        for asked in of_each_call(trials).filter_map(|of_call| JoinAsked::by(case, reading, of_call)) {
            asked.shapes().for_each(|shape| self.count(asked.call, shape));
        }
    }

    /// Notes what the calls of tree books had to look at, or why they are refused, and how the listing to write was made.
    fn note_trees(&mut self, case: &Case, reading: &Reading, trials: &[Trial]) {
        for asked in of_each_call(trials).filter_map(|of_call| TreeAsked::by(case, reading, of_call)) {
            asked.shapes().for_each(|shape| self.count(asked.call, shape));
            if let Call::WriteTree { .. } = asked.call {
                self.count(asked.call, case.tree_listing);
                let why = why_20(asked.call);
                REASONS.iter().filter(|name| why.as_deref() == Some(name)).for_each(|name| self.count(asked.call, name));
            }
        }
    }

    fn count(&mut self, call: &Call, what: &'static str) {
        *self.by_call.entry((call.name(), what)).or_default() += 1;
    }

    fn note_trial(&mut self, reading: &Reading, trial: &Trial) {
        let (name, number) = (trial.call.name(), trial.left.number);
        if trial.asked.wider > trial.asked.written {
            let lengths = LENGTHS.iter().filter(|(_, has)| has(trial.lent.elements(), &trial.asked));
            lengths.for_each(|(length, _)| self.count(trial.call, length));
        }
        match (trial.call, number) {
            // what its text says
            (Call::Report { form }, 0) => match Desk::default().loaded(reading, form) {
                Err(r) => self.refused(name, (r.number, false), r.place),
                Ok(_) => self.accepted(name),
            },
            (_, 0) => self.accepted(name),
            (Call::Join { .. }, 1..=13) if reading.is_ok() => self.refused(SECOND, (number, false), trial.left.cells[0]),
            _ => {
                let place = trial.left.cells[0];
                let behind = number == 14 && reading.as_ref().is_ok_and(|book| place >= book.counts.len() as u64);
                self.refused(name, (number, behind), place);
            }
        }
    }

    fn refused(&mut self, call: &'static str, kind: Kind, place: u64) {
        let entry = self.seen.entry(call).or_default().entry(kind).or_default();
        entry.0 += 1;
        entry.1.insert(place);
    }

    fn accepted(&mut self, call: &'static str) {
        *self.accepted.entry(call).or_default() += 1;
    }

    fn times(&self, call: &str, kind: Kind) -> (u64, usize) {
        let entry = self.seen.get(call).and_then(|kinds| kinds.get(&kind));
        entry.map_or((0, 0), |(times, places)| (*times, places.len()))
    }

    /// Prints what was reached, and answers whether all that had to be was.
    pub fn print(&self) -> bool {
        println!("refusals of each call as number:times/places; 14b is a 14 behind the book's fields");
        let of_a_book = |beside: &[Kind]| (1..=13).map(|number| (number, false)).chain(beside.iter().copied()).collect();
        let mut kinds: Vec<(&'static str, Vec<Kind>)> = BESIDE.map(|(call, beside)| (call, of_a_book(beside))).to_vec();
        kinds.extend(WITHOUT_BOOK.map(|(call, refusals)| (call, refusals.to_vec())));
        let mut complete = true;
        for (call, kinds) in &kinds {
            complete &= self.print_call(call, kinds);
        }
        complete &= self.print_call(SECOND, &of_a_book(&[]));
        let once = |name: String| {
            let times = self.had.get(&name).copied().unwrap_or(0);
            Had { name, times, least: 1 }
        };
        complete &= print_had("boundaries", boundaries().map(|name| once(name.to_string())));
        complete &= print_had("arguments", ARGUMENTS.iter().map(|(name, _)| once(name.to_string())));
        complete &= print_had("two faults at once", (1..FAULTS.len()).map(|place| once(pair(place - 1, place))));
        complete &= print_had("listings", ways().map(|way| once(way.name.to_string())));
        complete &= print_had("reasons for 20", REASONS.iter().map(|name| once(name.to_string())));
        complete = LISTING.iter().fold(complete, |complete, call| complete & self.print_listed(call));
        complete = COUNTING.iter().fold(complete, |complete, call| complete & self.print_counted(call));
        complete &= print_had("rows", row_shapes::all().map(|(name, least)| self.had_by("row", name, least)));
        complete &= print_had("joined books", joining_shapes::all().map(|(name, least)| self.had_by("join", name, least)));
        complete &= print_had("readings", nearest_shapes::all().map(|(name, least)| self.had_by("nearest", name, least)));
        complete &= print_had("plans", plan_shapes::all().map(|(name, least)| self.had_by("plan", name, least)));
        complete &=
            print_had("lines and readings", meaning_shapes::all().map(|(name, least)| self.had_by("alternatives", name, least)));
        for call in OF_TREES {
            let shapes = tree_shapes::all(call).map(|(name, least)| self.had_by(call, name, least));
            complete &= print_had(&format!("tables and links for {call}"), shapes);
        }
        complete &= print_had("listings of tree books", ways().map(|way| self.had_by("write_tree", way.name, 1)));
        complete &= print_had("reasons for 20 of tree books", REASONS.map(|name| self.had_by("write_tree", name, 1)).into_iter());
        for (call, _) in &kinds {
            complete &= self.print_made("versions, fields and places", versions::SHAPES, call);
        }
        for call in OF_A_SHEET.iter().chain(MAKING) {
            complete &= self.print_made("photographs", photograph_shapes::SHAPES, call);
        }
        for call in resend_shapes::CALLS {
            complete &= self.print_made("answers sent again", resend_shapes::SHAPES, call);
        }
        for call in OF_SHORT_FORMS {
            complete &= self.print_made("short forms", short_shapes::SHAPES, call);
        }
        complete
    }

    /// How often the call had this.
    fn had_by(&self, call: &'static str, name: &'static str, least: u64) -> Had {
        let times = self.by_call.get(&(call, name)).copied().unwrap_or(0);
        Had { name: name.to_string(), times, least }
    }

    /// Prints what the call had to list and the lengths lent for it, and answers whether each was had often enough.
    fn print_listed(&self, call: &'static str) -> bool {
        let shapes = SHAPES.iter().map(|&(name, least, _)| self.had_by(call, name, least));
        let photographed = PHOTOGRAPHED.iter().filter(|_| WITH_PAIRS.contains(&call));
        let photographed = photographed.map(|&(name, least, _)| self.had_by(call, name, least));
        let shapes = print_had(&format!("sheets for {call}"), shapes.chain(photographed));
        let lengths = LENGTHS.iter().map(|&(name, _)| self.had_by(call, name, LENGTHS_ASKED));
        shapes & print_had(&format!("lengths for {call} where a field is passed over"), lengths)
    }

    /// Prints which tables the call had to count, and answers whether each shape was had often enough.
    fn print_counted(&self, call: &'static str) -> bool {
        let tables = tables::asked().map(|(name, least)| self.had_by(call, name, least));
        print_had(&format!("tables for {call}"), tables)
    }

    /// Prints how often the call had each of these shapes, and answers whether all were had often enough.
    fn print_made(&self, what: &str, all: &'static [Shape], call: &'static str) -> bool {
        print_had(&format!("{what} for {call}"), made::asked(all, call).map(|(name, least)| self.had_by(call, name, least)))
    }

    /// Prints how often and at how many places the call was refused in each way, and answers whether all were reached.
    fn print_call(&self, call: &str, kinds: &[Kind]) -> bool {
        let mut complete = true;
        let mut line = format!("{call}: accepted {}", self.accepted.get(call).unwrap_or(&0));
        for &(number, behind) in kinds {
            let (times, places) = self.times(call, (number, behind));
            let missed = places < places_asked(call, number);
            let (behind, missing) = (if behind { "b" } else { "" }, if missed { " MISSED" } else { "" });
            line += &format!(" {number}{behind}:{times}/{places}{missing}");
            complete &= !missed;
        }
        println!("{line}");
        complete
    }
}

/// Prints how often each was had, and answers whether all were as often as they have to be.
fn print_had(what: &str, had: impl Iterator<Item = Had>) -> bool {
    let had: Vec<Had> = had.collect();
    let missing = |had: &Had| if had.times < had.least { " MISSED" } else { "" };
    let shown: Vec<String> = had.iter().map(|had| format!("{} {}{}", had.name, had.times, missing(had))).collect();
    println!("{what}: {}", shown.join(", "));
    had.iter().all(|had| had.times >= had.least)
}
