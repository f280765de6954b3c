//! Compares every call of the library with the slow desk on seeded cases.
//!
//! `calls CASES [SEED]` runs the cases of a seed, 1 if none is given; `calls case INDEX SEED` repeats one of them. Each call is made
//! bare and by the safe wrapper, with buffers one short, exact, longer, as long as the header says suffices, and of length 0, and with
//! its memory flush against a page that nobody may touch, in front and behind; a list of calls is also made one by one, alternatives are
//! held against plain filtering with each answered field relaxed, photographed or not, rows against plain filtering and the listing, a
//! nearest reading against plain filtering and itself, a number of questions against plain filtering and itself one turn on, the two forms
//! of a stored sheet against each other, a joined book against both that it was made from, the other order and itself, a tree book against
//! reading, showing and writing, its lines and standing codes against its full readings, a book that is shown or written goes the way back
//! too, and an accepted book is turned into the other version. The run prints how often each refusal of each call was reached and what else
//! the cases had, and fails if something was missed; some of it has to be had so often that it takes 52,500 cases.

use std::ffi::c_int;
use std::io::Write;
use std::panic::{catch_unwind, AssertUnwindSafe};
use std::process::{abort, ExitCode};
use std::sync::atomic::{AtomicU64, Ordering::Relaxed};

use outside::calls::Call;
use outside::cases::{case, random, Case};
use outside::compare::{trials, Rooms, Trial};
use outside::coverage::Coverage;
use outside::desk::{Desk, Reading};
use outside::library::{one_by_one, shown, written, Exported, Library, OneByOne, Wrapper};
use outside::random::Random;
use outside::sheet::Sheet;
use outside::turned::turned;

extern "C" {
    fn signal(number: c_int, handler: extern "C" fn(c_int)) -> usize;
}

const SIGSEGV: c_int = 11;

/// The case that runs, and its seed, for the message of `touched`.
static INDEX: AtomicU64 = AtomicU64::new(0);
static SEED: AtomicU64 = AtomicU64::new(0);

fn tell(problem: &str) {
    let (index, seed) = (INDEX.load(Relaxed), SEED.load(Relaxed));
    let mut out = std::io::stderr();
    // a handler of a signal may write to standard error, which holds nothing back; if that fails there is nobody to tell
    let _ = writeln!(out, "case {index} of seed {seed} {problem}; `calls case {index} {seed}` repeats it");
}

/// The library touched memory that it may not touch.
extern "C" fn touched(_: c_int) {
    tell("touches memory that was not lent to it, or writes memory that was lent to be read");
    abort();
}

/// A list of calls made one by one: the number of each, and the sheet that they reach.
fn list_agrees(case: &Case, reading: &Reading, call: &Call) -> bool {
    let Call::Replay { calls } = call else {
        return true;
    };
    let (expected, (numbers, reached)) = (Desk::default().after(reading, calls), one_by_one(&case.book, calls));
    let got = (numbers, Sheet::from_bytes(*reached.bytes()));
    if expected != got {
        println!("{call:?} one by one\nexpected {expected:?}\ngot      {got:?}");
    }
    expected == got
}

/// An accepted book is shown and written again, and so is what a listing is written to: each gives what it began with.
fn round_trips_agree(case: &Case, call: &Call) -> bool {
    let agrees = match call {
        Call::Show => {
            shown(&case.book).is_err() || shown(&case.book).and_then(|numbers| written(&numbers)) == Ok(case.book.clone())
        }
        Call::Write { listing } => {
            written(listing).is_err() || written(listing).and_then(|bytes| shown(&bytes)) == Ok(listing.clone())
        }
        _ => true,
    };
    if !agrees {
        println!("{call:?} and the way back does not give what it began with");
    }
    agrees
}

/// No disagreement is found bare, and none by the wrapper.
fn agree_both_ways(what: &str, found: impl Fn(&dyn Library) -> Option<String>) -> bool {
    let ways: [(&str, &dyn Library); 2] = [("bare", &Exported), ("by the wrapper", &Wrapper)];
    ways.iter().all(|(way, library)| {
        let disagreement = found(*library);
        if let Some(disagreement) = &disagreement {
            println!("{way}: {what}\n{disagreement}");
        }
        disagreement.is_none()
    })
}

/// The lines that plain filtering gives are those listed.
fn filterings_agree(rooms: &Rooms, case: &Case, reading: &Reading) -> bool {
    agree_both_ways("alternatives and plain filtering do not agree", |library| rooms.disagreement(library, case, reading))
}

/// The rows behind some codes are those that plain filtering and the listing give.
fn rows_agree(rooms: &Rooms, case: &Case, reading: &Reading, r: &mut Random) -> bool {
    let disagreement = rooms.row_disagreement(&Exported, case, reading, r);
    if let Some(disagreement) = &disagreement {
        println!("rows, plain filtering and the listing do not agree\n{disagreement}");
    }
    disagreement.is_none()
}

/// The nearest reading is full by plain filtering, and the nearest to itself.
fn readings_agree(rooms: &Rooms, case: &Case, reading: &Reading) -> bool {
    let disagreement = rooms.reading_disagreement(&Exported, case, reading);
    if let Some(disagreement) = &disagreement {
        println!("the nearest reading and plain filtering do not agree\n{disagreement}");
    }
    disagreement.is_none()
}

/// The least number of questions is one more than behind each answer to the best one.
fn plans_agree(rooms: &Rooms, case: &Case, reading: &Reading) -> bool {
    let disagreement = rooms.plan_disagreement(&Exported, case, reading);
    if let Some(disagreement) = &disagreement {
        println!("a number of questions and plain filtering do not agree\n{disagreement}");
    }
    disagreement.is_none()
}

/// Each way between sheets and the two stored forms and back gives what it began with.
fn forms_agree(rooms: &Rooms, case: &Case, reading: &Reading) -> bool {
    agree_both_ways("stored forms do not agree", |library| rooms.form_disagreement(library, case, reading))
}

/// A joined book is what is promised of it.
fn joins_agree(rooms: &Rooms, case: &Case, reading: &Reading) -> bool {
    agree_both_ways("a joined book is not what is promised", |library| rooms.join_disagreement(library, case, reading))
}

/// The calls of tree books fit together with reading, showing and writing.
fn trees_agree(rooms: &Rooms, case: &Case, reading: &Reading) -> bool {
    agree_both_ways("tree books are not read and written as promised", |library| rooms.tree_disagreement(library, case, reading))
}

/// The lines and the standing codes of a tree book are those of its full readings.
fn meanings_agree(rooms: &Rooms, case: &Case, reading: &Reading) -> bool {
    agree_both_ways("a tree book's codes are not those of its readings", |library| {
        rooms.meaning_disagreement(library, case, reading)
    })
}

/// The ways to make a call.
fn ways(call: &Call) -> &'static [(&'static str, &'static dyn Library)] {
    let ways: &[(&str, &dyn Library)] = &[("bare", &Exported), ("by the wrapper", &Wrapper), ("one by one", &OneByOne)];
    match call {
        Call::Replay { .. } => ways,
        _ => &ways[..2],
    }
}

fn trial_agrees(rooms: &Rooms, case: &Case, trial: &Trial) -> bool {
    ways(trial.call).iter().all(|(way, library)| {
        let difference = rooms.difference(*library, case, trial);
        if let Some(difference) = &difference {
            println!("{way}: {difference}");
        }
        difference.is_none()
    })
}

/// The bare calls agree on the book turned into the other version too.
fn versions_agree(rooms: &Rooms, case: &Case, reading: &Reading, trials: &[Trial]) -> bool {
    let Some((turned, trials)) = turned(case, reading, trials) else {
        return true;
    };
    let difference = trials.iter().find_map(|trial| rooms.difference(&Exported, &turned, trial));
    if let Some(difference) = &difference {
        println!("turned into the other version: {difference}");
    }
    difference.is_none()
}

fn case_agrees(rooms: &Rooms, seed: u64, index: u64, seen: &mut Coverage) -> bool {
    let case = case(seed, index);
    let reading = Desk::default().reader.read(&case.book);
    let trials = trials(&case, &reading, seed, index);
    seen.note(&case, &reading, &trials);
    trials.iter().all(|trial| trial_agrees(rooms, &case, trial))
        && filterings_agree(rooms, &case, &reading)
        && rows_agree(rooms, &case, &reading, &mut random(seed ^ 0xC0DE, index))
        && readings_agree(rooms, &case, &reading)
        && plans_agree(rooms, &case, &reading)
        && forms_agree(rooms, &case, &reading)
        && joins_agree(rooms, &case, &reading)
        && trees_agree(rooms, &case, &reading)
        && meanings_agree(rooms, &case, &reading)
        && versions_agree(rooms, &case, &reading, &trials)
        && case.calls.iter().all(|call| list_agrees(&case, &reading, call) && round_trips_agree(&case, call))
}

fn agrees(rooms: &Rooms, seed: u64, index: u64, seen: &mut Coverage) -> bool {
    INDEX.store(index, Relaxed);
    SEED.store(seed, Relaxed);
    // a panic is a difference too
    let agreed = catch_unwind(AssertUnwindSafe(|| case_agrees(rooms, seed, index, seen))).unwrap_or(false);
    if !agreed {
        tell("differs");
    }
    agreed
}

fn run(rooms: &Rooms, cases: u64, seed: u64) -> bool {
    let mut seen = Coverage::default();
    let agreed = (0..cases).all(|index| agrees(rooms, seed, index, &mut seen));
    if agreed {
        println!("{cases} cases of seed {seed} agree");
    }
    agreed && seen.print()
}

fn main() -> ExitCode {
    // SAFETY: the handler writes a message and ends the program.
    unsafe { signal(SIGSEGV, touched) };
    let words: Vec<String> = std::env::args().skip(1).collect();
    let number = |i: usize| words.get(i).and_then(|w| w.parse::<u64>().ok());
    let rooms = Rooms::default();
    let passed = match (words.first().map(String::as_str), number(0), number(1), number(2)) {
        (Some("case"), _, Some(index), Some(seed)) => agrees(&rooms, seed, index, &mut Coverage::default()),
        (_, Some(cases), seed, _) => run(&rooms, cases, seed.unwrap_or(1)),
        _ => {
            eprintln!("usage: calls CASES [SEED] | calls case INDEX SEED");
            false
        }
    };
    if passed {
        ExitCode::SUCCESS
    } else {
        ExitCode::FAILURE
    }
}
