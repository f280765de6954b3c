//! Compares libraries that are wrong on purpose with the slow desk, on the cases of `calls` and by the same comparison: each has to
//! differ in some case.
//!
//! `slips CASES [SEED]` prints for each slip what caught it first, and fails if one is not caught. `slips alone NAME CASES SEED` runs
//! one slip in this process, and succeeds if a case catches it: a library that touches memory that it may not touch mostly dies of it,
//! so the run starts such a process for each of those.

use std::io;
use std::os::unix::process::ExitStatusExt;
use std::process::{Command, ExitCode, Stdio};

use outside::cases::case;
use outside::compare::{trials, Rooms};
use outside::desk::Desk;
use outside::slips::{all, Slip, SlowLibrary, Wrong};

const SIGSEGV: i32 = 11;

/// The first case that catches each slip. A slip that is caught is run no further.
fn first_catches(slips: &[&Slip], cases: u64, seed: u64) -> Vec<Option<u64>> {
    let libraries: Vec<SlowLibrary> = slips.iter().map(|slip| SlowLibrary::with(slip)).collect();
    let (desk, rooms) = (Desk::default(), Rooms::default());
    let mut caught = vec![None; slips.len()];
    let mut index = 0;
    while index < cases && caught.contains(&None) {
        let case = case(seed, index);
        let trials = trials(&case, &desk.reader.read(&case.book), seed, index);
        for ((slip, library), caught) in slips.iter().zip(&libraries).zip(&mut caught).filter(|(_, caught)| caught.is_none()) {
            let mut shown = trials.iter().filter(|trial| trial.call.name() == slip.call);
            *caught = shown.any(|trial| rooms.difference(library, &case, trial).is_some()).then_some(index);
        }
        index += 1;
    }
    caught
}

/// What caught a slip that runs in a process of its own.
fn caught_alone(slip: &Slip, cases: u64, seed: u64) -> io::Result<Option<String>> {
    let arguments = ["alone", &slip.name, &cases.to_string(), &seed.to_string()];
    let status = Command::new(std::env::current_exe()?).args(arguments).stdout(Stdio::null()).status()?;
    let by = match (status.success(), status.signal()) {
        (true, _) => Some("by a difference"),
        (_, Some(SIGSEGV)) => Some("by a guard page"),
        _ => None,
    };
    Ok(by.map(str::to_string))
}

/// What caught each slip.
fn catches(slips: &[Slip], cases: u64, seed: u64) -> io::Result<Vec<(&str, Option<String>)>> {
    let (strays, others): (Vec<&Slip>, Vec<&Slip>) = slips.iter().partition(|slip| matches!(slip.wrong, Wrong::Memory(_)));
    let first = first_catches(&others, cases, seed).into_iter().map(|index| index.map(|index| format!("in case {index}")));
    let mut caught: Vec<(&str, Option<String>)> = others.iter().map(|slip| &slip.name[..]).zip(first).collect();
    for slip in strays {
        caught.push((&slip.name, caught_alone(slip, cases, seed)?));
    }
    Ok(caught)
}

fn run(cases: u64, seed: u64) -> io::Result<bool> {
    let slips = all();
    let caught = catches(&slips, cases, seed)?;
    for (name, by) in &caught {
        println!("{name}: {}", by.as_ref().map_or("NOT CAUGHT".to_string(), |by| format!("caught {by}")));
    }
    let missed = caught.iter().filter(|(_, by)| by.is_none()).count();
    println!("{} slips, {missed} of them not caught in {cases} cases of seed {seed}", caught.len());
    Ok(missed == 0)
}

fn run_alone(name: &str, cases: u64, seed: u64) -> bool {
    let slips = all();
    let slip = slips.iter().find(|slip| slip.name == name);
    slip.is_some_and(|slip| first_catches(&[slip], cases, seed) != [None])
}

fn main() -> ExitCode {
    let words: Vec<String> = std::env::args().skip(1).collect();
    let number = |i: usize| words.get(i).and_then(|w| w.parse::<u64>().ok());
    let passed = match (words.first().map(String::as_str), number(0), number(2), number(3)) {
        (Some("alone"), _, Some(cases), Some(seed)) => Ok(run_alone(&words[1], cases, seed)),
        (_, Some(cases), ..) => run(cases, number(1).unwrap_or(1)),
        _ => Err(io::Error::other("usage: slips CASES [SEED] | slips alone NAME CASES SEED")),
    };
    match passed {
        Ok(true) => ExitCode::SUCCESS,
        Ok(false) => ExitCode::FAILURE,
        Err(e) => {
            eprintln!("{e}");
            ExitCode::FAILURE
        }
    }
}
