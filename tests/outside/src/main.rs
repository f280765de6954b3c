//! Compares the desk with an independent slow implementation on seeded books and sheets.
//!
//! `outside DESK CASES [SEED]`: DESK is the built program, which reads book.bin and sheet.bin in its folder. A seed repeats a run;
//! a case that differs is left in its folder, whose name is printed. A desk that prints ends with success. The run prints how often each
//! refusal was reached and at how many places, and fails if one was not reached at several, or few books had more fields than version 1
//! allows.

use std::collections::{BTreeMap, BTreeSet};
use std::path::{Path, PathBuf};
use std::process::{Command, ExitCode, Output};

use outside::book::field_limit;
use outside::desk::{Desk, Reading};
use outside::faults::{changed, faulty, some_faults};
use outside::random::{self, Random};
use outside::text;

/// The refusals that the program can print, and at how many different places each has to be seen. 1 and 19 have place 0 alone.
const REACHED: [(u64, usize); 15] = [
    (1, 1),
    (2, 3),
    (3, 3),
    (4, 3),
    (5, 3),
    (6, 3),
    (7, 3),
    (8, 3),
    (9, 3),
    (10, 3),
    (11, 3),
    (12, 2),
    (13, 3),
    (14, 3),
    (19, 1),
];

/// How many accepted books have to have more fields than version 1 allows.
const MANY_FIELDS: u64 = 50;

struct Case {
    bytes: Vec<u8>,
    form: Vec<u8>,
}

fn case(r: &mut Random) -> Case {
    let book = random::book(r);
    let mut form = random::form(r, &book);
    let mut bytes = book.write();
    match r.from(0, 9) {
        0..=4 => {}
        5 => {
            let f = r.from(0, form.len() - 1);
            form[f] = r.from(book.counts[f] as usize, 254) as u8;
        }
        6 => {
            if r.one_in(2) {
                form.push(random_byte(r));
            } else {
                form.pop();
            }
        }
        7 if r.one_in(4) => bytes = changed(r, &book),
        _ => {
            let faults = some_faults(r);
            bytes = faulty(r, &book, &faults);
        }
    }
    Case { bytes, form }
}

fn random_byte(r: &mut Random) -> u8 {
    r.word() as u8
}

/// What the desk prints for the case, and how it ends.
fn desk_prints(desk: &Path, folder: &Path, case: &Case) -> std::io::Result<Output> {
    std::fs::write(folder.join("book.bin"), &case.bytes)?;
    std::fs::write(folder.join("sheet.bin"), &case.form)?;
    Command::new(desk).current_dir(folder).output()
}

/// What the cases had.
#[derive(Default)]
struct Seen {
    accepted: u64,
    /// Those of them with more fields than version 1 allows.
    many_fields: u64,
    /// How often each refusal was reached, and at which places.
    refused: BTreeMap<u64, (u64, BTreeSet<u64>)>,
}

impl Seen {
    fn note(&mut self, slow: &Desk, reading: &Reading, form: &[u8]) {
        match slow.loaded(reading, form) {
            Ok(_) => {
                self.accepted += 1;
                self.many_fields += reading.as_ref().is_ok_and(|book| book.counts.len() > field_limit(1)) as u64;
            }
            Err(r) => {
                let entry = self.refused.entry(r.number).or_default();
                entry.0 += 1;
                entry.1.insert(r.place);
            }
        }
    }

    /// Prints what was reached, and answers whether all that had to be was.
    fn print(&self) -> bool {
        println!("{} accepted, {} of them with more than {} fields", self.accepted, self.many_fields, field_limit(1));
        for (number, (times, places)) in &self.refused {
            println!("refused {number}: {times} times, {} places", places.len());
        }
        let missed = REACHED.iter().filter(|(number, places)| self.refused.get(number).map_or(0, |r| r.1.len()) < *places);
        let missed: Vec<u64> = missed.map(|(number, _)| *number).collect();
        if !missed.is_empty() {
            println!("not reached at enough places: {missed:?}");
        }
        missed.is_empty() && self.many_fields >= MANY_FIELDS
    }
}

fn run(desk: &Path, cases: u64, seed: u64) -> std::io::Result<bool> {
    let folder: PathBuf = std::env::temp_dir().join(format!("outside-{}", std::process::id()));
    std::fs::create_dir_all(&folder)?;
    let (slow, mut seen) = (Desk::default(), Seen::default());
    for i in 0..cases {
        let case = case(&mut Random(seed.wrapping_add(i.wrapping_mul(0x1_0000_0001))));
        let reading = slow.reader.read(&case.bytes);
        let expected = text::report(&slow, &reading, &case.form);
        let got = desk_prints(desk, &folder, &case)?;
        if got.stdout != expected.as_bytes() || !got.status.success() {
            println!("case {i} of seed {seed} differs; book.bin and sheet.bin are in {}", folder.display());
            println!("expected:\n{expected}printed, {}:\n{}", got.status, String::from_utf8_lossy(&got.stdout));
            return Ok(false);
        }
        seen.note(&slow, &reading, &case.form);
    }
    std::fs::remove_dir_all(&folder)?;
    println!("{cases} cases of seed {seed} agree");
    Ok(seen.print())
}

fn main() -> ExitCode {
    let words: Vec<String> = std::env::args().collect();
    let (Some(desk), Some(cases)) = (words.get(1), words.get(2).and_then(|w| w.parse().ok())) else {
        eprintln!("usage: outside DESK CASES [SEED]");
        return ExitCode::FAILURE;
    };
    let seed = words.get(3).and_then(|w| w.parse().ok()).unwrap_or(1);
    let desk = std::fs::canonicalize(desk);
    match desk.and_then(|desk| run(&desk, cases, seed)) {
        Ok(true) => ExitCode::SUCCESS,
        Ok(false) => ExitCode::FAILURE,
        Err(e) => {
            eprintln!("{e}");
            ExitCode::FAILURE
        }
    }
}
