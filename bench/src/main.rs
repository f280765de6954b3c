//! Measures the library against n + 1 separate filterings, plain Rust and Gecode, all in one run.
//!
//! `bench` prints the tables; `bench --write DOCS` also puts them into DOCS/PERFORMANCE.md, between its two marks, and draws
//! DOCS/performance.svg. `bench --joining` measures and prints what joining two books takes, and nothing else; `bench --plans` does so with
//! the debrief plan, and `bench --trees` with tree books.

mod families;
mod gecode;
mod joining;
mod listings;
mod measure;
mod nearest;
mod photographs;
mod plain;
mod plans;
mod plot;
mod questions;
mod shapes;
mod short;
mod stack;
mod tables;
mod timing;
mod trees;

use std::fmt::Write;
use std::path::Path;
use std::slice;

use families::Family;
use measure::{Pass, Report};
use shapes::{Order, FRESH, ONE_TABLE};

const BEGIN: &str = "<!-- measured: begin -->\n";
const END: &str = "<!-- measured: end -->\n";

/// What is measured on the books of the five families, and how reading grows with the rows of B.
fn families_sections(out: &mut String, books: &[Family], passes: &[(String, Vec<Pass>)]) -> std::fmt::Result {
    writeln!(out, "\n### All alternatives of a sheet with n answers\n")?;
    tables::passes(out, passes)?;
    writeln!(out, "\n### Reading a book, and one plain filtering with n = 16\n")?;
    let readings = books.iter().map(|f| (f.name, measure::reading(&f.book), measure::filtering(f, 16)));
    let readings: Vec<_> = readings.collect();
    tables::readings(out, &readings)?;
    writeln!(out, "\n### Growth with the rows of family B, n = 16\n")?;
    let steps = [256, 512, 1_024, 2_048, 4_096].map(families::full_of_version_1);
    let steps: Vec<_> = steps.iter().map(|f| (measure::alternatives(f, 16), measure::reading(&f.book))).collect();
    tables::growth(out, &steps)
}

/// What the row behind a code costs, on small books, on full ones and in one long table, and what its refusals cost.
fn row_sections(out: &mut String, b: &Family, e: &Family) -> std::fmt::Result {
    let [small, eight_fields] = &families::small();
    let asked = [small, eight_fields, b, e].into_iter().flat_map(questions::of_family).chain(questions::of_one_table());
    let asked: Vec<_> = asked.collect();
    let rows: Vec<_> = asked.iter().map(|question| (question, measure::row(question))).collect();
    writeln!(out, "\n### The row behind a code, beside one plain filtering of the same sheet\n")?;
    tables::rows(out, &rows)?;
    writeln!(out, "\n### Refusals of the row behind a code\n")?;
    tables::refused_rows(out, &[small, b, e].map(|f| (f.name, measure::refused_rows(f, f.fields()))))
}

/// What photographs save in the one pass, and what the calls cost that change a sheet.
fn photograph_sections(out: &mut String, books: &[Family]) -> std::fmt::Result {
    writeln!(out, "\n### All alternatives of a sheet with {} answers, some photographed\n", photographs::ANSWERS)?;
    tables::photographed(out, &books.iter().map(|f| (f.name, photographs::passes(f))).collect::<Vec<_>>())?;
    writeln!(out, "\n### The calls that change a sheet, all fields answered\n")?;
    let small = families::small();
    let changed = small.iter().chain(books).map(|f| (f.name, photographs::changes(f)));
    tables::changes(out, &changed.collect::<Vec<_>>())
}

/// The report on a family's book with all fields answered.
fn full_report(family: &Family) -> Report {
    measure::report(slice::from_ref(&family.book), &family.stored(family.fields()))
}

/// What reports, listings and the stack take.
fn last_sections(out: &mut String, b: &Family, e: &Family) -> std::fmt::Result {
    writeln!(out, "\n### The report, and reading as a part of it\n")?;
    let reports = [
        ("1 table of 4,096 random rows, no answers", measure::report(&ONE_TABLE.books(Order::Random), &FRESH)),
        ("family B, n = 32", full_report(b)),
        ("family E, n = 60", full_report(e)),
    ];
    tables::reports(out, &reports)?;
    writeln!(out, "\n### Writing a listing, and showing the book written\n")?;
    let listings = listings::all().map(|listed| (listed.what, measure::listing(&listed)));
    tables::listings(out, &listings)?;
    writeln!(out, "\n### Stack, all fields of the full books answered\n")?;
    let stacks = |family| {
        [measure::stacks(family), short::stacks(family), joining::stacks(family), plans::stacks(family), trees::stacks()].concat()
    };
    tables::stacks(out, &stacks(b), &stacks(e))
}

/// The sections as text, and the drawing.
fn measured() -> Result<(String, String), std::fmt::Error> {
    let books = families::all();
    let [_, b, .., e] = &books;
    let passes: Vec<(String, Vec<Pass>)> = books
        .iter()
        .map(|family| {
            let passes = family.answers().map(|n| measure::alternatives(family, n));
            (format!("{}: {}", family.name, family.what), passes.collect())
        })
        .collect();
    let shaped = shapes::ALL.iter().flat_map(|shape| shape.orders.iter().map(|&order| measure::shaped(shape, order)));
    let shaped: Vec<_> = shaped.collect();
    let mut out = String::new();
    if !gecode::INSTALLED {
        writeln!(out, "libgecode-dev was not installed: the column for Gecode is left out.\n")?;
    }
    let versions: Vec<_> = e.answers().map(|n| measure::versions(b, e, n)).collect();
    let (searches, stored, joins, plans) = (nearest::searches(), short::all(b, e), joining::all(), plans::plans(b));
    let trees = trees::all();
    tables::targets(&mut out, &passes, &versions, &shaped, &searches, &stored, &joins)?;
    tables::plan_targets(&mut out, &plans)?;
    tables::tree_targets(&mut out, &trees)?;
    families_sections(&mut out, &books, &passes)?;
    writeln!(out, "\n### The full book of version 2 beside that of version 1, in turns\n")?;
    tables::versions(&mut out, &versions)?;
    row_sections(&mut out, b, e)?;
    writeln!(out, "\n### The nearest full reading\n")?;
    tables::searches(&mut out, &searches)?;
    writeln!(out, "\n### The debrief plan\n")?;
    tables::plans(&mut out, &plans)?;
    photograph_sections(&mut out, &books)?;
    writeln!(out, "\n### Short stored sheets with n answers\n")?;
    tables::stored(&mut out, &stored)?;
    writeln!(out, "\n### Joining two books, by the shape of their tables\n")?;
    tables::joins(&mut out, &joins)?;
    writeln!(out, "\n### Tree books\n")?;
    tables::trees(&mut out, &trees)?;
    writeln!(out, "\n### Reading, by the shape of the tables and the order of the rows\n")?;
    tables::shapes(&mut out, &shaped)?;
    last_sections(&mut out, b, e)?;
    Ok((out, plot::svg(&passes)?))
}

/// Puts the text between the document's two marks.
fn written(document: &str, text: &str) -> Option<String> {
    let begin = document.find(BEGIN)? + BEGIN.len();
    let end = begin + document[begin..].find(END)?;
    Some(format!("{}\n{text}\n{}", &document[..begin], &document[end..]))
}

/// What joining takes, its stack too.
fn joining_alone() -> Result<String, std::fmt::Error> {
    let (books, mut out) = (families::all(), String::new());
    let [_, b, .., e] = &books;
    tables::joins(&mut out, &joining::all())?;
    writeln!(out)?;
    tables::stacks(&mut out, &joining::stacks(b), &joining::stacks(e))?;
    Ok(out)
}

/// What the debrief plan takes, its stack too.
fn plans_alone() -> Result<String, std::fmt::Error> {
    let (books, mut out) = (families::all(), String::new());
    let [_, b, .., e] = &books;
    tables::plans(&mut out, &plans::plans(b))?;
    writeln!(out)?;
    tables::stacks(&mut out, &plans::stacks(b), &plans::stacks(e))?;
    Ok(out)
}

/// What reading and writing tree books take, their stack too.
fn trees_alone() -> Result<String, std::fmt::Error> {
    let (stacks, mut out) = (trees::stacks(), String::new());
    tables::trees(&mut out, &trees::all())?;
    writeln!(out)?;
    tables::stacks(&mut out, &stacks, &stacks)?;
    Ok(out)
}

fn main() -> Result<(), Box<dyn std::error::Error>> {
    let words: Vec<String> = std::env::args().skip(1).collect();
    let alone = match words.iter().map(String::as_str).collect::<Vec<_>>()[..] {
        ["--joining"] => Some(joining_alone()?),
        ["--plans"] => Some(plans_alone()?),
        ["--trees"] => Some(trees_alone()?),
        _ => None,
    };
    if let Some(text) = alone {
        println!("{text}");
        return Ok(());
    }
    let (text, drawing) = measured()?;
    println!("{text}");
    if let [flag, folder] = &words[..] {
        assert_eq!(flag, "--write");
        let path = Path::new(folder).join("PERFORMANCE.md");
        let document = std::fs::read_to_string(&path)?;
        std::fs::write(&path, written(&document, &text).ok_or("PERFORMANCE.md lacks its two marks")?)?;
        std::fs::write(Path::new(folder).join("performance.svg"), drawing)?;
    }
    Ok(())
}
