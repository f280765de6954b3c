//! The measurements as Markdown tables.

use std::fmt::{Result, Write};

use crate::joining::Join;
use crate::measure::{Filtering, Listing, Pass, Reading, RefusedRows, Report, Row, Shaped, Versions};
use crate::nearest::{Search, Searched};
use crate::photographs::{Changes, Photographed};
use crate::plans::{Asked, Planned};
use crate::questions::Question;
use crate::short::{Call, Stored};
use crate::trees::TreeBooks;

/// How many passes, each anew, make a hard plan.
const MANY_PASSES: u64 = 1_000;

fn ratio(value: Option<f64>) -> String {
    value.map_or("–".to_string(), |v| format!("{v:.2}"))
}

/// One row for each family and n.
pub fn passes(out: &mut String, families: &[(String, Vec<Pass>)]) -> Result {
    writeln!(out, "| family | n | library, one pass, µs | × its n = 1 | × plain Rust | n + 1 filterings ÷ it | Gecode ÷ it |")?;
    writeln!(out, "|---|---|---|---|---|---|---|")?;
    for (name, passes) in families {
        for p in passes {
            let cells = [
                format!("{:.1}", p.library),
                ratio(Some(p.library / passes[0].library)),
                ratio(Some(p.library / p.plain)),
                ratio(Some(p.separate / p.library)),
                ratio(p.gecode.map(|g| g / p.library)),
            ];
            writeln!(out, "| {} | {} | {} |", &name[..1], p.n, cells.join(" | "))?;
        }
    }
    Ok(())
}

fn pass_at(passes: &[Pass], n: usize) -> &Pass {
    passes.iter().find(|p| p.n == n).expect("measured")
}

fn most(values: impl Iterator<Item = f64>) -> f64 {
    values.fold(f64::MIN, f64::max)
}

/// The targets of the one pass, with what was reached in the worst family.
fn pass_targets(out: &mut String, families: &[(String, Vec<Pass>)]) -> Result {
    let families = || families.iter().map(|family| &family.1);
    let flat = most(families().map(|p| p[p.len() - 1].library / p[0].library));
    let plain = most(families().flatten().map(|p| p.library / p.plain));
    let faster = families().map(|p| pass_at(p, 16).separate / pass_at(p, 16).library).fold(f64::MAX, f64::min);
    writeln!(out, "| time with all fields answered, n = 32 or 60, against n = 1 | at most 1.6 | {flat:.2} |")?;
    writeln!(out, "| library against plain Rust, any n | at most 1.5 | {plain:.2} |")?;
    writeln!(out, "| n + 1 filterings against one pass at n = 16 | at least 8 | {faster:.2} |")
}

/// The target of the full book of version 2, with what was reached at the worst n.
fn version_target(out: &mut String, versions: &[Versions]) -> Result {
    let worst = most(versions.iter().map(|v| v.of_2 / v.of_1));
    writeln!(
        out,
        "| full version 2 book (E) against the full 32-field book (B), any n; n = 60 against n = 32 | at most 2 | {worst:.2} |"
    )
}

/// The targets of reading, with what was reached in the worst shape and order.
fn reading_targets(out: &mut String, shaped: &[Shaped]) -> Result {
    let row_by_row = |s: &Shaped| s.library / s.row_by_row;
    let one_table = shaped.iter().filter(|s| s.shape.rows == 4_096).map(|s| s.library / s.plain);
    let many_tables = shaped.iter().filter(|s| s.shape.tables == 64).map(row_by_row);
    let small = shaped.iter().filter(|s| s.shape.tables * s.shape.rows == 10).map(row_by_row);
    writeln!(
        out,
        "| reading 4,096 rows in one table against plain Rust with `sort_unstable`, any order | at most 1.5 | {:.2} |",
        most(one_table)
    )?;
    writeln!(
        out,
        "| reading 64 tables of 64 rows against comparing row by row, any order | at most 1 | {:.2} |",
        most(many_tables)
    )?;
    writeln!(out, "| reading ten rows against comparing row by row | at most 1 | {:.2} |", most(small))
}

/// The target of the nearest full reading, with what was reached on the worst book.
fn nearest_target(out: &mut String, searches: &[(Searched, Search)]) -> Result {
    let worst = most(searches.iter().map(|(_, s)| s.library / s.plain));
    writeln!(out, "| nearest full reading against plain Rust, any book | at most 1.5 | {worst:.2} |")
}

/// The target of short stored sheets, with what was reached by the worst call on the worst book.
fn short_target(out: &mut String, stored: &[Stored]) -> Result {
    let worst = most(stored.iter().flat_map(Stored::calls).map(|call| call.library / call.plain));
    writeln!(out, "| short stored sheets against plain Rust, any call and book | at most 1.5 | {worst:.2} |")
}

/// The target of joining, with what was reached on the worst books.
fn joining_target(out: &mut String, joins: &[Join]) -> Result {
    let worst = most(joins.iter().map(|join| join.library / join.plain));
    writeln!(out, "| joining two books against plain Rust, any books | at most 1.5 | {worst:.2} |")
}

/// The targets of the debrief plan, with what was reached on the worst books.
pub fn plan_targets(out: &mut String, plans: &[(Asked, Planned)]) -> Result {
    let plain = most(plans.iter().map(|(_, p)| p.library / p.plain));
    let many = plans.iter().filter(|(_, p)| p.passes_anew >= MANY_PASSES);
    let anew = most(many.map(|(_, p)| p.library / p.anew));
    writeln!(out, "| debrief plan against plain Rust, any book | at most 1.5 | {plain:.2} |")?;
    writeln!(out, "| hard debrief plan against plain Rust, each pass anew | at most 0.33 | {anew:.2} |")
}

/// The targets of tree books, with what was reached on the worst book; in reading beside either form of plain Rust.
pub fn tree_targets(out: &mut String, books: &[TreeBooks]) -> Result {
    let reading = most(books.iter().flat_map(|b| [b.read.plain, b.read_by_roots].map(|plain| b.read.library / plain)));
    let writing = most(books.iter().map(|b| b.write.library / b.write.plain));
    writeln!(out, "| reading for tree books against plain Rust, either form, any book | at most 1.5 | {reading:.2} |")?;
    writeln!(out, "| writing for tree books against plain Rust, any listing | at most 1.5 | {writing:.2} |")
}

pub fn targets(
    out: &mut String,
    families: &[(String, Vec<Pass>)],
    versions: &[Versions],
    shaped: &[Shaped],
    searches: &[(Searched, Search)],
    stored: &[Stored],
    joins: &[Join],
) -> Result {
    writeln!(out, "| target | asked | worst |\n|---|---|---|")?;
    pass_targets(out, families)?;
    version_target(out, versions)?;
    reading_targets(out, shaped)?;
    nearest_target(out, searches)?;
    short_target(out, stored)?;
    joining_target(out, joins)
}

/// One pass on the full book of each version.
pub fn versions(out: &mut String, versions: &[Versions]) -> Result {
    writeln!(out, "| n, B | n, E | B, µs | E, µs | E ÷ B |\n|---|---|---|---|---|")?;
    versions.iter().try_for_each(|v| {
        let ratio = v.of_2 / v.of_1;
        writeln!(out, "| {} | {} | {:.1} | {:.1} | {ratio:.2} |", v.n_of_1, v.n_of_2, v.of_1, v.of_2)
    })
}

/// Reading, and one plain filtering.
pub fn readings(out: &mut String, families: &[(&str, Reading, Filtering)]) -> Result {
    writeln!(out, "| family | rows | reading, µs | × plain Rust | one filtering, µs | × plain Rust | Gecode's set-up, µs |")?;
    writeln!(out, "|---|---|---|---|---|---|---|")?;
    for (name, r, f) in families {
        let set_up = r.gecode_set_up.map_or("–".to_string(), |t| format!("{t:.0}"));
        let (reading, filtering) = (r.library / r.plain, f.library / f.plain);
        writeln!(
            out,
            "| {name} | {} | {:.1} | {reading:.2} | {:.1} | {filtering:.2} | {set_up} |",
            r.rows, r.library, f.library
        )?;
    }
    Ok(())
}

/// How the one pass at n = 16 and reading grow with the rows of family B.
pub fn growth(out: &mut String, steps: &[(Pass, Reading)]) -> Result {
    writeln!(out, "| rows | one pass, µs | ns a row | × plain Rust | reading, µs | × plain Rust |\n|---|---|---|---|---|---|")?;
    for (p, r) in steps {
        let (each, plain) = (1_000.0 * p.library / r.rows as f64, p.library / p.plain);
        let reading = r.library / r.plain;
        writeln!(out, "| {} | {:.1} | {each:.1} | {plain:.2} | {:.1} | {reading:.2} |", r.rows, p.library, r.library)?;
    }
    Ok(())
}

/// A time from nanoseconds on.
fn microseconds(time: f64) -> String {
    if time < 1.0 {
        format!("{time:.3}")
    } else {
        format!("{time:.1}")
    }
}

/// A time with its unit, up to seconds.
fn with_unit(time: f64) -> String {
    if time < 1_000.0 {
        format!("{} µs", microseconds(time))
    } else {
        format!("{:.1} ms", time / 1_000.0)
    }
}

/// The debrief plan, one row for each book.
pub fn plans(out: &mut String, plans: &[(Asked, Planned)]) -> Result {
    writeln!(
        out,
        "| book | questions | passes | library | µs a pass | × plain Rust | passes, each anew | library × plain Rust, each anew | plain Rust × plain Rust, each anew |"
    )?;
    writeln!(out, "|---|---|---|---|---|---|---|---|---|")?;
    for (asked, p) in plans {
        let questions = p.questions.map_or("none".to_string(), |n| n.to_string());
        let (time, each, plain) = (with_unit(p.library), p.library / p.passes as f64, p.library / p.plain);
        let anew = [p.library, p.plain].map(|time| format!("{:.2}", time / p.anew)).join(" | ");
        writeln!(
            out,
            "| {} | {questions} | {} | {time} | {each:.2} | {plain:.2} | {} | {anew} |",
            asked.what, p.passes, p.passes_anew
        )?;
    }
    Ok(())
}

/// The nearest full reading, one row for each book and sheet.
pub fn searches(out: &mut String, searches: &[(Searched, Search)]) -> Result {
    writeln!(out, "| book | what | library | × plain Rust | plain filterings that take as long |\n|---|---|---|---|---|")?;
    for (searched, s) in searches {
        let time = with_unit(s.library);
        let (plain, filterings) = (s.library / s.plain, s.library / s.filtering);
        writeln!(out, "| {} | {} | {time} | {plain:.2} | {filterings:.1} |", searched.name, searched.what)?;
    }
    Ok(())
}

/// The row behind a code, one row for each question.
pub fn rows(out: &mut String, rows: &[(&Question, Row)]) -> Result {
    writeln!(
        out,
        "| book | n | asked for | row | `sighting_row`, µs | ÷ one filtering | × plain Rust |\n|---|---|---|---|---|---|---|"
    )?;
    for (q, r) in rows {
        let row = r.row.map_or("–".to_string(), |row| row.to_string());
        let cells = [microseconds(r.library), ratio(Some(r.filterings)), ratio(Some(r.plain))];
        writeln!(out, "| {} | {} | {} | {row} | {} |", q.book_name, q.n, q.what, cells.join(" | "))?;
    }
    Ok(())
}

/// What a refusal of the row behind a code costs.
pub fn refused_rows(out: &mut String, rows: &[(&str, RefusedRows)]) -> Result {
    writeln!(
        out,
        "| book | n | refused by 16, µs | by 21, no such table ÷ it | by 21, field not in the last table ÷ it | accepted ÷ it |"
    )?;
    writeln!(out, "|---|---|---|---|---|---|")?;
    for (name, r) in rows {
        let against = [r.no_table, r.not_in_it, r.accepted].map(|time| format!("{:.2}", time / r.no_code));
        writeln!(out, "| {name} | {} | {} | {} |", r.n, microseconds(r.no_code), against.join(" | "))?;
    }
    Ok(())
}

/// The one pass by how many of the answers are photographed.
pub fn photographed(out: &mut String, families: &[(&str, Vec<Photographed>)]) -> Result {
    writeln!(
        out,
        "| family | photographed | library, one pass, µs | × none photographed | × plain Rust |\n|---|---|---|---|---|"
    )?;
    for (name, passes) in families {
        for p in passes {
            let (none, plain) = (p.library / passes[0].library, p.library / p.plain);
            writeln!(out, "| {name} | {} | {} | {none:.2} | {plain:.2} |", p.photographed, microseconds(p.library))?;
        }
    }
    Ok(())
}

/// The calls that change a sheet.
pub fn changes(out: &mut String, books: &[(&str, Changes)]) -> Result {
    writeln!(
        out,
        "| book | n | enter, µs | withdraw ÷ it | photograph ÷ it | photographed: again ÷ it | the code held ÷ it | another, 22 ÷ it | photograph × plain Rust |"
    )?;
    writeln!(out, "|---|---|---|---|---|---|---|---|---|")?;
    for (name, c) in books {
        let against = [c.withdraw, c.photograph, c.again, c.resent, c.refused].map(|time| format!("{:.2}", time / c.enter));
        let plain = c.photograph / c.plain;
        writeln!(out, "| {name} | {} | {} | {} | {plain:.2} |", c.n, microseconds(c.enter), against.join(" | "))?;
    }
    Ok(())
}

/// Short stored sheets, one row for each book and number of answers.
pub fn stored(out: &mut String, stored: &[Stored]) -> Result {
    writeln!(
        out,
        "| book | n | load_short, µs | ÷ load | × plain Rust | store_short, µs | ÷ store | × plain Rust | shorten, µs | × plain Rust | lengthen, µs | × plain Rust |"
    )?;
    writeln!(out, "|---|---|---|---|---|---|---|---|---|---|---|---|")?;
    let time = |call: &Call| microseconds(call.library);
    let plain = |call: &Call| format!("{:.2}", call.library / call.plain);
    let beside = |call: &Call, other| format!("{} | {:.2} | {}", time(call), call.library / other, plain(call));
    let alone = |call: &Call| format!("{} | {}", time(call), plain(call));
    for s in stored {
        let forms = [beside(&s.load_short, s.load), beside(&s.store_short, s.store), alone(&s.shorten), alone(&s.lengthen)];
        writeln!(out, "| {} | {} | {} |", s.book, s.n, forms.join(" | "))?;
    }
    Ok(())
}

/// Joining two books, one row for each shape and order.
pub fn joins(out: &mut String, joins: &[Join]) -> Result {
    writeln!(out, "| each of the two books | rows | tables joined | rows joined | join, µs | × plain Rust | ÷ reading both |")?;
    writeln!(out, "|---|---|---|---|---|---|---|")?;
    for j in joins {
        let cells = [microseconds(j.library), ratio(Some(j.library / j.plain)), ratio(Some(j.library / j.reading))];
        writeln!(out, "| {} | {} | {} | {} | {} |", j.what, j.order, j.tables, j.rows, cells.join(" | "))?;
    }
    Ok(())
}

/// Tree books, one row for each.
pub fn trees(out: &mut String, books: &[TreeBooks]) -> Result {
    writeln!(
        out,
        "| book | tables | rows | refused by | read_tree, µs | × plain Rust | × plain Rust with roots | ÷ read | write_tree, µs | × plain Rust | ÷ write |"
    )?;
    writeln!(out, "|---|---|---|---|---|---|---|---|---|---|---|")?;
    for b in books {
        let refused = b.refused.map_or("–".to_string(), |number| number.to_string());
        let ratios = |library: f64, others: &[f64]| others.iter().map(|other| ratio(Some(library / other))).collect::<Vec<_>>();
        let (read, write) = (b.read.library, b.write.library);
        let reading = ratios(read, &[b.read.plain, b.read_by_roots, b.read.any_book]).join(" | ");
        let writing = ratios(write, &[b.write.plain, b.write.any_book]).join(" | ");
        let (read, write) = (microseconds(read), microseconds(write));
        writeln!(out, "| {} | {} | {} | {refused} | {read} | {reading} | {write} | {writing} |", b.what, b.tables, b.rows)?;
    }
    Ok(())
}

/// Reading, one row for each shape and order.
pub fn shapes(out: &mut String, shaped: &[Shaped]) -> Result {
    writeln!(
        out,
        "| rows | order | reading, µs | × plain Rust with `sort_unstable` | × plain Rust row by row |\n|---|---|---|---|---|"
    )?;
    for s in shaped {
        let (time, plain, row_by_row) = (microseconds(s.library), s.library / s.plain, s.library / s.row_by_row);
        writeln!(out, "| {} | {} | {time} | {plain:.2} | {row_by_row:.3} |", s.shape.what, s.order.name())?;
    }
    Ok(())
}

pub fn reports(out: &mut String, reports: &[(&str, Report)]) -> Result {
    writeln!(out, "| report on | report, µs | reading alone, µs | plain Rust's reading row by row, µs |\n|---|---|---|---|")?;
    for (what, r) in reports {
        writeln!(out, "| {what} | {:.1} | {:.1} | {:.1} |", r.library, r.reading, r.row_by_row)?;
    }
    Ok(())
}

/// Writing a listing, and showing the book written.
pub fn listings(out: &mut String, listings: &[(&str, Listing)]) -> Result {
    writeln!(
        out,
        "| listing | numbers | write, µs | × plain Rust | bytes | show, µs | × plain Rust |\n|---|---|---|---|---|---|---|"
    )?;
    for (what, l) in listings {
        let (time, plain) = (microseconds(l.library), l.library / l.plain);
        let shown = l.shown.as_ref().map_or("– | – | –".to_string(), |shown| {
            format!("{} | {} | {:.2}", shown.bytes, microseconds(shown.library), shown.library / shown.plain)
        });
        writeln!(out, "| {what} | {} | {time} | {plain:.2} | {shown} |", l.numbers)?;
    }
    Ok(())
}

/// The stack bytes of the calls on the full book of each version.
pub fn stacks(out: &mut String, b: &[(&str, usize)], e: &[(&str, usize)]) -> Result {
    writeln!(out, "| call | stack bytes written, B, n = 32 | E, n = 60 |\n|---|---|---|")?;
    b.iter().zip(e).try_for_each(|((call, of_b), (_, of_e))| writeln!(out, "| {call} | {of_b} | {of_e} |"))
}
