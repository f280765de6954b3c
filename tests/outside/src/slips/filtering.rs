//! Wrong filters, some after document 01's "Slips seen in desks like ours".

use super::reading::first_rows;
use super::{Listed, Wrong::Part};
use crate::book::{Book, Table};
use crate::desk::Desk;
use crate::filter::{
    allowed, alternatives, has_empty, largest, relaxed, remove, round, unsupported, Alternatives, Filter, Subdomain,
};
use crate::sheet::{Sheet, NO_ANSWER, PLACES};

const fn wrong_lines(what: &'static str, exchange: fn(&mut Desk)) -> Listed {
    (what, &["alternatives"], Part(exchange))
}

pub const fn wrong_filter(what: &'static str, exchange: fn(&mut Desk)) -> Listed {
    (what, &["filtered", "alternatives", "row", "plan"], Part(exchange))
}

pub const SLIPS: &[Listed] = &[
    wrong_lines("a line for each row that keeps a code", |desk| desk.alternatives = line_for_each_row),
    wrong_lines("always listing the held code", |desk| desk.alternatives = held_code_listed),
    wrong_filter("dropping codes that no full reading has", |desk| desk.largest = full_readings_only),
    wrong_lines("taking the alternatives from the codes standing now", |desk| desk.alternatives = standing_now),
    wrong_lines("lifting all answers together", |desk| desk.alternatives = lifted_together),
    wrong_lines("marks forbidden by an answer not counted", |desk| desk.alternatives = forbidden_not_counted),
    wrong_lines("lines by rising code, then field", |desk| desk.alternatives = lines_by_code),
    wrong_filter("an empty field empties all others", |desk| desk.largest = all_or_nothing),
    wrong_filter("filtering that stops after 40 rounds", |desk| desk.largest = forty_rounds),
    wrong_filter("filtering that stops after 40 sweeps, table by table", |desk| desk.largest = forty_sweeps),
    wrong_filter("row 4,096 of a table not filtered by", |desk| {
        desk.largest = |book, answers| largest(&first_rows(book), answers)
    }),
    wrong_filter("tables without rows not filtered by", |desk| desk.largest = rows_only),
];

fn in_doubt(book: &Book, sheet: &Sheet) -> Vec<usize> {
    (0..book.counts.len()).filter(|&f| sheet.is_in_doubt(f)).collect()
}

/// The lines of the fields in doubt, all from one domain.
fn lines_from(book: &Book, sheet: &Sheet, domain: &Subdomain) -> Vec<(u8, u8)> {
    let line = |f: usize| (0..book.counts[f]).filter(move |&c| domain[f][c as usize]).map(move |c| (f as u8, c));
    in_doubt(book, sheet).into_iter().flat_map(line).collect()
}

/// The rows of the table that keep the code of this field.
fn keeping_rows(table: &Table, domain: &Subdomain, field: u8, code: u8) -> usize {
    let keeps = |row: &&Vec<u8>| {
        table.fields.iter().zip(row.iter()).all(|(&f, &c)| domain[f as usize][c as usize] && (f != field || c == code))
    };
    if table.fields.contains(&field) {
        table.rows.iter().filter(keeps).count()
    } else {
        0
    }
}

fn line_for_each_row(book: &Book, sheet: &Sheet, largest: Filter) -> Alternatives {
    let mut found = alternatives(book, sheet, largest);
    let mut lines = Vec::new();
    for &(f, c) in &found.lines {
        let domain = largest(book, &relaxed(&sheet.answers, f as usize));
        let rows: usize = book.tables.iter().map(|table| keeping_rows(table, &domain, f, c)).sum();
        lines.extend(vec![(f, c); rows.max(1)]);
    }
    found.lines = lines;
    found
}

fn held_code_listed(book: &Book, sheet: &Sheet, largest: Filter) -> Alternatives {
    let mut found = alternatives(book, sheet, largest);
    found.lines.extend(in_doubt(book, sheet).iter().map(|&f| (f as u8, sheet.answers[f])));
    found.lines.sort();
    found.lines.dedup();
    found
}

fn standing_now(book: &Book, sheet: &Sheet, largest: Filter) -> Alternatives {
    let lines = lines_from(book, sheet, &largest(book, &sheet.answers));
    Alternatives { lines, ..alternatives(book, sheet, largest) }
}

fn lifted_together(book: &Book, sheet: &Sheet, largest: Filter) -> Alternatives {
    let lines = lines_from(book, sheet, &largest(book, &[NO_ANSWER; PLACES]));
    Alternatives { lines, ..alternatives(book, sheet, largest) }
}

fn forbidden_not_counted(book: &Book, sheet: &Sheet, largest: Filter) -> Alternatives {
    let found = alternatives(book, sheet, largest);
    let cases = 1 + in_doubt(book, sheet).len();
    // an answer holds in all cases but its own
    let holds = |f: usize| (cases - sheet.is_in_doubt(f) as usize) as u64;
    let answered = (0..book.counts.len()).filter(|&f| sheet.is_answered(f));
    let forbidden: u64 = answered.map(|f| (book.counts[f] as u64 - 1) * holds(f)).sum();
    Alternatives { struck: found.struck - forbidden, ..found }
}

fn lines_by_code(book: &Book, sheet: &Sheet, largest: Filter) -> Alternatives {
    let mut found = alternatives(book, sheet, largest);
    found.lines.sort_by_key(|&(f, c)| (c, f));
    found
}

/// As a solver that ends where a field becomes empty.
fn all_or_nothing(book: &Book, answers: &[u8]) -> Subdomain {
    let mut domain = largest(book, answers);
    if has_empty(&domain) {
        domain.iter_mut().for_each(|codes| codes.fill(false));
    }
    domain
}

/// Where there are too many readings to go through, the right filter.
fn full_readings_only(book: &Book, answers: &[u8]) -> Subdomain {
    let readings = book.counts.iter().try_fold(1usize, |n, &count| n.checked_mul(count as usize));
    match readings {
        Some(0..=5_000) => in_full_readings(book, answers),
        _ => largest(book, answers),
    }
}

/// The codes that some reading of all fields has, within the answers and with a row of every table.
fn in_full_readings(book: &Book, answers: &[u8]) -> Subdomain {
    let mut domain: Subdomain = book.counts.iter().map(|&count| vec![false; count as usize]).collect();
    let mut reading = vec![0u8; book.counts.len()];
    loop {
        let within = reading.iter().zip(answers).all(|(&c, &a)| a == NO_ANSWER || a == c);
        if within && book.tables.iter().all(|table| has_row(table, &reading)) {
            for (f, &c) in reading.iter().enumerate() {
                domain[f][c as usize] = true;
            }
        }
        if !next_reading(book, &mut reading) {
            return domain;
        }
    }
}

fn has_row(table: &Table, reading: &[u8]) -> bool {
    table.rows.iter().any(|row| table.fields.iter().zip(row).all(|(&f, &c)| reading[f as usize] == c))
}

/// Counts up the reading, its last field first; false behind the last one.
fn next_reading(book: &Book, reading: &mut [u8]) -> bool {
    for f in (0..reading.len()).rev() {
        reading[f] += 1;
        if reading[f] < book.counts[f] {
            return true;
        }
        reading[f] = 0;
    }
    false
}

fn forty_rounds(book: &Book, answers: &[u8]) -> Subdomain {
    let mut domain = allowed(book, answers);
    (0..40).take_while(|_| round(book, &mut domain)).for_each(drop);
    domain
}

/// What a table strikes is gone for the tables behind it, so that a sweep takes more away than a round.
fn forty_sweeps(book: &Book, answers: &[u8]) -> Subdomain {
    let mut domain = allowed(book, answers);
    for table in std::iter::repeat_n(&book.tables, 40).flatten() {
        let removed = unsupported(table, &domain);
        remove(&mut domain, &removed);
    }
    domain
}

fn rows_only(book: &Book, answers: &[u8]) -> Subdomain {
    let mut with_rows = book.clone();
    with_rows.tables.retain(|table| !table.rows.is_empty());
    largest(&with_rows, answers)
}

#[cfg(test)]
mod tests {
    use super::SLIPS;
    use crate::book::Book;
    use crate::calls::{Answer, Call};
    use crate::desk::Desk;
    use crate::examples::{e1, e4};
    use crate::sheet::Sheet;
    use crate::slips::Wrong;

    /// What the desk lists and what it filters.
    fn shown(desk: &Desk, book: &Book, sheet: &Sheet) -> [Answer; 2] {
        let book = Ok(book.clone());
        [Call::Alternatives, Call::Filtered { relaxed: 255 }].map(|call| desk.answer(&call, &book, sheet))
    }

    #[test]
    fn each_example_catches_its_slip() {
        let examples = [(e1(), [0, 1, 255]), (e1(), [1, 0, 255]), (e4(), [255; 3]), (e4(), [0, 255, 255]), (e1(), [0, 1, 255])];
        for ((name, _, wrong), (book, answers)) in SLIPS.iter().zip(&examples) {
            let (right, mut slipping) = (Desk::default(), Desk::default());
            let Wrong::Part(exchange) = wrong else { panic!("{name}") };
            exchange(&mut slipping);
            assert_ne!(shown(&slipping, book, &Sheet::of(answers)), shown(&right, book, &Sheet::of(answers)), "{name}");
        }
    }

    #[test]
    fn the_repeat_makes_five_lines() {
        let slipping = Desk { alternatives: super::line_for_each_row, ..Desk::default() };
        let [listed, _] = shown(&slipping, &e1(), &Sheet::of(&[0, 1, 255]));
        assert_eq!(listed.written.bytes.len(), 2 * 5);
    }
}
