//! Seeded targets and lists of questions for the debrief plan, and books and sheets made for it. Books: a field is told by one to three
//! others, or by which others they are; the answers to one field leave no code to be given; and beside such a part other fields, few or
//! as many as there may be. Sheets: few answers, so that there is something to ask.

use std::collections::BTreeSet;

use crate::asking::beyond;
use crate::book::{field_limit, Book, Table};
use crate::calls::Call;
use crate::examples::e4;
use crate::filter::largest;
use crate::near;
use crate::nearest::readings;
use crate::parts;
use crate::photographs::{self, fields, one_of};
use crate::plan::LONGEST;
use crate::random::{fields_of, in_some_version, Random};
use crate::sheet::{Sheet, FRESH};

/// So many tests of a code in a row, or about as many, may be made at most by a search that goes through all answers.
const TESTS: usize = 8_000_000;

/// The last question to which a list of many is longer than a byte counts.
const MANY: usize = 256;

pub fn book(r: &mut Random) -> Book {
    let mut all = vec![some_part(r)];
    match r.from(0, 5) {
        0 => all.push(some_part(r)),
        1 => all.push(dead_end(r)),
        _ => {}
    }
    let fields: usize = all.iter().map(|part| part.counts.len()).sum();
    let least = match r.from(0, 7) {
        0 => r.from(field_limit(1) + 1, field_limit(2)),
        1 => field_limit(2),
        _ => r.from(fields, fields + 2),
    };
    all.extend((fields..least).map(|_| Book::new(vec![r.one_of(&[1, 1, 2, 3])], Vec::new())));
    let book = parts::joined(r, &all);
    in_some_version(r, book)
}

fn some_part(r: &mut Random) -> Book {
    match r.from(0, 15) {
        0..=5 => told(r),
        6..=8 => {
            let counts = near::few(r);
            near::with_readings(r, counts)
        }
        9..=10 => by_choice(r),
        11..=13 => one_by_one(r),
        14 => by_many_codes(r),
        _ => Book::new(vec![r.from(2, 4) as u8; r.from(2, 4)], Vec::new()),
    }
}

/// Some of the fields tell another, and often that one with others tells one more.
fn told(r: &mut Random) -> Book {
    let fields = r.from(2, 6);
    let counts: Vec<u8> = (0..fields).map(|_| r.one_of(&[2, 2, 2, 3, 3, 4, 5])).collect();
    let tables = (0..r.one_of(&[1, 1, 2, 2, 3])).map(|_| {
        let arity = r.from(2, fields.min(4));
        let on = fields_of(r, fields, arity);
        let of = r.from(0, arity - 1);
        telling(r, &counts, on, of)
    });
    let tables = tables.collect();
    Book::new(counts, tables)
}

/// A table in which the other columns tell the code of this one: each row of the others has the code that their sum gives, any code, or the
/// one that one of them gives. A few rows are missing, or come once more with any code.
fn telling(r: &mut Random, counts: &[u8], fields: Vec<u8>, column: usize) -> Table {
    let count = |k: usize| counts[fields[k] as usize] as usize;
    let (way, other) = (r.from(0, 3), (column + 1) % fields.len());
    let mut table = Table { fields: fields.clone(), rows: Vec::new() };
    let all: usize = (0..fields.len()).filter(|&k| k != column).map(count).product();
    for number in 0..all {
        let (mut row, mut rest) = (vec![0; fields.len()], number);
        for k in (0..fields.len()).filter(|&k| k != column) {
            row[k] = (rest % count(k)) as u8;
            rest /= count(k);
        }
        let told = match way {
            0..=1 => row.iter().map(|&code| code as usize).sum(),
            2 => r.from(0, 31),
            _ => row[other] as usize,
        };
        row[column] = (told % count(column)) as u8;
        match r.from(0, 15) {
            0 => continue,
            1 => table.rows.push(with_code(&row, column, r.from(0, count(column) - 1))),
            _ => {}
        }
        table.rows.push(row);
    }
    r.shuffle(&mut table.rows);
    table
}

fn with_code(row: &[u8], column: usize, code: usize) -> Vec<u8> {
    let mut row = row.to_vec();
    row[column] = code as u8;
    row
}

/// A field of as many codes as there may be, or about so many, tells the target, in half of the books but for one code.
fn by_many_codes(r: &mut Random) -> Book {
    let (codes, of_target) = (r.from(16, 32), r.from(2, 32));
    let mut rows: Vec<Vec<u8>> = (0..codes).map(|code| vec![code as u8, (code % of_target) as u8]).collect();
    if r.one_in(2) {
        let any = r.from(0, codes - 1);
        let code = r.one_of(&[codes - 1, any]);
        rows.push(vec![code as u8, ((code + 1) % of_target) as u8]);
    }
    Book::new(vec![codes as u8, of_target as u8], vec![Table { fields: vec![0, 1], rows }])
}

/// The code of the first field says which of two or three others, or which of two pairs, tells the target.
fn by_choice(r: &mut Random) -> Book {
    let each = r.from(1, 2);
    let (ways, codes) = if each == 1 { (r.from(2, 3), r.from(2, 3)) } else { (2, 2) };
    let (last, sums) = (1 + ways * each, each * (codes - 1) + 1);
    let counts = [vec![ways], vec![codes; last - 1], vec![sums]].concat();
    let counts: Vec<u8> = counts.into_iter().map(|count| count as u8).collect();
    let table = |way: usize| {
        let fields: Vec<u8> =
            [0].into_iter().chain(1 + way * each..1 + (way + 1) * each).chain([last]).map(|field| field as u8).collect();
        let of: Vec<u8> = fields.iter().map(|&field| counts[field as usize]).collect();
        let tells = |row: &Vec<u8>| row[0] as usize != way || row[1..=each].iter().sum::<u8>() == row[each + 1];
        Table { rows: readings(&of).filter(tells).collect(), fields }
    };
    let tables = (0..ways).map(table).collect();
    Book::new(counts, tables)
}

/// Two to four fields of which each rules out one code or all others, so that as many questions may be needed as there are such fields.
fn one_by_one(r: &mut Random) -> Book {
    let others = r.one_of(&[2, 3, 3, 3, 4]);
    let table = |other: u8| {
        let rows = (0..=others).flat_map(|code| [vec![0, code], vec![1, code]]);
        Table { fields: vec![other, others], rows: rows.filter(|row| (row[0] == 1) != (row[1] == other)).collect() }
    };
    Book::new([vec![2; others as usize], vec![others + 1]].concat(), (0..others).map(table).collect())
}

/// A part in which no answer can be given, or not to any field: of three fields each two differ, at once or whatever a fourth is answered;
/// or a field has no code.
fn dead_end(r: &mut Random) -> Book {
    match r.from(0, 3) {
        0..=1 => e4(),
        2 => {
            let differ = |f: u8, g: u8| Table {
                fields: vec![f, g, 3],
                rows: (0..2).flat_map(|c| [vec![0, 1, c], vec![1, 0, c]]).chain([vec![1, 1, 2]]).collect(),
            };
            Book::new(vec![2, 2, 2, 3], vec![differ(0, 1), differ(0, 2), differ(1, 2)])
        }
        _ => Book::new(vec![r.from(1, 3) as u8], vec![Table { fields: vec![0], rows: Vec::new() }]),
    }
}

/// Mostly up to three answers, mostly of codes that stand by those before, and in some sheets of almost all fields; some are photographed.
pub fn sheet(r: &mut Random, book: &Book) -> Sheet {
    let (mut sheet, all) = (FRESH, book.counts.len());
    let (few, any, most) = (r.from(1, 3), r.from(0, all), all - r.from(0, all.min(3)));
    let answers = r.one_of(&[0, 0, 0, 0, 1, 1, few, any, most]).min(all);
    for field in fields_of(r, all, answers) {
        let standing = &largest(book, &sheet.answers)[field as usize];
        let codes: Vec<u8> = (0..book.counts[field as usize]).filter(|&code| standing[code as usize] || r.one_in(12)).collect();
        sheet.answers[field as usize] = if codes.is_empty() { 0 } else { r.one_of(&codes) };
    }
    photographs::take(r, &mut sheet);
    sheet
}

/// Two calls for a plan, of which the second mostly is refused.
pub fn plans(r: &mut Random, book: &Book, sheet: &Sheet) -> [Call; 2] {
    let (target, questions) = asked(r, book, sheet);
    let (mut other, mut flawed) = asked(r, book, sheet);
    if r.one_in(4) {
        other = beyond(r, other, book.counts.len());
    }
    if !r.one_in(4) {
        flaw(r, book, sheet, other, &mut flawed);
    }
    [Call::Plan { target, questions }, Call::Plan { target: other, questions: flawed }]
}

/// A target, and a list that may be asked.
fn asked(r: &mut Random, book: &Book, sheet: &Sheet) -> (usize, Vec<u8>) {
    let mut open = fields(book, |field| !sheet.is_answered(field));
    let with_choice: Vec<u8> = open.iter().copied().filter(|&field| book.counts[field as usize] > 1).collect();
    let any = r.from(0, book.counts.len() - 1);
    let most_tied = with_choice.iter().copied().max_by_key(|&field| tied(book, field).len());
    let target = match (r.from(0, 9), one_of(r, &with_choice), most_tied) {
        (0..=1, ..) => any,
        (2..=5, Some(field), _) | (_, _, Some(field)) => field as usize,
        _ => any,
    };
    open.retain(|&field| field as usize != target);
    r.shuffle(&mut open);
    let tied = tied(book, target as u8);
    if !r.one_in(4) {
        // the sort keeps the order of those that are alike
        open.sort_by_key(|field| (book.counts[*field as usize] == 1, !tied.contains(field)));
    }
    let (few, all) = (r.from(0, LONGEST), tied.len().min(LONGEST));
    open.truncate(r.one_of(&[few, few, all, all.max(few), LONGEST]));
    r.shuffle(&mut open);
    while !open.is_empty() && tests(book, &open) > TESTS {
        open.pop();
    }
    (target, open)
}

/// The fields that some table ties to this one.
fn tied(book: &Book, field: u8) -> BTreeSet<u8> {
    let tables = book.tables.iter().filter(|table| table.fields.contains(&field));
    tables.flat_map(|table| table.fields.iter().copied()).filter(|&other| other != field).collect()
}

/// About how many tests of a code in a row it takes to go through all answers to three of these questions.
fn tests(book: &Book, questions: &[u8]) -> usize {
    let count = |field: u8| book.counts[field as usize] as usize;
    let of_table = |table: &Table| table.rows.len() * table.fields.iter().map(|&field| count(field)).sum::<usize>();
    let once: usize =
        book.tables.iter().map(of_table).sum::<usize>() + book.counts.iter().map(|&codes| codes as usize).sum::<usize>();
    // to so many questions of those up to here
    let mut orders = [1, 0, 0, 0];
    for &q in questions {
        for k in (1..orders.len()).rev() {
            orders[k] += orders[k - 1] * k * count(q);
        }
    }
    once * orders.iter().sum::<usize>()
}

/// Puts a question into the list that may not be asked, in the place of another or beside it, or makes the list too long; in a few lists
/// both.
fn flaw(r: &mut Random, book: &Book, sheet: &Sheet, target: usize, questions: &mut Vec<u8>) {
    let last = book.counts.len() as u8;
    let answered = one_of(r, &fields(book, |field| sheet.is_answered(field)));
    let missing = [last, last, last.saturating_add(1), 59, 60, 254, 255, r.from(last as usize, 255) as u8];
    let missing = r.one_of(&missing).max(last);
    let bad = match r.from(0, 9) {
        0..=1 => questions.first().copied().filter(|_| r.one_in(2)).or(questions.last().copied()),
        2..=4 => answered,
        5..=6 => Some(missing),
        7..=8 => Some(target as u8),
        _ => None,
    };
    match bad {
        Some(bad) => put(r, questions, bad),
        None => lengthen(r, book, sheet, target, questions),
    }
    if r.one_in(12) {
        lengthen(r, book, sheet, target, questions);
    }
}

/// At the front, at the end, or anywhere; and where the list is as long as it may be, in the place of a question.
fn put(r: &mut Random, questions: &mut Vec<u8>, bad: u8) {
    let end = questions.len();
    let any = r.from(0, end);
    let place = r.one_of(&[0, end, end, any]);
    questions.insert(place, bad);
    if end == LONGEST {
        questions.remove(if place == 0 { end } else { 0 });
    }
}

/// With other fields that may be asked, as far as there are any, to seven questions or more; or with questions that come again, in a few
/// lists to as many as a byte does not count.
fn lengthen(r: &mut Random, book: &Book, sheet: &Sheet, target: usize, questions: &mut Vec<u8>) {
    let more = r.from(2, 30);
    let length = LONGEST + r.one_of(&[1, 1, 1, more]);
    let mut others = fields(book, |field| !sheet.is_answered(field) && field != target);
    others.retain(|field| !questions.contains(field));
    r.shuffle(&mut others);
    others.truncate(length.saturating_sub(questions.len()));
    questions.extend(others);
    let again = questions.first().copied().unwrap_or(target as u8);
    let counted = questions.len().min(LONGEST);
    if r.one_in(6) {
        questions.truncate(counted);
        questions.resize(MANY + counted, again);
    } else if questions.len() <= LONGEST {
        questions.resize(length, again);
    }
}

#[cfg(test)]
mod tests {
    use super::{book, plans, sheet, tests, TESTS};
    use crate::book::Book;
    use crate::calls::Call;
    use crate::filter::largest;
    use crate::plan::{least, Planned, Position, MOST};
    use crate::random::Random;
    use crate::reader::Reader;

    #[test]
    fn each_number_of_questions_and_none_are_needed() {
        let (reader, mut r) = (Reader::default(), Random(1));
        let (mut shares, mut refused) = ([0; MOST + 2], 0);
        for _ in 0..600 {
            let book = book(&mut r);
            assert_eq!(reader.read(&book.write()), Ok(book.clone()));
            let sheet = sheet(&mut r, &book);
            for call in plans(&mut r, &book, &sheet) {
                let Call::Plan { target, questions } = call else { unreachable!("it is a call for a plan") };
                let planned = Planned { target, questions: &questions };
                if target >= book.counts.len() || planned.is_refused(&book, &sheet) {
                    refused += 1;
                } else {
                    let least = least(&Position::of(&book, &sheet.answers, largest), planned);
                    shares[least.unwrap_or(MOST + 1)] += 1;
                }
            }
        }
        assert!(shares.iter().all(|&times| times > 15) && refused > 300, "{shares:?} {refused}");
    }

    #[test]
    fn work_is_told_before_it_is_done() {
        let book = Book::new(vec![3, 2, 4], Vec::new());
        assert_eq!([tests(&book, &[]), tests(&book, &[0]), tests(&book, &[0, 1])], [9, 9 * 4, 9 * (1 + 5 + 12)]);
        assert_eq!(tests(&book, &[0, 1, 2]), 9 * (1 + 9 + 2 * (6 + 12 + 8) + 6 * 24));
        assert!(tests(&Book::new(vec![32; 60], Vec::new()), &[0, 1, 2]) > TESTS);
    }
}
