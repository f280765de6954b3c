//! Seeded second books for a first one: it once more, the same with other rows and tables, others with its fields, and such as may not
//! be joined with it.

use crate::book::{field_limit, Book, Table};
use crate::pairs::{damage, MOST_ROWS, MOST_TABLES};
use crate::random::{row_of, table_of, Random};

/// The bytes of a second book; none where the first is lent once more.
pub fn some_second(r: &mut Random, first: &Book) -> Option<Vec<u8>> {
    let second = match r.from(0, 11) {
        0 => return None,
        1 => return Some(first.write()),
        2..=3 => unlike(r, first),
        4 => {
            let altered = altered(r, first);
            other_counts(r, &altered)
        }
        5..=6 => {
            let altered = altered(r, first);
            return Some(damage(r, &altered));
        }
        _ => altered(r, first),
    };
    Some(in_any_version(r, second).write())
}

/// The book in version 1 or 2 where either has room for its fields.
pub fn in_any_version(r: &mut Random, book: Book) -> Book {
    let version = if book.counts.len() <= field_limit(1) { r.from(1, 2) as u8 } else { 2 };
    Book { version, ..book }
}

/// Other tables on the same fields.
fn unlike(r: &mut Random, book: &Book) -> Book {
    let tables = (0..r.from(0, 6)).map(|_| {
        let rows = r.from(0, 12);
        table_of(r, &book.counts, rows)
    });
    let tables = tables.collect();
    Book { tables, ..book.clone() }
}

/// The book's tables in another order, some left out, some twice, each with rows left out, repeated or added; and in some books a table
/// more.
pub fn altered(r: &mut Random, book: &Book) -> Book {
    let mut tables = Vec::new();
    for table in &book.tables {
        for _ in 0..r.one_of(&[0, 1, 1, 1, 1, 2]) {
            tables.push(altered_table(r, &book.counts, table));
        }
    }
    if r.one_in(3) {
        let rows = r.from(0, 6);
        tables.push(table_of(r, &book.counts, rows));
    }
    r.shuffle(&mut tables);
    within_limits(Book { tables, ..book.clone() })
}

fn altered_table(r: &mut Random, counts: &[u8], table: &Table) -> Table {
    let kept = r.one_of(&[2, 3, 7, 8, 8, 8]);
    let mut rows: Vec<Vec<u8>> = table.rows.iter().filter(|_| r.from(0, 7) < kept).cloned().collect();
    for _ in 0..r.one_of(&[0, 0, 0, 1, 2]) {
        rows.push(row_of(r, counts, &table.fields));
    }
    if !table.rows.is_empty() && r.one_in(3) {
        rows.push(table.rows[r.from(0, table.rows.len() - 1)].clone());
    }
    if r.one_in(2) {
        r.shuffle(&mut rows);
    }
    Table { fields: table.fields.clone(), rows }
}

/// The first tables and rows, as many as a book may have.
fn within_limits(mut book: Book) -> Book {
    book.tables.truncate(MOST_TABLES);
    let mut room = MOST_ROWS;
    for table in &mut book.tables {
        table.rows.truncate(room);
        room -= table.rows.len();
    }
    book
}

/// The book with other code counts: of one field, of two that are exchanged, or of a field more or less at the end.
pub fn other_counts(r: &mut Random, book: &Book) -> Book {
    let (mut counts, last) = (book.counts.clone(), book.counts.len() - 1);
    let any = r.from(0, last);
    let field = r.one_of(&[0, last, any, any]);
    match r.from(0, 5) {
        0 if last > 0 => {
            counts.truncate(r.one_of(&[last, last, any.max(1)]));
        }
        1..=2 if last + 1 < field_limit(2) => counts.push(r.from(1, 32) as u8),
        3 if counts[field] != counts[last - field] => counts.swap(field, last - field),
        _ => counts[field] = another_count(r, counts[field]),
    }
    fitted(book, counts)
}

/// One code more or less, or any other number.
fn another_count(r: &mut Random, count: u8) -> u8 {
    let next = if count == 32 || (count > 1 && r.one_in(2)) { count - 1 } else { count + 1 };
    let any = r.from(1, 32) as u8;
    r.one_of(&[next, if any == count { next } else { any }])
}

/// The book's tables on fields that are still there, with the codes that their fields still have.
fn fitted(book: &Book, counts: Vec<u8>) -> Book {
    let is_there = |table: &&Table| table.fields.iter().all(|&field| (field as usize) < counts.len());
    let code = |(&field, &code): (&u8, &u8)| code.min(counts[field as usize] - 1);
    let fit = |table: &Table| {
        let rows = table.rows.iter().map(|row| table.fields.iter().zip(row).map(code).collect()).collect();
        Table { fields: table.fields.clone(), rows }
    };
    let tables = book.tables.iter().filter(is_there).map(fit).collect();
    Book { counts: counts.clone(), tables, ..*book }
}

#[cfg(test)]
mod tests {
    use super::{altered, other_counts, some_second, unlike};
    use crate::book::Book;
    use crate::desk::Desk;
    use crate::random::{book, Random};

    #[test]
    fn books_for_a_first_are_accepted() {
        let (desk, mut r) = (Desk::default(), Random(1));
        for _ in 0..500 {
            let first = book(&mut r);
            for second in [altered(&mut r, &first), unlike(&mut r, &first)] {
                assert_eq!(second.counts, first.counts);
                assert_eq!(desk.reader.read(&second.write()), Ok(second));
            }
        }
    }

    /// Where the first is accepted, so is one with other counts, and it is refused by 25.
    #[test]
    fn other_counts_are_refused() {
        let (desk, mut r) = (Desk::default(), Random(1));
        for _ in 0..500 {
            let first = book(&mut r);
            let second = other_counts(&mut r, &first);
            let second = Book { version: 2, ..second };
            assert!(desk.join(&Ok(first), Some(&second.write())).is_err_and(|r| r.number == 25));
        }
    }

    #[test]
    fn more_than_half_are_joined() {
        let (desk, mut r) = (Desk::default(), Random(1));
        let mut times = [0; 3];
        for _ in 0..1_000 {
            let first = book(&mut r);
            let second = some_second(&mut r, &first);
            match desk.join(&Ok(first), second.as_deref()) {
                Ok(_) => times[0] += 1,
                Err(r) if r.number >= 25 => times[1] += 1,
                Err(_) => times[2] += 1,
            }
        }
        assert!(times[0] > 600 && times[1] > 50 && times[2] > 80, "{times:?}");
    }
}
