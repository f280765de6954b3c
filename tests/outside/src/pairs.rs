//! Seeded pairs of books to join: with tables on the same fields in one book and across both, with the most tables and rows that the
//! result may have and more, and with nothing to join.

use std::collections::BTreeSet;

use crate::book::{field_limit, Book, Table};
use crate::faults::{changed, faulty, some_faults};
use crate::joining::joined;
use crate::random::{fields_of, row_of, Random};
use crate::seconds::{altered, in_any_version, other_counts};

/// The most tables and rows of a book.
pub const MOST_TABLES: usize = 64;
pub const MOST_ROWS: usize = 4_096;

/// Two books, and the bytes that are lent for them: none for the second where the first is lent once more.
pub struct Pair {
    pub first: Book,
    pub bytes: Vec<u8>,
    pub second: Option<Vec<u8>>,
}

/// Two books before they are written.
type Books = (Book, Book);

/// In one of twelve pairs the code counts differ, in one of six a book is damaged, or both are, and in one of sixteen it is one book.
pub fn pair(r: &mut Random) -> Pair {
    let (first, mut second) = of_some_kind(r);
    if r.one_in(12) {
        second = other_counts(r, &second);
    }
    let (first, second) = (in_any_version(r, first), in_any_version(r, second));
    let damaged = r.from(0, 23);
    let bytes = if [0, 1].contains(&damaged) { damage(r, &first) } else { first.write() };
    let second = match damaged {
        1..=3 => Some(damage(r, &second)),
        4 => None,
        5 => Some(bytes.clone()),
        _ => Some(second.write()),
    };
    Pair { first, bytes, second }
}

pub fn damage(r: &mut Random, book: &Book) -> Vec<u8> {
    if r.one_in(6) {
        return changed(r, book);
    }
    let faults = some_faults(r);
    faulty(r, book, &faults)
}

fn of_some_kind(r: &mut Random) -> Books {
    match r.from(0, 99) {
        0..=43 => few(r),
        44..=55 => many_fields(r),
        56..=61 => without_tables(r),
        62..=69 => joined_already(r),
        70..=73 => written_in_order(r),
        74..=85 => of_sets(r),
        86..=98 => of_rows(r),
        _ => longest(r),
    }
}

/// Up to six fields of few codes, so that tables on the same fields have rows in common.
fn few(r: &mut Random) -> Books {
    let most = r.one_of(&[2, 3, 4]);
    let counts: Vec<u8> = (0..r.from(1, 6)).map(|_| r.from(1, most) as u8).collect();
    sharing(r, counts)
}

/// More fields than version 1 has, mostly the most, with more codes.
fn many_fields(r: &mut Random) -> Books {
    let most = field_limit(2);
    let fields = if r.one_in(4) { r.from(field_limit(1) + 1, most) } else { most };
    let counts = (0..fields).map(|_| if r.one_in(3) { 32 } else { r.from(1, 32) as u8 }).collect();
    sharing(r, counts)
}

/// Both have tables on some of the same lists of fields.
fn sharing(r: &mut Random, counts: Vec<u8>) -> Books {
    let pools: Vec<Table> = sets(r, counts.len()).into_iter().map(|fields| pool(r, &counts, fields)).collect();
    let book = |r: &mut Random| {
        let tables = (0..r.from(0, 7)).map(|_| drawn(r, &counts, &pools)).collect();
        Book::new(counts.clone(), tables)
    };
    (book(r), book(r))
}

/// Some lists of fields; in half of them a list, those that it continues, and one that parts from it.
fn sets(r: &mut Random, fields: usize) -> Vec<Vec<u8>> {
    let some = |r: &mut Random, most: usize| {
        let arity = r.from(1, most.min(fields));
        fields_of(r, fields, arity)
    };
    let mut sets: Vec<Vec<u8>> = (0..r.from(1, 4)).map(|_| some(r, 4)).collect();
    if r.one_in(2) {
        let longest = some(r, 4);
        sets.extend((1..=longest.len()).map(|arity| longest[..arity].to_vec()));
        let last = fields as u8 - 1;
        sets.push(if longest.len() > 1 && longest[1] < last { vec![longest[0], last] } else { vec![last] });
    }
    sets
}

/// Different rows on these fields.
fn pool(r: &mut Random, counts: &[u8], fields: Vec<u8>) -> Table {
    let rows: BTreeSet<Vec<u8>> = (0..r.from(1, 12)).map(|_| row_of(r, counts, &fields)).collect();
    Table { fields, rows: rows.into_iter().collect() }
}

/// A table with rows of one of the pools: mostly most of them, some twice, in any order or rising; in a few tables none, or others too.
fn drawn(r: &mut Random, counts: &[u8], pools: &[Table]) -> Table {
    let pool = &pools[r.from(0, pools.len() - 1)];
    let quarters = r.one_of(&[0, 1, 2, 3, 3, 3, 4, 4]);
    let mut rows: Vec<Vec<u8>> = pool.rows.iter().filter(|_| r.from(0, 3) < quarters).cloned().collect();
    if r.one_in(6) {
        rows.push(row_of(r, counts, &pool.fields));
    }
    for _ in 0..r.one_of(&[0, 0, 1, 3]) {
        if let Some(last) = rows.len().checked_sub(1) {
            rows.push(rows[r.from(0, last)].clone());
        }
    }
    match r.from(0, 3) {
        0 => rows.sort(),
        1 => rows.sort_by(|one, other| other.cmp(one)),
        _ => r.shuffle(&mut rows),
    }
    Table { fields: pool.fields.clone(), rows }
}

/// One book has no tables, or neither has.
fn without_tables(r: &mut Random) -> Books {
    let (mut first, mut second) = if r.one_in(3) { many_fields(r) } else { few(r) };
    let which = r.from(0, 2);
    if which != 1 {
        first.tables.clear();
    }
    if which != 0 {
        second.tables.clear();
    }
    (first, second)
}

/// One is the result of joining the other with a third, or both are results.
fn joined_already(r: &mut Random) -> Books {
    let (first, third) = if r.one_in(4) { many_fields(r) } else { few(r) };
    let result = joined(&first, &third);
    match r.from(0, 3) {
        0 => (result, first),
        1 => (third, result),
        2 => (result.clone(), result),
        _ => (result.clone(), joined(&result, &altered(r, &first))),
    }
}

/// The first is as a result would be but for its version, and the second the same, or it with something else.
fn written_in_order(r: &mut Random) -> Books {
    let (first, third) = few(r);
    let result = joined(&first, &third);
    if r.one_in(2) {
        return (result.clone(), result);
    }
    (result.clone(), altered(r, &result))
}

/// So many different lists of one to four fields, in any order.
fn different_sets(r: &mut Random, fields: usize, how_many: usize) -> Vec<Vec<u8>> {
    let mut sets = BTreeSet::new();
    while sets.len() < how_many {
        let arity = r.one_of(&[1, 2, 2, 3, 3, 4]);
        sets.insert(fields_of(r, fields, arity));
    }
    let mut sets: Vec<Vec<u8>> = sets.into_iter().collect();
    r.shuffle(&mut sets);
    sets
}

/// How many of them the first book has, where neither may have more than the most: as few as it may, as many as it may, or any number.
fn share(r: &mut Random, of: usize, most: usize) -> usize {
    let (fewest, most) = (of.saturating_sub(most), of.min(most));
    let any = r.from(fewest, most);
    r.one_of(&[fewest, most, any, any])
}

/// About as many lists of fields as a book may have tables, or far more, of which each book has no more than it may. The rest of either
/// book's tables are on lists that it or the other has.
fn of_sets(r: &mut Random) -> Books {
    let most = 2 * MOST_TABLES;
    let how_many = [MOST_TABLES - 1, MOST_TABLES, MOST_TABLES, MOST_TABLES + 1, MOST_TABLES + 1, r.from(66, most - 1), most];
    let how_many = r.one_of(&how_many);
    let fields = r.one_of(&[8, 9, 16, 33, 60]);
    let counts: Vec<u8> = (0..fields).map(|_| r.from(1, 4) as u8).collect();
    let sets = different_sets(r, fields, how_many);
    let own = share(r, how_many, MOST_TABLES);
    let (first, second) = sets.split_at(own);
    (filled(r, &counts, first, second), filled(r, &counts, second, first))
}

/// Tables on its own lists, and in most books more on these or the others, as far as a book may have them.
fn filled(r: &mut Random, counts: &[u8], own: &[Vec<u8>], others: &[Vec<u8>]) -> Book {
    let room = MOST_TABLES - own.len();
    let (all, more) = ([own, others].concat(), [0, room.min(3), room][r.from(0, 2)]);
    let mut fields = own.to_vec();
    fields.extend((0..more).map(|_| all[r.from(0, all.len() - 1)].clone()));
    r.shuffle(&mut fields);
    let few = |r: &mut Random, fields: Vec<u8>| {
        let rows = (0..r.from(0, 3)).map(|_| row_of(r, counts, &fields)).collect();
        Table { fields, rows }
    };
    Book::new(counts.to_vec(), fields.into_iter().map(|fields| few(r, fields)).collect())
}

/// So many different rows of this many codes from 0 to 31, in no order: an odd step leads to each number once.
fn different_rows(r: &mut Random, columns: usize, how_many: usize) -> Vec<Vec<u8>> {
    let (start, step) = (r.from(0, 32_767), 2 * r.from(0, 16_383) + 1);
    let digits = |number: usize| (0..columns).map(|k| (number >> (5 * k) & 31) as u8).collect();
    (0..how_many).map(|i| digits(start + i * step)).collect()
}

/// Six fields of 32 codes, and about as many rows in the result as a book may have, or far more.
fn of_rows(r: &mut Random) -> Books {
    let far = r.from(MOST_ROWS + 2, 2 * MOST_ROWS - 1);
    let rows = r.one_of(&[MOST_ROWS - 1, MOST_ROWS, MOST_ROWS, MOST_ROWS + 1, MOST_ROWS + 1, far, 2 * MOST_ROWS]);
    let books = if rows <= MOST_ROWS && r.one_in(2) { rows_in_both(r, rows) } else { rows_in_either(r, rows) };
    if r.one_in(2) {
        return (books.1, books.0);
    }
    books
}

fn of_32_codes(tables: Vec<Table>) -> Book {
    Book::new(vec![32; 6], tables)
}

/// So many rows in the result, some from either book. In half of the pairs the second book has the first's table too, with all of its rows
/// and some of them again, as far as it has room.
fn rows_in_either(r: &mut Random, rows: usize) -> Books {
    let own = share(r, rows, MOST_ROWS);
    let mut table = |fields: &[u8], rows: usize| Table { fields: fields.to_vec(), rows: different_rows(r, fields.len(), rows) };
    let (first, second) = (table(&[0, 2, 4], own), table(&[1, 2, 3, 5], rows - own));
    let (mut tables, room) = (vec![second], MOST_ROWS - (rows - own));
    if (1..=room).contains(&own) && r.one_in(2) {
        let again = first.rows.iter().cycle().take(r.from(own, room)).cloned().collect();
        tables.push(Table { fields: first.fields.clone(), rows: again });
    }
    (of_32_codes(vec![first]), of_32_codes(tables))
}

/// So many rows in a table that both books have; the one has others too, or some of them again.
fn rows_in_both(r: &mut Random, rows: usize) -> Books {
    let columns = r.from(3, 4);
    let all = different_rows(r, columns, MOST_ROWS);
    let fields = fields_of(r, 6, columns);
    let mut repeated: Vec<Vec<u8>> = all[..rows].iter().cycle().take(MOST_ROWS).cloned().collect();
    r.shuffle(&mut repeated);
    let wider = if r.one_in(2) { all.clone() } else { repeated };
    let table = |rows: Vec<Vec<u8>>| of_32_codes(vec![Table { fields: fields.clone(), rows }]);
    (table(wider), table(all[..rows].to_vec()))
}

/// 64 tables of 64 rows on four of sixty fields: some in either book, or all in both.
fn longest(r: &mut Random) -> Books {
    let mut sets = BTreeSet::new();
    while sets.len() < MOST_TABLES {
        sets.insert(fields_of(r, 60, 4));
    }
    let tables = sets.into_iter().map(|fields| Table { fields, rows: different_rows(r, 4, 64) });
    let mut tables: Vec<Table> = tables.collect();
    r.shuffle(&mut tables);
    let own = r.one_of(&[0, 1, 32, 63, 64]);
    let of = |tables: &[Table]| Book::new(vec![32; 60], tables.to_vec());
    if r.one_in(3) {
        return (of(&tables), of(&tables));
    }
    (of(&tables[..own]), of(&tables[own..]))
}

#[cfg(test)]
mod tests {
    use super::{different_rows, longest, of_rows, of_sets, pair};
    use crate::joining::joined;
    use crate::random::Random;
    use crate::reader::Reader;
    use std::collections::HashSet;

    #[test]
    fn rows_are_different() {
        for columns in [3, 4] {
            let rows = different_rows(&mut Random(columns as u64), columns, 8_192);
            assert_eq!(rows.into_iter().collect::<HashSet<_>>().len(), 8_192);
        }
    }

    /// Each book at a limit is accepted by itself, and the result has as many tables and rows as were meant.
    #[test]
    fn pairs_at_limits() {
        let (reader, mut r) = (Reader::default(), Random(1));
        let (mut sets, mut rows) = (HashSet::new(), HashSet::new());
        for _ in 0..100 {
            for (first, second) in [of_sets(&mut r), of_rows(&mut r)] {
                assert_eq!(reader.read(&first.write()), Ok(first.clone()));
                assert_eq!(reader.read(&second.write()), Ok(second.clone()));
                let joined = joined(&first, &second);
                sets.insert(joined.tables.len());
                rows.insert(joined.rows());
            }
        }
        assert!([63, 64, 65, 128].iter().all(|number| sets.contains(number)), "{sets:?}");
        assert!([4_095, 4_096, 4_097, 8_192].iter().all(|number| rows.contains(number)), "{rows:?}");
        let (first, second) = longest(&mut r);
        assert_eq!(joined(&first, &second).write().len(), 16_898);
    }

    #[test]
    fn most_first_books_are_accepted() {
        let (reader, mut r) = (Reader::default(), Random(1));
        let accepted = (0..500).filter(|_| reader.read(&pair(&mut r).bytes).is_ok()).count();
        assert!((400..490).contains(&accepted), "{accepted}");
    }
}
