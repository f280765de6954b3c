//! Seeded books for the profile of tree books: forests of paths, stars and other trees; rings of two fields and more, up to all sixty, with
//! what hangs on them; tables of one field and tables without rows among them; and tables of more than two fields before and behind a ring.
//! And small ones, mostly trees, for what their lines mean.

use crate::book::{field_limit, Book, Table};
use crate::near;
use crate::pairs::{MOST_ROWS, MOST_TABLES};
use crate::random::{allow_a_reading, fields_of, in_some_version, row_of, Random};

pub fn book(r: &mut Random) -> Book {
    let book = if r.one_in(120) { every_row(r) } else { of_some_links(r) };
    in_some_version(r, book)
}

/// Few fields and codes, so that all readings can be looked at: mostly a tree, some of whose readings are full. Six fields of four codes have
/// as many readings as are looked at.
pub fn with_readings(r: &mut Random) -> Book {
    let counts: Vec<u8> = (0..r.from(2, 6)).map(|_| r.from(2, 4) as u8).collect();
    let order = some_order(r, counts.len());
    let links = if r.one_in(4) { some_links(r, counts.len()) } else { forest(r, &order) };
    let readings = near::some_readings(r, &counts);
    let mut tables: Vec<Table> = links.iter().map(|link| near::holding_rows(r, &counts, &readings, link.to_vec())).collect();
    if r.one_in(3) {
        let field = r.from(0, counts.len() - 1) as u8;
        tables.push(near::holding_rows(r, &counts, &readings, vec![field]));
    }
    if r.one_in(8) {
        put_between(r, &counts, &mut tables, 1);
    }
    if r.one_in(12) {
        let arity = r.from(2, counts.len().min(4));
        let fields = fields_of(r, counts.len(), arity);
        tables.push(near::holding_rows(r, &counts, &readings, fields));
    }
    in_some_order(r, &mut tables);
    in_some_version(r, Book::new(counts, tables))
}

/// A path of four links, each with every row that its two fields of 32 codes have, in any order: as many different rows as a book may have.
fn every_row(r: &mut Random) -> Book {
    let all: Vec<Vec<u8>> = (0..32).flat_map(|one| (0..32).map(move |other| vec![one, other])).collect();
    let tables = (0..4).map(|field| {
        let mut rows = all.clone();
        r.shuffle(&mut rows);
        Table { fields: vec![field, field + 1], rows }
    });
    let mut tables: Vec<Table> = tables.collect();
    r.shuffle(&mut tables);
    Book::new(vec![32; 5], tables)
}

fn of_some_links(r: &mut Random) -> Book {
    let fields = number(r);
    let codes = r.one_of(&[2, 3, 4, 32]);
    let counts: Vec<u8> = (0..fields).map(|_| r.from(1, codes) as u8).collect();
    let links = some_links(r, fields);
    let mut tables: Vec<Table> = links.iter().map(|link| with_rows(r, &counts, link)).collect();
    add(r, &counts, &mut tables);
    tables.truncate(MOST_TABLES);
    let mut book = Book::new(counts, tables);
    if r.one_in(20) {
        lengthen(r, &mut book);
    }
    if r.one_in(2) {
        allow_a_reading(r, &mut book);
    }
    book
}

/// Few fields, as many as either version allows, or any number.
fn number(r: &mut Random) -> usize {
    let most = field_limit(2);
    match r.from(0, 15) {
        0 => r.from(1, 2),
        1..=8 => r.from(2, 9),
        9 => field_limit(1),
        10..=11 => r.from(10, most),
        12 => most - 1,
        _ => most,
    }
}

/// All fields, rising or in any order.
fn some_order(r: &mut Random, fields: usize) -> Vec<u8> {
    let mut order: Vec<u8> = (0..fields as u8).collect();
    if !r.one_in(4) {
        r.shuffle(&mut order);
    }
    order
}

/// The links of a forest, of one with links that may close rings, or of a ring with what hangs on it; in some order.
fn some_links(r: &mut Random, fields: usize) -> Vec<[u8; 2]> {
    let order = some_order(r, fields);
    match r.from(0, 9) {
        _ if fields < 2 => Vec::new(),
        0..=3 => forest(r, &order),
        4..=6 => {
            let mut links = forest(r, &order);
            (0..r.one_of(&[1, 1, 1, 2, 3])).for_each(|_| close(r, &order, &mut links));
            links
        }
        _ => ring(r, &order),
    }
}

fn link(one: u8, other: u8) -> [u8; 2] {
    [one.min(other), one.max(other)]
}

/// A path, a star, a tree in which each field has two behind it, or any tree; whole, or with some of its links left out.
fn forest(r: &mut Random, order: &[u8]) -> Vec<[u8; 2]> {
    let way = r.from(0, 4);
    let before = |r: &mut Random, k: usize| match way {
        0..=1 => k - 1,
        2 => 0,
        3 => (k - 1) / 2,
        _ => r.from(0, k - 1),
    };
    let mut links: Vec<[u8; 2]> = (1..order.len()).map(|k| link(order[k], order[before(r, k)])).collect();
    let percent = r.one_of(&[0, 0, 8, 33]);
    links.retain(|_| r.from(0, 99) >= percent);
    in_some_order(r, &mut links);
    links
}

fn in_some_order<T>(r: &mut Random, elements: &mut [T]) {
    match r.from(0, 5) {
        0 => {}
        1 => elements.reverse(),
        _ => r.shuffle(elements),
    }
}

/// One link more: on the fields of another, on the first and the last field, or on any; mostly behind all others.
fn close(r: &mut Random, order: &[u8], links: &mut Vec<[u8; 2]>) {
    let any = fields_of(r, order.len(), 2);
    let more = match r.from(0, 5) {
        0..=1 if !links.is_empty() => links[r.from(0, links.len() - 1)],
        2 => link(order[0], order[order.len() - 1]),
        _ => link(any[0], any[1]),
    };
    let place = if r.one_in(2) { links.len() } else { r.from(0, links.len()) };
    links.insert(place, more);
}

/// A ring of some of the fields, the last of its links often behind all others, and the other fields on it, each linked to one before it.
fn ring(r: &mut Random, order: &[u8]) -> Vec<[u8; 2]> {
    let most = order.len();
    let any = r.from(2, most);
    let length = r.one_of(&[2, 2, 3, 4, any, any, most - 1, most, most, most]).clamp(2, most);
    let mut links: Vec<[u8; 2]> = (0..length).map(|k| link(order[k], order[(k + 1) % length])).collect();
    let last = if r.one_in(2) { links.pop() } else { None };
    if r.one_in(2) {
        links.extend((length..most).map(|k| link(order[k], order[r.from(0, k - 1)])));
    }
    in_some_order(r, &mut links);
    links.extend(last);
    links
}

/// A table with no rows, with few, or with some that come again.
fn with_rows(r: &mut Random, counts: &[u8], fields: &[u8]) -> Table {
    let rows = r.one_of(&[0, 1, 2, 3, 5]);
    let mut rows: Vec<Vec<u8>> = (0..rows).map(|_| row_of(r, counts, fields)).collect();
    if r.one_in(4) {
        rows.extend_from_within(..rows.len() / 2);
    }
    Table { fields: fields.to_vec(), rows }
}

/// In half of the books tables of one field among the others, in some as many as there may be, and in a quarter tables of three or four
/// fields.
fn add(r: &mut Random, counts: &[u8], tables: &mut Vec<Table>) {
    let room = MOST_TABLES.saturating_sub(tables.len());
    let narrow = if r.one_in(2) { r.one_of(&[1, 2, 4, room]).min(room) } else { 0 };
    (0..narrow).for_each(|_| put_between(r, counts, tables, 1));
    if counts.len() > 2 && r.one_in(4) {
        for _ in 0..r.one_of(&[1, 1, 2]) {
            let arity = r.from(3, counts.len().min(4));
            put_between(r, counts, tables, arity);
        }
    }
}

/// A table on so many fields, before all others, behind them or in between.
fn put_between(r: &mut Random, counts: &[u8], tables: &mut Vec<Table>, arity: usize) {
    let fields = fields_of(r, counts.len(), arity);
    let place = match r.from(0, 3) {
        0 => 0,
        1 => tables.len(),
        _ => r.from(0, tables.len()),
    };
    tables.insert(place, with_rows(r, counts, &fields));
}

/// One table has far more rows, up to as many as all may have, so that those behind it begin far from the front.
fn lengthen(r: &mut Random, book: &mut Book) {
    let room = MOST_ROWS - book.rows();
    let rows = r.one_of(&[200, 1_000, room]).min(room);
    if let Some(last) = book.tables.len().checked_sub(1) {
        let table = r.from(0, last);
        let fields = book.tables[table].fields.clone();
        let more: Vec<Vec<u8>> = (0..rows).map(|_| row_of(r, &book.counts, &fields)).collect();
        book.tables[table].rows.extend(more);
    }
}

#[cfg(test)]
mod tests {
    use super::{book, with_readings};
    use crate::meaning::is_looked_at;
    use crate::nearest::full_readings;
    use crate::random::Random;
    use crate::reader::Reader;
    use crate::trees::Trees;

    /// Each book is read as any book; for the profile some are accepted and some refused by either number.
    #[test]
    fn each_book_is_accepted_by_reading() {
        let (reader, mut r) = (Reader::default(), Random(1));
        let mut times = [0; 3];
        for _ in 0..1_000 {
            let book = book(&mut r);
            assert_eq!(reader.read(&book.write()), Ok(book.clone()));
            times[Trees::default().broken(&book).map_or(0, |(number, _)| number as usize - 27)] += 1;
        }
        assert!(times.iter().all(|&times| times > 150), "{times:?}");
    }

    /// Each small book is read and its readings are looked at; most are trees with several full readings, and some break the profile.
    #[test]
    fn small_books_are_mostly_trees_with_readings() {
        let (reader, mut r) = (Reader::default(), Random(1));
        let (mut shares, mut with_several) = ([0; 3], 0);
        for _ in 0..1_000 {
            let book = with_readings(&mut r);
            assert_eq!(reader.read(&book.write()), Ok(book.clone()));
            assert!(is_looked_at(&book));
            shares[Trees::default().broken(&book).map_or(0, |(number, _)| number as usize - 27)] += 1;
            with_several += (full_readings(&book).take(2).count() == 2) as usize;
        }
        assert!(shares[0] > 700 && shares[1] > 20 && shares[2] > 50 && with_several > 700, "{shares:?} {with_several}");
    }
}
