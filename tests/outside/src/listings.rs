//! Seeded listings: a book's own, or one with a flaw.

use crate::book::field_limit;
use crate::listing::{Fault, ListedTable, Listing};
use crate::random::Random;

/// A way to make a listing from a book's.
#[derive(Clone, Copy)]
pub struct Way {
    pub name: &'static str,
    /// Why it is refused, in some case at least; `ACCEPTED` where it is not.
    pub why: &'static str,
    made: fn(&mut Random, Listing) -> Vec<u16>,
}

const ACCEPTED: &str = "accepted";

const fn way(name: &'static str, why: &'static str, made: fn(&mut Random, Listing) -> Vec<u16>) -> Way {
    Way { name, why, made }
}

pub const WHOLE: Way = way("a book's own", ACCEPTED, |_, listing| listing.numbers());

/// Flaws of single numbers, then limits and what is beyond them.
pub const FLAWS: [Way; 36] = [
    way("no numbers", "missing", |_, _| Vec::new()),
    way("only the first numbers", "missing", first_numbers),
    way("the version missing, as before M-103", "missing", |_, listing| but_for(listing, 1)),
    way("the number before the version missing", "missing", |_, listing| but_for(listing, 2)),
    way("a number missing", "missing", one_missing),
    way("a number left over", "left over", |r, listing| [listing.numbers(), vec![[0, 1, 256, 65_535][r.from(0, 3)]]].concat()),
    way("a listing left over", "left over", |_, listing| listing.numbers().repeat(2)),
    way("a number put in between", "left over", put_in_between),
    way("the version twice", "left over", |_, listing| [listing.numbers(), vec![listing.version]].concat()),
    way("the version first", "left over", version_first),
    way("the version before the tables", "left over", version_before_tables),
    way("256 for a number", "too large", |r, listing| exchanged(r, listing, |_, _| 256)),
    way("65,535 for a number", "too large", |r, listing| exchanged(r, listing, |_, _| 65_535)),
    way("256 more than a number", "too large", |r, listing| exchanged(r, listing, |_, number| number + 256)),
    way("another number", "reading's 11", |r, listing| exchanged(r, listing, |r, _| r.from(0, 70) as u16)),
    way("the other version", ACCEPTED, |_, listing| of_version(&listing, 1 + listing.version % 2)),
    way("a version that there is not", "reading's 3", |r, listing| of_version(&listing, r.one_of(&[0, 3, 129, 130, 255]))),
    way("256 more than a version", "too large", |r, listing| of_version(&listing, r.one_of(&[256, 257, 258, 65_281]))),
    way("no fields", "reading's 4", |_, listing| of_fields(listing, 0)),
    way("as many fields as the version allows", ACCEPTED, |_, listing| at_limit(listing, 0)),
    way("one field more than the version allows", "reading's 4", |_, listing| at_limit(listing, 1)),
    way("as many fields as version 2 allows", "reading's 4", |_, listing| of_fields(listing, field_limit(2))),
    way("more fields than any version allows", "reading's 4", |r, listing| {
        of_fields(listing, r.one_of(&[64, 255, 256, 257, 316]))
    }),
    way("no codes or more than 32", "reading's 7", spoilt_count),
    way("more than 64 tables", "reading's 5", |r, listing| of_tables(listing, [65, 255, 256, 257, 320][r.from(0, 4)])),
    way("a table of no fields", "reading's 9", |r, listing| in_table(r, listing, |_, table, _| widen(table, 0))),
    way("a table of more than four fields", "reading's 9", |r, listing| in_table(r, listing, too_wide)),
    way("a field that does not rise", "reading's 10", |r, listing| in_table(r, listing, not_rising)),
    way("a field that the book lacks", "reading's 10", |r, listing| in_table(r, listing, lacking_field)),
    way("a code that its field lacks", "reading's 11", |r, listing| in_table(r, listing, lacking_code)),
    way("4,096 rows", ACCEPTED, |r, listing| of_rows(r, listing, 4_096)),
    way("4,097 rows", "reading's 12", |r, listing| of_rows(r, listing, 4_097)),
    way("more rows said", "missing", |r, listing| in_table(r, listing, |r, table, _| table.rows += 1 << r.from(0, 14))),
    way("fewer rows said", "left over", |r, listing| in_table(r, listing, fewer_rows)),
    way("random numbers", "missing", |r, _| (0..r.from(1, 12)).map(|_| r.from(0, 4) as u16).collect()),
    way("random numbers of 16 bits", "missing", |r, _| (0..r.from(1, 12)).map(|_| r.word() as u16).collect()),
];

/// Long listings: each version's longest, at the lengths where 1 begins and where the place of the field list leaves its two bytes, and far
/// behind them.
pub const LONG: [Way; 12] = [
    way("16,803 numbers of version 1", ACCEPTED, |_, _| longest(1)),
    way("16,831 numbers of version 2", ACCEPTED, |_, _| longest(2)),
    way("32,768 bytes", "reading's 12", |_, listing| of_bytes(listing, 32_768)),
    way("32,769 bytes", "reading's 1", |_, listing| of_bytes(listing, 32_769)),
    way("the field list at 65,535", "reading's 1", |_, listing| list_at(listing, 65_535)),
    way("the field list at 65,536", "too large", |_, listing| list_at(listing, 65_536)),
    way("a good book behind 65,536 bytes", "too large", |_, listing| behind_65536_bytes(listing)),
    way("65,536 numbers left over", "left over", |_, listing| [listing.numbers(), vec![0; 65_536]].concat()),
    way("65,535 fields", "too large", |_, listing| of_fields(listing, 65_535)),
    way("65,535 tables of no fields", "too large", |_, listing| {
        Listing { tables: vec![table_of(0, 0); 65_535], ..listing }.numbers()
    }),
    way("262,140 codes", "too large", |_, listing| Listing { tables: vec![table_of(4, 65_535)], ..listing }.numbers()),
    way("100,000 random numbers", "left over", |r, _| (0..100_000).map(|_| r.from(0, 4) as u16).collect()),
];

/// All ways.
pub fn ways() -> impl Iterator<Item = Way> {
    [WHOLE].into_iter().chain(FLAWS).chain(LONG)
}

/// A listing made from a book's, and the name of the way.
pub fn some_listing(r: &mut Random, listing: Listing) -> (&'static str, Vec<u16>) {
    let way = match r.from(0, 149) {
        0 => LONG[r.from(0, LONG.len() - 1)],
        1..=89 => FLAWS[r.from(0, FLAWS.len() - 1)],
        _ => WHOLE,
    };
    (way.name, (way.made)(r, listing))
}

/// The same for the writer of tree books, in half of the cases the book's own, so that what is laid out is looked at.
pub fn some_for_trees(r: &mut Random, listing: Listing) -> (&'static str, Vec<u16>) {
    if r.one_in(2) {
        return (WHOLE.name, listing.numbers());
    }
    some_listing(r, listing)
}

/// The reasons for 20, by name. Bytes laid out from a listing agree with themselves: reading has no 2, 6, 8 and 13 for them.
pub const REASONS: [&str; 12] = [
    "missing",
    "left over",
    "too large",
    "reading's 1",
    "reading's 3",
    "reading's 4",
    "reading's 5",
    "reading's 7",
    "reading's 9",
    "reading's 10",
    "reading's 11",
    "reading's 12",
];

pub fn reason(fault: Fault) -> String {
    match fault {
        Fault::Missing => "missing".to_string(),
        Fault::LeftOver => "left over".to_string(),
        Fault::TooLarge => "too large".to_string(),
        Fault::Refused(refusal) => format!("reading's {}", refusal.number),
    }
}

/// A table on the first fields, with this many rows of zeros.
fn table_of(arity: u16, rows: u16) -> ListedTable {
    ListedTable { fields: (0..arity).collect(), rows, codes: vec![0; arity as usize * rows as usize] }
}

fn first_numbers(r: &mut Random, listing: Listing) -> Vec<u16> {
    let mut numbers = listing.numbers();
    numbers.truncate(r.from(0, numbers.len() - 1));
    numbers
}

/// Without the number that stands there when they are counted from the last.
fn but_for(listing: Listing, from_end: usize) -> Vec<u16> {
    let mut numbers = listing.numbers();
    numbers.remove(numbers.len() - from_end);
    numbers
}

fn version_first(_: &mut Random, listing: Listing) -> Vec<u16> {
    let mut numbers = listing.numbers();
    numbers.rotate_right(1);
    numbers
}

fn version_before_tables(_: &mut Random, listing: Listing) -> Vec<u16> {
    let mut numbers = listing.numbers();
    numbers[listing.counts.len() + 1..].rotate_right(1);
    numbers
}

fn of_version(listing: &Listing, version: u16) -> Vec<u16> {
    Listing { version, ..listing.clone() }.numbers()
}

fn one_missing(r: &mut Random, listing: Listing) -> Vec<u16> {
    let mut numbers = listing.numbers();
    numbers.remove(r.from(0, numbers.len() - 1));
    numbers
}

fn put_in_between(r: &mut Random, listing: Listing) -> Vec<u16> {
    let mut numbers = listing.numbers();
    numbers.insert(r.from(0, numbers.len() - 1), [0, 1, 2, 256][r.from(0, 3)]);
    numbers
}

fn exchanged(r: &mut Random, listing: Listing, other: fn(&mut Random, u16) -> u16) -> Vec<u16> {
    let mut numbers = listing.numbers();
    let place = r.from(0, numbers.len() - 1);
    numbers[place] = other(r, numbers[place]);
    numbers
}

fn of_fields(mut listing: Listing, fields: usize) -> Vec<u16> {
    listing.counts.resize(fields, 1);
    listing.numbers()
}

/// So many fields more than the listing's version allows.
fn at_limit(listing: Listing, more: usize) -> Vec<u16> {
    let most = field_limit(listing.version as u8);
    of_fields(listing, most + more)
}

fn spoilt_count(r: &mut Random, mut listing: Listing) -> Vec<u16> {
    let field = r.from(0, listing.counts.len() - 1);
    listing.counts[field] = [0, 33, 64, 255][r.from(0, 3)];
    listing.numbers()
}

fn of_tables(mut listing: Listing, tables: usize) -> Vec<u16> {
    listing.tables.resize(tables, table_of(1, 0));
    listing.numbers()
}

/// Changes some table. There is one, and it has rows.
fn in_table(r: &mut Random, mut listing: Listing, change: fn(&mut Random, &mut ListedTable, &[u16])) -> Vec<u16> {
    if listing.tables.is_empty() {
        listing.tables.push(table_of(1, 1));
    }
    let place = r.from(0, listing.tables.len() - 1);
    let table = &mut listing.tables[place];
    if table.rows == 0 {
        table.rows = 1;
        table.codes = vec![0; table.fields.len()];
    }
    change(r, table, &listing.counts);
    listing.numbers()
}

/// The table on the first fields, with a few rows of zeros in the place of its own.
fn widen(table: &mut ListedTable, arity: u16) {
    *table = table_of(arity, table.rows.min(40));
}

fn too_wide(r: &mut Random, table: &mut ListedTable, _: &[u16]) {
    widen(table, [5, 6, 255, 256, 257][r.from(0, 4)]);
}

/// A field that is not above the one before it.
fn not_rising(r: &mut Random, table: &mut ListedTable, counts: &[u16]) {
    if table.fields.len() == 1 {
        *table = ListedTable { fields: vec![r.from(0, counts.len() - 1) as u16; 2], ..table_of(2, table.rows) };
    }
    let place = r.from(1, table.fields.len() - 1);
    let before = table.fields[place - 1];
    table.fields[place] = if r.one_in(2) { before } else { r.from(0, before as usize) as u16 };
}

fn lacking_field(r: &mut Random, table: &mut ListedTable, counts: &[u16]) {
    let (place, fields) = (r.from(0, table.fields.len() - 1), counts.len());
    let field = table.fields[place];
    table.fields[place] = [fields as u16, r.from(fields, 255) as u16, field + 256][r.from(0, 2)];
}

fn lacking_code(r: &mut Random, table: &mut ListedTable, counts: &[u16]) {
    let place = r.from(0, table.codes.len() - 1);
    let count = counts[table.fields[place % table.fields.len()] as usize];
    let code = table.codes[place];
    table.codes[place] = [count, r.from(count as usize, 255) as u16, code + 256][r.from(0, 2)];
}

fn fewer_rows(r: &mut Random, table: &mut ListedTable, _: &[u16]) {
    table.rows = r.from(0, table.rows as usize - 1) as u16;
}

/// More rows of zeros or fewer rows in some table, so that all tables together have this many.
fn of_rows(r: &mut Random, mut listing: Listing, rows: usize) -> Vec<u16> {
    if listing.tables.is_empty() {
        listing.tables.push(table_of(1, 0));
    }
    let place = r.from(0, listing.tables.len() - 1);
    let all: usize = listing.tables.iter().map(|table| table.rows as usize).sum();
    let table = &mut listing.tables[place];
    let own = rows.saturating_sub(all - table.rows as usize);
    table.rows = own as u16;
    table.codes.resize(own * table.fields.len(), 0);
    listing.numbers()
}

/// As many fields, codes, tables, columns and rows as the version allows, and on the last fields the last codes.
fn longest(version: u8) -> Vec<u16> {
    let fields = field_limit(version);
    let last = (fields as u16 - 4..fields as u16).collect();
    let table = ListedTable { fields: last, rows: 64, codes: vec![31; 4 * 64] };
    Listing { counts: vec![32; fields], tables: vec![table; 64], version: version as u16 }.numbers()
}

/// The last table has one field and as many rows as give the book this length.
fn of_bytes(mut listing: Listing, length: usize) -> Vec<u16> {
    listing.tables.pop();
    listing.tables.push(table_of(1, 0));
    let without = listing.lay_out().expect("the numbers of a book have room in their bytes").len();
    *listing.tables.last_mut().expect("there is one") = table_of(1, (length - without) as u16);
    listing.numbers()
}

fn list_at(listing: Listing, place: usize) -> Vec<u16> {
    let behind = listing.counts.len() + 6;
    of_bytes(listing, place + behind)
}

/// Two tables, of which the last eight codes lie behind 65,536 bytes and look like two tables without rows, and then the book's own: a
/// good book, if the bytes are laid out from 0 again there.
fn behind_65536_bytes(mut listing: Listing) -> Vec<u16> {
    let (first, mut second) = (table_of(1, 32_768), table_of(1, 32_768));
    second.codes.splice(32_760.., [1, 0, 0, 0, 1, 0, 0, 0]);
    listing.tables.truncate(62);
    listing.tables.splice(..0, [first, second]);
    listing.numbers()
}

#[cfg(test)]
mod tests {
    use super::{reason, ways, ACCEPTED};
    use crate::book::{Book, Table};
    use crate::listing::{book_bytes, Listing};
    use crate::random::Random;
    use crate::reader::Reader;

    /// A flaw is made at random, and in few listings it is none: in two hundred tries each is refused for its reason.
    #[test]
    fn each_way_has_its_reason() {
        let table = |fields: [u8; 2]| Table { fields: fields.to_vec(), rows: vec![vec![0, 0], vec![1, 1]] };
        let listing = Listing::of(&Book::new(vec![2; 3], vec![table([0, 1]), table([1, 2])]));
        let (reader, mut r) = (Reader::default(), Random(1));
        for way in ways() {
            let mut why = || {
                let numbers = (way.made)(&mut r, listing.clone());
                book_bytes(&reader, &numbers).map_or_else(reason, |_| ACCEPTED.to_string())
            };
            assert!((0..200).any(|_| why() == way.why), "{}", way.name);
        }
    }
}
