//! What calls of tree books show of document 02's M-111: which links form no ring, how a ring is closed and where, which tables tie too many
//! fields, which refusal comes before which, and the bytes lent.

use crate::book::{field_limit, Table};
use crate::pairs::MOST_TABLES;
use crate::tree_asked::{closes_again, Asked};
use crate::trees::{has_ring, is_wide, links};

/// A shape: its name, how often either call has to reach it in a run of 52,500 cases, and what has it.
type Shape = (&'static str, u64, fn(&Asked) -> bool);

fn is_empty(table: &Table) -> bool {
    table.rows.is_empty()
}

fn is_narrow(table: &Table) -> bool {
    table.fields.len() == 1
}

fn is_link(table: &Table) -> bool {
    table.fields.len() == 2
}

const TREES: &[Shape] = &[
    ("a tree book of version 1", 2_800, |asked| asked.is_tree(|book| book.version == 1)),
    ("a tree book of version 2", 2_400, |asked| asked.is_tree(|book| book.version == 2)),
    ("a tree book of 60 fields", 520, |asked| asked.is_tree(|book| book.counts.len() == field_limit(2))),
    ("no tables", 890, |asked| asked.is_tree(|book| book.tables.is_empty())),
    ("only tables of one field", 1_800, |asked| {
        asked.is_tree(|book| !book.tables.is_empty() && book.tables.iter().all(is_narrow))
    }),
    ("several tables on the same field", 1_200, |asked| {
        asked.is_tree(|book| (0..60).any(|field| book.tables.iter().filter(|table| table.fields == [field]).count() > 1))
    }),
    ("one link", 1_200, |asked| asked.has_links(|links| links.len() == 1)),
    ("two links", 440, |asked| asked.has_links(|links| links.len() == 2)),
    ("10 to 58 links", 82, |asked| asked.has_links(|links| (10..=58).contains(&links.len()))),
    ("59 links", 22, |asked| asked.has_links(|links| links.len() == 59)),
    ("one path of 60 fields", 9, |asked| asked.is_path_of(60)),
    ("a field with three links or more", 220, |asked| asked.has_field_of(3..=59)),
    ("a field with 59 links", 4, |asked| asked.has_field_of(59..=59)),
    ("fewer links than would tie all fields", 700, |asked| {
        asked.is_tree(|book| (3..book.counts.len() - 1).contains(&links(&book.tables).len()))
    }),
    ("a link without rows", 270, |asked| asked.is_tree(|book| book.tables.iter().any(|t| is_link(t) && is_empty(t)))),
    ("only tables without rows", 120, |asked| asked.is_tree(|book| !book.tables.is_empty() && book.tables.iter().all(is_empty))),
    ("tables of one field among links", 260, |asked| {
        asked.is_tree(|book| book.tables.windows(3).any(|of| is_link(&of[0]) && is_narrow(&of[1]) && is_link(&of[2])))
    }),
    ("64 tables of a tree book", 91, |asked| asked.is_tree(|book| book.tables.len() == MOST_TABLES)),
    ("more than 1,000 rows", 94, |asked| asked.is_tree(|book| book.rows() > 1_000)),
    ("4,096 rows of a tree book", 66, |asked| asked.is_tree(|book| book.rows() == 4_096)),
    ("4,096 different rows of a tree book", 6, |asked| asked.is_tree(|book| book.different_rows() == 4_096)),
];

const WIDE: &[Shape] = &[
    ("28 for three fields", 3_500, |asked| asked.is_28_for(3)),
    ("28 for four fields", 2_500, |asked| asked.is_28_for(4)),
    ("28 for the first table", 2_500, |asked| asked.is_28(|book, table| table == 0 && book.tables.len() > 1)),
    ("28 for the last table", 660, |asked| asked.is_28(|book, table| table > 0 && table + 1 == book.tables.len())),
    ("28 for the only table", 1_100, |asked| asked.is_28(|book, _| book.tables.len() == 1)),
    ("28 for a table without rows", 350, |asked| asked.is_28(|book, table| is_empty(&book.tables[table]))),
    ("28 for the first of two", 3_100, |asked| asked.is_28(|book, table| book.tables[table + 1..].iter().any(is_wide))),
    ("28 for three fields before four", 900, |asked| {
        asked
            .is_28(|book, table| book.tables[table].fields.len() == 3 && book.tables[table..].iter().any(|t| t.fields.len() == 4))
    }),
    ("28 behind a ring", 120, |asked| asked.is_28(|book, table| has_ring(&book.tables[..table]))),
    ("28 before a ring", 520, |asked| asked.is_28(|book, table| has_ring(&book.tables[table..]))),
    ("28 without a ring", 5_200, |asked| asked.is_28(|book, _| !has_ring(&book.tables))),
    ("28 for version 2", 2_700, |asked| asked.is_28(|book, _| book.version == 2)),
    ("28 for the 33rd table or a later one", 66, |asked| asked.is_28(|_, table| table >= 32)),
];

const RINGS: &[Shape] = &[
    ("29 for a ring of 2 fields", 1_000, |asked| asked.is_ring_of(2..=2)),
    ("29 for a ring of 3 fields", 880, |asked| asked.is_ring_of(3..=3)),
    ("29 for a ring of 4 to 9 fields", 680, |asked| asked.is_ring_of(4..=9)),
    ("29 for a ring of 10 to 32 fields", 44, |asked| asked.is_ring_of(10..=32)),
    ("29 for a ring of 33 to 58 fields", 12, |asked| asked.is_ring_of(33..=58)),
    ("29 for a ring of 59 fields", 4, |asked| asked.is_ring_of(59..=59)),
    ("29 for a ring of 60 fields", 16, |asked| asked.is_ring_of(60..=60)),
    ("29 for version 1", 1_500, |asked| asked.is_29(|book, _| book.version == 1)),
    ("29 for version 2", 1_100, |asked| asked.is_29(|book, _| book.version == 2)),
    ("29 for two tables one behind the other", 680, |asked| {
        asked.is_29(|book, last| last > 0 && book.tables[last - 1].fields == book.tables[last].fields)
    }),
    ("29 for two tables with others in between", 340, |asked| {
        asked.are_twins(|_, _| true) && asked.is_29(|book, last| book.tables[last - 1].fields != book.tables[last].fields)
    }),
    ("29 for two tables, the first without rows", 79, |asked| asked.are_twins(|one, next| is_empty(one) && !is_empty(next))),
    ("29 for two tables, the second without rows", 69, |asked| asked.are_twins(|one, next| !is_empty(one) && is_empty(next))),
    ("29 for two tables without rows", 14, |asked| asked.are_twins(|one, next| is_empty(one) && is_empty(next))),
    ("29 for two tables with the same rows", 92, |asked| asked.are_twins(|one, next| !is_empty(one) && one == next)),
    ("29 for a link without rows", 320, |asked| asked.has_ring_by(is_empty)),
    ("29 for the last table", 1_700, |asked| asked.is_29(|book, last| last + 1 == book.tables.len())),
    ("29 before other tables", 930, |asked| asked.is_29(|book, last| last + 1 < book.tables.len())),
    ("29 for the second table", 490, |asked| asked.is_29(|_, last| last == 1)),
    ("29 for the 60th table or a later one", 37, |asked| asked.is_29(|_, last| last >= 59)),
    ("29 for the 64th table", 2, |asked| asked.is_29(|_, last| last == 63)),
    ("29 for the first of two rings", 450, |asked| asked.is_29(closes_again)),
    ("29 with tables of one field before", 730, |asked| asked.is_29(|book, last| book.tables[..last].iter().any(is_narrow))),
    ("29 for a ring with links beside it", 550, |asked| {
        asked.is_29(|book, last| links(&book.tables[..last]).len() >= 3) && asked.is_ring_of(2..=3)
    }),
    ("29 where fewer links than fields are passed", 880, |asked| {
        asked.is_29(|book, last| links(&book.tables[..=last]).len() + 1 < book.counts.len())
    }),
    ("29 for a ring on field 0", 1_900, |asked| asked.has_ring_on(|field| field == 0)),
    ("29 for a ring on a field from 32 to 58", 200, |asked| asked.has_ring_on(|field| (32..=58).contains(&field))),
    ("29 for a ring on field 59", 36, |asked| asked.has_ring_on(|field| field == 59)),
];

const READING: &[Shape] = &[
    ("28 at place 0", 3_600, |asked| asked.has_place(28, |place| place == 0)),
    ("28 at a place above a byte", 90, |asked| asked.has_place(28, |place| place > 255)),
    ("29 at place 5", 41, |asked| asked.has_place(29, |place| place == 5)),
    ("29 at a place above a byte", 160, |asked| asked.has_place(29, |place| place > 255)),
    ("29 at a place above 2,000", 7, |asked| asked.has_place(29, |place| place > 2_000)),
    ("8 behind a table of three fields", 160, |asked| asked.is_beside_wide(8)),
    ("9 behind a table of three fields", 86, |asked| asked.is_beside_wide(9)),
    ("10 behind a table of three fields", 72, |asked| asked.is_beside_wide(10)),
    ("11 behind a table of three fields", 160, |asked| asked.is_beside_wide(11)),
    ("12 behind a table of three fields", 89, |asked| asked.is_beside_wide(12)),
    ("13 behind a table of three fields", 84, |asked| asked.is_beside_wide(13)),
    ("8 behind a ring", 62, |asked| asked.is_beside_ring(8)),
    ("9 behind a ring", 20, |asked| asked.is_beside_ring(9)),
    ("10 behind a ring", 12, |asked| asked.is_beside_ring(10)),
    ("11 behind a ring", 35, |asked| asked.is_beside_ring(11)),
    ("12 behind a ring", 31, |asked| asked.is_beside_ring(12)),
    ("13 behind a ring", 52, |asked| asked.is_beside_ring(13)),
];

const WRITING: &[Shape] = &[
    ("20 beside a table of three fields", 1_800, |asked| asked.is_beside_wide(20)),
    ("20 beside a ring", 860, |asked| asked.is_beside_ring(20)),
    ("20 beside a ring with no byte lent", 860, |asked| asked.is_beside_ring(20) && asked.lends(|lent| lent == 0)),
    ("28 with no byte lent", 6_100, |asked| asked.number() == 28 && asked.lends(|lent| lent == 0)),
    ("28 with more bytes lent", 6_100, |asked| asked.number() == 28 && asked.lends(|lent| lent > 0)),
    ("28 where as much is lent as a book may have", 370, |asked| {
        asked.number() == 28 && asked.lends(|lent| lent == sighting::BOOK_BYTES)
    }),
    ("29 with no byte lent", 2_800, |asked| asked.number() == 29 && asked.lends(|lent| lent == 0)),
    ("29 with more bytes lent", 2_800, |asked| asked.number() == 29 && asked.lends(|lent| lent > 0)),
    ("29 where as much is lent as a book may have", 180, |asked| {
        asked.number() == 29 && asked.lends(|lent| lent == sighting::BOOK_BYTES)
    }),
    ("one byte too few", 5_400, |asked| asked.number() == 0 && asked.lends(|lent| lent + 1 == asked.written())),
    ("no byte lent", 190, |asked| asked.number() == 0 && asked.lends(|lent| lent == 0)),
    ("fewer bytes lent", 5_200, |asked| asked.number() == 0 && asked.lends(|lent| lent + 1 < asked.written())),
    ("as many bytes lent", 5_400, |asked| asked.number() == 0 && asked.lends(|lent| lent == asked.written())),
    ("more bytes lent", 5_400, |asked| asked.number() == 0 && asked.lends(|lent| lent > asked.written())),
    ("as much lent as a book may have", 360, |asked| asked.number() == 0 && asked.lends(|lent| lent == sighting::BOOK_BYTES)),
];

/// The shapes of a call.
fn every(call: &str) -> impl Iterator<Item = &'static Shape> {
    let own = if call == "read_tree" { READING } else { WRITING };
    [TREES, WIDE, RINGS, own].into_iter().flatten()
}

/// The names of all shapes of a call, and how often each has to be reached.
pub fn all(call: &str) -> impl Iterator<Item = (&'static str, u64)> {
    every(call).map(|(name, least, _)| (*name, *least))
}

impl Asked<'_> {
    /// The names of the shapes that the call has.
    pub fn shapes(&self) -> impl Iterator<Item = &'static str> + '_ {
        every(self.call.name()).filter(|(_, _, has)| has(self)).map(|(name, ..)| *name)
    }
}

#[cfg(test)]
mod tests {
    use super::{Asked, RINGS, TREES, WIDE};
    use crate::book::{Book, Table};
    use crate::calls::Call;
    use crate::cases::Case;
    use crate::compare::trials;
    use crate::draft::Draft;
    use crate::examples::{e1, e4, e6};
    use crate::listing::Listing;
    use crate::reader::Reader;
    use crate::sheet::FRESH;

    /// The shapes of a call on these bytes of a book.
    fn names(book: &[u8], call: Call) -> Vec<&'static str> {
        let case = Case::new(book.to_vec(), FRESH, vec![call]);
        let reading = Reader::default().read(book);
        let trials = trials(&case, &reading, 1, 0);
        let asked = Asked::by(&case, &reading, &trials).expect("it is a call of tree books");
        asked.shapes().collect()
    }

    /// The shapes that both calls have on a book and on its listing.
    fn of_both(book: &Book) -> Vec<&'static str> {
        let read = names(&book.write(), Call::ReadTree);
        let written = names(&[], Call::WriteTree { listing: Listing::of(book).numbers() });
        let is_of_both = |name: &&&str| [TREES, WIDE, RINGS].into_iter().flatten().any(|(shape, ..)| shape == *name);
        let shared: Vec<&str> = read.iter().filter(is_of_both).copied().collect();
        assert_eq!(shared, written.iter().filter(is_of_both).copied().collect::<Vec<_>>());
        shared
    }

    fn on(fields: &[&[u8]]) -> Book {
        let table = |fields: &&[u8]| Table { fields: fields.to_vec(), rows: Vec::new() };
        Book::new(vec![2; 6], fields.iter().map(table).collect())
    }

    #[test]
    fn shapes_of_trees() {
        assert_eq!(of_both(&e1()), ["a tree book of version 1", "two links"]);
        let lone = ["a tree book of version 1", "only tables of one field", "only tables without rows"];
        assert_eq!(of_both(&e6()), lone);
        let forest = ["fewer links than would tie all fields", "a link without rows", "only tables without rows"];
        let star = ["a tree book of version 1", "a field with three links or more"];
        assert_eq!(of_both(&on(&[&[0, 3], &[1, 3], &[3, 4]])), [&star[..], &forest].concat());
        let links: Vec<[u8; 2]> = (0..59).map(|field| [field, field + 1]).collect();
        let mut path = on(&links.iter().map(|link| &link[..]).collect::<Vec<_>>());
        (path.version, path.counts) = (2, vec![2; 60]);
        let names = of_both(&path);
        assert!(["a tree book of 60 fields", "59 links", "one path of 60 fields"].iter().all(|name| names.contains(name)));
    }

    #[test]
    fn shapes_of_rings() {
        let e4 = of_both(&e4());
        assert_eq!(e4, ["29 for a ring of 3 fields", "29 for version 1", "29 for the last table", "29 for a ring on field 0"]);
        let twins = of_both(&on(&[&[0, 1], &[2], &[0, 1], &[3, 4]]));
        for shape in ["29 for a ring of 2 fields", "29 for two tables with others in between", "29 before other tables"] {
            assert!(twins.contains(&shape), "{shape}: {twins:?}");
        }
        assert!(of_both(&on(&[&[0, 1], &[0, 1], &[2, 3], &[2, 3]])).contains(&"29 for the first of two rings"));
    }

    #[test]
    fn shapes_of_wide_tables() {
        let first = of_both(&on(&[&[0, 1, 2], &[0, 1], &[0, 1, 2, 3], &[0, 1]]));
        for shape in ["28 for three fields", "28 for the first table", "28 for the first of two", "28 before a ring"] {
            assert!(first.contains(&shape), "{shape}: {first:?}");
        }
        let last = of_both(&on(&[&[0, 1], &[0, 1], &[0, 1, 2, 3]]));
        for shape in ["28 for four fields", "28 for the last table", "28 behind a ring"] {
            assert!(last.contains(&shape), "{shape}: {last:?}");
        }
    }

    /// Bytes left over, and a number left over in a listing, behind a ring and behind a table of three fields.
    #[test]
    fn shapes_of_other_refusals() {
        for (book, read, written) in [
            (on(&[&[0, 1], &[0, 1]]), "13 behind a ring", "20 beside a ring"),
            (on(&[&[0, 1, 2]]), "13 behind a table of three fields", "20 beside a table of three fields"),
        ] {
            let bytes = Draft { left_over: vec![0], ..Draft::of(&book) }.write();
            assert_eq!(names(&bytes, Call::ReadTree), [read]);
            let listing = [Listing::of(&book).numbers(), vec![0]].concat();
            assert_eq!(names(&[], Call::WriteTree { listing })[0], written);
        }
    }
}
