//! Tree books, straight from document 02's M-111 and with no care for speed: a ring is what is left of the links when those that lead to an
//! end have been taken away.

use crate::book::{refuse, Book, Refusal, Table};
use crate::desk::{accepted, Desk, Reading};

/// Which books are tree books, by its parts: each finds a table by its number.
#[derive(Clone, Copy)]
pub struct Trees {
    /// "28, a table with more than two fields": the first of them.
    pub wide: fn(&Book) -> Option<usize>,
    /// "29, a ring": the first table that closes one.
    pub closing: fn(&Book) -> Option<usize>,
}

impl Default for Trees {
    fn default() -> Trees {
        Trees { wide: first_wide, closing: first_closing }
    }
}

/// "Its tables have one or two fields."
pub fn is_wide(table: &Table) -> bool {
    table.fields.len() > 2
}

pub fn first_wide(book: &Book) -> Option<usize> {
    book.tables.iter().position(is_wide)
}

/// "Two fields tied by a table count as linked": a link for each table of two fields.
pub fn links(tables: &[Table]) -> Vec<[u8; 2]> {
    tables.iter().filter_map(|table| <[u8; 2]>::try_from(&table.fields[..]).ok()).collect()
}

/// Takes away each link to a field that no other link leads to, until there is none: a ring has no such link, and where each field has two
/// links there is a ring.
pub fn without_ends(mut links: Vec<[u8; 2]>) -> Vec<[u8; 2]> {
    loop {
        let mut of_field = [0; 256];
        links.iter().flatten().for_each(|&field| of_field[field as usize] += 1);
        let before = links.len();
        links.retain(|link| link.iter().all(|&field| of_field[field as usize] > 1));
        if links.len() == before {
            return links;
        }
    }
}

/// "The links form no ring", of these tables.
pub fn has_ring(tables: &[Table]) -> bool {
    !without_ends(links(tables)).is_empty()
}

/// "The first table that closes one": with it the tables so far have a ring.
pub fn first_closing(book: &Book) -> Option<usize> {
    let tables = &book.tables;
    // no part of them has a ring if all together have none
    has_ring(tables).then(|| (0..tables.len()).find(|&last| has_ring(&tables[..=last]))).flatten()
}

/// The bytes of a table: its number of fields, the fields, two for its number of rows, and the codes.
fn length(table: &Table) -> usize {
    1 + table.fields.len() + 2 + table.rows.iter().map(Vec::len).sum::<usize>()
}

/// The place of a table's first byte.
pub fn first_byte(book: &Book, table: usize) -> usize {
    book.tables[..table].iter().map(length).sum()
}

impl Trees {
    /// "28 .. 29, tested when no table breaks 28", with the number of the table.
    pub fn broken(&self, book: &Book) -> Option<(u64, usize)> {
        (self.wide)(book).map(|table| (28, table)).or_else(|| (self.closing)(book).map(|table| (29, table)))
    }
}

impl Desk {
    /// What reading counts: 1 to 13, 28, 29.
    pub fn read_tree(&self, reading: &Reading) -> Result<Vec<u64>, Refusal> {
        let book = accepted(reading)?;
        match self.trees.broken(book) {
            Some((number, table)) => refuse(number, first_byte(book, table)),
            None => self.read(reading),
        }
    }

    /// The bytes of the tree book that a listing says: 20, 28, 29. "With place 0."
    pub fn written_tree(&self, numbers: &[u16]) -> Result<Vec<u8>, Refusal> {
        let bytes = self.written(numbers)?;
        let book = self.reader.read(&bytes)?;
        match self.trees.broken(&book) {
            Some((number, _)) => refuse(number, 0),
            None => Ok(bytes),
        }
    }
}

#[cfg(test)]
mod tests {
    use std::collections::BTreeSet;

    use super::{first_byte, has_ring, links, Trees};
    use crate::book::{refuse, Book, Table};
    use crate::calls::Call;
    use crate::desk::{Desk, Reading};
    use crate::examples::{e1, e4, e6, two_pairs};
    use crate::forests;
    use crate::listing::Listing;
    use crate::random::{fields_of, Random};
    use crate::sheet::FRESH;

    fn on(fields: &[u8]) -> Table {
        Table { fields: fields.to_vec(), rows: Vec::new() }
    }

    /// Whether links on these pairs have a ring.
    fn ring(pairs: &[[u8; 2]]) -> bool {
        has_ring(&pairs.iter().map(|pair| on(pair)).collect::<Vec<_>>())
    }

    #[test]
    fn rings_and_forests() {
        for forest in
            [&[][..], &[[0, 1]], &[[0, 1], [1, 2], [2, 3]], &[[0, 3], [1, 3], [2, 3]], &[[0, 1], [2, 3], [1, 2], [4, 5]]]
        {
            assert!(!ring(forest), "{forest:?}");
        }
        for rings in [&[[0, 1], [0, 1]][..], &[[0, 1], [1, 2], [0, 2]], &[[0, 1], [1, 2], [2, 3], [3, 4], [1, 3]]] {
            assert!(ring(rings) && !ring(&rings[..rings.len() - 1]), "{rings:?}");
        }
        assert!(!has_ring(&[on(&[0]), on(&[0]), on(&[0, 1, 2]), on(&[0, 1, 2])]));
    }

    /// The fields that are reached from one, going from link to link.
    fn reached(links: &[[u8; 2]], from: u8, seen: &mut BTreeSet<u8>) {
        if seen.insert(from) {
            let next = links.iter().filter(|link| link.contains(&from)).flatten();
            next.for_each(|&field| reached(links, field, seen));
        }
    }

    /// How many parts the links tie their fields to.
    fn parts(links: &[[u8; 2]]) -> usize {
        let mut seen = BTreeSet::new();
        let mut begins = |field: u8| {
            let is_new = !seen.contains(&field);
            reached(links, field, &mut seen);
            is_new
        };
        links.iter().flatten().filter(|&&field| begins(field)).count()
    }

    /// A forest has as many links as fields, but for one in each of its parts; with a ring there are more.
    #[test]
    fn links_counted_against_fields_and_parts() {
        let mut r = Random(1);
        let some = |r: &mut Random| {
            let fields = r.from(2, 9);
            (0..r.from(0, 8)).map(|_| on(&fields_of(r, fields, 2))).collect()
        };
        let mut rings = 0;
        for index in 0..4_000 {
            let tables: Vec<Table> = if index % 2 == 0 { some(&mut r) } else { forests::book(&mut r).tables };
            let links = links(&tables);
            let fields: BTreeSet<u8> = links.iter().flatten().copied().collect();
            assert_eq!(has_ring(&tables), links.len() + parts(&links) > fields.len(), "{links:?}");
            rings += has_ring(&tables) as u32;
        }
        assert!((800..3_200).contains(&rings), "{rings}");
    }

    /// Which number a book is refused by, and at which table.
    fn broken(tables: &[&[u8]]) -> Option<(u64, usize)> {
        Trees::default().broken(&Book::new(vec![2; 6], tables.iter().map(|fields| on(fields)).collect()))
    }

    #[test]
    fn the_first_table_that_breaks_the_profile() {
        assert_eq!(broken(&[&[0, 1], &[2], &[1, 2], &[0], &[3, 4], &[2, 3]]), None);
        assert_eq!(broken(&[&[0, 1], &[2], &[0, 1], &[0, 1]]), Some((29, 2)));
        assert_eq!(broken(&[&[0, 1], &[3, 4], &[1, 2], &[3, 5], &[0, 2], &[4, 5]]), Some((29, 4)));
        assert_eq!(broken(&[&[0, 1], &[0, 1], &[3], &[0, 1, 2], &[1, 2, 3, 4]]), Some((28, 3)));
        assert_eq!(broken(&[&[0, 1, 2, 3], &[0, 1], &[0, 1]]), Some((28, 0)));
    }

    #[test]
    fn examples() {
        let desk = Desk::default();
        assert_eq!(desk.read_tree(&Ok(e1())), Ok(vec![3, 2, 8, 7]));
        assert_eq!(desk.read_tree(&Ok(e4())), refuse(29, 18));
        assert_eq!(desk.read_tree(&Ok(e6())), Ok(vec![2, 1, 0, 0]));
        assert_eq!(desk.read_tree(&Ok(two_pairs())), Ok(vec![4, 2, 4, 4]));
        assert_eq!(desk.read_tree(&refuse(9, 4)), refuse(9, 4));
        assert_eq!((0..3).map(|table| first_byte(&e4(), table)).collect::<Vec<_>>(), [0, 9, 18]);
        for book in [e1(), e6(), two_pairs()] {
            assert_eq!(desk.written_tree(&Listing::of(&book).numbers()), Ok(book.write()));
        }
        assert_eq!(desk.written_tree(&Listing::of(&e4()).numbers()), refuse(29, 0));
        let numbers = Listing::of(&e4()).numbers();
        assert_eq!(desk.written_tree(&[&numbers[..], &[0]].concat()), refuse(20, 0));
    }

    /// The number, the cells and the bytes left of so many lent.
    fn left(book: &Book, lent: usize) -> (u64, Vec<u64>, Vec<u8>) {
        let call = Call::WriteTree { listing: Listing::of(book).numbers() };
        let no_book: Reading = refuse(1, 0);
        let left = Desk::default().answer(&call, &no_book, &FRESH).left(&call, &vec![7u8; lent].into());
        (left.number, left.cells, left.out.bytes)
    }

    #[test]
    fn too_few_bytes_come_last() {
        assert_eq!(left(&e6(), 11), (18, vec![0, 0], vec![7; 11]));
        assert_eq!(left(&e6(), 13), (0, vec![0, 12], [&e6().write()[..], &[7]].concat()));
        assert_eq!(left(&e4(), 0), (29, vec![0, 0], Vec::new()));
        let wide = Book::new(vec![2; 4], vec![on(&[0, 1, 2])]);
        assert_eq!(left(&wide, 0), (28, vec![0, 0], Vec::new()));
        assert_eq!(left(&wide, 99), (28, vec![0, 0], vec![7; 99]));
    }
}
