//! The library at each edge of document 02's M-111: every pair of fields, every length of a path and of a ring, all links of few fields in
//! every order, every byte of a book and every number of a listing, every length lent, the most tables and rows, and refusals in their order.

use sighting::{read, read_tree, show, write, write_tree, Counts, Refusal, BOOK_BYTES, LISTING_NUMBERS};

use crate::book::{self, Book, Table};
use crate::compare::hex;
use crate::desk::Desk;
use crate::draft::Draft;
use crate::examples::{e1, e4, e6, two_pairs};
use crate::listing::Listing;
use crate::memory::{End, Room};
use crate::random::Random;

/// What the bytes lent hold before a call.
const LENT: u8 = 0xA5;

const fn refused<T>(number: u64, place: u64) -> Result<T, Refusal> {
    Err(Refusal { number, place })
}

/// A table without rows.
fn on(fields: &[u8]) -> Table {
    Table { fields: fields.to_vec(), rows: Vec::new() }
}

/// A book of so many fields with tables without rows, of the version that it needs.
fn linked(fields: usize, links: &[[u8; 2]]) -> Book {
    Book::new(vec![2; fields], links.iter().map(|link| on(link)).collect())
}

/// A link between fields in either order.
fn link(one: usize, other: usize) -> [u8; 2] {
    [one.min(other) as u8, one.max(other) as u8]
}

/// What is written of a listing where so many bytes are lent. Those behind it stay, and all of them where it is refused. Numbers and bytes
/// lie flush against pages that nobody may touch, before them or behind them.
fn write_lending(bytes: usize, listing: &[u16]) -> Result<Vec<u8>, Refusal> {
    let (numbers, outs) = (Room::default(), Room::default());
    let [one, other] = [End::Front, End::Back].map(|end| {
        let (listing, out) = (numbers.put(end, listing), outs.put(end, &vec![LENT; bytes]));
        // SAFETY: each lies in a room of its own, and nobody else uses it meanwhile.
        let written = unsafe { write_tree(listing.readable().elements(), out.writable().elements_mut()) };
        let left = out.left().expect("nothing is written beside the bytes lent");
        let (front, behind) = left.split_at(written.map_or(0, |written| written as usize));
        assert!(behind.iter().all(|&byte| byte == LENT));
        written.map(|_| front.to_vec())
    });
    assert_eq!(one, other);
    one
}

/// What is written where enough is lent, without pages that nobody may touch.
fn write_all(listing: &[u16]) -> Result<Vec<u8>, Refusal> {
    let mut out = [LENT; BOOK_BYTES];
    let written = write_tree(listing, &mut out)?;
    Ok(out[..written as usize].to_vec())
}

fn shown(bytes: &[u8]) -> Vec<u16> {
    let mut out = [0; LISTING_NUMBERS];
    let numbers = show(bytes, &mut out).expect("the book is accepted");
    out[..numbers as usize].to_vec()
}

fn by_desk(r: book::Refusal) -> Refusal {
    Refusal { number: r.number, place: r.place }
}

/// What the slow desk reads for the profile has to be what the library reads.
fn reads_agree(bytes: &[u8]) {
    let desk = Desk::default();
    let expected = desk.read_tree(&desk.reader.read(bytes)).map_err(by_desk);
    let counts = |c: Counts| vec![c.fields, c.tables, c.rows, c.different_rows];
    assert_eq!(read_tree(bytes).map(counts), expected, "{}", hex(bytes));
}

/// What the slow desk writes for the profile has to be what the library writes.
fn writes_agree(listing: &[u16]) {
    assert_eq!(write_all(listing), Desk::default().written_tree(listing).map_err(by_desk), "{listing:?}");
}

/// A tree book is read as any book, and its listing gives its bytes.
fn is_tree(book: &Book) {
    let bytes = book.write();
    assert_eq!(read_tree(&bytes), read(&bytes), "{}", hex(&bytes));
    assert!(read_tree(&bytes).is_ok(), "{}", hex(&bytes));
    assert_eq!(write_all(&shown(&bytes)), Ok(bytes));
}

/// A book that is refused at this table, which begins at this place; its listing is refused at place 0.
fn breaks(book: &Book, number: u64, place: usize) {
    let bytes = book.write();
    assert!(read(&bytes).is_ok(), "{}", hex(&bytes));
    assert_eq!(read_tree(&bytes), refused(number, place as u64), "{}", hex(&bytes));
    assert_eq!(write_all(&shown(&bytes)), refused(number, 0));
}

#[test]
fn examples() {
    for version in [1, 2] {
        for book in [e1(), e6(), two_pairs(), Book::new(vec![2], Vec::new())] {
            is_tree(&Book { version, ..book });
        }
        breaks(&Book { version, ..e4() }, 29, 18);
    }
}

/// One link on each pair of sixty fields, and one more on the same pair, before and behind a link and a table of one field.
#[test]
fn each_pair_of_fields() {
    for (one, other) in (0..60).flat_map(|other| (0..other).map(move |one| (one, other))) {
        let (pair, third) = (link(one, other), (0..60).find(|field| ![one, other].contains(field)).expect("there are sixty"));
        is_tree(&linked(60, &[pair]));
        is_tree(&linked(60, &[pair, link(one, third)]));
        breaks(&linked(60, &[pair, pair]), 29, 5);
        breaks(&linked(60, &[pair, link(other, third), pair]), 29, 10);
        breaks(&linked(60, &[pair, link(other, third), link(one, third), pair]), 29, 10);
        let mut among = linked(60, &[pair, pair]);
        among.tables.insert(1, on(&[one as u8]));
        breaks(&among, 29, 9);
    }
}

/// A path of each length is a tree, and a link on its ends closes a ring, wherever the links of the ring begin and in either direction.
#[test]
fn each_length_of_a_ring() {
    let mut r = Random(1);
    for length in 2..=60 {
        let mut order: Vec<usize> = (0..60).collect();
        r.shuffle(&mut order);
        for order in [(0..60).collect(), order] {
            let ring: Vec<[u8; 2]> = (0..length).map(|k| link(order[k], order[(k + 1) % length])).collect();
            for begin in 0..length {
                let mut turned = ring.clone();
                turned.rotate_left(begin);
                is_tree(&linked(60, &turned[..length - 1]));
                breaks(&linked(60, &turned), 29, 5 * (length - 1));
                turned.reverse();
                breaks(&linked(60, &turned), 29, 5 * (length - 1));
            }
        }
    }
}

/// Each link of a path of 60 fields comes again, or the first and the last of some of its fields are linked.
#[test]
fn each_link_beside_a_path() {
    let path: Vec<[u8; 2]> = (0..59).map(|field| link(field, field + 1)).collect();
    for (one, other) in (0..60).flat_map(|other| (0..other).map(move |one| (one, other))) {
        breaks(&linked(60, &[&path[..], &[link(one, other)]].concat()), 29, 5 * 59);
        // the ring is closed by the last link of the path between the two fields
        breaks(&linked(60, &[&[link(one, other)], &path[..]].concat()), 29, 5 * other);
    }
}

/// All links of four fields, each at most once and in every order, and four of any links.
#[test]
fn all_links_of_four_fields() {
    let pairs: Vec<[u8; 2]> = (0..4).flat_map(|other| (0..other).map(move |one| link(one, other))).collect();
    let mut orders: Vec<Vec<[u8; 2]>> = vec![Vec::new()];
    for length in 0.. {
        let longer = orders.iter().filter(|order| order.len() == length);
        let more = longer
            .flat_map(|order| pairs.iter().filter(|pair| !order.contains(pair)).map(|&pair| [&order[..], &[pair]].concat()));
        let more: Vec<_> = more.collect();
        if more.is_empty() {
            break;
        }
        orders.extend(more);
    }
    assert_eq!(orders.len(), 1_957);
    let any = (0..6usize.pow(4)).map(|number| (0..4).map(|k| pairs[number / 6usize.pow(k) % 6]).collect());
    for links in orders.into_iter().chain(any) {
        let book = linked(4, &links);
        reads_agree(&book.write());
        writes_agree(&Listing::of(&book).numbers());
    }
}

/// A table of three or four fields at each place among 63 others, of which some close a ring, or none.
#[test]
fn each_place_of_a_wide_table() {
    let forest: Vec<Table> = (0..59).map(|f| on(&[f, f + 1])).chain((0..4).map(|field| on(&[field]))).collect();
    let rings: Vec<Table> = (0..63).map(|k| on(&[k % 7, 7])).collect();
    for (tables, fields) in [&forest, &rings].iter().flat_map(|tables| [vec![1, 2, 59], vec![0, 5, 6, 7]].map(|f| (tables, f))) {
        for place in 0..=63 {
            let mut tables = tables.to_vec();
            tables.insert(place, on(&fields));
            let begins = tables[..place].iter().map(|table| 3 + table.fields.len()).sum();
            breaks(&Book::new(vec![2; 60], tables.clone()), 28, begins);
            tables.push(on(&[0]));
            assert_eq!(read_tree(&Book::new(vec![2; 60], tables).write()).map_err(|r| r.number), Err(5));
        }
    }
}

/// As many tables as there may be: a tree, a ring that the last one closes, and a table more.
#[test]
fn the_most_tables() {
    let path = (0..59).map(|field| on(&[field, field + 1]));
    let mut tables: Vec<Table> = path.chain((0..4).map(|field| on(&[field]))).collect();
    tables.push(on(&[59]));
    is_tree(&Book::new(vec![2; 60], tables.clone()));
    tables[63] = on(&[0, 59]);
    breaks(&Book::new(vec![2; 60], tables.clone()), 29, 59 * 5 + 4 * 4);
    tables.push(on(&[58]));
    let bytes = Book::new(vec![2; 60], tables.clone()).write();
    assert_eq!(read_tree(&bytes).map_err(|r| r.number), Err(5));
    assert_eq!(write_all(&Listing::of(&Book::new(vec![2; 60], tables)).numbers()), refused(20, 0));
}

/// The longest tree book: sixty fields in one path, five tables of one field more, and all rows in tables of two.
#[test]
fn the_longest_tree_book() {
    let rows = (0..4_096u32).map(|i| vec![(i >> 5 & 31) as u8, (i & 31) as u8]).collect();
    let mut tables: Vec<Table> = (0..58).map(|field| on(&[field, field + 1])).collect();
    tables.push(Table { fields: vec![58, 59], rows });
    tables.extend([0; 5].map(|field| on(&[field])));
    let book = Book::new(vec![32; 60], tables);
    let (bytes, listing) = (book.write(), Listing::of(&book).numbers());
    assert_eq!(bytes.len(), 59 * 5 + 5 * 4 + 2 * 4_096 + 60 + 6);
    is_tree(&book);
    let counts = Counts { fields: 60, tables: 64, rows: 4_096, different_rows: 1_024 };
    assert_eq!(read_tree(&bytes), Ok(counts));
    assert_eq!(write_lending(bytes.len() - 1, &listing), refused(18, 0));
    assert_eq!(write_lending(bytes.len(), &listing), Ok(bytes.clone()));
    assert_eq!(write_lending(bytes.len() + 1, &listing), Ok(bytes.clone()));
    let mut closed = book.clone();
    closed.tables[63] = on(&[0, 59]);
    breaks(&closed, 29, 59 * 5 + 4 * 4 + 2 * 4_096);
    closed.tables[58].rows.push(vec![0, 0]);
    assert_eq!(read_tree(&closed.write()), refused(12, 58 * 5));
}

/// Each byte of a tree, of a ring and of a book with a table of three fields is changed to each other.
#[test]
fn each_byte_of_a_book() {
    let mut wide = e4();
    wide.tables.push(on(&[0, 1, 2]));
    for bytes in [e1(), e4(), wide].map(|book| book.write()) {
        for (place, byte) in (0..bytes.len()).flat_map(|place| (0..=255).map(move |byte| (place, byte))) {
            let mut changed = bytes.clone();
            changed[place] = byte;
            reads_agree(&changed);
        }
        for length in 0..=bytes.len() {
            reads_agree(&bytes[..length]);
            reads_agree(&bytes[length..]);
        }
    }
}

/// Each number of their listings is changed to others, left out, or comes twice.
#[test]
fn each_number_of_a_listing() {
    let mut wide = e4();
    wide.tables.push(on(&[0, 1, 2]));
    for listing in [e1(), e4(), wide].map(|book| Listing::of(&book).numbers()) {
        for place in 0..listing.len() {
            let part = |from: usize| [&listing[..place], &listing[from..]].concat();
            writes_agree(&part(place + 1));
            writes_agree(&[&listing[..=place], &listing[place..]].concat());
            for number in (0..=8).chain([31, 32, 33, 60, 64, 65, 255, 256, 257, 4_096, 4_097, 65_535]) {
                let mut changed = listing.clone();
                changed[place] = number;
                writes_agree(&changed);
            }
        }
    }
}

/// Every length up to two more than the book has, and what suffices for any.
#[test]
fn each_length_lent() {
    let (book, ring) = (e1(), Listing::of(&e4()).numbers());
    let (bytes, listing) = (book.write(), Listing::of(&book).numbers());
    for lent in 0..bytes.len() {
        assert_eq!(write_lending(lent, &listing), refused(18, 0), "{lent} lent");
        assert_eq!(write_lending(lent, &ring), refused(29, 0), "{lent} lent");
    }
    for lent in [35, 36, 37, BOOK_BYTES] {
        assert_eq!(write_lending(lent, &listing), Ok(bytes.clone()), "{lent} lent");
        assert_eq!(write_lending(lent, &ring), refused(29, 0), "{lent} lent");
    }
}

/// Everything is wrong, and is put right one after the other.
#[test]
fn refusals_in_their_order() {
    let mut book = e4();
    book.tables.push(on(&[0, 1, 2]));
    let with = |closing: u8, left_over: &[u8], code: u8, book: &Book| {
        let mut draft = Draft { closing, left_over: left_over.to_vec(), ..Draft::of(book) };
        draft.tables[0].codes[0] = code;
        draft.write()
    };
    let length = book.write().len() as u64;
    assert_eq!(read_tree(&with(0, &[7], 2, &book)), refused(2, length));
    assert_eq!(read_tree(&with(0xE5, &[7], 2, &book)), refused(11, 5));
    assert_eq!(read_tree(&with(0xE5, &[7], 0, &book)), refused(13, 33));
    assert_eq!(read_tree(&with(0xE5, &[], 0, &book)), refused(28, 27));
    let numbers = Listing::of(&book).numbers();
    assert_eq!(write_lending(0, &[&numbers[..], &[0]].concat()), refused(20, 0));
    assert_eq!(write_lending(0, &numbers), refused(28, 0));
    book.tables.pop();
    assert_eq!(read_tree(&with(0xE5, &[7], 2, &book)), refused(11, 5));
    assert_eq!(read_tree(&with(0xE5, &[7], 0, &book)), refused(13, 27));
    assert_eq!(read_tree(&book.write()), refused(29, 18));
    let numbers = Listing::of(&book).numbers();
    assert_eq!(write_lending(0, &numbers[1..]), refused(20, 0));
    assert_eq!(write_lending(0, &numbers), refused(29, 0));
    book.tables.pop();
    is_tree(&book);
    let numbers = Listing::of(&book).numbers();
    assert_eq!(write_lending(26, &numbers), refused(18, 0));
    assert_eq!(write_lending(27, &numbers), Ok(book.write()));
    let mut out = [0; BOOK_BYTES];
    assert_eq!(write(&numbers, &mut out), Ok(27));
}
