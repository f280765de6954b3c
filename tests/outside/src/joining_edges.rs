//! The library at each edge of document 02's M-109: every length lent, every byte of either book, every pair of lists of fields and of rows,
//! the most tables and rows and one more, and refusals in their order.

use std::collections::BTreeSet;

use sighting::{join, read, Refusal, BOOK_BYTES};

use crate::book::{self, Book, Table};
use crate::compare::hex;
use crate::desk::Desk;
use crate::examples::{e1, e4, e6, with_e1, JOINED};
use crate::joining::joined;
use crate::memory::{End, Room};
use crate::random::{fields_of, Random};

/// What the bytes lent hold before a call.
const LENT: u8 = 0xA5;

/// The bytes written, or a refusal.
type Written = Result<Vec<u8>, Refusal>;

const fn refused<T>(number: u64, place: u64) -> Result<T, Refusal> {
    Err(Refusal { number, place })
}

/// What is written where so many bytes are lent. Those behind it stay, and all of them where it is refused. Each book and the bytes lent
/// lie flush against pages that nobody may touch, before them or behind them.
fn join_lending(bytes: usize, first: &[u8], second: &[u8]) -> Written {
    let rooms: [Room; 3] = Default::default();
    let [one, other] = [End::Front, End::Back].map(|end| written_at(&rooms, end, bytes, first, second));
    assert_eq!(one, other);
    one
}

fn written_at([firsts, seconds, outs]: &[Room; 3], end: End, bytes: usize, first: &[u8], second: &[u8]) -> Written {
    let (first, second, out) = (firsts.put(end, first), seconds.put(end, second), outs.put(end, &vec![LENT; bytes]));
    // SAFETY: each lies in a room of its own, and nobody else uses it meanwhile.
    let written = unsafe { join(first.readable().elements(), second.readable().elements(), out.writable().elements_mut()) };
    let left = out.left().expect("nothing is written beside the bytes lent");
    let (front, behind) = left.split_at(written.map_or(0, |written| written as usize));
    assert!(behind.iter().all(|&byte| byte == LENT));
    written.map(|_| front.to_vec())
}

/// What is written where enough is lent, without pages that nobody may touch.
fn join_all(first: &[u8], second: &[u8]) -> Written {
    let mut out = [LENT; BOOK_BYTES];
    let written = join(first, second, &mut out)?;
    Ok(out[..written as usize].to_vec())
}

/// What the slow desk joins has to be what the library joins.
fn agree(first: &[u8], second: &[u8]) {
    let desk = Desk::default();
    let by_desk = |r: book::Refusal| Refusal { number: r.number, place: r.place };
    let expected = desk.join(&desk.reader.read(first), Some(second)).map_err(by_desk);
    assert_eq!(join_all(first, second), expected, "{} with {}", hex(first), hex(second));
}

#[test]
fn examples() {
    let (first, second) = (e1().write(), with_e1().write());
    assert_eq!((join_all(&first, &second), join_all(&second, &first)), (Ok(JOINED.to_vec()), Ok(JOINED.to_vec())));
    assert_eq!(join_all(&JOINED, &first), Ok(JOINED.to_vec()));
    assert_eq!(join_all(&JOINED, &JOINED), Ok(JOINED.to_vec()));
    for book in [e4(), e6()] {
        assert_eq!(join_all(&book.write(), &book.write()), Ok(Book { version: 2, ..book }.write()));
    }
}

/// Every length up to two more than the result has, and what suffices for any.
#[test]
fn each_length_lent() {
    let (first, second) = (e1().write(), with_e1().write());
    for lent in 0..JOINED.len() {
        assert_eq!(join_lending(lent, &first, &second), refused(18, 0), "{lent} lent");
    }
    for lent in [34, 35, 36, BOOK_BYTES] {
        assert_eq!(join_lending(lent, &first, &second), Ok(JOINED.to_vec()), "{lent} lent");
    }
}

/// One slice is lent as both books.
#[test]
fn one_slice_for_both() {
    let book = e1().write();
    let mut out = [LENT; 34];
    assert_eq!((join(&book, &book, &mut out), out[33]), (Ok(33), LENT));
    assert_eq!(out[..33], joined(&e1(), &e1()).write());
    assert_eq!(join(&book[..34], &book[..34], &mut out), refused(2, 33));
}

/// Each byte of a book is changed to each other, as the first book and as the second.
#[test]
fn each_byte_of_either_book() {
    let (first, second) = (e1().write(), with_e1().write());
    for (place, byte) in (0..first.len()).flat_map(|place| (0..=255).map(move |byte| (place, byte))) {
        let mut changed = first.clone();
        changed[place] = byte;
        agree(&changed, &second);
        agree(&second, &changed);
        agree(&changed, &changed);
    }
}

/// Each number of a book's first bytes and of its last ones, as the first book and as the second.
#[test]
fn each_part_of_either_book() {
    let (first, second) = (e1().write(), with_e1().write());
    for length in 0..=first.len() {
        for part in [&first[..length], &first[length..]] {
            agree(part, &second);
            agree(&second, part);
        }
    }
}

/// All lists of up to four of five fields: each pair of them in either order and in one book, with rows that rise or fall.
#[test]
fn each_pair_of_field_lists() {
    let lists: Vec<Vec<u8>> = (1u8..32).map(|mask| (0..5).filter(|field| mask >> field & 1 == 1).collect()).collect();
    let lists: Vec<Vec<u8>> = lists.into_iter().filter(|fields: &Vec<u8>| fields.len() <= 4).collect();
    let of = |lists: &[&Vec<u8>], codes: [u8; 2]| {
        let on = |fields: &Vec<u8>| Table { fields: fields.clone(), rows: codes.map(|code| vec![code; fields.len()]).to_vec() };
        Book::new(vec![3; 5], lists.iter().map(|fields| on(fields)).collect()).write()
    };
    for (one, other) in lists.iter().flat_map(|one| lists.iter().map(move |other| (one, other))) {
        agree(&of(&[one], [2, 1]), &of(&[other], [0, 1]));
        agree(&of(&[one, other], [2, 1]), &of(&[], [0, 0]));
        agree(&of(&[], [0, 0]), &of(&[one, other], [1, 2]));
        agree(&of(&[one, other, one], [1, 1]), &of(&[other, one, other], [0, 1]));
    }
}

/// All tables with rows of three codes of one field, up to three rows: each pair of them in both books and in one.
#[test]
fn each_pair_of_small_tables() {
    let rows = |number: usize, how_many: usize| (0..how_many).map(move |k| [(number / 3usize.pow(k as u32) % 3) as u8]).collect();
    let tables: Vec<Vec<[u8; 1]>> =
        (0..=3).flat_map(|n| (0..3usize.pow(n)).map(move |number| rows(number, n as usize))).collect();
    let of = |tables: &[&Vec<[u8; 1]>]| {
        let on = |rows: &Vec<[u8; 1]>| Table { fields: vec![1], rows: rows.iter().map(|row| row.to_vec()).collect() };
        Book::new(vec![1, 3], tables.iter().map(|rows| on(rows)).collect()).write()
    };
    for (one, other) in tables.iter().flat_map(|one| tables.iter().map(move |other| (one, other))) {
        agree(&of(&[one]), &of(&[other]));
        agree(&of(&[one, other]), &of(&[]));
        agree(&of(&[one]), &of(&[other, one]));
    }
}

/// Books of each number of fields, of both versions, without tables and with one on the last field; and with each other number.
#[test]
fn each_number_of_fields() {
    for fields in 1..=60 {
        for version in if fields <= 32 { vec![1, 2] } else { vec![2] } {
            let empty = Book { version, ..Book::new(vec![2; fields], Vec::new()) };
            let on_last = Table { fields: vec![fields as u8 - 1], rows: vec![vec![1], vec![0], vec![1]] };
            let book = Book { tables: vec![on_last], ..empty.clone() };
            agree(&empty.write(), &book.write());
            agree(&book.write(), &empty.write());
            assert_eq!(join_all(&empty.write(), &empty.write()), Ok(Book { version: 2, ..empty.clone() }.write()));
            for other in (1..=60).filter(|&other| other != fields) {
                let other = Book::new(vec![2; other], Vec::new()).write();
                assert_eq!(join_all(&empty.write(), &other), refused(25, 0));
            }
        }
    }
}

/// Sixty fields of 16 codes: each field by itself has one code more or less in one book.
#[test]
fn each_count_that_differs() {
    let (same, counts) = (Book::new(vec![16; 60], Vec::new()).write(), [1, 15, 17, 32]);
    for (field, count) in (0..60).flat_map(|field| counts.map(|count| (field, count))) {
        let mut other = Book::new(vec![16; 60], Vec::new());
        other.counts[field] = count;
        for (first, second) in [(&same, &other.write()), (&other.write(), &same)] {
            assert_eq!(join_lending(BOOK_BYTES, first, second), refused(25, 0), "{count} codes of field {field}");
        }
    }
}

/// So many tables on different lists of fields, without rows.
fn tables(how_many: usize) -> Vec<Table> {
    let fields = |i: usize| if i < 60 { vec![i as u8] } else { vec![i as u8 - 60, 59] };
    (0..how_many).map(|i| Table { fields: fields(i), rows: Vec::new() }).collect()
}

/// Of 60 to 118 lists of fields, each number that the first book can have, and in between those that both have.
#[test]
fn each_number_of_tables() {
    let of = |tables: &[Table]| Book::new(vec![1; 60], tables.to_vec()).write();
    for how_many in [63, 64, 65, 66, 118] {
        let all = tables(how_many);
        for own in how_many.saturating_sub(64)..=how_many.min(64) {
            let (first, second) = (of(&all[..own]), of(&all[own..]));
            let expected = if how_many <= 64 { Ok(()) } else { refused(26, 0) };
            assert_eq!(join_all(&first, &second).map(drop), expected, "{own} of {how_many} tables");
            agree(&second, &of(&all[(how_many - 64.min(how_many))..]));
        }
    }
    assert_eq!(join_lending(0, &of(&tables(64)), &of(&tables(65)[64..])), refused(26, 0));
}

/// Different rows of four codes, from a number on.
fn rows(from: usize, how_many: usize) -> Vec<Vec<u8>> {
    let code = |i: usize, shift: usize| (i >> shift & 31) as u8;
    (from..from + how_many).map(|i| [15, 10, 5, 0].map(|shift| code(i, shift)).to_vec()).collect()
}

fn of_rows(tables: &[(&[u8], Vec<Vec<u8>>)]) -> Vec<u8> {
    let table = |(fields, rows): &(&[u8], Vec<Vec<u8>>)| Table { fields: fields.to_vec(), rows: rows.clone() };
    Book::new(vec![32; 5], tables.iter().map(table).collect()).write()
}

/// Rows on the same fields and on others, so that the result has 4,096 at most or one more.
#[test]
fn each_number_of_rows() {
    let (fields, others): (&[u8], &[u8]) = (&[0, 1, 2, 3], &[0, 1, 2, 4]);
    let accepted = |first: &[u8], second: &[u8], rows: u64| {
        let bytes = join_all(first, second).expect("no limit is broken");
        assert_eq!(read(&bytes).map(|counts| (counts.rows, counts.different_rows)), Ok((rows, rows)));
        agree(first, second);
    };
    let beside = |own: usize, more: usize| (of_rows(&[(fields, rows(0, own))]), of_rows(&[(others, rows(7, more))]));
    for (own, more) in [(0, 4_096), (1, 4_095), (2_048, 2_047), (2_048, 2_048), (4_095, 0), (4_095, 1), (4_096, 0)] {
        let (first, second) = beside(own, more);
        accepted(&first, &second, (own + more) as u64);
    }
    for (own, more) in [(1, 4_096), (2_048, 2_049), (4_095, 2), (4_096, 1), (4_096, 4_096)] {
        let (first, second) = beside(own, more);
        assert_eq!(join_all(&first, &second), refused(26, 0), "{own} rows and {more}");
    }
    let most = of_rows(&[(fields, rows(0, 4_096))]);
    for common in [0, 1, 255, 256, 257, 4_095, 4_096] {
        accepted(&most, &of_rows(&[(fields, rows(4_096 - common, 4_096))]), common as u64);
    }
    let repeated = of_rows(&[(fields, vec![vec![31; 4]; 4_096])]);
    accepted(&repeated, &of_rows(&[(others, rows(0, 4_095))]), 4_096);
    assert_eq!(join_lending(0, &repeated, &of_rows(&[(others, rows(0, 4_096))])), refused(26, 0));
}

/// As many rows as are sorted in one way, one less and one more, in each of seven orders: joined with themselves they rise.
#[test]
fn each_order_at_each_edge() {
    let fields: &[u8] = &[0, 1, 2, 3];
    let row = |i: usize| [15, 10, 5, 0].map(|shift| (i * 4_001 >> shift & 31) as u8).to_vec();
    let joined_with_itself = |rows: &[Vec<u8>]| {
        let book = of_rows(&[(fields, rows.to_vec())]);
        agree(&book, &book);
        join_all(&book, &book)
    };
    for length in [2, 19, 20, 21, 22, 63, 64, 65, 66, 95, 96, 97, 98, 255, 256, 257] {
        let rising: Vec<Vec<u8>> = (0..length).map(row).collect();
        let orders: [fn(&mut Vec<Vec<u8>>); 6] = [
            |rows| rows.reverse(),
            |rows| Random(rows.len() as u64).shuffle(rows),
            |rows| rows.rotate_left(1),
            |rows| rows.chunks_mut(2).for_each(<[_]>::reverse),
            |rows| rows.chunks_mut(8).for_each(<[_]>::reverse),
            |rows| *rows = (0..2).flat_map(|k| rows[k..].iter().step_by(2).cloned()).collect(),
        ];
        let expected = joined_with_itself(&rising);
        assert!(expected.is_ok());
        for order in orders {
            let mut rows = rising.clone();
            order(&mut rows);
            assert_eq!(joined_with_itself(&rows), expected, "{length} rows");
        }
    }
}

/// 64 tables of 64 rows on four of sixty fields: the longest result, from two books and from one, with bytes enough and one less.
#[test]
fn the_longest_result() {
    let (mut r, mut sets) = (Random(1), BTreeSet::new());
    while sets.len() < 64 {
        sets.insert(fields_of(&mut r, 60, 4));
    }
    let all: Vec<Table> = sets.into_iter().map(|fields| Table { fields, rows: rows(0, 64) }).collect();
    let of = |tables: &[Table]| Book::new(vec![32; 60], tables.iter().rev().cloned().collect()).write();
    let expected = Book::new(vec![32; 60], all.clone()).write();
    for (first, second) in
        [(of(&all[..32]), of(&all[32..])), (of(&all), of(&all)), (of(&all), of(&[])), (of(&all[..1]), of(&all))]
    {
        assert_eq!(join_lending(16_897, &first, &second), refused(18, 0));
        assert_eq!(join_lending(16_898, &first, &second), Ok(expected.clone()));
        assert_eq!(join_lending(16_899, &first, &second), Ok(expected.clone()));
    }
    assert_eq!((expected.len(), BOOK_BYTES), (16_898, 16_898));
}

/// Everything is wrong, and is put right one after the other.
#[test]
fn refusals_in_their_order() {
    let (first, most) = (e1().write(), Book::new(vec![1; 60], tables(64)).write());
    let (broken, short) = ([&first[..34], &[0]].concat(), first[..5].to_vec());
    let other = Book::new(vec![2, 3], Vec::new()).write();
    let one_more = Book::new(vec![1; 60], tables(65)[64..].to_vec()).write();
    for (first, second, lent, expected) in [
        (&broken, &short, 0, refused(2, 34)),
        (&short, &broken, 0, refused(1, 0)),
        (&first, &broken, 0, refused(2, 34)),
        (&first, &short, 0, refused(1, 0)),
        (&most, &broken, 0, refused(2, 34)),
        (&first, &other, 0, refused(25, 0)),
        (&other, &first, 0, refused(25, 0)),
        (&most, &first, 0, refused(25, 0)),
        (&most, &one_more, 0, refused(26, 0)),
        (&most, &one_more, BOOK_BYTES, refused(26, 0)),
        (&first, &first, 32, refused(18, 0)),
        (&first, &first, 33, Ok(33)),
    ] {
        assert_eq!(join_lending(lent, first, second).map(|bytes| bytes.len()), expected, "{lent} lent");
    }
}
