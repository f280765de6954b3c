//! Wrong profiles, after document 02's M-111: tables taken for too wide or not, links left out or made up, and rings looked for by ways that
//! miss some or see others.

use super::{
    Listed,
    Wrong::{Closing, Wide},
};
use crate::book::{Book, Table};
use crate::calls::OF_TREES;
use crate::trees::{first_closing, first_wide, has_ring, is_wide, links, without_ends};

const READ: &[&str] = &["read_tree"];

/// A table looked for by this, if it is found.
type Find = fn(&Book) -> Option<usize>;

const fn wide(what: &'static str, find: Find) -> Listed {
    (what, OF_TREES, Wide(find))
}

const fn closing(what: &'static str, find: Find) -> Listed {
    (what, OF_TREES, Closing(find))
}

/// Only reading tells which table it is.
const fn wide_named(what: &'static str, find: Find) -> Listed {
    (what, READ, Wide(find))
}

const fn closing_named(what: &'static str, find: Find) -> Listed {
    (what, READ, Closing(find))
}

pub const SLIPS: &[Listed] = &[
    wide("no 28", |_| None),
    wide("28 for tables of two fields too", |book| first(book, |_, table| table.fields.len() >= 2)),
    wide("28 for tables of two fields alone", |book| first(book, |_, table| table.fields.len() == 2)),
    wide("28 for tables of one field too", |book| first(book, |_, table| table.fields.len() != 2)),
    wide("28 for any table", |book| first(book, |_, _| true)),
    wide("28 for tables of four fields alone", |book| first(book, |_, table| table.fields.len() == 4)),
    wide("28 for tables of three fields alone", |book| first(book, |_, table| table.fields.len() == 3)),
    wide("28 for tables with rows alone", |book| first(book, |_, table| is_wide(table) && !table.rows.is_empty())),
    wide("28 for tables without rows alone", |book| first(book, |_, table| is_wide(table) && table.rows.is_empty())),
    wide("28 for tables of two fields without rows too", |book| {
        first(book, |_, table| is_wide(table) || (table.fields.len() == 2 && table.rows.is_empty()))
    }),
    wide("28 for more than two rows", |book| first(book, |_, table| table.rows.len() > 2)),
    wide("28 for more than two tables", |book| (book.tables.len() > 2).then_some(2)),
    wide("28 for a book of more than two fields", |book| (book.counts.len() > 2 && !book.tables.is_empty()).then_some(0)),
    wide("28 for a field in more than two tables", |book| {
        first(book, |_, table| table.fields.iter().any(|&f| tables_on(book, f) > 2))
    }),
    wide("28 for fields that are not next to each other", |book| {
        first(book, |_, table| is_wide(table) || table.fields.windows(2).any(|pair| pair[1] > pair[0] + 1))
    }),
    wide("the first table not looked at by 28", |book| first(book, |at, table| is_wide(table) && at > 0)),
    wide("the last table not looked at by 28", |book| first(book, |at, table| is_wide(table) && at + 1 < book.tables.len())),
    wide("the first table alone looked at by 28", |book| first(book, |at, table| is_wide(table) && at == 0)),
    wide("the last table alone looked at by 28", |book| first(book, |at, table| is_wide(table) && at + 1 == book.tables.len())),
    wide("tables from the 33rd on not looked at by 28", |book| first(book, |at, table| is_wide(table) && at < 32)),
    wide("every second table looked at by 28", |book| first(book, |at, table| is_wide(table) && at % 2 == 0)),
    wide("tables on fields from 32 on not looked at by 28", |book| {
        first(book, |_, table| is_wide(table) && table.fields.iter().all(|&field| field < 32))
    }),
    wide("28 only for two such tables", |book| {
        first_wide(book).filter(|_| book.tables.iter().filter(|t| is_wide(t)).count() > 1)
    }),
    wide("28 only for one such table", |book| {
        first_wide(book).filter(|_| book.tables.iter().filter(|t| is_wide(t)).count() == 1)
    }),
    wide("28 only before any ring", |book| first_wide(book).filter(|&at| !has_ring(&book.tables[..at]))),
    wide_named("28 at the last such table", |book| book.tables.iter().rposition(is_wide)),
    wide_named("28 at the first table of the most fields", |book| {
        let most = book.tables.iter().map(|table| table.fields.len()).max().filter(|&most| most > 2);
        book.tables.iter().position(|table| Some(table.fields.len()) == most)
    }),
    wide_named("28 at the first table", |book| first_wide(book).map(|_| 0)),
    wide_named("28 at the last table", |book| first_wide(book).map(|_| book.tables.len() - 1)),
    wide_named("28 at the table before", |book| first_wide(book).map(|at| at.saturating_sub(1))),
    wide_named("28 at the table behind", |book| first_wide(book).map(|at| (at + 1).min(book.tables.len() - 1))),
    closing("no 29", |_| None),
    closing("29 for any link", |book| first(book, |_, table| table.fields.len() == 2)),
    closing("rings of two fields not seen", |book| sized(book, |fields| fields != 2)),
    closing("rings of three fields not seen", |book| sized(book, |fields| fields != 3)),
    closing("rings of four fields not seen", |book| sized(book, |fields| fields != 4)),
    closing("only rings of two fields seen", |book| sized(book, |fields| fields == 2)),
    closing("only rings of two or three fields seen", |book| sized(book, |fields| fields <= 3)),
    closing("rings of more than eight fields not seen", |book| sized(book, |fields| fields <= 8)),
    closing("rings of more than 16 fields not seen", |book| sized(book, |fields| fields <= 16)),
    closing("rings of more than 32 fields not seen", |book| sized(book, |fields| fields <= 32)),
    closing("rings of 60 fields not seen", |book| sized(book, |fields| fields < 60)),
    closing("rings of all fields not seen", |book| sized(book, |fields| fields < book.counts.len())),
    closing("rings of an even number of fields not seen", |book| sized(book, |fields| fields % 2 == 1)),
    closing("rings of an odd number of fields not seen", |book| sized(book, |fields| fields % 2 == 0)),
    closing("two tables on a pair seen only one behind the other", |book| {
        seen(book, |book, ring, at| ring.len() > 2 || book.tables[at - 1].fields == book.tables[at].fields)
    }),
    closing("two tables on a pair seen only with others in between", |book| {
        seen(book, |book, ring, at| ring.len() > 2 || book.tables[at - 1].fields != book.tables[at].fields)
    }),
    closing("two tables on a pair seen only with the same rows", |book| {
        seen(book, |book, ring, at| ring.len() > 2 || book.tables[..at].contains(&book.tables[at]))
    }),
    closing("a ring seen only where its last two tables are next to each other", |book| {
        seen(book, |book, ring, at| ring.iter().any(|link| book.tables[at - 1].fields == *link))
    }),
    closing("rings on field 0 not seen", |book| seen(book, |_, ring, _| ring.iter().flatten().all(|&field| field > 0))),
    closing("only rings on field 0 seen", |book| seen(book, |_, ring, _| ring.iter().flatten().any(|&field| field == 0))),
    closing("rings on field 59 not seen", |book| seen(book, |_, ring, _| ring.iter().flatten().all(|&field| field < 59))),
    closing("rings on fields from 32 on not seen", |book| {
        seen(book, |_, ring, _| ring.iter().flatten().all(|&field| field < 32))
    }),
    closing("rings closed by the last table not seen", |book| seen(book, |book, _, at| at + 1 < book.tables.len())),
    closing("only rings closed by the last table seen", |book| seen(book, |book, _, at| at + 1 == book.tables.len())),
    closing("rings closed by the second table not seen", |book| seen(book, |_, _, at| at > 1)),
    closing("rings closed by the 33rd table or a later one not seen", |book| seen(book, |_, _, at| at < 32)),
    closing("rings closed by the 60th table or a later one not seen", |book| seen(book, |_, _, at| at < 59)),
    closing("rings closed by the 64th table not seen", |book| seen(book, |_, _, at| at < 63)),
    closing("only rings closed by a table without rows seen", |book| seen(book, |book, _, at| book.tables[at].rows.is_empty())),
    closing("rings closed by a table without rows not seen", |book| seen(book, |book, _, at| !book.tables[at].rows.is_empty())),
    closing("rings seen only in a book of version 2", |book| first_closing(book).filter(|_| book.version == 2)),
    closing("rings seen only in a book of version 1", |book| first_closing(book).filter(|_| book.version == 1)),
    closing("tables without rows no links", |book| among(book, |_, table| !table.rows.is_empty())),
    closing("tables of one row no links", |book| among(book, |_, table| table.rows.len() != 1)),
    closing("the first table no link", |book| among(book, |at, _| at > 0)),
    closing("the last table no link", |book| among(book, |at, _| at + 1 < book.tables.len())),
    closing("tables from the 33rd on no links", |book| among(book, |at, _| at < 32)),
    closing("the 64th table no link", |book| among(book, |at, _| at < 63)),
    closing("every second table no link", |book| among(book, |at, _| at % 2 == 0)),
    closing("no links on field 0", |book| among(book, |_, table| table.fields[0] > 0)),
    closing("no links on field 59", |book| among(book, |_, table| !table.fields.contains(&59))),
    closing("no links on fields from 32 on", |book| among(book, |_, table| table.fields.iter().all(|&field| field < 32))),
    closing("no links to the next field", |book| {
        among(book, |_, table| table.fields.len() < 2 || table.fields[0] + 1 < table.fields[1])
    }),
    closing("links to the next field alone", |book| {
        among(book, |_, table| table.fields.len() < 2 || table.fields[0] + 1 == table.fields[1])
    }),
    closing("a pair linked only once", |book| linked(book, |links| once(links.to_vec()))),
    closing("two tables on the same field a ring", |book| {
        first(book, |at, table| table.fields.len() == 1 && book.tables[..at].iter().any(|t| t.fields == table.fields))
            .into_iter()
            .chain(first_closing(book))
            .min()
    }),
    closing("a table of one field a ring", |book| {
        first(book, |_, table| table.fields.len() == 1).into_iter().chain(first_closing(book)).min()
    }),
    closing("tables of one field a link to the next field", |book| {
        by_tables(book, |tables| {
            let link = |table: &Table| match table.fields[..] {
                [field] => Some([field, field + 1]),
                [one, other] => Some([one, other]),
                _ => None,
            };
            !without_ends(tables.iter().filter_map(link).collect()).is_empty()
        })
    }),
    closing("fields by their low five bits", |book| {
        linked(book, |links| links.iter().map(|link| link.map(|f| f % 32)).collect())
    }),
    closing("fields by their low four bits", |book| {
        linked(book, |links| links.iter().map(|link| link.map(|f| f % 16)).collect())
    }),
    closing("fields by their low two bits", |book| linked(book, |links| links.iter().map(|link| link.map(|f| f % 4)).collect())),
    closing("the second field of a link taken as the next", |book| {
        linked(book, |links| links.iter().map(|&[one, _]| [one, one + 1]).collect())
    }),
    closing("the last link not looked at", |book| linked(book, |links| links[..links.len().saturating_sub(1)].to_vec())),
    closing("a field with two links a ring", |book| by_tables(book, |tables| (0..60).any(|field| links_on(tables, field) > 1))),
    closing("a field with three links a ring", |book| by_tables(book, |tables| (0..60).any(|field| links_on(tables, field) > 2))),
    closing("a ring only where each field of a link has two", |book| {
        by_tables(book, |tables| !links(tables).is_empty() && (0..60).all(|field| links_on(tables, field) != 1))
    }),
    closing("29 where both fields of a link have one already", |book| {
        first(book, |at, table| table.fields.len() == 2 && table.fields.iter().all(|&f| links_on(&book.tables[..at], f) > 0))
    }),
    closing("29 where both fields of a link have a table already", |book| {
        first(book, |at, table| {
            table.fields.len() == 2 && table.fields.iter().all(|f| book.tables[..at].iter().any(|t| t.fields.contains(f)))
        })
    }),
    closing("29 where there are as many links as fields", |book| {
        by_tables(book, |tables| links(tables).len() >= book.counts.len())
    }),
    closing("29 where there are as many links as linked fields", |book| {
        by_tables(book, |tables| !links(tables).is_empty() && links(tables).len() >= linked_fields(tables))
    }),
    closing("29 where there are two links more than linked fields", |book| {
        by_tables(book, |tables| links(tables).len() > linked_fields(tables) + 1)
    }),
    closing("29 where the book has as many tables as fields", |book| {
        (book.tables.len() >= book.counts.len()).then(|| book.counts.len() - 1)
    }),
    closing("only the second field of a link takes the label of the first", |book| labelled(book, |f| f, |f, [_, y], _| f == y)),
    closing("only the first field of a link keeps the first's label", |book| {
        labelled(book, |f| f, |f, [x, y], _| f == x || f == y)
    }),
    closing("only fields from the second on take the label of the first", |book| {
        labelled(book, |f| f, |f, [_, y], is_old| is_old && f >= y)
    }),
    closing("only fields up to the second take the label of the first", |book| {
        labelled(book, |f| f, |f, [_, y], is_old| is_old && f <= y)
    }),
    closing("field 0 keeps its label", |book| labelled(book, |f| f, |f, _, is_old| is_old && f > 0)),
    closing("field 59 keeps its label", |book| labelled(book, |f| f, |f, _, is_old| is_old && f < 59)),
    closing("fields from 32 on keep their labels", |book| labelled(book, |f| f, |f, _, is_old| is_old && f < 32)),
    closing("all fields of one label at first", |book| labelled(book, |_| 0, |_, _, is_old| is_old)),
    closing("labels by five bits at first", |book| labelled(book, |f| f % 32, |_, _, is_old| is_old)),
    closing("field 1 of field 0's label at first", |book| labelled(book, |f| f.max(1), |_, _, is_old| is_old)),
    closing("all fields take the label", |book| labelled(book, |f| f, |_, _, _| true)),
    closing("no field takes a label", |book| labelled(book, |f| f, |_, _, _| false)),
    closing("ways lead from lower fields to higher ones alone", |book| {
        first(book, |at, table| table.fields.len() == 2 && leads_up(&links(&book.tables[..at]), table.fields[0], table.fields[1]))
    }),
    closing("ways of one link alone followed", |book| {
        first(book, |at, table| table.fields.len() == 2 && links(&book.tables[..at]).iter().any(|link| link[..] == table.fields))
    }),
    closing("ways of two links in a row in the book's order alone followed", |book| {
        first(book, |at, table| table.fields.len() == 2 && leads_on(&links(&book.tables[..at]), table.fields[0], table.fields[1]))
    }),
    closing_named("29 at the last table that closes a ring", |book| {
        (0..book.tables.len()).rev().find(|&at| is_closing(book, at))
    }),
    closing_named("29 at the first table of the ring", |book| of_ring(book, |tables| tables.first().copied())),
    closing_named("29 at the second table of the ring", |book| of_ring(book, |tables| tables.get(1).copied())),
    closing_named("29 at the table of the ring before the last", |book| {
        of_ring(book, |tables| tables.iter().rev().nth(1).copied())
    }),
    closing_named("29 at the first table", |book| first_closing(book).map(|_| 0)),
    closing_named("29 at the last table", |book| first_closing(book).map(|_| book.tables.len() - 1)),
    closing_named("29 at the last link", |book| {
        first_closing(book).and_then(|_| book.tables.iter().rposition(|table| table.fields.len() == 2))
    }),
    closing_named("29 at the table before", |book| first_closing(book).map(|at| at - 1)),
    closing_named("29 at the table behind", |book| first_closing(book).map(|at| (at + 1).min(book.tables.len() - 1))),
    closing_named("29 by the number of the link among the links", |book| {
        first_closing(book).map(|at| links(&book.tables[..at]).len())
    }),
];

/// The first table that is so, by its number and the table.
fn first(book: &Book, so: impl Fn(usize, &Table) -> bool) -> Option<usize> {
    book.tables.iter().enumerate().position(|(at, table)| so(at, table))
}

/// The last of the first tables that are so together.
fn by_tables(book: &Book, so: impl Fn(&[Table]) -> bool) -> Option<usize> {
    (0..book.tables.len()).find(|&at| so(&book.tables[..=at]))
}

/// The first table with which other links than the right ones have a ring.
fn linked(book: &Book, change: impl Fn(&[[u8; 2]]) -> Vec<[u8; 2]>) -> Option<usize> {
    by_tables(book, |tables| !without_ends(change(&links(tables))).is_empty())
}

/// The first table that closes a ring where only such tables link, by their number and the table.
fn among(book: &Book, so: impl Fn(usize, &Table) -> bool) -> Option<usize> {
    let of = |last: usize| {
        book.tables[..=last].iter().enumerate().filter(|(at, table)| so(*at, table)).map(|(_, table)| table.clone())
    };
    (0..book.tables.len()).find(|&last| has_ring(&of(last).collect::<Vec<_>>()))
}

/// The first table that closes a ring that is seen, by the book, the ring's links and the table's number. What closes another ring is
/// passed over.
fn seen(book: &Book, so: impl Fn(&Book, &[[u8; 2]], usize) -> bool) -> Option<usize> {
    let mut passed: Vec<Table> = Vec::new();
    for (at, table) in book.tables.iter().enumerate() {
        passed.push(table.clone());
        let ring = without_ends(links(&passed));
        if !ring.is_empty() {
            if so(book, &ring, at) {
                return Some(at);
            }
            passed.pop();
        }
    }
    None
}

fn sized(book: &Book, so: impl Fn(usize) -> bool) -> Option<usize> {
    seen(book, |_, ring, _| so(ring.len()))
}

/// The first table whose two fields have one label, where fields have such labels at first, and behind a link [x, y] those take the label of
/// x that are so, by the field, the link, and whether they have the label of y.
fn labelled(book: &Book, own: fn(u8) -> u8, takes: fn(u8, [u8; 2], bool) -> bool) -> Option<usize> {
    let mut labels: Vec<u8> = (0..60).map(own).collect();
    for (at, table) in book.tables.iter().enumerate() {
        let [x, y] = table.fields[..] else {
            continue;
        };
        let (new, old) = (labels[x as usize], labels[y as usize]);
        if new == old {
            return Some(at);
        }
        (0..60)
            .filter(|&f| takes(f, [x, y], labels[f as usize] == old))
            .collect::<Vec<_>>()
            .iter()
            .for_each(|&f| labels[f as usize] = new);
    }
    None
}

fn tables_on(book: &Book, field: u8) -> usize {
    book.tables.iter().filter(|table| table.fields.contains(&field)).count()
}

fn links_on(tables: &[Table], field: u8) -> usize {
    links(tables).iter().filter(|link| link.contains(&field)).count()
}

fn linked_fields(tables: &[Table]) -> usize {
    (0..60).filter(|&field| links_on(tables, field) > 0).count()
}

fn once(mut links: Vec<[u8; 2]>) -> Vec<[u8; 2]> {
    links.sort();
    links.dedup();
    links
}

/// Whether links lead from the one field to the other, each to a higher field.
fn leads_up(links: &[[u8; 2]], from: u8, to: u8) -> bool {
    from == to || links.iter().any(|&[one, other]| one == from && other <= to && leads_up(links, other, to))
}

/// Whether links of tables in the book's order lead from the one field to the other.
fn leads_on(links: &[[u8; 2]], from: u8, to: u8) -> bool {
    from == to
        || links.iter().enumerate().any(|(at, &[one, other])| {
            (one == from && leads_on(&links[at + 1..], other, to)) || (other == from && leads_on(&links[at + 1..], one, to))
        })
}

/// The table closes a ring with those before it that close none.
fn is_closing(book: &Book, at: usize) -> bool {
    seen(book, |_, _, closes| closes == at).is_some()
}

/// A table of the ring that is closed first, by the numbers of all of them.
fn of_ring(book: &Book, which: fn(&[usize]) -> Option<usize>) -> Option<usize> {
    let last = first_closing(book)?;
    let ring = without_ends(links(&book.tables[..=last]));
    let tables: Vec<usize> = (0..=last).filter(|&at| ring.iter().any(|link| book.tables[at].fields == *link)).collect();
    which(&tables)
}
