//! Calls of tree books as they were made, and what is asked of their tables, links and rings.

use std::ops::RangeInclusive;

use crate::book::{Book, Refusal, Table};
use crate::calls::Call;
use crate::cases::Case;
use crate::compare::Trial;
use crate::desk::Reading;
use crate::listing::{Fault, ListedTable, Listing};
use crate::reader::Reader;
use crate::trees::{first_closing, first_wide, has_ring, is_wide, links, without_ends};

/// A call of tree books as it was made, with one length lent or another.
pub struct Asked<'a> {
    pub call: &'a Call,
    pub trials: &'a [Trial<'a>],
    /// The book that is read, or laid out from a listing.
    book: Reading,
    /// Its tables; of a refused book those before the place, where a table is refused or what stands behind the last one, and of a listing
    /// that no book has those that it says. In both without rows.
    tables: Vec<Table>,
    /// For 29 the links of the ring that is closed first.
    ring: Vec<[u8; 2]>,
}

/// The tables without their rows that end before the place of refused bytes, or at it, and where each begins.
pub fn tables_before(bytes: &[u8], refusal: &Refusal) -> Vec<(usize, Table)> {
    let (mut at, mut tables) = (0, Vec::new());
    while (8..=13).contains(&refusal.number) && at < refusal.place as usize {
        let arity = bytes[at] as usize;
        let Some(&[low, high]) = bytes.get(at + 1 + arity..at + 3 + arity).and_then(|rows| <&[u8; 2]>::try_from(rows).ok())
        else {
            break;
        };
        let (fields, rows) = (bytes[at + 1..at + 1 + arity].to_vec(), u16::from_le_bytes([low, high]) as usize);
        let end = at + 3 + arity + rows * arity;
        if end <= refusal.place as usize {
            tables.push((at, Table { fields, rows: Vec::new() }));
        }
        at = end;
    }
    tables
}

fn before(bytes: &[u8], reading: &Reading) -> Vec<Table> {
    let tables = reading.as_ref().err().map(|refusal| tables_before(bytes, refusal)).unwrap_or_default();
    tables.into_iter().map(|(_, table)| table).collect()
}

/// The tables without their rows that a listing says, as far as their fields are bytes.
pub fn said(listing: &[u16]) -> Vec<Table> {
    let table = |table: &ListedTable| {
        let fields = table.fields.iter().map(|&field| u8::try_from(field)).collect::<Result<_, _>>();
        fields.ok().map(|fields| Table { fields, rows: Vec::new() })
    };
    Listing::in_front(listing).map_or(Vec::new(), |(listing, _)| listing.tables.iter().filter_map(table).collect())
}

/// The book that a listing says, or why none has it; what is no refusal of reading has no number.
pub fn laid_out(listing: &[u16]) -> Reading {
    let laid_out = Listing::taken_apart(listing).and_then(|listing| listing.lay_out());
    laid_out.and_then(|bytes| Reader::default().read(&bytes).map_err(Fault::Refused)).map_err(|fault| match fault {
        Fault::Refused(refusal) => refusal,
        _ => Refusal { number: 0, place: 0 },
    })
}

impl<'a> Asked<'a> {
    /// None where the trials are of another call.
    pub fn by(case: &'a Case, reading: &Reading, trials: &'a [Trial]) -> Option<Asked<'a>> {
        let call = trials.first()?.call;
        let (book, otherwise) = match call {
            Call::ReadTree => (reading.clone(), before(&case.book, reading)),
            Call::WriteTree { listing } => (laid_out(listing), said(listing)),
            _ => return None,
        };
        let tables = book.as_ref().map_or(otherwise, |book| book.tables.clone());
        let first_ring = |book: &Book| first_closing(book).map(|last| without_ends(links(&book.tables[..=last])));
        let closes = trials[0].left.number == 29;
        let ring = book.as_ref().ok().filter(|_| closes).and_then(first_ring).unwrap_or_default();
        Some(Asked { call, trials, book, tables, ring })
    }

    /// The number where as many elements are lent as are asked for.
    pub fn number(&self) -> u64 {
        self.trials[0].left.number
    }

    fn place(&self) -> usize {
        self.trials[0].left.cells[0] as usize
    }

    pub fn written(&self) -> usize {
        self.trials[0].asked.written
    }

    /// So many bytes are lent once.
    pub fn lends(&self, so: impl Fn(usize) -> bool) -> bool {
        self.trials.iter().any(|trial| so(trial.lent.elements()))
    }

    /// A book that is accepted by reading, and so.
    fn reads(&self, so: impl Fn(&Book) -> bool) -> bool {
        self.book.as_ref().is_ok_and(so)
    }

    /// A tree book that is so.
    pub fn is_tree(&self, so: impl Fn(&Book) -> bool) -> bool {
        self.number() == 0 && self.reads(so)
    }

    /// The links of a tree book are so.
    pub fn has_links(&self, so: impl Fn(&[[u8; 2]]) -> bool) -> bool {
        self.is_tree(|book| so(&links(&book.tables)))
    }

    /// In a tree book some field has so many links.
    pub fn has_field_of(&self, so_many: RangeInclusive<usize>) -> bool {
        self.has_links(|links| (0..60).any(|field| so_many.contains(&links_of(links, field))))
    }

    /// A tree book of one path with so many fields.
    pub fn is_path_of(&self, fields: usize) -> bool {
        self.has_links(|links| {
            let ends = (0..60).filter(|&field| links_of(links, field) == 1).count();
            links.len() + 1 == fields && ends == 2 && (0..60).all(|field| links_of(links, field) <= 2)
        })
    }

    /// 28 for a table that is so, by its number and the table.
    pub fn is_28(&self, so: impl Fn(&Book, usize) -> bool) -> bool {
        self.number() == 28 && self.reads(|book| first_wide(book).is_some_and(|table| so(book, table)))
    }

    /// 28 for a table of so many fields.
    pub fn is_28_for(&self, arity: usize) -> bool {
        self.is_28(|book, table| book.tables[table].fields.len() == arity)
    }

    /// 29 for a table that is so, by its number.
    pub fn is_29(&self, so: impl Fn(&Book, usize) -> bool) -> bool {
        self.number() == 29 && self.reads(|book| first_closing(book).is_some_and(|table| so(book, table)))
    }

    /// 29 for a ring of so many fields.
    pub fn is_ring_of(&self, fields: RangeInclusive<usize>) -> bool {
        fields.contains(&self.ring.len())
    }

    /// 29 for a ring on a field that is so.
    pub fn has_ring_on(&self, so: fn(u8) -> bool) -> bool {
        self.ring.iter().flatten().any(|&field| so(field))
    }

    /// 29 for two tables on the same pair of fields, the first and the second so.
    pub fn are_twins(&self, so: impl Fn(&Table, &Table) -> bool) -> bool {
        self.is_29(|book, last| {
            let closing = &book.tables[last];
            book.tables[..last].iter().any(|table| table.fields == closing.fields && so(table, closing))
        })
    }

    /// 29, and some link of the ring is of a table that is so.
    pub fn has_ring_by(&self, so: fn(&Table) -> bool) -> bool {
        self.is_29(|book, last| {
            book.tables[..=last].iter().any(|table| self.ring.iter().any(|link| table.fields == link[..]) && so(table))
        })
    }

    /// 28 or 29 at such a place.
    pub fn has_place(&self, number: u64, so: fn(usize) -> bool) -> bool {
        self.number() == number && so(self.place())
    }

    /// Refused by this number, and a table before the place, or one that the listing says, has more than two fields.
    pub fn is_beside_wide(&self, number: u64) -> bool {
        self.number() == number && self.tables.iter().any(is_wide)
    }

    /// The same for a ring.
    pub fn is_beside_ring(&self, number: u64) -> bool {
        self.number() == number && has_ring(&self.tables)
    }
}

fn links_of(links: &[[u8; 2]], field: u8) -> usize {
    links.iter().filter(|link| link.contains(&field)).count()
}

/// The tables from the one behind this one on close a ring by themselves, or with those before it.
pub fn closes_again(book: &Book, last: usize) -> bool {
    let tables = [&book.tables[..last], &book.tables[last + 1..]].concat();
    has_ring(&tables)
}
