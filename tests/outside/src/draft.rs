//! A book's bytes by their parts, each of which may be wrong: nothing is looked at when they are written.

use crate::book::{Book, Table};

pub struct TableDraft {
    pub arity: u8,
    pub fields: Vec<u8>,
    pub rows: u16,
    pub codes: Vec<u8>,
}

impl TableDraft {
    fn of(table: &Table) -> TableDraft {
        let (arity, rows) = (table.fields.len() as u8, table.rows.len() as u16);
        TableDraft { arity, fields: table.fields.clone(), rows, codes: table.rows.concat() }
    }

    fn write(&self) -> Vec<u8> {
        [&[self.arity][..], &self.fields, &self.rows.to_le_bytes(), &self.codes].concat()
    }
}

pub struct Draft {
    pub tables: Vec<TableDraft>,
    /// The table at which the tables end, with the bytes of it that are kept.
    pub cut: Option<(usize, usize)>,
    pub left_over: Vec<u8>,
    /// The field list.
    pub counts: Vec<u8>,
    /// What the trailer's place of the field list is off by.
    pub off: u16,
    pub fields: u8,
    pub table_count: u8,
    pub version: u8,
    pub closing: u8,
    /// The length of the whole: by more bytes left over, or by the book's last bytes alone.
    pub length: Option<usize>,
}

impl Draft {
    pub fn of(book: &Book) -> Draft {
        Draft {
            tables: book.tables.iter().map(TableDraft::of).collect(),
            cut: None,
            left_over: Vec::new(),
            counts: book.counts.clone(),
            off: 0,
            fields: book.counts.len() as u8,
            table_count: book.tables.len() as u8,
            version: book.version,
            closing: 0xE5,
            length: None,
        }
    }

    pub fn write(&self) -> Vec<u8> {
        let mut tables: Vec<Vec<u8>> = self.tables.iter().map(TableDraft::write).collect();
        if let Some((table, kept)) = self.cut {
            tables.truncate(table + 1);
            tables[table].truncate(kept);
        }
        let mut out = [tables.concat(), self.left_over.clone()].concat();
        let behind = self.counts.len() + 6;
        if let Some(length) = self.length {
            out.resize(length.saturating_sub(behind).max(out.len()), 1);
        }
        let place = (out.len() as u16).wrapping_add(self.off);
        out.extend(&self.counts);
        out.extend(place.to_le_bytes());
        out.extend([self.fields, self.table_count, self.version, self.closing]);
        let longer = self.length.map_or(0, |length| out.len().saturating_sub(length));
        out.split_off(longer)
    }
}
