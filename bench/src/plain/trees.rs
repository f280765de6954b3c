//! Tree books: read and written as any book, with 28 and 29 behind the tests of the book. Rings are found in two forms, by a label for each
//! field, as the library has them, and by trees of fields.

use std::array::from_fn;

use super::listing::write_tested;
use super::reader::{accept, count, Counts, Table, View};
use super::{Refused, PLACES};

/// The most fields of a table of a tree book.
const TREE_ARITY: usize = 2;

/// The first table whose fields are of this kind, by its first byte.
fn first(view: &View, mut kind: impl FnMut(&[u8]) -> bool) -> Option<u64> {
    let mut next = 0;
    for _ in 0..view.tables {
        let Table { at, arity, first, rows } = view.table(next);
        if kind(&view.bytes[at + 1..at + 1 + arity]) {
            return Some(at as u64);
        }
        next = first + arity * rows;
    }
    None
}

/// 28, then 29. Of the fields of one table after another the last argument tells whether they close a ring.
fn is_tree(view: &View, closes: impl FnMut(&[u8]) -> bool) -> Result<(), Refused> {
    if let Some(place) = first(view, |fields| fields.len() > TREE_ARITY) {
        return Err((28, place));
    }
    first(view, closes).map_or(Ok(()), |place| Err((29, place)))
}

/// Each field has a label, and two have the same where tables passed link them: the second's gives way to the first's.
fn by_labels() -> impl FnMut(&[u8]) -> bool {
    let mut labels: [u8; PLACES] = from_fn(|field| field as u8);
    move |fields| {
        let &[left, right] = fields else { return false };
        let (new, old) = (labels[left as usize], labels[right as usize]);
        for label in &mut labels {
            if *label == old {
                *label = new;
            }
        }
        new == old
    }
}

/// The field that stands at the root of another's tree. The way there becomes half as long.
fn root(above: &mut [u8; PLACES], mut field: u8) -> u8 {
    while above[field as usize] != field {
        above[field as usize] = above[above[field as usize] as usize];
        field = above[field as usize];
    }
    field
}

/// Each field has one above it, or is a root, and two have the same root where tables passed link them.
fn by_roots() -> impl FnMut(&[u8]) -> bool {
    let mut above: [u8; PLACES] = from_fn(|field| field as u8);
    move |fields| {
        let &[left, right] = fields else { return false };
        let (new, old) = (root(&mut above, left), root(&mut above, right));
        above[old as usize] = new;
        new == old
    }
}

/// What a tree book has.
pub fn read(bytes: &[u8]) -> Result<Counts, Refused> {
    let (view, rows) = accept(bytes, |_, _| {})?;
    is_tree(&view, by_labels())?;
    Ok(count(&view, rows))
}

/// The same, rings found by roots.
pub fn read_by_roots(bytes: &[u8]) -> Result<Counts, Refused> {
    let (view, rows) = accept(bytes, |_, _| {})?;
    is_tree(&view, by_roots())?;
    Ok(count(&view, rows))
}

/// How many bytes the tree book has that the listing says; they go to `out`.
pub fn write(listing: &[u16], out: &mut [u8]) -> Result<u64, Refused> {
    write_tested(listing, out, |view| is_tree(view, by_labels()).map_err(|(number, _)| (number, 0)))
}
