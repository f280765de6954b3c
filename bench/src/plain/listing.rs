//! Listings: shown from a checked book, and laid out as bytes that are checked before they are copied.

use super::reader::{check, view, View};
use super::Refused;

/// The bytes of the longest book that is accepted.
const LONGEST: usize = 16_898;

fn all_bytes(numbers: &[u16]) -> bool {
    numbers.iter().all(|&number| number < 256)
}

/// The place behind the table at `at`; none where a number of it is missing or too large.
fn table_end(listing: &[u16], at: usize) -> Option<usize> {
    let arity = *listing.get(at)? as usize;
    let first = at + 2 + arity;
    let rows = *listing.get(first - 1)? as usize;
    let (head, codes) = (&listing[at..first - 1], listing.get(first..first + rows * arity)?);
    (all_bytes(head) && all_bytes(codes)).then_some(first + codes.len())
}

/// Whether no number is missing, left over or too large, and the bytes are no more than a book's.
fn fits(listing: &[u16]) -> Option<bool> {
    let fields = *listing.first()? as usize;
    let tables = *listing.get(1 + fields)? as usize;
    // each table has one byte more than numbers, and the trailer three more than the numbers of fields and of tables and the version
    if listing.len() + tables + 3 > LONGEST || !all_bytes(&listing[..2 + fields]) {
        return Some(false);
    }
    let mut at = 2 + fields;
    for _ in 0..tables {
        at = table_end(listing, at)?;
    }
    Some(listing.len() - at == 1 && all_bytes(&listing[at..]))
}

/// Lays out one byte for each number, and answers the place behind them.
fn narrow(numbers: &[u16], out: &mut [u8], to: usize) -> usize {
    for (byte, &number) in out[to..to + numbers.len()].iter_mut().zip(numbers) {
        *byte = number as u8;
    }
    to + numbers.len()
}

fn put<const N: usize>(bytes: [u8; N], out: &mut [u8], to: usize) -> usize {
    out[to..to + N].copy_from_slice(&bytes);
    to + N
}

/// Lays out the table at `at`, and answers the places behind it in the listing and in the bytes.
fn lay_table(listing: &[u16], at: usize, out: &mut [u8], to: usize) -> (usize, usize) {
    let arity = listing[at] as usize;
    let first = at + 2 + arity;
    let end = first + listing[first - 1] as usize * arity;
    let to = narrow(&listing[at..first - 1], out, to);
    let to = put(listing[first - 1].to_le_bytes(), out, to);
    (end, narrow(&listing[first..end], out, to))
}

/// Lays out a listing that fits, and answers how many bytes the book has.
fn lay_out(listing: &[u16], out: &mut [u8]) -> usize {
    let fields = listing[0] as usize;
    let tables = listing[1 + fields];
    let (mut at, mut to) = (2 + fields, 0);
    for _ in 0..tables {
        (at, to) = lay_table(listing, at, out, to);
    }
    let list = to as u16;
    to = narrow(&listing[1..1 + fields], out, to);
    to = put(list.to_le_bytes(), out, to);
    put([fields as u8, tables as u8, listing[at] as u8, 0xE5], out, to)
}

/// How many bytes the book has that the listing says, if it passes one more test behind 20; they go to `out`.
pub fn write_tested(listing: &[u16], out: &mut [u8], test: impl FnOnce(&View) -> Result<(), Refused>) -> Result<u64, Refused> {
    if fits(listing) != Some(true) {
        return Err((20, 0));
    }
    let mut scratch = [0; LONGEST];
    let length = lay_out(listing, &mut scratch);
    let bytes = &scratch[..length];
    test(&view(bytes).map_err(|_| (20, 0))?)?;
    out.get_mut(..length).ok_or((18, 0))?.copy_from_slice(bytes);
    Ok(length as u64)
}

/// How many bytes the book has that the listing says; they go to `out`.
pub fn write(listing: &[u16], out: &mut [u8]) -> Result<u64, Refused> {
    write_tested(listing, out, |_| Ok(()))
}

/// Writes one number for each byte, and answers the place behind them.
fn show_bytes(bytes: &[u8], out: &mut [u16], at: usize) -> usize {
    for (number, &byte) in out[at..at + bytes.len()].iter_mut().zip(bytes) {
        *number = byte as u16;
    }
    at + bytes.len()
}

fn show_table(view: &View, from: usize, out: &mut [u16], at: usize) -> (usize, usize) {
    let table = view.table(from);
    let end = table.first + table.arity * table.rows;
    let at = show_bytes(&view.bytes[from..from + 1 + table.arity], out, at);
    out[at] = table.rows as u16;
    (end, show_bytes(&view.bytes[table.first..end], out, at + 1))
}

/// How many numbers the book's listing has; they go to `out`.
pub fn show(bytes: &[u8], out: &mut [u16]) -> Result<u64, Refused> {
    let view = check(bytes)?.view;
    // every byte of a book shows one number, but for the second byte of each number of rows and three bytes of the trailer
    let numbers = bytes.len() - view.tables - 3;
    let out = out.get_mut(..numbers).ok_or((18, 0))?;
    out[0] = view.fields as u16;
    let mut at = show_bytes(view.counts(), out, 1);
    out[at] = view.tables as u16;
    at += 1;
    let mut from = 0;
    for _ in 0..view.tables {
        (from, at) = show_table(&view, from, out, at);
    }
    out[at] = bytes[bytes.len() - 2] as u16;
    Ok(numbers as u64)
}
