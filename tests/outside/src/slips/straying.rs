//! Libraries that answer rightly and touch memory that they may not touch: one byte before or behind what is lent, or a byte that is
//! lent to be read only. Most of them die by it, so each needs a process of its own.

use super::{Slip, Wrong};
use crate::calls::{MAKING, OF_A_BOOK, OF_A_SHEET, TELLING, WRITING};
use crate::library::Lent;

#[derive(Clone, Copy, Debug)]
enum Memory {
    Book,
    List,
    Listing,
    Sheet,
    Outcome,
    Bytes,
    Shown,
    Numbers,
}

#[derive(Clone, Copy, Debug)]
enum Place {
    Before,
    Behind,
    /// The first byte of it.
    Within,
}

#[derive(Clone, Copy, Debug)]
enum Access {
    Read,
    Written,
}

#[derive(Clone, Copy)]
pub struct Stray {
    memory: Memory,
    place: Place,
    access: Access,
}

impl Stray {
    /// Touches the byte. A guard page ends the program.
    ///
    /// # Safety
    /// The memory lies in a room.
    pub unsafe fn touch(&self, lent: &Lent) {
        let (at, length) = match self.memory {
            Memory::Book => (lent.book.at, lent.book.len),
            Memory::List => (lent.list.at, lent.list.len),
            Memory::Listing => (lent.listing.at.cast(), 2 * lent.listing.len),
            Memory::Sheet => (lent.sheet.at, lent.sheet.len),
            Memory::Outcome => (lent.cells.at.cast(), 8 * lent.cells.len),
            Memory::Bytes => (lent.bytes.at, lent.bytes.len),
            Memory::Shown => (lent.shown.at.cast(), 2 * lent.shown.len),
            Memory::Numbers => (lent.numbers.at.cast(), 4 * lent.numbers.len),
        };
        let byte: *mut u8 = match self.place {
            Place::Before => at.wrapping_sub(1),
            Place::Behind => at.wrapping_add(length),
            Place::Within => at,
        };
        match self.access {
            Access::Read => drop(byte.read_volatile()),
            Access::Written => byte.write_volatile(0),
        }
    }
}

/// The calls that each memory is lent to.
const LENT: [(Memory, &[&str]); 9] = [
    (Memory::Book, OF_A_BOOK),
    (Memory::List, &["plan", "load", "load_short", "shorten", "lengthen", "join", "replay", "report"]),
    (Memory::Listing, WRITING),
    (Memory::Sheet, MAKING),
    (Memory::Sheet, OF_A_SHEET),
    (Memory::Outcome, TELLING),
    (
        Memory::Bytes,
        &[
            "alternatives",
            "nearest",
            "store",
            "store_short",
            "shorten",
            "lengthen",
            "join",
            "replay",
            "report",
            "write",
            "write_tree",
        ],
    ),
    (Memory::Shown, &["show"]),
    (Memory::Numbers, &["filtered"]),
];

/// The calls that each memory is lent to be read only.
const LENT_TO_READ: [(Memory, &[&str]); 4] =
    [LENT[0], LENT[1], LENT[2], (Memory::Sheet, &["filtered", "alternatives", "row", "nearest", "plan", "store", "store_short"])];

const BESIDE: [(Place, Access); 4] = [
    (Place::Before, Access::Read),
    (Place::Before, Access::Written),
    (Place::Behind, Access::Read),
    (Place::Behind, Access::Written),
];

/// The strays in every memory and call.
fn in_each(lent: &[(Memory, &[&'static str])], strays: &[(Place, Access)]) -> Vec<Slip> {
    let mut slips = Vec::new();
    for &(memory, calls) in lent {
        for (call, &(place, access)) in calls.iter().flat_map(|call| strays.iter().map(move |stray| (call, stray))) {
            let what = format!("a byte {access:?} {place:?} {memory:?}").to_lowercase();
            slips.push(Slip::new(call, &what, Wrong::Memory(Stray { memory, place, access })));
        }
    }
    slips
}

pub fn slips() -> Vec<Slip> {
    let mut slips = in_each(&LENT, &BESIDE);
    slips.extend(in_each(&LENT_TO_READ, &[(Place::Within, Access::Written)]));
    slips
}
