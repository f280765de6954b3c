//! Memory to lend: at one end it lies flush against a page that nobody may touch, at the other known bytes stand beside it. Lent to be
//! read, it lies on pages that cannot be written.

use std::ffi::{c_char, c_int, c_long, c_uint, c_void};
use std::marker::PhantomData;

extern "C" {
    fn memfd_create(name: *const c_char, flags: c_uint) -> c_int;
    fn ftruncate(file: c_int, length: c_long) -> c_int;
    fn mmap(at: *mut c_void, length: usize, protection: c_int, flags: c_int, file: c_int, offset: c_long) -> *mut c_void;
}

// Linux's numbers on x86-64.
const PROT_NONE: c_int = 0;
const PROT_READ: c_int = 1;
const PROT_WRITE: c_int = 2;
const MAP_SHARED: c_int = 1;
const MAP_PRIVATE: c_int = 2;
const MAP_FIXED: c_int = 0x10;
const MAP_ANONYMOUS: c_int = 0x20;

const PAGE: usize = 4096;

/// The bytes of a room: more than any book, list, listing or buffer of the cases has.
const ROOM: usize = 160 * PAGE;

/// How many known bytes stand beside what is lent.
const BESIDE: usize = 64;

const KNOWN: u8 = 0xA5;

/// The end of a room at which memory lies flush against the page that nobody may touch.
#[derive(Clone, Copy, Debug)]
pub enum End {
    Front,
    Back,
}

/// Memory as it is lent: so many elements from an address on.
pub struct Part<T> {
    pub at: *mut T,
    pub len: usize,
}

impl<T> Part<T> {
    /// What the memory holds.
    ///
    /// # Safety
    /// Nobody writes the memory while the slice is used.
    pub unsafe fn elements<'a>(&self) -> &'a [T] {
        std::slice::from_raw_parts(self.at, self.len)
    }

    /// The memory, to write.
    ///
    /// # Safety
    /// The memory was lent to be written, and nobody else uses it while the slice is used.
    pub unsafe fn elements_mut<'a>(&self) -> &'a mut [T] {
        std::slice::from_raw_parts_mut(self.at, self.len)
    }
}

/// The same bytes at two addresses: to be written, and to be read only. Each lies between two pages that nobody may touch.
pub struct Room {
    writable: *mut u8,
    readable: *mut u8,
}

/// Maps the file between two pages that nobody may touch.
fn between_guards(file: c_int, protection: c_int) -> *mut u8 {
    // SAFETY: the second mapping takes the place of pages that the first one has reserved.
    unsafe {
        let reserved = mmap(std::ptr::null_mut(), ROOM + 2 * PAGE, PROT_NONE, MAP_PRIVATE | MAP_ANONYMOUS, -1, 0);
        assert_ne!(reserved as isize, -1, "no memory to reserve");
        let inside = reserved.add(PAGE);
        assert_eq!(mmap(inside, ROOM, protection, MAP_SHARED | MAP_FIXED, file, 0), inside, "no memory to lend");
        inside.cast()
    }
}

impl Default for Room {
    /// A room is never given back: it serves as long as the program runs.
    fn default() -> Room {
        // SAFETY: the name ends in a zero byte.
        let file = unsafe { memfd_create(c"lent".as_ptr(), 0) };
        // SAFETY: the file is ours.
        assert_eq!(unsafe { ftruncate(file, ROOM as c_long) }, 0, "no file in memory");
        Room { writable: between_guards(file, PROT_READ | PROT_WRITE), readable: between_guards(file, PROT_READ) }
    }
}

impl Room {
    /// Puts the elements at one end of the room.
    pub fn put<T: Copy>(&self, end: End, elements: &[T]) -> Placed<'_, T> {
        let bytes = size_of_val(elements);
        assert!(bytes + BESIDE <= ROOM, "the room is too small");
        let (offset, beside) = match end {
            End::Front => (0, bytes),
            End::Back => (ROOM - bytes, ROOM - bytes - BESIDE),
        };
        // SAFETY: all of it lies in the room, and both ends are aligned for every element.
        unsafe {
            std::ptr::copy_nonoverlapping(elements.as_ptr().cast(), self.writable.add(offset), bytes);
            self.writable.add(beside).write_bytes(KNOWN, BESIDE);
        }
        Placed { room: self, offset, beside, len: elements.len(), element: PhantomData }
    }
}

/// Elements that were put into a room.
pub struct Placed<'a, T> {
    room: &'a Room,
    offset: usize,
    beside: usize,
    len: usize,
    element: PhantomData<T>,
}

impl<T: Copy> Placed<'_, T> {
    /// The elements, to be read only.
    pub fn readable(&self) -> Part<T> {
        Part { at: self.room.readable.wrapping_add(self.offset).cast(), len: self.len }
    }

    /// The elements, to be written too.
    pub fn writable(&self) -> Part<T> {
        Part { at: self.room.writable.wrapping_add(self.offset).cast(), len: self.len }
    }

    /// What they are now; none where the known bytes beside them have changed.
    pub fn left(&self) -> Option<Vec<T>> {
        // SAFETY: all of it lies in the room, and nobody is called while it is looked at.
        let (beside, elements) = unsafe {
            let beside = std::slice::from_raw_parts(self.room.readable.add(self.beside), BESIDE);
            (beside, self.readable().elements())
        };
        beside.iter().all(|&byte| byte == KNOWN).then(|| elements.to_vec())
    }
}

#[cfg(test)]
mod tests {
    use super::{End, Room};

    #[test]
    fn what_is_written_beside_is_seen() {
        let room = Room::default();
        for (end, beside) in [(End::Front, 3), (End::Back, -1)] {
            let placed = room.put(end, &[1u8, 2, 3]);
            assert_eq!(placed.left(), Some(vec![1, 2, 3]));
            // SAFETY: the byte lies in the room.
            unsafe { placed.writable().at.offset(beside).write(0) };
            assert_eq!(placed.left(), None);
        }
    }

    #[test]
    fn both_addresses_show_the_same() {
        let room = Room::default();
        let placed = room.put(End::Back, &[1u64, 2]);
        // SAFETY: two elements lie there.
        unsafe {
            placed.writable().elements_mut()[1] = 7;
            assert_eq!(placed.readable().elements(), [1, 7]);
        }
        assert_eq!(placed.left(), Some(vec![1, 7]));
    }
}
