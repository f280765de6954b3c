//! The alternatives by Gecode, where it is installed.

#[cfg(gecode)]
mod linked {
    use std::ffi::c_void;

    use sighting::PLACES;

    extern "C" {
        fn gecode_open(book: *const u8, length: usize) -> *mut c_void;
        fn gecode_close(root: *mut c_void);
        fn gecode_alternatives(root: *mut c_void, sheet: *const u8) -> u64;
    }

    /// The space of an accepted book, propagated without answers.
    pub struct Root(*mut c_void);

    impl Root {
        /// None where propagation without answers already fails.
        pub fn open(book: &[u8]) -> Option<Root> {
            // SAFETY: the bytes are an accepted book's.
            let root = unsafe { gecode_open(book.as_ptr(), book.len()) };
            (!root.is_null()).then_some(Root(root))
        }

        /// The total of a sheet with these answers and no photograph, by one clone for each of the n + 1 cases.
        pub fn alternatives(&self, answers: &[u8; PLACES]) -> u64 {
            // SAFETY: the root is open; there is a byte for each field.
            unsafe { gecode_alternatives(self.0, answers.as_ptr()) }
        }
    }

    impl Drop for Root {
        fn drop(&mut self) {
            // SAFETY: opened once, closed once.
            unsafe { gecode_close(self.0) }
        }
    }
}

#[cfg(not(gecode))]
mod linked {
    use sighting::PLACES;

    pub struct Root;

    impl Root {
        pub fn open(_: &[u8]) -> Option<Root> {
            None
        }

        pub fn alternatives(&self, _: &[u8; PLACES]) -> u64 {
            0
        }
    }
}

pub const INSTALLED: bool = cfg!(gecode);

pub use linked::Root;
