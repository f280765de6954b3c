//! The library's functions as they are exported; `include/sighting.h` documents each.

extern "C" {
    pub fn sighting_read(book: *const u8, book_len: usize, outcome: *mut u64) -> u64;
    pub fn sighting_fresh(sheet: *mut u8);
    pub fn sighting_clear(sheet: *mut u8);
    pub fn sighting_enter(sheet: *mut u8, book: *const u8, book_len: usize, field: usize, code: usize, outcome: *mut u64) -> u64;
    pub fn sighting_withdraw(sheet: *mut u8, book: *const u8, book_len: usize, field: usize, outcome: *mut u64) -> u64;
    pub fn sighting_photograph(sheet: *mut u8, book: *const u8, book_len: usize, field: usize, outcome: *mut u64) -> u64;
    pub fn sighting_filtered(
        sheet: *const u8,
        book: *const u8,
        book_len: usize,
        relaxed: usize,
        out: *mut u32,
        out_len: usize,
        outcome: *mut u64,
    ) -> u64;
    pub fn sighting_alternatives(
        sheet: *const u8,
        book: *const u8,
        book_len: usize,
        out: *mut u8,
        out_len: usize,
        outcome: *mut u64,
    ) -> u64;
    pub fn sighting_row(
        sheet: *const u8,
        book: *const u8,
        book_len: usize,
        field: usize,
        code: usize,
        table: usize,
        outcome: *mut u64,
    ) -> u64;
    pub fn sighting_nearest(
        sheet: *const u8,
        book: *const u8,
        book_len: usize,
        out: *mut u8,
        out_len: usize,
        outcome: *mut u64,
    ) -> u64;
    pub fn sighting_plan(
        sheet: *const u8,
        book: *const u8,
        book_len: usize,
        target: usize,
        questions: *const u8,
        questions_len: usize,
        outcome: *mut u64,
    ) -> u64;
    pub fn sighting_load(
        sheet: *mut u8,
        book: *const u8,
        book_len: usize,
        form: *const u8,
        form_len: usize,
        outcome: *mut u64,
    ) -> u64;
    pub fn sighting_store(
        sheet: *const u8,
        book: *const u8,
        book_len: usize,
        out: *mut u8,
        out_len: usize,
        outcome: *mut u64,
    ) -> u64;
    pub fn sighting_load_short(
        sheet: *mut u8,
        book: *const u8,
        book_len: usize,
        form: *const u8,
        form_len: usize,
        outcome: *mut u64,
    ) -> u64;
    pub fn sighting_store_short(
        sheet: *const u8,
        book: *const u8,
        book_len: usize,
        out: *mut u8,
        out_len: usize,
        outcome: *mut u64,
    ) -> u64;
    pub fn sighting_shorten(
        book: *const u8,
        book_len: usize,
        form: *const u8,
        form_len: usize,
        out: *mut u8,
        out_len: usize,
        outcome: *mut u64,
    ) -> u64;
    pub fn sighting_lengthen(
        book: *const u8,
        book_len: usize,
        form: *const u8,
        form_len: usize,
        out: *mut u8,
        out_len: usize,
        outcome: *mut u64,
    ) -> u64;
    pub fn sighting_replay(
        sheet: *mut u8,
        book: *const u8,
        book_len: usize,
        calls: *const u8,
        calls_len: usize,
        out: *mut u8,
        out_len: usize,
        outcome: *mut u64,
    ) -> u64;
    pub fn sighting_report(
        book: *const u8,
        book_len: usize,
        form: *const u8,
        form_len: usize,
        out: *mut u8,
        out_len: usize,
        outcome: *mut u64,
    ) -> u64;
    pub fn sighting_show(book: *const u8, book_len: usize, out: *mut u16, out_len: usize, outcome: *mut u64) -> u64;
    pub fn sighting_write(listing: *const u16, listing_len: usize, out: *mut u8, out_len: usize, outcome: *mut u64) -> u64;
    pub fn sighting_read_tree(book: *const u8, book_len: usize, outcome: *mut u64) -> u64;
    pub fn sighting_write_tree(listing: *const u16, listing_len: usize, out: *mut u8, out_len: usize, outcome: *mut u64) -> u64;
    pub fn sighting_join(
        first: *const u8,
        first_len: usize,
        second: *const u8,
        second_len: usize,
        out: *mut u8,
        out_len: usize,
        outcome: *mut u64,
    ) -> u64;
}
