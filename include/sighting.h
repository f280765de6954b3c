/*
 * The sighting desk as a library: libsighting.a, made by tests/build.
 *
 * A book is lent as its bytes, a sheet is an array of SIGHTING_SHEET_BYTES bytes that the caller keeps, and a listing is an array of
 * 16-bit numbers, of any length. Every function is total: for any bytes of a book, any bytes of a sheet and any numbers it ends with
 * one of the numbers below. It takes no memory from the heap and keeps nothing between calls. Several threads may call at once: what is
 * lent `const`, a sheet too, is only read and may be shared by several readers; what a call may write is for that call alone while it
 * runs.
 *
 * What the caller owes, as for any C function: each pointer, also one whose length is 0, is not null, is aligned for its type, and
 * points to as many elements as the length beside it says (sheets: SIGHTING_SHEET_BYTES; outcomes: the number that stands in the
 * brackets). Memory that a call may write (a sheet that is not const, out, outcome) overlaps no other memory lent to that call.
 *
 * What each call returns
 *
 * Every call but sighting_fresh and sighting_clear returns a number: 0 for accepted, else the number of the refusal. It writes all
 * cells of `outcome` in every case. outcome[0] is the place, 0 for an accepted call; the other cells are what the call counted or found,
 * all 0 for a refused call.
 *
 * A refused call leaves every element of `out` as it was, an accepted one every element behind those that it writes.
 *
 * A call that may write the sheet leaves in it the sheet that it hands back, also where it is refused: after a refused enter, withdraw
 * or photograph that is the sheet as it was given, byte for byte; after a refused load or load_short a fresh one; and after a replay,
 * refused or not, the one that its list reached.
 *
 *   number  refused because                                                      place
 *   ------  -------------------------------------------------------------------  ------------------------------------------------
 *        1  the book has fewer than 6 or more than 32,768 bytes                  0
 *        2  its closing byte is not 0xE5                                         that byte of the book
 *        3  its version is neither 1 nor 2                                       that byte
 *        4  its number of fields is not 1 to 32 (version 1) or 1 to 60 (2)       that byte
 *        5  its number of tables is above 64                                     that byte
 *        6  place of the field list + fields + 6 is not the length               the trailer's first byte
 *        7  a field has not 1 to 32 codes                                        the field's byte in the field list
 *        8  a table has too few bytes before the field list                      the table's first byte, or where it would be
 *        9  a table ties not 1 to 4 fields                                       the table's first byte
 *       10  a table's field number is too large or not rising                    that byte
 *       11  a row has a code that its field lacks                                that byte
 *       12  the tables so far have more than 4,096 rows                          the first byte of the table that exceeds them
 *       13  bytes are left over before the field list                            the first of them
 *       14  the sheet holds an answer or a photograph that it cannot have        the lowest such place of the sheet
 *       15  the book has no such field                                           0
 *       16  the field has no such code                                           0
 *       17  the field has no answer                                              0
 *       18  too few elements lent                                                0
 *       19  a stored sheet's length is not the number of fields                  0
 *       20  no book has this listing                                             0
 *       21  the book has no such table, or the field is not in it                0
 *       22  a photographed answer would change; for storing, there is one        0
 *       23  all fields' numbers of codes multiplied are above 65,536             0
 *       24  the bytes are no short stored sheet of this book                     0
 *       25  the fields of the two books differ in their numbers of codes         0
 *       26  the joined book would break a limit of version 2                     0
 *       27  the list of questions is none that may be asked                      0
 *       28  a table ties more than two fields                                    that table's first byte; sighting_write_tree: 0
 *       29  the tables' links form a ring                                        that table's first byte; sighting_write_tree: 0
 *
 * 1 to 13 have their place in the book that is refused. sighting_join is lent two, and neither number nor place tells which of them it
 * refuses: it is the first where sighting_read refuses that, by the same number and place, and else the second.
 * 14 looks for the first place that is at fault in any of these ways: a field that holds neither 255 nor one of its codes, a place behind
 * the book's fields that does not hold 255, a place without an answer that is photographed. In a short stored sheet it looks for the
 * first field whose code is none of the field's codes, and its place is that field's number; 255 is at fault there too, since a field
 * without an answer has no bytes in that form.
 * 20 looks for a number that is missing, left over, or too large for its bytes (two for a number of rows and for the place of the field
 * list, one for any other), and for a book that reading would refuse.
 * 22 is the refusal of a photographed field for withdraw, and for enter with another code than the one held; of a sheet that has a
 * photograph for store; and of a short stored sheet that has one for lengthen.
 * 24 looks for a length that is not two more than a multiple of three; a trailer that tells another number of answers than there are, or
 * another number of fields than the book's; a field that the book lacks, or that is not above the one before it; and a photographed byte
 * that is neither 0 nor 1. All of it comes before 14, whichever stands first in the bytes.
 * 25 looks for a field that has another number of codes in the second book, and for another number of fields.
 * 26 looks for more than 64 tables or more than 4,096 rows in the joined book; of two accepted books it can break no other limit.
 * 27 looks for more than six questions, and for one that stands in the list before, that the book has no field for, that has an answer, or
 * that is the target.
 * 28 looks for the first table of more than two fields. Where there is none, 29 looks for the first table that closes a ring: with it the
 * tables so far have a ring, and without it they have none. Two fields are linked where a table ties the two, also one without rows; links
 * of different tables that lead from a field back to it are a ring, so two tables on the same two fields are one. A listing has no bytes,
 * and sighting_write_tree refuses it by 28 and 29 with place 0.
 * The first refusal in the order that a function's comment gives is the one returned.
 */
#ifndef SIGHTING_H
#define SIGHTING_H

#include <stddef.h>
#include <stdint.h>

/*
 * A sheet: for each place the answered code, or SIGHTING_NO_ANSWER; behind all of them, for each place in the same order, 1 if the answer
 * is backed by a photograph, else 0. So byte f has the answer of field f, and byte SIGHTING_PLACES + f tells whether it is photographed.
 * Any other number there counts as 1: a refused call leaves it as it is, an accepted enter (also of the code held), withdraw or
 * photograph writes 1. A sheet has as many places for a book of either version.
 */
#define SIGHTING_PLACES 60
#define SIGHTING_SHEET_BYTES 120

/* In a place of a sheet: no answer. As `relaxed` of sighting_filtered: no field. */
#define SIGHTING_NO_ANSWER 255

/*
 * A sheet is stored in one of two forms. A stored sheet has one byte for each field of the book: the answered code, or SIGHTING_NO_ANSWER;
 * it has no photographs. A short stored sheet has three bytes for each answered field, by rising field: the field, the code, and 1 if the
 * answer is backed by a photograph, else 0; and behind them the trailer, two bytes: the number of answers, and the book's number of fields.
 * So k answers take 3 * k + 2 bytes, and for a book of three fields a sheet without answers is 0 3. Where the short form is not named, the
 * other one is meant.
 */

/*
 * How many elements of `out` suffice for every book, sheet and listing: a call that is lent as many never returns 18. Each is proved.
 */
#define SIGHTING_PAIRS_BYTES 3840      /* sighting_alternatives, sighting_replay */
#define SIGHTING_NUMBERS 60            /* sighting_filtered */
#define SIGHTING_STORED_BYTES 60       /* sighting_store, sighting_lengthen, sighting_nearest */
#define SIGHTING_SHORT_BYTES 182       /* sighting_store_short, sighting_shorten */
#define SIGHTING_REPORT_BYTES 21162    /* sighting_report */
#define SIGHTING_LISTING_NUMBERS 16831 /* sighting_show */
#define SIGHTING_BOOK_BYTES 16898      /* sighting_write, sighting_write_tree, sighting_join */

/* The four kinds of call in a list for sighting_replay. */
#define SIGHTING_CALL_ENTER 0
#define SIGHTING_CALL_WITHDRAW 1
#define SIGHTING_CALL_CLEAR 2
#define SIGHTING_CALL_PHOTOGRAPH 3

#ifdef __cplusplus
extern "C" {
#endif

/*
 * Reads a book and counts what it has.
 *   outcome[5]  place, fields, tables, rows written, different rows (a row repeated in its table counts once)
 * Refusals, in this order: 1 to 7; for each table in turn 8 (no byte left), 9, 8 (no room for its head), 10, 8 (no room for its rows),
 * 12, 11; last 13.
 */
uint64_t sighting_read(const uint8_t *book, size_t book_len, uint64_t *outcome);

/* Makes the sheet a fresh one: every place 255, and none photographed. */
void sighting_fresh(uint8_t *sheet);

/*
 * Takes all answers and photographs away, whatever the sheet holds: every place 255, and none photographed. Nothing else takes a
 * photograph from an answer.
 */
void sighting_clear(uint8_t *sheet);

/*
 * Enters a code as the answer of a field, in the place of an older one; the code need not be standing. Entering the code that the field
 * holds is accepted and changes nothing, photographed or not, so that an answer may be sent again. Another code is refused by 22 where
 * the field is photographed. Any numbers may be passed: one that is no field of the book is refused by 15, one that is no code of the
 * field by 16.
 *   outcome[1]  place
 * Refusals: 1 to 13, 14, 15, 16, 22.
 */
uint64_t sighting_enter(uint8_t *sheet, const uint8_t *book, size_t book_len, size_t field, size_t code, uint64_t *outcome);

/*
 * Withdraws the answer of a field, unless it is photographed. Any number may be passed: one that is no field of the book is refused by
 * 15.
 *   outcome[1]  place
 * Refusals: 1 to 13, 14, 15, 17, 22.
 */
uint64_t sighting_withdraw(uint8_t *sheet, const uint8_t *book, size_t book_len, size_t field, uint64_t *outcome);

/*
 * Notes that a photograph backs the answer of a field. From then on, until sighting_clear, withdraw and enter with another code are
 * refused on that field, and it has no alternatives. Noting it again is accepted and changes nothing. Any number may be passed: one that
 * is no field of the book is refused by 15.
 *   outcome[1]  place
 * Refusals: 1 to 13, 14, 15, 17.
 */
uint64_t sighting_photograph(uint8_t *sheet, const uint8_t *book, size_t book_len, size_t field, uint64_t *outcome);

/*
 * Plain filtering, with the answer of field `relaxed` left out, photographed or not, or with all answers for SIGHTING_NO_ANSWER; any
 * other number that is no field of the book is refused by 15. It writes one number for each field of the book: bit c is set exactly when
 * code c is in the largest arc-consistent subdomain within the answers.
 *   outcome[1]  place
 * Refusals: 1 to 13, 14, 15, 17 (15 and 17 not for SIGHTING_NO_ANSWER), 18 where out_len is below the number of fields.
 */
uint64_t sighting_filtered(const uint8_t *sheet, const uint8_t *book, size_t book_len, size_t relaxed, uint32_t *out, size_t out_len,
                           uint64_t *outcome);

/*
 * The alternatives of every answered field without a photograph: its codes that stand with its own answer left out. A field has lines
 * only where no field of the book is then empty; a photographed one has none, and no case of its own. Each line is two bytes, field then
 * code, by rising field and then rising code.
 *   outcome[3]  place, total (the number of lines), struck (the marks removed in all cases together, with or without lines: the case with
 *               all answers kept, and for each answered field without a photograph the case with its answer left out)
 * Refusals: 1 to 13, 14, 18 where out_len is below 2 * total.
 */
uint64_t sighting_alternatives(const uint8_t *sheet, const uint8_t *book, size_t book_len, uint8_t *out, size_t out_len,
                               uint64_t *outcome);

/*
 * The row behind a code: the first row of table `table` that has code `code` in the column of field `field` and only standing codes in
 * its other columns, with all answers kept (standing as sighting_filtered tells it for SIGHTING_NO_ANSWER). Whether the code itself
 * stands plays no part: a code that the field's own answer forbids may have a row. A code that stands has one in every table with its
 * field. Tables and rows count from 0 in the book's order, repeated rows too. Any numbers may be passed: one that is no field of the
 * book is refused by 15, one that is no code of the field by 16, one that is no table, or a table without the field, by 21.
 *   outcome[3]  place, found (1, or 0 where the table has no such row), row (0 where none was found)
 * Refusals: 1 to 13, 14, 15, 16, 21.
 */
uint64_t sighting_row(const uint8_t *sheet, const uint8_t *book, size_t book_len, size_t field, size_t code, size_t table,
                      uint64_t *outcome);

/*
 * The nearest full reading: a suggestion for a sheet whose answers contradict each other. A full reading gives each field one of its
 * codes so that each table has the row of its fields' codes. Of those that keep every photographed answer it is the one that differs
 * from the answers in the fewest fields, where a field without an answer never differs; among several, the one with the lower code in the
 * first field where they part. It is written as one byte for each field of the book. Where no full reading keeps the photographed answers
 * the call is accepted too: it says none, and leaves every byte of `out` as it was.
 *   outcome[4]  place, found (1, or 0 where there is none), differing (the fields in which it differs from the answers), written (how many
 *               bytes were written, the number of fields); differing and written are 0 where there is none
 * Refusals: 1 to 13, 14, 23, 18 where out_len is below the number of fields, also where there is no reading to write.
 */
uint64_t sighting_nearest(const uint8_t *sheet, const uint8_t *book, size_t book_len, uint8_t *out, size_t out_len, uint64_t *outcome);

/*
 * The debrief plan: the least number of questions, at most three, after which field `target` surely has at most one standing code
 * (standing as sighting_filtered tells it for SIGHTING_NO_ANSWER). A question is one of the fields in `questions`, a byte each and at most
 * six, chosen when the answers to those before it are known. The observer may answer with any code of that field that stands and, once it
 * is entered, leaves no field of the book without a standing code; where there is no such code, that branch counts as settled. So k
 * questions suffice where the target has at most one standing code, and also where k is above 0 and the list has a question with this: to
 * whatever the observer may answer, k - 1 questions suffice behind it. The target may have an answer, and then needs no question; the list
 * may be empty, and its order plays no part. Any number may be passed as target: one that is no field of the book is refused by 15.
 *   outcome[3]  place, found (1, or 0 where three questions do not suffice), questions (the least number, 0 to 3; 0 where none was found)
 * Refusals: 1 to 13, 14, 15, 27.
 */
uint64_t sighting_plan(const uint8_t *sheet, const uint8_t *book, size_t book_len, size_t target, const uint8_t *questions,
                       size_t questions_len, uint64_t *outcome);

/*
 * Loads a stored sheet, one byte for each field; none is photographed. What the sheet held before plays no part; a refused load makes it
 * a fresh one.
 *   outcome[1]  place
 * Refusals: 1 to 13, 19, 14.
 */
uint64_t sighting_load(uint8_t *sheet, const uint8_t *book, size_t book_len, const uint8_t *form, size_t form_len,
                       uint64_t *outcome);

/*
 * Stores the sheet: writes one byte for each field of the book. That form has no photographs, so a sheet with one is refused by 22.
 *   outcome[1]  place
 * Refusals: 1 to 13, 14, 22, 18 where out_len is below the number of fields.
 */
uint64_t sighting_store(const uint8_t *sheet, const uint8_t *book, size_t book_len, uint8_t *out, size_t out_len, uint64_t *outcome);

/*
 * Loads a short stored sheet, with its photographs. A field that it does not name has no answer. What the sheet held before plays no part;
 * a refused load makes it a fresh one.
 *   outcome[1]  place
 * Refusals: 1 to 13, 24, 14.
 */
uint64_t sighting_load_short(uint8_t *sheet, const uint8_t *book, size_t book_len, const uint8_t *form, size_t form_len,
                             uint64_t *outcome);

/*
 * Stores the sheet in the short form, with its photographs, so that no sheet is refused by 22. Each photograph is told by 1, whatever
 * number the sheet has for it. Loading what was stored gives the sheet again, and storing what was loaded from a short form gives that
 * form's bytes.
 *   outcome[2]  place, written (how many bytes were written: three for each answer, and two)
 * Refusals: 1 to 13, 14, 18 where out_len is below the length of the short form.
 */
uint64_t sighting_store_short(const uint8_t *sheet, const uint8_t *book, size_t book_len, uint8_t *out, size_t out_len,
                              uint64_t *outcome);

/*
 * Moves a stored sheet to the short form: writes what sighting_store_short writes for the sheet that sighting_load makes of it. No answer
 * is photographed in it.
 *   outcome[2]  place, written (how many bytes were written: three for each answer, and two)
 * Refusals: 1 to 13, 19, 14, 18 where out_len is below the length of the short form.
 */
uint64_t sighting_shorten(const uint8_t *book, size_t book_len, const uint8_t *form, size_t form_len, uint8_t *out, size_t out_len,
                          uint64_t *outcome);

/*
 * Moves a short stored sheet to the form with one byte for each field. That form has no photographs, so a short stored sheet with one is
 * refused by 22. It is the way back from sighting_shorten: what that writes is moved back to the stored sheet's bytes, and what this writes
 * is moved back to those of the short stored sheet.
 *   outcome[2]  place, written (how many bytes were written: the number of fields)
 * Refusals: 1 to 13, 24, 14, 22, 18 where out_len is below the number of fields.
 */
uint64_t sighting_lengthen(const uint8_t *book, size_t book_len, const uint8_t *form, size_t form_len, uint8_t *out, size_t out_len,
                           uint64_t *outcome);

/*
 * Runs a list of calls, each on the sheet that the one before it handed back and the first on a fresh one, and then the
 * alternatives of the last. A call is three bytes: kind, field, code. A kind that is none of the four above is no call, and so is
 * an incomplete last one; withdraw and photograph read no code, and clear neither field nor code. A call that is refused changes
 * nothing and the list goes on. What the sheet held before plays no part; it ends as the one that the list reached, also where the
 * replay is refused. By a refused book every call but clear is refused, so the list then reaches a fresh sheet.
 *   outcome[3]  place, total, struck, as sighting_alternatives
 * Refusals: 1 to 13, 18 where out_len is below 2 * total.
 */
uint64_t sighting_replay(uint8_t *sheet, const uint8_t *book, size_t book_len, const uint8_t *calls, size_t calls_len, uint8_t *out,
                         size_t out_len, uint64_t *outcome);

/*
 * Writes the whole text that the program `desk` prints for this book and this stored sheet. A book or a stored sheet that is turned
 * down is no refusal here: the text says it. A field has `alt` lines only where, with its answer left out, no field of the book is
 * empty; the total in the line `sheet` is the number of `alt` lines.
 *   outcome[2]  place, the length of the text in bytes
 * Refusals: 18 where out_len is below that length.
 */
uint64_t sighting_report(const uint8_t *book, size_t book_len, const uint8_t *form, size_t form_len, uint8_t *out, size_t out_len,
                         uint64_t *outcome);

/*
 * Shows a book's listing: the number of fields and each field's number of codes; the number of tables; for each table its number of
 * fields, the fields, its number of rows, and the rows' codes; last the book's version. Tables and rows stand in the book's order,
 * repeated rows too.
 *   outcome[2]  place, how many numbers were written
 * Refusals: 1 to 13, 18 where out_len is below the length of the listing.
 */
uint64_t sighting_show(const uint8_t *book, size_t book_len, uint16_t *out, size_t out_len, uint64_t *outcome);

/*
 * Writes the bytes of the book that a listing says, in the listing's order, with its repeated rows and of its version. It is the way
 * back from sighting_show: writing what a book shows gives the book's bytes, and the bytes written show the listing. A listing that
 * ends without a version, as they did before version 2, is refused by 20.
 *   outcome[2]  place, how many bytes were written
 * Refusals: 20, 18 where out_len is below the length of the book.
 */
uint64_t sighting_write(const uint16_t *listing, size_t listing_len, uint8_t *out, size_t out_len, uint64_t *outcome);

/*
 * Reads a tree book, the restricted book of small aircraft, and counts what it has. A tree book is a book whose tables tie one field or
 * two, and whose links form no ring. Every other call takes it like any book, and what it shows means more: for an answered field without a
 * photograph sighting_alternatives lists a code exactly where a full reading (see sighting_nearest) has it at that field and keeps all other
 * answers; and where sighting_filtered writes no number 0, it shows exactly the codes of the full readings that keep all answers, but for
 * the one left out, if any.
 *   outcome[5]  place, fields, tables, rows written, different rows, as sighting_read
 * Refusals: 1 to 13, 28, 29.
 */
uint64_t sighting_read_tree(const uint8_t *book, size_t book_len, uint64_t *outcome);

/*
 * Writes the bytes of the tree book that a listing says, as sighting_write does, and refuses the listing of any other book. What it writes is
 * read by sighting_read_tree.
 *   outcome[2]  place, how many bytes were written
 * Refusals: 20, 28, 29, 18 where out_len is below the length of the book.
 */
uint64_t sighting_write_tree(const uint16_t *listing, size_t listing_len, uint8_t *out, size_t out_len, uint64_t *outcome);

/*
 * Joins two books whose fields have the same numbers of codes: writes one book that says what both say, of version 2 whatever theirs are.
 * Each set of fields that some table of either book is on has one table, and no other set has any. Its rows are those that stand in every
 * table on these fields, in either book: each one time, rising by the first code where they part; where there is none the table has 0
 * rows. Tables rise by the lists of their fields in the same way, a shorter list before one that continues it. A full reading fits the
 * joined book exactly when it fits both books, and a code that stands under a sheet by the joined book stands by each of them. The two
 * books are only read, and may be the same memory.
 *   outcome[2]  place, written (how many bytes were written)
 * Refusals: 1 to 13 of the first book, 1 to 13 of the second, 25, 26, 18 where out_len is below the length of the joined book.
 */
uint64_t sighting_join(const uint8_t *first, size_t first_len, const uint8_t *second, size_t second_len, uint8_t *out, size_t out_len,
                       uint64_t *outcome);

#ifdef __cplusplus
}
#endif

#endif
