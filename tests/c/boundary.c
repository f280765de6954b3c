/*
 * What only a C caller can do to the library: pass numbers that no byte holds, lend a sheet that lies in read-only memory, write any byte
 * into a sheet, and take the header's word for the lengths that suffice, for what stays, and for two books that are the same memory.
 * Prints each difference and returns 1 if there was one.
 */
#include <sighting.h>
#include <stdio.h>
#include <string.h>

/* Example E1: three fields of 2, 3 and 3 codes; field 0 answered by 0 and field 1 by 1. */
static const uint8_t book[] = {2, 0, 2, 4, 0, 0, 0, 0, 1, 1, 2, 0, 1, 2, 1, 2, 4, 0, 0, 0,
                               1, 1, 1, 2, 2, 2, 2, 3, 3, 0x1A, 0, 3, 2, 1, 0xE5};
static const uint8_t form[] = {0, 1, SIGHTING_NO_ANSWER};
#define ANSWERS                                                                                          \
    0, 1, 255, 255, 255, 255, 255, 255, 255, 255, 255, 255, 255, 255, 255, 255, 255, 255, 255, 255,      \
    255, 255, 255, 255, 255, 255, 255, 255, 255, 255, 255, 255, 255, 255, 255, 255, 255, 255, 255, 255,  \
    255, 255, 255, 255, 255, 255, 255, 255, 255, 255, 255, 255, 255, 255, 255, 255, 255, 255, 255, 255
static const uint8_t answered[SIGHTING_SHEET_BYTES] = {ANSWERS};

/* The same with field 0 photographed. */
static const uint8_t photographed[SIGHTING_SHEET_BYTES] = {ANSWERS, [SIGHTING_PLACES] = 1};

/* Both in the short form, and a sheet without answers. */
static const uint8_t short_answered[] = {0, 0, 0, 1, 1, 0, 2, 3};
static const uint8_t short_photographed[] = {0, 0, 1, 1, 1, 0, 2, 3};
static const uint8_t short_fresh[] = {0, 3};

/* Example E4: three fields of two codes, of which each two differ, so that no reading is full. */
static const uint8_t each_pair_differs[] = {2, 0, 1, 2, 0, 0, 1, 1, 0, 2, 0, 2, 2, 0, 0, 1, 1, 0,
                                            2, 1, 2, 2, 0, 0, 1, 1, 0, 2, 2, 2, 27, 0, 3, 3, 1, 0xE5};

/* A book of E1's fields: fields 1 and 2 with three rows, then field 0 with two. Last come the numbers of codes and the trailer. */
static const uint8_t other_block[] = {2, 1, 2, 3, 0, 2, 2, 1, 1, 2, 1, 1, 0, 2, 0, 1, 0, 2, 3, 3, 17, 0, 3, 2, 2, 0xE5};

/* A list of questions: the only open field of the sheets above. */
static const uint8_t open_field[] = {2};

static int differences = 0;

static void expect(const char *what, uint64_t expected, uint64_t got) {
    if (expected == got) return;
    fprintf(stderr, "%s: expected %lu, got %lu\n", what, (unsigned long)expected, (unsigned long)got);
    differences++;
}

/* Every byte of the sheet is this one's. */
static void expect_sheet(const char *what, const uint8_t *expected, const uint8_t *got) {
    expect(what, 0, (uint64_t)(memcmp(expected, got, SIGHTING_SHEET_BYTES) != 0));
}

/* Each low byte is a field, a code or a table of the book, so that a number cut to a byte would be accepted. */
static void wide_numbers(void) {
    uint8_t sheet[SIGHTING_SHEET_BYTES];
    uint32_t numbers[SIGHTING_NUMBERS];
    uint64_t place[1], found[3];
    memcpy(sheet, answered, sizeof sheet);
    expect("enter field 258", 15, sighting_enter(sheet, book, sizeof book, 258, 0, place));
    expect("enter code 257", 16, sighting_enter(sheet, book, sizeof book, 2, 257, place));
    expect("withdraw field 256", 15, sighting_withdraw(sheet, book, sizeof book, 256, place));
    expect("photograph field 256", 15, sighting_photograph(sheet, book, sizeof book, 256, place));
    expect("photograph field 2^32", 15, sighting_photograph(sheet, book, sizeof book, (size_t)1 << 32, place));
    expect("photograph field SIZE_MAX", 15, sighting_photograph(sheet, book, sizeof book, SIZE_MAX, place));
    expect("enter field SIZE_MAX", 15, sighting_enter(sheet, book, sizeof book, SIZE_MAX, 0, place));
    expect("relax field 256", 15, sighting_filtered(sheet, book, sizeof book, 256, numbers, SIGHTING_NUMBERS, place));
    expect("relax field 511", 15, sighting_filtered(sheet, book, sizeof book, 511, numbers, SIGHTING_NUMBERS, place));
    expect("row of field 258", 15, sighting_row(sheet, book, sizeof book, 258, 1, 0, found));
    expect("row of code 257", 16, sighting_row(sheet, book, sizeof book, 2, 257, 0, found));
    expect("row of table 256", 21, sighting_row(sheet, book, sizeof book, 2, 1, 256, found));
    expect("row of table 2^32", 21, sighting_row(sheet, book, sizeof book, 2, 1, (size_t)1 << 32, found));
    expect("row of SIZE_MAX alone", 15, sighting_row(sheet, book, sizeof book, SIZE_MAX, SIZE_MAX, SIZE_MAX, found));
    expect("plan for field 256", 15, sighting_plan(sheet, book, sizeof book, 256, open_field, 1, found));
    expect("plan for field 2^32", 15, sighting_plan(sheet, book, sizeof book, (size_t)1 << 32, open_field, 1, found));
    expect("plan for field SIZE_MAX", 15, sighting_plan(sheet, book, sizeof book, SIZE_MAX, open_field, 1, found));
    expect_sheet("the sheet stays", answered, sheet);
}

static void read_only_sheet(void) {
    uint8_t pairs[SIGHTING_PAIRS_BYTES], stored[SIGHTING_SHORT_BYTES];
    uint32_t numbers[SIGHTING_NUMBERS];
    uint64_t place[1], written[2], found[3], reading[4];
    expect("filtered", 0, sighting_filtered(answered, book, sizeof book, SIGHTING_NO_ANSWER, numbers, SIGHTING_NUMBERS, place));
    expect("codes that stand in field 2", 2, numbers[2]);
    expect("alternatives", 0, sighting_alternatives(answered, book, sizeof book, pairs, sizeof pairs, found));
    expect("total", 4, found[1]);
    expect("row", 0, sighting_row(answered, book, sizeof book, 2, 1, 0, found));
    expect("the row", 1, found[2]);
    expect("nearest", 0, sighting_nearest(answered, book, sizeof book, stored, sizeof stored, reading));
    expect("the last code of the reading", 1, stored[2]);
    expect("plan", 0, sighting_plan(answered, book, sizeof book, 0, open_field, 1, found));
    expect("no question for an answered field", 1, found[1]);
    expect("store", 0, sighting_store(answered, book, sizeof book, stored, sizeof stored, place));
    expect("stored form", 0, (uint64_t)(memcmp(stored, form, sizeof form) != 0));
    expect("store in the short form", 0, sighting_store_short(answered, book, sizeof book, stored, sizeof stored, written));
    expect("short form", 0, (uint64_t)(memcmp(stored, short_answered, sizeof short_answered) != 0));
}

/* Field 0 is photographed: it has no lines and no case, and may be relaxed all the same. */
static void read_only_photographs(void) {
    uint8_t pairs[5] = {7, 7, 7, 7, 7}, stored[] = {7, 7, 7};
    uint32_t numbers[] = {7, 7, 7, 7};
    uint64_t place[1], found[3];
    expect("filter with field 0 relaxed", 0, sighting_filtered(photographed, book, sizeof book, 0, numbers, 4, place));
    expect("codes of field 0", 3, numbers[0]);
    expect("codes of field 1", 2, numbers[1]);
    expect("codes of field 2", 6, numbers[2]);
    expect("the number behind", 7, numbers[3]);
    expect("alternatives one byte short", 18, sighting_alternatives(photographed, book, sizeof book, pairs, 3, found));
    expect("alternatives of field 1", 0, sighting_alternatives(photographed, book, sizeof book, pairs, sizeof pairs, found));
    expect("their total", 2, found[1]);
    expect("struck in two cases", 8, found[2]);
    expect("the lines", 0, (uint64_t)(memcmp(pairs, (const uint8_t[]){1, 0, 1, 1, 7}, sizeof pairs) != 0));
    expect("row", 0, sighting_row(photographed, book, sizeof book, 2, 1, 0, found));
    expect("the row", 1, found[2]);
    expect("store a photographed sheet", 22, sighting_store(photographed, book, sizeof book, stored, sizeof stored, place));
    expect("place of 22", 0, place[0]);
    expect("the same with too few bytes", 22, sighting_store(photographed, book, sizeof book, stored, 2, place));
    expect("the byte lent first", 7, stored[0]);
}

/* Photographs a field of a sheet. The one cell is written, and none beside it. */
static void ask_photograph(const char *what, uint8_t *sheet, size_t field, uint64_t number, uint64_t place) {
    uint64_t cells[3] = {7, 7, 7};
    expect(what, number, sighting_photograph(sheet, book, sizeof book, field, cells + 1));
    expect("its place", place, cells[1]);
    expect("the cell before", 7, cells[0]);
    expect("the cell behind", 7, cells[2]);
}

/* Set, set again, refused, and taken away by a clear alone. */
static void photographs(void) {
    uint8_t sheet[SIGHTING_SHEET_BYTES], fresh[SIGHTING_SHEET_BYTES];
    uint64_t place[1];
    memset(fresh, SIGHTING_NO_ANSWER, SIGHTING_PLACES);
    memset(fresh + SIGHTING_PLACES, 0, SIGHTING_PLACES);
    memcpy(sheet, answered, sizeof sheet);
    ask_photograph("no such field", sheet, 3, 15, 0);
    ask_photograph("no answer", sheet, 2, 17, 0);
    expect_sheet("no photograph yet", answered, sheet);
    ask_photograph("photograph", sheet, 0, 0, 0);
    expect_sheet("field 0 photographed", photographed, sheet);
    ask_photograph("photograph again", sheet, 0, 0, 0);
    expect("enter the code held", 0, sighting_enter(sheet, book, sizeof book, 0, 0, place));
    expect_sheet("the sheet stays", photographed, sheet);
    expect("enter another code", 22, sighting_enter(sheet, book, sizeof book, 0, 1, place));
    expect("place of 22", 0, place[0]);
    expect("enter no code", 16, sighting_enter(sheet, book, sizeof book, 0, 2, place));
    expect("withdraw", 22, sighting_withdraw(sheet, book, sizeof book, 0, place));
    expect("withdraw beside it", 0, sighting_withdraw(sheet, book, sizeof book, 1, place));
    expect("enter beside it", 0, sighting_enter(sheet, book, sizeof book, 1, 1, place));
    expect_sheet("the photograph stays", photographed, sheet);
    expect("a photograph by no book", 2, sighting_photograph(sheet, book, sizeof book - 1, 1, place));
    expect("place of 2", 33, place[0]);
    sighting_clear(sheet);
    expect_sheet("cleared", fresh, sheet);
    memcpy(sheet, photographed, sizeof sheet);
    expect("load", 0, sighting_load(sheet, book, sizeof book, form, sizeof form, place));
    expect_sheet("loaded without photographs", answered, sheet);
    memcpy(sheet, photographed, sizeof sheet);
    expect("load nothing", 19, sighting_load(sheet, book, sizeof book, form, 0, place));
    expect_sheet("fresh by a refused load", fresh, sheet);
}

/* Enters a code on field 0 of a sheet, and the sheet has to be this one then. The one cell is written, and none beside it. */
static void ask_enter(const char *what, uint8_t *sheet, size_t code, uint64_t number, uint64_t place, const uint8_t *left) {
    uint64_t cells[3] = {7, 7, 7};
    expect(what, number, sighting_enter(sheet, book, sizeof book, 0, code, cells + 1));
    expect("place of the code sent", place, cells[1]);
    expect("the cell before it", 7, cells[0]);
    expect("the cell behind it", 7, cells[2]);
    expect_sheet(what, left, sheet);
}

/* The answer of field 0 sent again and again, photographed and not, among calls that are refused. */
static void answers_sent_again(void) {
    uint8_t sheet[SIGHTING_SHEET_BYTES], faulty[SIGHTING_SHEET_BYTES];
    uint64_t place[1];
    memcpy(sheet, answered, sizeof sheet);
    ask_enter("the code held", sheet, 0, 0, 0, answered);
    ask_photograph("photograph it", sheet, 0, 0, 0);
    ask_enter("the code held behind the photograph", sheet, 0, 0, 0, photographed);
    ask_enter("once more", sheet, 0, 0, 0, photographed);
    ask_enter("another code", sheet, 1, 22, 0, photographed);
    ask_enter("the code held behind another", sheet, 0, 0, 0, photographed);
    ask_enter("a code that the field lacks", sheet, 2, 16, 0, photographed);
    ask_enter("the code held but for its high bits", sheet, 256, 16, 0, photographed);
    ask_enter("the code held but for bit 32", sheet, (size_t)1 << 32, 16, 0, photographed);
    expect("the code held by no book", 2, sighting_enter(sheet, book, sizeof book - 1, 0, 0, place));
    expect("255 on an open field", 16, sighting_enter(sheet, book, sizeof book, 2, SIGHTING_NO_ANSWER, place));
    expect("the code held beside it", 0, sighting_enter(sheet, book, sizeof book, 1, 1, place));
    expect_sheet("the sheet stays byte for byte", photographed, sheet);
    memcpy(faulty, photographed, sizeof faulty);
    faulty[1] = 3;
    memcpy(sheet, faulty, sizeof sheet);
    ask_enter("the code held on a sheet at fault", sheet, 0, 14, 1, faulty);
}

/* A byte that is neither 0 nor 1 is a photograph: a refused call leaves it, an accepted one writes 1. */
static void bytes_of_photographs(void) {
    uint8_t sheet[SIGHTING_SHEET_BYTES];
    uint64_t place[1];
    for (int byte = 1; byte < 256; byte++) {
        memcpy(sheet, answered, sizeof sheet);
        sheet[SIGHTING_PLACES] = (uint8_t)byte;
        expect("withdraw a photographed field", 22, sighting_withdraw(sheet, book, sizeof book, 0, place));
        expect("enter another code on a photographed field", 22, sighting_enter(sheet, book, sizeof book, 0, 1, place));
        ask_photograph("photograph no field", sheet, 3, 15, 0);
        expect("its byte stays", (uint64_t)byte, sheet[SIGHTING_PLACES]);
        expect("enter beside it", 0, sighting_enter(sheet, book, sizeof book, 1, 1, place));
        expect_sheet("its byte is 1", photographed, sheet);
        sheet[SIGHTING_PLACES] = (uint8_t)byte;
        expect("enter the code held", 0, sighting_enter(sheet, book, sizeof book, 0, 0, place));
        expect_sheet("its byte is 1 again", photographed, sheet);
        sheet[SIGHTING_PLACES + 2] = (uint8_t)byte;
        ask_photograph("a photograph without an answer", sheet, 0, 14, 2);
        expect("that byte stays", (uint64_t)byte, sheet[SIGHTING_PLACES + 2]);
    }
}

/* A list with a photograph: kind 3, whose third byte is not read. Answers are sent again behind it. */
static void photographs_in_a_list(void) {
    static const uint8_t calls[] = {SIGHTING_CALL_ENTER,      0, 0, SIGHTING_CALL_ENTER,    1, 1, SIGHTING_CALL_PHOTOGRAPH, 2, 0,
                                    SIGHTING_CALL_PHOTOGRAPH, 0, 9, SIGHTING_CALL_ENTER,    0, 0, SIGHTING_CALL_ENTER,      0, 0,
                                    SIGHTING_CALL_WITHDRAW,   0, 0, SIGHTING_CALL_ENTER,    0, 1, SIGHTING_CALL_ENTER,      0, 2,
                                    SIGHTING_CALL_ENTER,      0, 0, SIGHTING_CALL_ENTER,    1, 1};
    uint8_t sheet[SIGHTING_SHEET_BYTES], pairs[SIGHTING_PAIRS_BYTES];
    uint64_t found[3];
    memset(sheet, 7, sizeof sheet);
    expect("replay", 0, sighting_replay(sheet, book, sizeof book, calls, sizeof calls, pairs, sizeof pairs, found));
    expect("total of the list", 2, found[1]);
    expect("struck by the list", 8, found[2]);
    expect_sheet("the sheet that the list reached", photographed, sheet);
    expect("replay one byte short", 18, sighting_replay(sheet, book, sizeof book, calls, sizeof calls, pairs, 3, found));
    expect_sheet("the sheet that it reached all the same", photographed, sheet);
}

/* Asks E1's sheet for a row. All three cells are written, and none beside them. */
static void ask_row(const char *what, size_t field, size_t code, size_t table, uint64_t number, uint64_t found, uint64_t row) {
    uint64_t cells[5] = {7, 7, 7, 7, 7};
    expect(what, number, sighting_row(answered, book, sizeof book, field, code, table, cells + 1));
    expect("its place", 0, cells[1]);
    expect("whether it was found", found, cells[2]);
    expect("its number", row, cells[3]);
    expect("the cell before", 7, cells[0]);
    expect("the cell behind", 7, cells[4]);
}

/* Found, none, and the refusals of a row. */
static void row_outcome(void) {
    uint64_t cells[3] = {7, 7, 7};
    ask_row("the row of field 2", 2, 1, 0, 0, 1, 1);
    ask_row("the row of a code that does not stand", 2, 2, 1, 0, 1, 2);
    ask_row("no row of field 0", 0, 1, 0, 0, 0, 0);
    ask_row("no such field", 3, 3, 2, 15, 0, 0);
    ask_row("no such code", 0, 2, 2, 16, 0, 0);
    ask_row("no such table", 0, 0, 2, 21, 0, 0);
    ask_row("a field not in the table", 1, 0, 0, 21, 0, 0);
    expect("a row of no book", 2, sighting_row(answered, book, sizeof book - 1, 2, 1, 0, cells));
    expect("place of 2", 33, cells[0]);
    expect("found by a refusal", 0, cells[1]);
    expect("row of a refusal", 0, cells[2]);
}

/* One field of two codes, and one table of 4,096 rows: no row has code 1, then the last, then row 300 too. */
static void last_row(void) {
    static uint8_t bytes[] = {[0] = 1, [3] = 0x10, [4100] = 2, 4, 0x10, 1, 1, 1, 0xE5};
    uint8_t sheet[SIGHTING_SHEET_BYTES];
    uint64_t found[3];
    sighting_fresh(sheet);
    expect("no row of 4,096", 0, sighting_row(sheet, bytes, sizeof bytes, 0, 1, 0, found));
    expect("none found", 0, found[1]);
    bytes[4 + 4095] = 1;
    expect("row 4,095", 0, sighting_row(sheet, bytes, sizeof bytes, 0, 1, 0, found));
    expect("row 4,095 found", 4095, found[2]);
    bytes[4 + 300] = 1;
    expect("row 300", 0, sighting_row(sheet, bytes, sizeof bytes, 0, 1, 0, found));
    expect("row 300 found", 300, found[2]);
}

/* The sheet of E1 with field 0 answered by 1 and field 1 by 0, and each photographed or not. */
static void contradictory(uint8_t *sheet, uint8_t first, uint8_t second) {
    memcpy(sheet, answered, SIGHTING_SHEET_BYTES);
    sheet[0] = 1;
    sheet[1] = 0;
    sheet[SIGHTING_PLACES] = first;
    sheet[SIGHTING_PLACES + 1] = second;
}

/*
 * Asks for the nearest reading of a book of three fields with so many of seven bytes lent. All four cells are written, and none beside
 * them; the seven bytes have to be these then.
 */
static void ask_nearest(const char *what, const uint8_t *sheet, const uint8_t *bytes, size_t length, size_t lent, uint64_t number,
                        uint64_t found, uint64_t differing, const char *left) {
    uint8_t out[8] = "7777777";
    uint64_t cells[6] = {7, 7, 7, 7, 7, 7};
    expect(what, number, sighting_nearest(sheet, bytes, length, out, lent, cells + 1));
    expect("its place", 0, cells[1]);
    expect("whether it was found", found, cells[2]);
    expect("in how many fields it differs", differing, cells[3]);
    expect("how many bytes were written", found * 3, cells[4]);
    expect("the cell before", 7, cells[0]);
    expect("the cell behind", 7, cells[5]);
    expect(what, 0, (uint64_t)(memcmp(out, left, sizeof out) != 0));
}

/* Found, none, and 18, by E1 and by E4. */
static void nearest_outcome(void) {
    uint8_t sheet[SIGHTING_SHEET_BYTES], given[SIGHTING_SHEET_BYTES];
    ask_nearest("the reading of E1", answered, book, sizeof book, 7, 0, 1, 0, "\0\1\1" "7777");
    contradictory(sheet, 0, 0);
    ask_nearest("the lower of two", sheet, book, sizeof book, 3, 0, 1, 1, "\0\0\0" "7777");
    ask_nearest("one byte too few", sheet, book, sizeof book, 2, 18, 0, 0, "7777777");
    ask_nearest("no byte", sheet, book, sizeof book, 0, 18, 0, 0, "7777777");
    contradictory(sheet, 1, 0);
    ask_nearest("field 0 photographed", sheet, book, sizeof book, 4, 0, 1, 1, "\1\1\2" "7777");
    contradictory(sheet, 0, 255);
    ask_nearest("field 1 photographed", sheet, book, sizeof book, 4, 0, 1, 1, "\0\0\0" "7777");
    contradictory(sheet, 2, 128);
    memcpy(given, sheet, sizeof given);
    ask_nearest("none that keeps both", sheet, book, sizeof book, 7, 0, 0, 0, "7777777");
    ask_nearest("none, one byte too few", sheet, book, sizeof book, 2, 18, 0, 0, "7777777");
    expect_sheet("the sheet stays byte for byte", given, sheet);
    ask_nearest("none by E4", answered, each_pair_differs, sizeof each_pair_differs, 3, 0, 0, 0, "7777777");
    ask_nearest("none by E4, one byte too few", answered, each_pair_differs, sizeof each_pair_differs, 2, 18, 0, 0, "7777777");
}

/* A refused book and a sheet at fault have their places, and come before what is lent. */
static void refused_nearest(void) {
    uint8_t sheet[SIGHTING_SHEET_BYTES], out[1] = {7};
    uint64_t cells[4] = {7, 7, 7, 7};
    expect("a reading by no book", 2, sighting_nearest(answered, book, sizeof book - 1, out, 0, cells));
    expect("place of 2", 33, cells[0]);
    contradictory(sheet, 1, 1);
    sheet[SIGHTING_PLACES + 2] = 1;
    expect("a photograph without an answer", 14, sighting_nearest(sheet, book, sizeof book, out, 0, cells));
    expect("place of 14", 2, cells[0]);
    expect("found by a refusal", 0, cells[1]);
    expect("differing by a refusal", 0, cells[2]);
    expect("written by a refusal", 0, cells[3]);
    expect("the byte lent", 7, out[0]);
}

/* Asks a sheet of a book of three fields for a plan. All three cells are written, and none beside them. */
static void ask_plan(const char *what, const uint8_t *sheet, const uint8_t *bytes, size_t length, size_t target,
                     const uint8_t *questions, size_t questions_len, uint64_t number, uint64_t found, uint64_t least) {
    uint64_t cells[5] = {7, 7, 7, 7, 7};
    expect(what, number, sighting_plan(sheet, bytes, length, target, questions, questions_len, cells + 1));
    expect("its place", 0, cells[1]);
    expect("whether there is a plan", found, cells[2]);
    expect("its questions", least, cells[3]);
    expect("the cell before", 7, cells[0]);
    expect("the cell behind", 7, cells[4]);
}

/* No question, one, two and none, by E1 and by E4: there whatever is answered to field 0 leaves a field empty, so that one is enough. */
static void plan_outcome(void) {
    static const uint8_t questions[] = {0, 1, 2, 1};
    uint8_t fresh[SIGHTING_SHEET_BYTES], given[SIGHTING_SHEET_BYTES];
    sighting_fresh(fresh);
    memcpy(given, fresh, sizeof given);
    ask_plan("field 0 by field 2", fresh, book, sizeof book, 0, questions + 2, 1, 0, 1, 1);
    ask_plan("field 0 by field 1", fresh, book, sizeof book, 0, questions + 1, 1, 0, 0, 0);
    ask_plan("field 0 by fields 1 and 2", fresh, book, sizeof book, 0, questions + 1, 2, 0, 1, 1);
    ask_plan("field 2 by fields 0 and 1", fresh, book, sizeof book, 2, questions, 2, 0, 1, 2);
    ask_plan("field 2 by fields 1 and 0", fresh, book, sizeof book, 2, (const uint8_t[]){1, 0}, 2, 0, 1, 2);
    ask_plan("field 0 by no list", fresh, book, sizeof book, 0, questions, 0, 0, 0, 0);
    expect_sheet("the sheet stays byte for byte", given, fresh);
    ask_plan("an answered field", answered, book, sizeof book, 0, open_field, 1, 0, 1, 0);
    ask_plan("an answered field by no list", answered, book, sizeof book, 1, open_field, 0, 0, 1, 0);
    ask_plan("a field with one code left", answered, book, sizeof book, 2, open_field, 0, 0, 1, 0);
    contradictory(given, 1, 0);
    ask_plan("a field without a code", given, book, sizeof book, 2, open_field, 0, 0, 1, 0);
    ask_plan("no code to answer", fresh, each_pair_differs, sizeof each_pair_differs, 1, questions, 1, 0, 1, 1);
    ask_plan("none by no list", fresh, each_pair_differs, sizeof each_pair_differs, 1, questions, 0, 0, 0, 0);
}

/* 27 for each list that may not be asked, behind 15 for the target, 14 and the book's own. */
static void refused_plans(void) {
    static const uint8_t many[] = {1, 2, 1, 2, 1, 2, 1};
    uint8_t sheet[SIGHTING_SHEET_BYTES];
    uint64_t cells[3] = {7, 7, 7};
    sighting_fresh(sheet);
    ask_plan("seven questions", sheet, book, sizeof book, 0, many, 7, 27, 0, 0);
    ask_plan("a question that comes again", sheet, book, sizeof book, 0, many, 3, 27, 0, 0);
    ask_plan("two questions", sheet, book, sizeof book, 0, many, 2, 0, 1, 1);
    ask_plan("a question behind the fields", sheet, book, sizeof book, 0, (const uint8_t[]){2, 3}, 2, 27, 0, 0);
    ask_plan("question 255", sheet, book, sizeof book, 0, (const uint8_t[]){255}, 1, 27, 0, 0);
    ask_plan("an answered question", answered, book, sizeof book, 2, (const uint8_t[]){1}, 1, 27, 0, 0);
    ask_plan("the target itself", sheet, book, sizeof book, 1, many, 1, 27, 0, 0);
    ask_plan("no such target", sheet, book, sizeof book, 3, many, 2, 15, 0, 0);
    ask_plan("no such target by seven questions", sheet, book, sizeof book, 3, many, 7, 15, 0, 0);
    sheet[59] = 0;
    expect("a sheet at fault", 14, sighting_plan(sheet, book, sizeof book, 3, many, 7, cells));
    expect("place of 14", 59, cells[0]);
    expect("a plan by no book", 2, sighting_plan(sheet, book, sizeof book - 1, 3, many, 7, cells));
    expect("place of 2", 33, cells[0]);
    expect("found by a refusal", 0, cells[1]);
    expect("questions of a refusal", 0, cells[2]);
}

/*
 * Loads a short stored sheet into one that held something else, with a byte before it and one behind. The one cell is written, and none
 * beside it; the sheet has to be this one then.
 */
static void ask_load_short(const char *what, const uint8_t *bytes, size_t length, uint64_t number, uint64_t place, const uint8_t *left) {
    uint8_t sheet[SIGHTING_SHEET_BYTES + 2];
    uint64_t cells[3] = {7, 7, 7};
    memset(sheet, 7, sizeof sheet);
    expect(what, number, sighting_load_short(sheet + 1, book, sizeof book, bytes, length, cells + 1));
    expect("its place", place, cells[1]);
    expect("the cell before", 7, cells[0]);
    expect("the cell behind", 7, cells[2]);
    expect_sheet(what, left, sheet + 1);
    expect("the byte before the sheet", 7, sheet[0]);
    expect("the byte behind the sheet", 7, sheet[SIGHTING_SHEET_BYTES + 1]);
}

/*
 * A call was lent the middle two of four cells, which all were 7, and some of the ten bytes of "777777777". It has written both its cells
 * and none beside them; the bytes have to be these then.
 */
static void expect_written(const char *what, const uint64_t *cells, uint64_t place, uint64_t written, const uint8_t *out,
                           const char *left) {
    expect("the place of what is written", place, cells[1]);
    expect("how many bytes were written", written, cells[2]);
    expect("the cell before them", 7, cells[0]);
    expect("the cell behind them", 7, cells[3]);
    expect(what, 0, (uint64_t)(memcmp(out, left, 10) != 0));
}

/* Stores a sheet of E1's book in the short form, with so many of nine bytes lent. */
static void ask_store_short(const char *what, const uint8_t *sheet, size_t lent, uint64_t number, uint64_t place, uint64_t written,
                            const char *left) {
    uint8_t out[10] = "777777777";
    uint64_t cells[4] = {7, 7, 7, 7};
    expect(what, number, sighting_store_short(sheet, book, sizeof book, out, lent, cells + 1));
    expect_written(what, cells, place, written, out, left);
}

/* The call that moves one form to the other. */
typedef uint64_t moving(const uint8_t *book, size_t book_len, const uint8_t *form, size_t form_len, uint8_t *out, size_t out_len,
                        uint64_t *outcome);

/* Moves a form of E1's book to the other one, with so many of nine bytes lent. */
static void ask_move(const char *what, moving *move, const uint8_t *bytes, size_t length, size_t lent, uint64_t number, uint64_t place,
                     uint64_t written, const char *left) {
    uint8_t out[10] = "777777777";
    uint64_t cells[4] = {7, 7, 7, 7};
    expect(what, number, move(book, sizeof book, bytes, length, out, lent, cells + 1));
    expect_written(what, cells, place, written, out, left);
}

/* A short stored sheet with and without photographs, and one without answers: loaded, and stored in just as many bytes and one less. */
static void short_sheets(void) {
    uint8_t fresh[SIGHTING_SHEET_BYTES], faulty[SIGHTING_SHEET_BYTES];
    sighting_fresh(fresh);
    ask_load_short("load without photographs", short_answered, sizeof short_answered, 0, 0, answered);
    ask_load_short("load with a photograph", short_photographed, sizeof short_photographed, 0, 0, photographed);
    ask_load_short("load without answers", short_fresh, sizeof short_fresh, 0, 0, fresh);
    ask_store_short("store without photographs", answered, 8, 0, 0, 8, "\0\0\0\1\1\0\2\3" "7");
    ask_store_short("store with a photograph", photographed, 9, 0, 0, 8, "\0\0\1\1\1\0\2\3" "7");
    ask_store_short("store to one byte too few", photographed, 7, 18, 0, 0, "777777777");
    ask_store_short("store to no byte", photographed, 0, 18, 0, 0, "777777777");
    ask_store_short("store without answers", fresh, 2, 0, 0, 2, "\0\3" "7777777");
    ask_store_short("store without answers to one byte", fresh, 1, 18, 0, 0, "777777777");
    memcpy(faulty, answered, sizeof faulty);
    faulty[1] = 3;
    ask_store_short("store a sheet at fault", faulty, 0, 14, 1, 0, "777777777");
    faulty[1] = 1;
    faulty[SIGHTING_PLACES + 2] = 128;
    ask_store_short("store a photograph without an answer", faulty, 9, 14, 2, 0, "777777777");
    faulty[SIGHTING_PLACES + 2] = 0;
    faulty[SIGHTING_PLACES - 1] = 0;
    ask_store_short("store an answer behind the fields", faulty, 9, 14, SIGHTING_PLACES - 1, 0, "777777777");
}

/* A byte of a sheet that is neither 0 nor 1 is a photograph, stored as 1, and stays; in the short form there is no such byte. */
static void short_bytes_of_photographs(void) {
    uint8_t sheet[SIGHTING_SHEET_BYTES], given[SIGHTING_SHEET_BYTES], fresh[SIGHTING_SHEET_BYTES];
    uint8_t bytes[] = {0, 0, 1, 1, 1, 0, 2, 3};
    sighting_fresh(fresh);
    for (int byte = 2; byte < 256; byte++) {
        memcpy(sheet, answered, sizeof sheet);
        sheet[SIGHTING_PLACES] = (uint8_t)byte;
        memcpy(given, sheet, sizeof given);
        ask_store_short("store any photograph", sheet, 8, 0, 0, 8, "\0\0\1\1\1\0\2\3" "7");
        expect_sheet("the sheet stays byte for byte", given, sheet);
        bytes[2] = (uint8_t)byte;
        ask_load_short("load such a byte", bytes, sizeof bytes, 24, 0, fresh);
        ask_move("lengthen such a byte", sighting_lengthen, bytes, sizeof bytes, 9, 24, 0, 0, "777777777");
    }
}

/* E1's short form with one byte replaced is refused by this number and place, whatever is lent; a refused load leaves a fresh sheet. */
static void refuse_replaced(size_t at, uint8_t byte, uint64_t number, uint64_t place) {
    uint8_t bytes[sizeof short_photographed], fresh[SIGHTING_SHEET_BYTES];
    sighting_fresh(fresh);
    memcpy(bytes, short_photographed, sizeof bytes);
    bytes[at] = byte;
    ask_load_short("load with a byte replaced", bytes, sizeof bytes, number, place, fresh);
    ask_move("lengthen with a byte replaced", sighting_lengthen, bytes, sizeof bytes, 9, number, place, 0, "777777777");
    ask_move("the same to no byte", sighting_lengthen, bytes, sizeof bytes, 0, number, place, 0, "777777777");
}

/* Lengths, trailer, fields, order, photographs, and then codes. */
static void refused_short_sheets(void) {
    static const uint8_t both[] = {0, 2, 0, 1, 1, 2, 2, 3}, alone[] = {2, 3, 0, 1, 3}, longer[] = {1, 1, 0, 0, 1, 3};
    uint8_t fresh[SIGHTING_SHEET_BYTES];
    sighting_fresh(fresh);
    for (size_t length = 0; length < sizeof short_answered; length++) {
        ask_load_short("load a part", short_answered, length, 24, 0, fresh);
        ask_load_short("load a part from its end", short_answered + 8 - length, length, 24, 0, fresh);
        ask_move("lengthen a part", sighting_lengthen, short_answered, length, 9, 24, 0, 0, "777777777");
    }
    refuse_replaced(6, 1, 24, 0);
    refuse_replaced(6, 3, 24, 0);
    refuse_replaced(7, 2, 24, 0);
    refuse_replaced(7, 4, 24, 0);
    refuse_replaced(0, 1, 24, 0);
    refuse_replaced(0, 2, 24, 0);
    refuse_replaced(3, 0, 24, 0);
    refuse_replaced(3, 3, 24, 0);
    refuse_replaced(3, 255, 24, 0);
    refuse_replaced(5, 2, 24, 0);
    refuse_replaced(1, 2, 14, 0);
    refuse_replaced(1, SIGHTING_NO_ANSWER, 14, 0);
    refuse_replaced(4, 3, 14, 1);
    refuse_replaced(4, SIGHTING_NO_ANSWER, 14, 1);
    ask_load_short("a code at fault in field 2 alone", alone, sizeof alone, 14, 2, fresh);
    ask_load_short("a byte before the trailer", longer, sizeof longer, 24, 0, fresh);
    ask_load_short("a code at fault before a photograph", both, sizeof both, 24, 0, fresh);
    ask_move("lengthen the same", sighting_lengthen, both, sizeof both, 0, 24, 0, 0, "777777777");
}

/* One form moved to the other and back, to just as many bytes and to one less, and what is refused. */
static void moved_forms(void) {
    static const uint8_t none[] = {255, 255, 255}, faulty[] = {0, 1, 3, 255};
    ask_move("shorten", sighting_shorten, form, sizeof form, 8, 0, 0, 8, "\0\0\0\1\1\0\2\3" "7");
    ask_move("shorten to one byte too few", sighting_shorten, form, sizeof form, 7, 18, 0, 0, "777777777");
    ask_move("shorten no answers", sighting_shorten, none, sizeof none, 2, 0, 0, 2, "\0\3" "7777777");
    ask_move("shorten no answers to one byte", sighting_shorten, none, sizeof none, 1, 18, 0, 0, "777777777");
    ask_move("shorten four bytes", sighting_shorten, faulty, 4, 0, 19, 0, 0, "777777777");
    ask_move("shorten two bytes", sighting_shorten, faulty, 2, 9, 19, 0, 0, "777777777");
    ask_move("shorten a fault", sighting_shorten, faulty, 3, 0, 14, 2, 0, "777777777");
    ask_move("lengthen", sighting_lengthen, short_answered, 8, 3, 0, 0, 3, "\0\1\377" "777777");
    ask_move("lengthen to one byte too few", sighting_lengthen, short_answered, 8, 2, 18, 0, 0, "777777777");
    ask_move("lengthen to no byte", sighting_lengthen, short_answered, 8, 0, 18, 0, 0, "777777777");
    ask_move("lengthen no answers", sighting_lengthen, short_fresh, 2, 9, 0, 0, 3, "\377\377\377" "777777");
    ask_move("lengthen no answers to two bytes", sighting_lengthen, short_fresh, 2, 2, 18, 0, 0, "777777777");
    ask_move("lengthen a photograph", sighting_lengthen, short_photographed, 8, 9, 22, 0, 0, "777777777");
    ask_move("lengthen a photograph to too few", sighting_lengthen, short_photographed, 8, 2, 22, 0, 0, "777777777");
}

/* A refused book has its place in each of the four calls, and comes before all else. */
static void short_by_no_book(void) {
    uint8_t sheet[SIGHTING_SHEET_BYTES], fresh[SIGHTING_SHEET_BYTES], out[1] = {7};
    uint64_t place[1] = {7}, cells[2] = {7, 7};
    sighting_fresh(fresh);
    memset(sheet, 7, sizeof sheet);
    expect("store a faulty sheet by no book", 2, sighting_store_short(sheet, book, sizeof book - 1, out, 0, cells));
    expect("place of 2 in storing", 33, cells[0]);
    expect("written by 2 in storing", 0, cells[1]);
    expect("load by no book", 2, sighting_load_short(sheet, book, sizeof book - 1, form, 0, place));
    expect("place of 2 in loading", 33, place[0]);
    expect_sheet("fresh by no book", fresh, sheet);
    expect("shorten by no book", 2, sighting_shorten(book, sizeof book - 1, form, 0, out, 0, cells));
    expect("place of 2 in shortening", 33, cells[0]);
    expect("lengthen by no bytes", 1, sighting_lengthen(book, 0, form, 0, out, 0, cells));
    expect("place of 1 in lengthening", 0, cells[0]);
    expect("written by 1 in lengthening", 0, cells[1]);
    expect("the byte lent", 7, out[0]);
}

/* The outcome of a report has two cells, place and length, and both are 0 where the text does not fit. */
static void report_outcome(void) {
    uint8_t text[SIGHTING_REPORT_BYTES];
    uint64_t outcome[2] = {7, 7};
    expect("report", 0, sighting_report(book, sizeof book, form, sizeof form, text, sizeof text, outcome));
    expect("place of the report", 0, outcome[0]);
    expect("length of the report", 67, outcome[1]);
    expect("report one byte short", 18, sighting_report(book, sizeof book, form, sizeof form, text, 66, outcome));
    expect("place of the refusal", 0, outcome[0]);
    expect("length in the refusal", 0, outcome[1]);
}

/* A version's longest listing: all its fields with 32 codes; 64 tables of 64 rows on four fields, each code as large as may be. */
static size_t longest(uint16_t *listing, int version, int fields) {
    size_t n = 0;
    listing[n++] = (uint16_t)fields;
    for (int field = 0; field < fields; field++) listing[n++] = 32;
    listing[n++] = 64;
    for (int table = 0; table < 64; table++) {
        listing[n++] = 4;
        for (int field = fields - 4; field < fields; field++) listing[n++] = (uint16_t)field;
        listing[n++] = 64;
        for (int code = 0; code < 256; code++) listing[n++] = 31;
    }
    listing[n++] = (uint16_t)version;
    return n;
}

/* The header's lengths suffice for the longest listing and its book, and one element less is refused by 18. */
static void longest_listing(void) {
    static uint16_t listing[SIGHTING_LISTING_NUMBERS], shown[SIGHTING_LISTING_NUMBERS];
    static uint8_t written[SIGHTING_BOOK_BYTES];
    uint64_t outcome[2] = {7, 7};
    expect("numbers of the longest listing", SIGHTING_LISTING_NUMBERS, longest(listing, 2, 60));
    expect("write one byte short", 18, sighting_write(listing, SIGHTING_LISTING_NUMBERS, written, SIGHTING_BOOK_BYTES - 1, outcome));
    expect("bytes told by 18", 0, outcome[1]);
    expect("the byte lent first", 0, written[0]);
    expect("write", 0, sighting_write(listing, SIGHTING_LISTING_NUMBERS, written, SIGHTING_BOOK_BYTES, outcome));
    expect("place of the written book", 0, outcome[0]);
    expect("bytes of the longest book", SIGHTING_BOOK_BYTES, outcome[1]);
    expect("show one number short", 18, sighting_show(written, SIGHTING_BOOK_BYTES, shown, SIGHTING_LISTING_NUMBERS - 1, outcome));
    expect("numbers told by 18", 0, outcome[1]);
    expect("the number lent first", 0, shown[0]);
    expect("show", 0, sighting_show(written, SIGHTING_BOOK_BYTES, shown, SIGHTING_LISTING_NUMBERS, outcome));
    expect("place of the shown listing", 0, outcome[0]);
    expect("numbers shown", SIGHTING_LISTING_NUMBERS, outcome[1]);
    expect("the listing that was written", 0, (uint64_t)(memcmp(listing, shown, sizeof shown) != 0));
}

/* Version 1's longest listing and book, in the memory that version 2's take; with a field more it is no book. */
static void longest_listing_of_version_1(void) {
    static uint16_t listing[SIGHTING_LISTING_NUMBERS], shown[SIGHTING_LISTING_NUMBERS];
    static uint8_t written[SIGHTING_BOOK_BYTES];
    uint64_t outcome[2] = {7, 7};
    size_t numbers = longest(listing, 1, 33);
    expect("write 33 fields of version 1", 20, sighting_write(listing, numbers, written, SIGHTING_BOOK_BYTES, outcome));
    numbers = longest(listing, 1, 32);
    expect("numbers of version 1", 16803, numbers);
    expect("write version 1", 0, sighting_write(listing, numbers, written, SIGHTING_BOOK_BYTES, outcome));
    expect("bytes of version 1", 16870, outcome[1]);
    expect("show version 1", 0, sighting_show(written, 16870, shown, SIGHTING_LISTING_NUMBERS, outcome));
    expect("numbers shown of version 1", numbers, outcome[1]);
    expect("the listing of version 1", 0, (uint64_t)(memcmp(listing, shown, numbers * sizeof *listing) != 0));
}

/* A listing of no numbers, also beside a buffer of no bytes; one in read-only memory; one number too many; no version. */
static void short_listings(void) {
    static const uint16_t least[] = {1, 32, 0, 1, 1};
    static const uint8_t least_book[] = {32, 0, 0, 1, 0, 1, 0xE5};
    uint8_t written[8] = {9, 9, 9, 9, 9, 9, 9, 9};
    uint64_t outcome[2] = {7, 7};
    expect("write no numbers", 20, sighting_write(least, 0, written, sizeof written, outcome));
    expect("place of 20", 0, outcome[0]);
    expect("bytes told by 20", 0, outcome[1]);
    expect("write no numbers to no bytes", 20, sighting_write(least, 0, written, 0, outcome));
    expect("write one number too many", 20, sighting_write(least, 5, written, sizeof written, outcome));
    expect("write no version", 20, sighting_write(least, 3, written, sizeof written, outcome));
    expect("the byte lent first stays", 9, written[0]);
    expect("write the least book to no bytes", 18, sighting_write(least, 4, written, 0, outcome));
    expect("write the least book", 0, sighting_write(least, 4, written, sizeof written, outcome));
    expect("bytes of the least book", sizeof least_book, outcome[1]);
    expect("the least book", 0, (uint64_t)(memcmp(written, least_book, sizeof least_book) != 0));
    expect("the byte behind it", 9, written[7]);
}

/* A refused book has its place, and shows no numbers. */
static void refused_show(void) {
    uint16_t shown[1] = {9};
    uint64_t outcome[2] = {7, 7};
    expect("show without the closing byte", 2, sighting_show(book, sizeof book - 1, shown, 0, outcome));
    expect("place of 2", 33, outcome[0]);
    expect("numbers told by 2", 0, outcome[1]);
    expect("show no bytes", 1, sighting_show(book, 0, shown, 1, outcome));
    expect("place of 1", 0, outcome[0]);
    expect("the number lent stays", 9, shown[0]);
}

/* A book of version 2: 60 fields of 32 codes, and no table. */
static size_t sixty(uint8_t *bytes) {
    static const uint8_t trailer[] = {0, 0, 60, 0, 2, 0xE5};
    memset(bytes, 32, 60);
    memcpy(bytes + 60, trailer, sizeof trailer);
    return 60 + sizeof trailer;
}

/* 60 fields with as many readings as are searched, all of them full: 16 fields have two codes. With one more there are too many. */
static void most_readings(void) {
    uint8_t bytes[66], sheet[SIGHTING_SHEET_BYTES], out[SIGHTING_STORED_BYTES];
    uint64_t cells[4] = {7, 7, 7, 7};
    size_t length = sixty(bytes);
    sighting_fresh(sheet);
    expect("a reading of 32 codes each", 23, sighting_nearest(sheet, bytes, length, out, sizeof out, cells));
    expect("place of 23", 0, cells[0]);
    expect("written by 23", 0, cells[3]);
    memset(bytes, 1, 44);
    memset(bytes + 44, 2, 16);
    memset(sheet, 0, 44);
    memset(sheet + 44, 1, 16);
    memset(out, 7, sizeof out);
    expect("a reading of 65,536", 0, sighting_nearest(sheet, bytes, length, out, sizeof out, cells));
    expect("it is found", 1, cells[1]);
    expect("it differs in none", 0, cells[2]);
    expect("bytes of 60 fields", 60, cells[3]);
    expect("it is the sheet's", 0, (uint64_t)(memcmp(out, sheet, sizeof out) != 0));
    expect("59 bytes for 60 fields", 18, sighting_nearest(sheet, bytes, length, out, sizeof out - 1, cells));
    bytes[0] = 2;
    expect("a reading of 131,072", 23, sighting_nearest(sheet, bytes, length, out, sizeof out, cells));
    expect("the same with no bytes", 23, sighting_nearest(sheet, bytes, length, out, 0, cells));
}

/* All fields answered by their last code: the header's lengths suffice, and one element less is refused by 18. */
static void sixty_fields(void) {
    uint8_t bytes[66], sheet[SIGHTING_SHEET_BYTES], pairs[SIGHTING_PAIRS_BYTES];
    uint32_t numbers[SIGHTING_NUMBERS];
    uint64_t place[1], found[3];
    size_t length = sixty(bytes);
    sighting_fresh(sheet);
    for (size_t field = 0; field < 60; field++) expect("enter", 0, sighting_enter(sheet, bytes, length, field, 31, place));
    expect("enter field 60", 15, sighting_enter(sheet, bytes, length, 60, 31, place));
    expect("alternatives of 60 fields", 0, sighting_alternatives(sheet, bytes, length, pairs, sizeof pairs, found));
    expect("total of 60 fields", 1920, found[1]);
    expect("struck of 60 fields", 111600, found[2]);
    expect("the last field listed", 59, pairs[sizeof pairs - 2]);
    expect("the last code listed", 31, pairs[sizeof pairs - 1]);
    expect("alternatives one byte short", 18, sighting_alternatives(sheet, bytes, length, pairs, sizeof pairs - 1, found));
    expect("filter with field 59 relaxed", 0, sighting_filtered(sheet, bytes, length, 59, numbers, SIGHTING_NUMBERS, place));
    expect("the codes of field 59", UINT32_MAX, numbers[59]);
    expect("the code of field 58", (uint32_t)1 << 31, numbers[58]);
    expect("filter one number short", 18, sighting_filtered(sheet, bytes, length, 59, numbers, SIGHTING_NUMBERS - 1, place));
    expect("withdraw field 59", 0, sighting_withdraw(sheet, bytes, length, 59, place));
    expect("withdraw it again", 17, sighting_withdraw(sheet, bytes, length, 59, place));
}

/*
 * 60 fields, and one table on the last four: field 59 has a code for each three codes of the three before it. So it takes three questions,
 * which may stand last in a list of six; two are not enough, and seven are refused.
 */
static void most_questions(void) {
    static const uint8_t questions[] = {53, 54, 55, 56, 57, 58, 52}, head[] = {4, 56, 57, 58, 59, 8, 0};
    uint8_t bytes[7 + 4 * 8 + 66], sheet[SIGHTING_SHEET_BYTES];
    uint64_t cells[3] = {7, 7, 7};
    size_t length = sizeof head + 4 * 8;
    memcpy(bytes, head, sizeof head);
    for (size_t row = 0; row < 8; row++) {
        const size_t codes[] = {row / 4, row / 2 % 2, row % 2, row};
        for (size_t i = 0; i < 4; i++) bytes[sizeof head + 4 * row + i] = (uint8_t)codes[i];
    }
    sixty(bytes + length);
    memset(bytes + length, 2, 59);
    bytes[length + 60] = (uint8_t)length;
    bytes[length + 63] = 1;
    length += 66;
    sighting_fresh(sheet);
    expect("six questions", 0, sighting_plan(sheet, bytes, length, 59, questions, 6, cells));
    expect("they are enough", 1, cells[1]);
    expect("three of them", 3, cells[2]);
    expect("seven questions", 27, sighting_plan(sheet, bytes, length, 59, questions, 7, cells));
    expect("place of 27", 0, cells[0]);
    expect("five questions", 0, sighting_plan(sheet, bytes, length, 59, questions, 5, cells));
    expect("they are not enough", 0, cells[1]);
    expect("field 60", 15, sighting_plan(sheet, bytes, length, 60, questions, 6, cells));
    sheet[57] = 1;
    expect("two questions", 0, sighting_plan(sheet, bytes, length, 59, (const uint8_t[]){58, 56}, 2, cells));
    expect("both of them", 2, cells[2]);
    expect("question 57", 27, sighting_plan(sheet, bytes, length, 59, (const uint8_t[]){58, 57}, 2, cells));
}

/* All fields photographed one after the other: what is struck is less by a case each time, and in the end there is no line. */
static void sixty_photographs(void) {
    uint8_t bytes[66], sheet[SIGHTING_SHEET_BYTES], given[SIGHTING_SHEET_BYTES];
    uint8_t pairs[SIGHTING_PAIRS_BYTES], stored[SIGHTING_STORED_BYTES];
    uint64_t place[1], found[3];
    size_t length = sixty(bytes);
    memset(stored, 31, sizeof stored);
    expect("load 60 answers", 0, sighting_load(sheet, bytes, length, stored, sizeof stored, place));
    for (size_t field = 0; field < 60; field++) {
        expect("photograph", 0, sighting_photograph(sheet, bytes, length, field, place));
        expect("its byte", 1, sheet[SIGHTING_PLACES + field]);
        expect("alternatives", 0, sighting_alternatives(sheet, bytes, length, pairs, sizeof pairs, found));
        expect("total", 32 * (59 - field), found[1]);
        expect("struck", 60 * 31 + (59 - field) * 59 * 31, found[2]);
    }
    expect("photograph field 60", 15, sighting_photograph(sheet, bytes, length, 60, place));
    expect("store", 22, sighting_store(sheet, bytes, length, stored, sizeof stored, place));
    expect("withdraw field 59", 22, sighting_withdraw(sheet, bytes, length, 59, place));
    memcpy(given, sheet, sizeof given);
    for (size_t field = 0; field < 60; field++) expect("enter it again", 0, sighting_enter(sheet, bytes, length, field, 31, place));
    expect_sheet("sixty answers sent again", given, sheet);
    expect("enter another code of field 59", 22, sighting_enter(sheet, bytes, length, 59, 30, place));
    expect("enter no code of field 59", 16, sighting_enter(sheet, bytes, length, 59, 32, place));
    expect("enter field 59 again", 0, sighting_enter(sheet, bytes, length, 59, 31, place));
    expect_sheet("field 59 sent again", given, sheet);
    sheet[59] = SIGHTING_NO_ANSWER;
    expect("field 59 photographed without an answer", 14, sighting_photograph(sheet, bytes, length, 0, place));
    expect("its place", 59, place[0]);
}

/* Stored sheets of 59, 60 and 61 bytes for 60 fields; a fault at the last place, for either version. */
static void sixty_places(void) {
    uint8_t bytes[66], sheet[SIGHTING_SHEET_BYTES], stored[SIGHTING_STORED_BYTES + 1];
    uint64_t place[1];
    size_t length = sixty(bytes);
    memset(stored, 31, sizeof stored);
    expect("load 61 bytes", 19, sighting_load(sheet, bytes, length, stored, 61, place));
    expect("load 59 bytes", 19, sighting_load(sheet, bytes, length, stored, 59, place));
    expect("the last place of a refused load", SIGHTING_NO_ANSWER, sheet[59]);
    expect("load 60 bytes", 0, sighting_load(sheet, bytes, length, stored, 60, place));
    expect("the last place loaded", 31, sheet[59]);
    expect("store to 59 bytes", 18, sighting_store(sheet, bytes, length, stored, 59, place));
    expect("store to 61 bytes", 0, sighting_store(sheet, bytes, length, stored, 61, place));
    sighting_clear(sheet);
    sheet[59] = 32;
    expect("a fault at place 59", 14, sighting_store(sheet, bytes, length, stored, 60, place));
    expect("its place", 59, place[0]);
    expect("the same for a book of version 1", 14, sighting_store(sheet, book, sizeof book, stored, 60, place));
    expect("its place for version 1", 59, place[0]);
}

/* All 60 fields answered and photographed: the header's length suffices for the short form, and one byte less is refused by 18. */
static void sixty_short(void) {
    uint8_t bytes[66], sheet[SIGHTING_SHEET_BYTES], loaded[SIGHTING_SHEET_BYTES];
    uint8_t stored[SIGHTING_SHORT_BYTES + 1], old[SIGHTING_STORED_BYTES];
    uint64_t place[1], cells[2] = {7, 7};
    size_t length = sixty(bytes);
    memset(sheet, 31, SIGHTING_PLACES);
    memset(sheet + SIGHTING_PLACES, 1, SIGHTING_PLACES);
    memset(stored, 7, sizeof stored);
    expect("store to 181 bytes", 18, sighting_store_short(sheet, bytes, length, stored, SIGHTING_SHORT_BYTES - 1, cells));
    expect("bytes told by 18", 0, cells[1]);
    expect("the byte lent first", 7, stored[0]);
    expect("store to 182 bytes", 0, sighting_store_short(sheet, bytes, length, stored, SIGHTING_SHORT_BYTES, cells));
    expect("bytes of 60 answers", SIGHTING_SHORT_BYTES, cells[1]);
    expect("the last field", 59, stored[177]);
    expect("the last photograph", 1, stored[179]);
    expect("the number of answers", 60, stored[180]);
    expect("the number of fields", 60, stored[181]);
    expect("the byte behind", 7, stored[SIGHTING_SHORT_BYTES]);
    expect("load 182 bytes", 0, sighting_load_short(loaded, bytes, length, stored, SIGHTING_SHORT_BYTES, place));
    expect_sheet("all answers and photographs", sheet, loaded);
    expect("load 183 bytes", 24, sighting_load_short(loaded, bytes, length, stored, SIGHTING_SHORT_BYTES + 1, place));
    expect("lengthen them", 22, sighting_lengthen(bytes, length, stored, SIGHTING_SHORT_BYTES, old, sizeof old, cells));
    stored[178] = 32;
    expect("a code at fault in field 59", 14, sighting_load_short(loaded, bytes, length, stored, SIGHTING_SHORT_BYTES, place));
    expect("its place", 59, place[0]);
    stored[177] = 60;
    expect("a field 60", 24, sighting_load_short(loaded, bytes, length, stored, SIGHTING_SHORT_BYTES, place));
}

/* The longest forms without photographs, moved to each other. */
static void sixty_moved(void) {
    uint8_t bytes[66], old[SIGHTING_STORED_BYTES], back[SIGHTING_STORED_BYTES], moved[SIGHTING_SHORT_BYTES];
    uint64_t cells[2] = {7, 7};
    size_t length = sixty(bytes);
    memset(old, 31, sizeof old);
    expect("shorten to 181 bytes", 18, sighting_shorten(bytes, length, old, sizeof old, moved, sizeof moved - 1, cells));
    expect("bytes told by 18", 0, cells[1]);
    expect("shorten to 182 bytes", 0, sighting_shorten(bytes, length, old, sizeof old, moved, sizeof moved, cells));
    expect("bytes of the short form", SIGHTING_SHORT_BYTES, cells[1]);
    expect("lengthen to 59 bytes", 18, sighting_lengthen(bytes, length, moved, sizeof moved, back, sizeof back - 1, cells));
    expect("lengthen to 60 bytes", 0, sighting_lengthen(bytes, length, moved, sizeof moved, back, sizeof back, cells));
    expect("bytes of the other form", SIGHTING_STORED_BYTES, cells[1]);
    expect("the bytes that were moved", 0, (uint64_t)(memcmp(old, back, sizeof back) != 0));
}

/*
 * Joins two books with so many of 48 bytes lent. Both cells are written, and none beside them; of the bytes the first are the joined
 * book's then, and all others as they were.
 */
static void ask_join(const char *what, const uint8_t *first, size_t first_len, const uint8_t *second, size_t second_len, size_t lent,
                     uint64_t number, uint64_t place, const uint8_t *joined, size_t length) {
    uint8_t out[48], left[48];
    uint64_t cells[4] = {7, 7, 7, 7};
    memset(out, 7, sizeof out);
    memset(left, 7, sizeof left);
    memcpy(left, joined, length);
    expect(what, number, sighting_join(first, first_len, second, second_len, out, lent, cells + 1));
    expect("the place of a join", place, cells[1]);
    expect("how many bytes were joined", length, cells[2]);
    expect("the cell before a join's", 7, cells[0]);
    expect("the cell behind a join's", 7, cells[3]);
    expect(what, 0, (uint64_t)(memcmp(out, left, sizeof out) != 0));
}

/* The same, refused: no byte is written. */
static void refuse_join(const char *what, const uint8_t *first, size_t first_len, const uint8_t *second, size_t second_len, size_t lent,
                        uint64_t number, uint64_t place) {
    ask_join(what, first, first_len, second, second_len, lent, number, place, first, 0);
}

/* E1 with another book in either order, E1 as both books, and books without tables: to just as many bytes, and to one less. */
static void joined_books(void) {
    static const uint8_t least[] = {32, 0, 0, 1, 0, 1, 0xE5}, least_joined[] = {32, 0, 0, 1, 0, 2, 0xE5};
    static const uint8_t joined[] = {1, 0, 2, 0, 0, 1, 2, 0, 2, 3, 0, 0, 0, 0, 1, 1, 2, 2, 1, 2,
                                     2, 0, 1, 1, 2, 2, 2, 3, 3, 26, 0, 3, 3, 2, 0xE5};
    static const uint8_t alone[] = {2, 0, 2, 3, 0, 0, 0, 0, 1, 1, 2, 2, 1, 2, 4, 0, 0,
                                    0, 1, 1, 1, 2, 2, 2, 2, 3, 3, 24, 0, 3, 2, 2, 0xE5};
    const size_t lengths[] = {sizeof joined, sizeof joined + 1, 48};
    for (size_t i = 0; i < 3; i++) {
        ask_join("join", book, sizeof book, other_block, sizeof other_block, lengths[i], 0, 0, joined, sizeof joined);
        ask_join("join the other way", other_block, sizeof other_block, book, sizeof book, lengths[i], 0, 0, joined, sizeof joined);
    }
    refuse_join("join to one byte too few", book, sizeof book, other_block, sizeof other_block, sizeof joined - 1, 18, 0);
    refuse_join("join to no byte", book, sizeof book, other_block, sizeof other_block, 0, 18, 0);
    ask_join("a book with itself", book, sizeof book, book, sizeof book, sizeof alone, 0, 0, alone, sizeof alone);
    refuse_join("the same to one byte too few", book, sizeof book, book, sizeof book, sizeof alone - 1, 18, 0);
    ask_join("what was joined with both", joined, sizeof joined, alone, sizeof alone, 48, 0, 0, joined, sizeof joined);
    ask_join("a joined book with itself", joined, sizeof joined, joined, sizeof joined, 48, 0, 0, joined, sizeof joined);
    ask_join("no tables", least, sizeof least, least, sizeof least, 7, 0, 0, least_joined, sizeof least_joined);
    refuse_join("no tables to one byte too few", least, sizeof least, least, sizeof least, 6, 18, 0);
}

/* The rows of two tables with none in common leave a table of 0 rows, and so does a table that has none; a part of a book is no book. */
static void joined_to_nothing(void) {
    static const uint8_t zero[] = {1, 0, 1, 0, 0, 2, 5, 0, 1, 1, 1, 0xE5}, one[] = {1, 0, 1, 0, 1, 2, 5, 0, 1, 1, 1, 0xE5};
    static const uint8_t twice[] = {1, 0, 1, 0, 1, 1, 0, 1, 0, 0, 2, 10, 0, 1, 2, 1, 0xE5}, none[] = {1, 0, 0, 0, 2, 4, 0, 1, 1, 2, 0xE5};
    ask_join("two rows apart", zero, sizeof zero, one, sizeof one, 11, 0, 0, none, sizeof none);
    ask_join("two rows apart in one book", twice, sizeof twice, twice, sizeof twice, 11, 0, 0, none, sizeof none);
    ask_join("a row and no rows", one, sizeof one, none, sizeof none, 48, 0, 0, none, sizeof none);
    ask_join("no rows twice", none, sizeof none, none, sizeof none, 48, 0, 0, none, sizeof none);
    for (size_t length = 0; length < sizeof one; length++) {
        uint64_t outcome[5], number = sighting_read(one, length, outcome);
        refuse_join("a part as the first book", one, length, zero, sizeof zero, 48, number, outcome[0]);
        refuse_join("a part as the second book", zero, sizeof zero, one, length, 48, number, outcome[0]);
        refuse_join("a part as both books", one, length, one, length, 0, number, outcome[0]);
    }
}

/* The first book's refusal, then the second's, then 25 for codes and for fields, before too few bytes. */
static void refused_joins(void) {
    static const uint8_t fewer[] = {2, 3, 0, 0, 2, 0, 1, 0xE5}, more[] = {2, 3, 3, 1, 0, 0, 4, 0, 2, 0xE5};
    uint8_t codes[sizeof other_block], faulty[sizeof other_block];
    memcpy(codes, other_block, sizeof codes);
    codes[19] = 4;
    memcpy(faulty, other_block, sizeof faulty);
    faulty[5] = 3;
    refuse_join("the first is no book", book, sizeof book - 1, other_block, sizeof other_block, 48, 2, 33);
    refuse_join("the second is no book", book, sizeof book, faulty, sizeof faulty, 48, 11, 5);
    refuse_join("neither is a book", book, sizeof book - 1, faulty, sizeof faulty, 0, 2, 33);
    refuse_join("neither is, the other way", faulty, sizeof faulty, book, sizeof book - 1, 0, 11, 5);
    refuse_join("no bytes as the first", book, 0, faulty, sizeof faulty, 0, 1, 0);
    refuse_join("no bytes as the second", book, sizeof book, faulty, 0, 0, 1, 0);
    refuse_join("no book beside other fields", more, sizeof more, fewer, sizeof fewer - 1, 0, 2, 6);
    refuse_join("a field with a code more", book, sizeof book, codes, sizeof codes, 48, 25, 0);
    refuse_join("a field with a code less", codes, sizeof codes, book, sizeof book, 48, 25, 0);
    refuse_join("a field less", book, sizeof book, fewer, sizeof fewer, 48, 25, 0);
    refuse_join("a field more", book, sizeof book, more, sizeof more, 48, 25, 0);
    refuse_join("a field more to no byte", more, sizeof more, book, sizeof book, 0, 25, 0);
}

/*
 * A book of version 2 with all fields and codes, and tables on the sets of four fields from one number to another, each with so many rows.
 * Sets and rows rise, so that the book joined with itself is itself. Answers its length.
 */
static size_t on_sets(uint8_t *bytes, int from, int to, int rows) {
    size_t n = 0;
    for (int set = from; set < to; set++) {
        const int head[] = {4, 0, 1 + set / 32, 20 + set % 32, 59, rows % 256, rows / 256};
        for (size_t i = 0; i < 7; i++) bytes[n++] = (uint8_t)head[i];
        for (int row = 0; row < rows; row++) {
            const int codes[] = {row / 32768, row / 1024 % 32, row / 32 % 32, row % 32};
            for (size_t i = 0; i < 4; i++) bytes[n++] = (uint8_t)codes[i];
        }
    }
    const size_t trailer[] = {n % 256, n / 256, 60, (size_t)(to - from), 2, 0xE5};
    memset(bytes + n, 32, 60);
    for (size_t i = 0; i < 6; i++) bytes[n + 60 + i] = (uint8_t)trailer[i];
    return n + 66;
}

/* Joins books on these sets to just as many bytes as a book on all of them has, and to one less; the bytes are that book's. */
static void join_to(const char *what, const uint8_t *first, size_t first_len, const uint8_t *second, size_t second_len,
                    const uint8_t *joined, size_t length) {
    static uint8_t out[SIGHTING_BOOK_BYTES + 1];
    uint64_t cells[2] = {7, 7};
    memset(out, 7, sizeof out);
    expect(what, 18, sighting_join(first, first_len, second, second_len, out, length - 1, cells));
    expect("bytes told by 18", 0, cells[1]);
    expect("the byte lent first", 7, out[0]);
    expect(what, 0, sighting_join(first, first_len, second, second_len, out, length, cells));
    expect("place of the joined book", 0, cells[0]);
    expect("bytes of the joined book", length, cells[1]);
    expect("the joined book", 0, (uint64_t)(memcmp(out, joined, length) != 0));
    expect("the byte behind the joined book", 7, out[length]);
}

/* More than version 2 allows: 26, whatever is lent, and no byte is written. */
static void join_too_much(const char *what, const uint8_t *first, size_t first_len, const uint8_t *second, size_t second_len) {
    refuse_join(what, first, first_len, second, second_len, 48, 26, 0);
    refuse_join("too much for no byte", first, first_len, second, second_len, 0, 26, 0);
}

/* 64 sets of fields, however they are spread over the two books, and 65, though each table has no row. */
static void most_sets(void) {
    static uint8_t all[SIGHTING_BOOK_BYTES], first[SIGHTING_BOOK_BYTES], second[SIGHTING_BOOK_BYTES];
    for (int rows = 0; rows < 3; rows++) {
        size_t length = on_sets(all, 0, 64, rows), first_len = on_sets(first, 32, 64, rows), second_len = on_sets(second, 0, 32, rows);
        join_to("32 sets and 32", first, first_len, second, second_len, all, length);
        join_to("32 sets of 64", all, length, second, second_len, all, length);
        join_to("64 sets", all, length, all, length, all, length);
        join_to("63 sets and 1", first, on_sets(first, 1, 64, rows), second, on_sets(second, 0, 1, rows), all, length);
        join_too_much("64 sets and 1", all, length, second, on_sets(second, 64, 65, rows));
        join_too_much("1 set and 64", second, on_sets(second, 64, 65, rows), all, length);
        join_too_much("33 sets and 32", first, on_sets(first, 0, 33, rows), second, on_sets(second, 33, 65, rows));
        join_too_much("64 sets and 64", first, on_sets(first, 1, 65, rows), all, length);
    }
}

/* 4,096 rows in one table and over all, and 4,097; a row that comes again is one row, and a row in one book alone is none. */
static void most_rows(void) {
    static uint8_t all[SIGHTING_BOOK_BYTES], first[SIGHTING_BOOK_BYTES], second[SIGHTING_BOOK_BYTES];
    size_t length = on_sets(all, 0, 1, 4096), second_len = on_sets(second, 1, 2, 1);
    join_to("4,096 rows", all, length, all, length, all, length);
    join_too_much("4,096 rows and 1", all, length, second, second_len);
    join_too_much("1 row and 4,096", second, second_len, all, length);
    join_too_much("4,096 rows and 4,096", all, length, second, on_sets(second, 1, 2, 4096));
    memcpy(first, all, length);
    memcpy(first + 7, first + 11, 4);
    size_t joined = 2 * 7 + 4 * 4096 + 66;
    uint64_t cells[2] = {7, 7};
    second_len = on_sets(second, 1, 2, 1);
    expect("4,096 rows, one twice, and 1", 0, sighting_join(first, length, second, second_len, all, sizeof all, cells));
    expect("their bytes", joined, cells[1]);
    expect("the same to one byte too few", 18, sighting_join(first, length, second, second_len, all, joined - 1, cells));
    length = on_sets(all, 0, 2, 2048);
    join_to("2,048 rows and 2,048", first, on_sets(first, 0, 1, 2048), second, on_sets(second, 1, 2, 2048), all, length);
    join_to("2,048 rows of 4,096, and 2,048", first, on_sets(first, 0, 1, 4096), all, length, all, length);
    join_too_much("2,049 rows and 2,048", first, on_sets(first, 0, 1, 2049), second, on_sets(second, 1, 2, 2048));
}

/* The longest joined book: 60 fields, 64 sets of four and 4,096 rows. The header's length suffices, and one byte less is refused by 18. */
static void longest_join(void) {
    static uint8_t all[SIGHTING_BOOK_BYTES], first[SIGHTING_BOOK_BYTES], second[SIGHTING_BOOK_BYTES];
    size_t length = on_sets(all, 0, 64, 64);
    expect("bytes of the longest joined book", SIGHTING_BOOK_BYTES, length);
    join_to("the longest with itself", all, length, all, length, all, length);
    join_to("its two halves", first, on_sets(first, 0, 32, 64), second, on_sets(second, 32, 64, 64), all, length);
    memcpy(first, all, length);
    memcpy(first + 7, all + 7 + 4 * 63, 4);
    memcpy(first + 7 + 4 * 63, all + 7, 4);
    join_to("the first and the last row in each other's place", first, length, all, length, all, length);
}

/* Reads a book for the profile of tree books. All five cells are written, and none beside them. */
static void ask_read_tree(const char *what, const uint8_t *bytes, size_t length, uint64_t number, uint64_t place,
                          const uint64_t *counts) {
    uint64_t cells[7] = {7, 7, 7, 7, 7, 7, 7};
    expect(what, number, sighting_read_tree(bytes, length, cells + 1));
    expect("its place", place, cells[1]);
    for (size_t i = 0; i < 4; i++) expect(what, counts[i], cells[2 + i]);
    expect("the cell before", 7, cells[0]);
    expect("the cell behind", 7, cells[6]);
}

/* The same, refused: nothing is counted. */
static void refuse_tree(const char *what, const uint8_t *bytes, size_t length, uint64_t number, uint64_t place) {
    static const uint64_t none[4];
    ask_read_tree(what, bytes, length, number, place, none);
}

/*
 * Writes the tree book of a listing with so many of 48 bytes lent. Both cells are written, and none beside them; of the bytes the first
 * are the book's then, and all others as they were.
 */
static void ask_write_tree(const char *what, const uint16_t *listing, size_t numbers, size_t lent, uint64_t number, const uint8_t *bytes,
                           size_t length) {
    uint8_t out[48], left[48];
    uint64_t cells[4] = {7, 7, 7, 7};
    memset(out, 7, sizeof out);
    memset(left, 7, sizeof left);
    memcpy(left, bytes, length);
    expect(what, number, sighting_write_tree(listing, numbers, out, lent, cells + 1));
    expect("the place of a tree book", 0, cells[1]);
    expect("how many bytes of it were written", length, cells[2]);
    expect("the cell before a tree book's", 7, cells[0]);
    expect("the cell behind a tree book's", 7, cells[3]);
    expect(what, 0, (uint64_t)(memcmp(out, left, sizeof out) != 0));
}

/* The same, refused, whatever is lent: no byte is written. */
static void refuse_written_tree(const char *what, const uint16_t *listing, size_t numbers, uint64_t number) {
    ask_write_tree(what, listing, numbers, 0, number, book, 0);
    ask_write_tree(what, listing, numbers, 48, number, book, 0);
}

/* E1 is a tree book: its counts, and its bytes to just as many, one more, one too few, and none. */
static void tree_books(void) {
    static const uint64_t counts[] = {3, 2, 8, 7}, least_counts[] = {1, 0, 0, 0};
    static const uint16_t listing[] = {3, 2, 3, 3, 2, 2, 0, 2, 4, 0, 0, 0, 1, 1, 2, 0, 1, 2, 1, 2, 4, 0, 0, 1, 1, 1, 2, 2, 2, 1};
    static const uint16_t least[] = {1, 32, 0, 2};
    static const uint8_t least_book[] = {32, 0, 0, 1, 0, 2, 0xE5};
    const size_t numbers = sizeof listing / sizeof *listing;
    ask_read_tree("E1 is a tree book", book, sizeof book, 0, 0, counts);
    ask_read_tree("the least tree book", least_book, sizeof least_book, 0, 0, least_counts);
    ask_write_tree("write E1", listing, numbers, sizeof book, 0, book, sizeof book);
    ask_write_tree("write E1 to one byte more", listing, numbers, sizeof book + 1, 0, book, sizeof book);
    ask_write_tree("write E1 to one byte too few", listing, numbers, sizeof book - 1, 18, book, 0);
    ask_write_tree("write E1 to no byte", listing, numbers, 0, 18, book, 0);
    ask_write_tree("write the least tree book", least, 4, sizeof least_book, 0, least_book, sizeof least_book);
    ask_write_tree("the same to one byte too few", least, 4, sizeof least_book - 1, 18, least_book, 0);
    refuse_written_tree("no numbers", listing, 0, 20);
    refuse_written_tree("no version", listing, numbers - 1, 20);
}

/* A ring, two tables on the same pair, tables of three and four fields, in books and in listings; each with a fault that comes first. */
static void no_tree_books(void) {
    static const uint8_t twins[] = {2, 0, 1, 0, 0, 1, 1, 0, 0, 2, 0, 1, 0, 0, 2, 2, 14, 0, 2, 3, 1, 0xE5};
    static const uint8_t wide[] = {2, 0, 1, 0, 0, 2, 0, 1, 0, 0, 3, 0, 1, 2, 0, 0, 2, 2, 2, 16, 0, 3, 3, 2, 0xE5};
    static const uint8_t four[] = {4, 0, 1, 2, 3, 0, 0, 2, 2, 2, 2, 7, 0, 4, 1, 1, 0xE5};
    static const uint16_t ring_listing[] = {3, 2, 2, 2, 3, 2, 0, 1, 0, 2, 0, 2, 0, 2, 1, 2, 0, 2, 9};
    static const uint16_t twin_listing[] = {2, 2, 2, 3, 2, 0, 1, 0, 1, 1, 0, 2, 0, 1, 0, 1};
    static const uint16_t wide_listing[] = {3, 2, 2, 2, 3, 2, 0, 1, 0, 2, 0, 1, 0, 3, 0, 1, 2, 0, 2};
    uint8_t faulty[sizeof each_pair_differs];
    refuse_tree("E4", each_pair_differs, sizeof each_pair_differs, 29, 18);
    refuse_tree("two tables on the same pair", twins, sizeof twins, 29, 9);
    refuse_tree("three fields behind a ring", wide, sizeof wide, 28, 10);
    refuse_tree("four fields", four, sizeof four, 28, 0);
    memcpy(faulty, each_pair_differs, sizeof faulty);
    faulty[26] = 2;
    refuse_tree("E4 with a code at fault", faulty, sizeof faulty, 11, 26);
    for (size_t length = 0; length < sizeof four; length++) {
        uint64_t outcome[5], number = sighting_read(four, length, outcome);
        refuse_tree("a part of a book", four, length, number, outcome[0]);
    }
    refuse_written_tree("a ring", ring_listing, sizeof ring_listing / sizeof *ring_listing - 1, 29);
    refuse_written_tree("a ring and a number left over", ring_listing, sizeof ring_listing / sizeof *ring_listing, 20);
    refuse_written_tree("the same pair twice", twin_listing, sizeof twin_listing / sizeof *twin_listing, 29);
    refuse_written_tree("the same without a version", twin_listing, sizeof twin_listing / sizeof *twin_listing - 1, 20);
    refuse_written_tree("three fields", wide_listing, sizeof wide_listing / sizeof *wide_listing, 28);
    refuse_written_tree("three fields and no version", wide_listing, sizeof wide_listing / sizeof *wide_listing - 1, 20);
}

/* A listing of 60 fields and of so many tables without rows: a path through all fields, tables of one field, and last one on these two. */
static size_t path_of_sixty(uint16_t *listing, int tables, int one, int other) {
    size_t n = 0;
    listing[n++] = 60;
    for (int field = 0; field < 60; field++) listing[n++] = 2;
    listing[n++] = (uint16_t)tables;
    for (int table = 0; table < tables; table++) {
        const int is_last = table + 1 == tables, is_link = table < 59 || (is_last && one != other);
        listing[n++] = is_link ? 2 : 1;
        listing[n++] = (uint16_t)(is_last ? one : table % 59);
        if (is_link) listing[n++] = (uint16_t)(is_last ? other : table + 1);
        listing[n++] = 0;
    }
    listing[n++] = 2;
    return n;
}

/* The most tables: a path through all 60 fields and five tables of one field are a tree book; a link on its ends as the last is a ring. */
static void most_links(void) {
    static uint16_t listing[512];
    static uint8_t bytes[512];
    uint64_t outcome[5], written[2];
    size_t numbers = path_of_sixty(listing, 64, 59, 59), length = 59 * 5 + 5 * 4 + 66;
    expect("write 59 links to one byte too few", 18, sighting_write_tree(listing, numbers, bytes, length - 1, written));
    expect("bytes told by 18", 0, written[1]);
    expect("the byte lent first", 0, bytes[0]);
    expect("write 59 links", 0, sighting_write_tree(listing, numbers, bytes, length, written));
    expect("their bytes", length, written[1]);
    expect("read them", 0, sighting_read_tree(bytes, length, outcome));
    expect("the number of tables", 64, outcome[2]);
    numbers = path_of_sixty(listing, 64, 0, 59);
    expect("write a ring of 60", 29, sighting_write_tree(listing, numbers, bytes, sizeof bytes, written));
    expect("place of 29 in writing", 0, written[0]);
    expect("write it as any book", 0, sighting_write(listing, numbers, bytes, sizeof bytes, written));
    expect("read a ring of 60", 29, sighting_read_tree(bytes, (size_t)written[1], outcome));
    expect("place of 29", 59 * 5 + 4 * 4, outcome[0]);
    expect("tables of a ring", 0, outcome[2]);
    numbers = path_of_sixty(listing, 65, 59, 59);
    expect("write 65 tables", 20, sighting_write_tree(listing, numbers, bytes, sizeof bytes, written));
}

int main(void) {
    wide_numbers();
    read_only_sheet();
    read_only_photographs();
    photographs();
    answers_sent_again();
    bytes_of_photographs();
    photographs_in_a_list();
    row_outcome();
    last_row();
    nearest_outcome();
    refused_nearest();
    plan_outcome();
    refused_plans();
    short_sheets();
    short_bytes_of_photographs();
    refused_short_sheets();
    moved_forms();
    short_by_no_book();
    report_outcome();
    most_readings();
    most_questions();
    sixty_fields();
    sixty_photographs();
    sixty_places();
    sixty_short();
    sixty_moved();
    longest_listing();
    longest_listing_of_version_1();
    short_listings();
    refused_show();
    joined_books();
    joined_to_nothing();
    refused_joins();
    most_sets();
    most_rows();
    longest_join();
    tree_books();
    no_tree_books();
    most_links();
    return differences != 0;
}
