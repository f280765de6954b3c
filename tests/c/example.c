/*
 * Prints the alternatives of example E1, the row that keeps the open code, what a photograph of field 0 leaves in doubt, the nearest full
 * reading to answers that contradict each other, the sheet in the short stored form, and how many questions settle a field of a cleared
 * sheet.
 */
#include <sighting.h>
#include <stdio.h>

static const uint8_t book[] = {2, 0, 2, 4, 0, 0, 0, 0, 1, 1, 2, 0, 1, 2, 1, 2, 4, 0, 0, 0,
                               1, 1, 1, 2, 2, 2, 2, 3, 3, 0x1A, 0, 3, 2, 1, 0xE5};
static const uint8_t questions[] = {0, 1};

int main(void) {
    uint8_t sheet[SIGHTING_SHEET_BYTES], pairs[SIGHTING_PAIRS_BYTES], codes[SIGHTING_STORED_BYTES], stored[SIGHTING_SHORT_BYTES];
    uint64_t place[1], written[2], found[3], nearest[4];
    sighting_fresh(sheet);
    if (sighting_enter(sheet, book, sizeof book, 0, 0, place) != 0) return 1;
    if (sighting_enter(sheet, book, sizeof book, 1, 1, place) != 0) return 1;
    if (sighting_alternatives(sheet, book, sizeof book, pairs, sizeof pairs, found) != 0) return 1;
    printf("%d alternatives, %d struck\n", (int)found[1], (int)found[2]);
    for (size_t i = 0; i < found[1]; i++) printf("field %d code %d\n", pairs[2 * i], pairs[2 * i + 1]);
    if (sighting_row(sheet, book, sizeof book, 2, 1, 0, found) != 0) return 1;
    if (found[1] == 1) printf("field 2 code 1: row %d of table 0\n", (int)found[2]);
    if (sighting_photograph(sheet, book, sizeof book, 0, place) != 0) return 1;
    if (sighting_alternatives(sheet, book, sizeof book, pairs, sizeof pairs, found) != 0) return 1;
    printf("field 0 photographed: %d alternatives, %d struck\n", (int)found[1], (int)found[2]);
    if (sighting_enter(sheet, book, sizeof book, 1, 2, place) != 0) return 1;
    if (sighting_nearest(sheet, book, sizeof book, codes, sizeof codes, nearest) != 0) return 1;
    if (nearest[1] == 1) printf("field 1 code 2: nearest reading %d %d %d, %d changed\n", codes[0], codes[1], codes[2], (int)nearest[2]);
    if (sighting_store_short(sheet, book, sizeof book, stored, sizeof stored, written) != 0) return 1;
    printf("stored in %d bytes:", (int)written[1]);
    for (size_t i = 0; i < written[1]; i++) printf(" %d", stored[i]);
    printf("\n");
    sighting_clear(sheet);
    if (sighting_plan(sheet, book, sizeof book, 2, questions, sizeof questions, found) != 0) return 1;
    if (found[1] == 1) printf("field 2 by fields 0 and 1: %d questions\n", (int)found[2]);
    return 0;
}
