/* Two survey blocks share one aircraft: joins the book of example E1 with another of the same fields, and prints the joined listing. */
#include <sighting.h>
#include <stdio.h>

static const uint16_t one[] = {3, 2, 3, 3, 2,                       /* three fields and the codes of each; two tables */
                               2, 0, 2, 4, 0, 0, 0, 1, 1, 2, 0, 1,  /* fields 0 and 2; four rows, one of them twice */
                               2, 1, 2, 4, 0, 0, 1, 1, 1, 2, 2, 2,  /* fields 1 and 2; four rows */
                               1};                                  /* version */
static const uint16_t other[] = {3, 2, 3, 3, 2,                     /* the same fields; two tables */
                                 2, 1, 2, 3, 2, 2, 1, 1, 2, 1,      /* fields 1 and 2; three rows */
                                 1, 0, 2, 1, 0,                     /* field 0; two rows */
                                 2};                                /* version */

int main(void) {
    static uint8_t first[SIGHTING_BOOK_BYTES], second[SIGHTING_BOOK_BYTES], book[SIGHTING_BOOK_BYTES];
    static uint16_t listing[SIGHTING_LISTING_NUMBERS];
    uint64_t first_written[2], second_written[2], joined[2], shown[2];
    if (sighting_write(one, sizeof one / sizeof *one, first, sizeof first, first_written) != 0) return 1;
    if (sighting_write(other, sizeof other / sizeof *other, second, sizeof second, second_written) != 0) return 1;
    if (sighting_join(first, first_written[1], second, second_written[1], book, sizeof book, joined) != 0) return 1;
    if (sighting_show(book, joined[1], listing, SIGHTING_LISTING_NUMBERS, shown) != 0) return 1;
    for (size_t i = 0; i < shown[1]; i++) printf("%d%c", listing[i], i + 1 < shown[1] ? ' ' : '\n');
    return 0;
}
