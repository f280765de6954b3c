/* A compiler's last step: writes the book of its listing, example E1's, to book.bin. */
#include <sighting.h>
#include <stdio.h>

static const uint16_t listing[] = {3, 2, 3, 3, 2,                       /* three fields and the codes of each; two tables */
                                   2, 0, 2, 4, 0, 0, 0, 1, 1, 2, 0, 1,  /* two fields, 0 and 2; four rows */
                                   2, 1, 2, 4, 0, 0, 1, 1, 1, 2, 2, 2,  /* two fields, 1 and 2; four rows */
                                   1};                                  /* version */

int main(void) {
    static uint8_t book[SIGHTING_BOOK_BYTES];
    uint64_t written[2];
    if (sighting_write(listing, sizeof listing / sizeof *listing, book, sizeof book, written) != 0) return 1;
    FILE *file = fopen("book.bin", "wb");
    if (file == NULL) return 1;
    size_t stored = fwrite(book, 1, (size_t)written[1], file);
    return fclose(file) != 0 || stored != written[1];
}
