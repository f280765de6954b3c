/* Prints the listing of book.bin, or its refusal. */
#include <sighting.h>
#include <stdio.h>

int main(void) {
    static uint8_t book[32769]; /* one byte more than any book may have, so that a longer file is refused too */
    static uint16_t listing[SIGHTING_LISTING_NUMBERS];
    uint64_t shown[2];
    FILE *file = fopen("book.bin", "rb");
    if (file == NULL) return 1;
    size_t length = fread(book, 1, sizeof book, file);
    uint64_t number = sighting_show(book, length, listing, SIGHTING_LISTING_NUMBERS, shown);
    if (number != 0) printf("refused %d %d\n", (int)number, (int)shown[0]);
    for (size_t i = 0; i < shown[1]; i++) printf("%d%c", listing[i], i + 1 < shown[1] ? ' ' : '\n');
    return fclose(file) != 0;
}
