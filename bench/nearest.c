/* Searches a book for the shade nearest to a flat swatch, in one list of calls under light 2, for
   counting instructions:
     nearest BUDGET COUNT < BOOK
   All searches are the same; says how many full comparisons the first one made. */

#include <stdint.h>
#include <stdio.h>
#include <stdlib.h>
#include <string.h>

uint64_t probe_run(const uint32_t *records, size_t records_len, const uint32_t *tables,
                   size_t tables_len, const uint16_t *spectra, size_t spectra_len,
                   const uint8_t *books, size_t books_len, uint32_t *buffer, size_t buffer_len);

enum { SPACING = 5, ROWS = 81, LEVEL = 5000, MOST = 100, LONGEST = 6 + (8 + 2 * ROWS) * 200 };

/* A call's record and an answer's, in words, and what of them is used here. */
enum { CALL = 10, ANSWER = 32, OPEN_LIGHT = 2, NEAREST = 8, FOUND = 6, COMPARED = 1 };

int main(int count, char **words)
{
    static uint32_t records[(1 + MOST) * CALL], answers[(1 + MOST) * ANSWER];
    static uint16_t swatch[ROWS];
    static uint8_t book[LONGEST];
    if (count != 3)
        return 2;
    uint32_t budget = (uint32_t)strtoul(words[1], 0, 10), length;
    size_t calls = 1 + strtoul(words[2], 0, 10);
    if (calls < 2 || calls > 1 + MOST)
        return 2;
    length = (uint32_t)fread(book, 1, LONGEST, stdin);
    for (int row = 0; row < ROWS; row++)
        swatch[row] = LEVEL;
    memcpy(records, (uint32_t[]){OPEN_LIGHT, 2, SPACING}, 3 * sizeof *records);
    for (size_t call = 1; call < calls; call++)
        memcpy(records + call * CALL, (uint32_t[]){NEAREST, 0, ROWS, 0, length, budget},
               6 * sizeof *records);
    if (probe_run(records, calls * CALL, records, 0, swatch, ROWS, book, length, answers,
                  calls * ANSWER) != calls || answers[ANSWER] != FOUND) {
        fputs("nearest: a list or its search was refused\n", stderr);
        return 1;
    }
    printf("%u\n", answers[ANSWER + COMPARED]);
    return 0;
}
