/* Strikes the first of so many shades from a book, a number of times, for counting instructions:
     strike SHADES COUNT
   The book is copied anew for each. */

#include <stdint.h>
#include <stdio.h>
#include <stdlib.h>
#include <string.h>

uint64_t probe_write(uint32_t spacing, const uint16_t *numbers, size_t numbers_len,
                     const uint16_t *spectra, size_t spectra_len, uint8_t *buffer,
                     size_t buffer_len);
uint64_t probe_strike(uint32_t spacing, uint16_t number, uint8_t *buffer, size_t buffer_len);

enum { SPACING = 5, ROWS = 81, MOST = 200, SHADE = 8 + 2 * ROWS, LONGEST = 6 + SHADE * MOST };

int main(int count, char **words)
{
    static uint16_t numbers[MOST], spectra[MOST * ROWS];
    static uint8_t book[LONGEST], buffer[LONGEST];
    if (count != 3)
        return 2;
    size_t shades = strtoul(words[1], 0, 10), turns = strtoul(words[2], 0, 10);
    if (shades < 1 || shades > MOST)
        return 2;
    for (size_t shade = 0; shade < shades; shade++)
        numbers[shade] = (uint16_t)(shade + 1);
    for (size_t row = 0; row < shades * ROWS; row++)
        spectra[row] = (uint16_t)(100 + row % 11900);
    size_t length = probe_write(SPACING, numbers, shades, spectra, shades * ROWS, book, LONGEST);
    for (size_t turn = 0; turn < turns; turn++) {
        memcpy(buffer, book, length);
        if (probe_strike(SPACING, 1, buffer, length) != length - SHADE) {
            fputs("strike: another length\n", stderr);
            return 1;
        }
    }
    return 0;
}
