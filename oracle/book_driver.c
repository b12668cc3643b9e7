/* Makes the book's calls for oracle/check. Each case on standard input begins with five 4-byte
   numbers, in native byte order as all of it:
     0, the spacing, how many shade numbers, readings and bytes of buffer; then these three
     1, the spacing, the book's length, the shade number, how many places; then book and places
   For each, 8 bytes of result and the buffer's or the places' bytes go to standard output.
   Bytes around the buffer and the places, and what is only read, must stay as they were. */

#include "driver.h"

uint64_t probe_write(uint32_t spacing, const uint16_t *numbers, size_t numbers_len,
                     const uint16_t *spectra, size_t spectra_len, uint8_t *buffer,
                     size_t buffer_len);
uint32_t probe_read(uint32_t spacing, const uint8_t *book, size_t book_len, uint16_t number,
                    uint16_t *places, size_t places_len);

static void write_case(uint32_t spacing, size_t count, size_t readings, size_t size)
{
    uint8_t *numbers = taken(2 * count), *same_numbers = copied(numbers, 2 * count);
    uint8_t *spectra = taken(2 * readings), *same_spectra = copied(spectra, 2 * readings);
    uint8_t *buffer = taken(size);
    answer(probe_write(spacing, inside(numbers), count, inside(spectra), readings, inside(buffer),
                       size),
           buffer, size);
    must_be_kept(numbers, same_numbers, 2 * count);
    must_be_kept(spectra, same_spectra, 2 * readings);
}

static void read_case(uint32_t spacing, size_t size, uint16_t number, size_t count)
{
    uint8_t *book = taken(size), *same_book = copied(book, size);
    uint8_t *places = taken(2 * count);
    answer(probe_read(spacing, inside(book), size, number, inside(places), count), places,
           2 * count);
    must_be_kept(book, same_book, size);
}

int main(void)
{
    uint32_t head[5];
    while (take(head, sizeof head))
        if (head[0] == 0)
            write_case(head[1], head[2], head[3], head[4]);
        else
            read_case(head[1], head[2], (uint16_t)head[3], head[4]);
    return 0;
}
