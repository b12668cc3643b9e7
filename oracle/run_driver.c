/* Runs lists of calls for oracle/check. Each case on standard input begins with five 4-byte
   numbers, in native byte order as all of it: how many words of records, how many of tables, how
   many readings, how many bytes of books, how many words of buffer; then these five.
   For each, 8 bytes of result and the buffer's bytes go to standard output.
   Bytes around the buffer, and what is only read, must stay as they were. */

#include "driver.h"

enum { WORD = sizeof(uint32_t), READING = sizeof(uint16_t) };

uint64_t probe_run(const uint32_t *records, size_t records_len, const uint32_t *tables,
                   size_t tables_len, const uint16_t *spectra, size_t spectra_len,
                   const uint8_t *books, size_t books_len, uint32_t *buffer, size_t buffer_len);

static void run_case(size_t words, size_t entries, size_t readings, size_t bytes, size_t places)
{
    size_t of_records = WORD * words, of_tables = WORD * entries, of_spectra = READING * readings;
    uint8_t *records = taken(of_records), *same_records = copied(records, of_records);
    uint8_t *tables = taken(of_tables), *same_tables = copied(tables, of_tables);
    uint8_t *spectra = taken(of_spectra), *same_spectra = copied(spectra, of_spectra);
    uint8_t *books = taken(bytes), *same_books = copied(books, bytes);
    uint8_t *buffer = taken(WORD * places);
    answer(probe_run(inside(records), words, inside(tables), entries, inside(spectra), readings,
                     inside(books), bytes, inside(buffer), places),
           buffer, WORD * places);
    must_be_kept(records, same_records, of_records);
    must_be_kept(tables, same_tables, of_tables);
    must_be_kept(spectra, same_spectra, of_spectra);
    must_be_kept(books, same_books, bytes);
}

int main(void)
{
    uint32_t head[5];
    while (take(head, sizeof head))
        run_case(head[0], head[1], head[2], head[3], head[4]);
    return 0;
}
