/* Strikes shades for oracle/check. Each case on standard input begins with three 4-byte numbers, in
   native byte order: the spacing, the shade number and how many bytes of buffer; then these bytes.
   For each, 8 bytes of result and the buffer's bytes go to standard output.
   Bytes around the buffer must stay as they were. */

#include "driver.h"

uint64_t probe_strike(uint32_t spacing, uint16_t number, uint8_t *buffer, size_t buffer_len);

static void strike_case(uint32_t spacing, uint16_t number, size_t size)
{
    uint8_t *buffer = taken(size);
    answer(probe_strike(spacing, number, inside(buffer), size), buffer, size);
}

int main(void)
{
    uint32_t head[3];
    while (take(head, sizeof head))
        strike_case(head[0], (uint16_t)head[1], head[2]);
    return 0;
}
