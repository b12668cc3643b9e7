/* Pools spots for oracle/check. Each case on standard input begins with four 4-byte numbers, in
   native byte order as all of it: the spacing, the number of spots, how many readings and how many
   places; then these two. For each, 8 bytes of result and the places' bytes go to standard output.
   Bytes around the places, and the readings, must stay as they were. */

#include "driver.h"

uint32_t probe_pool(uint32_t spacing, uint32_t count, const uint16_t *spots, size_t spots_len,
                    uint16_t *places, size_t places_len);

static void pool_case(uint32_t spacing, uint32_t count, size_t readings, size_t rows)
{
    uint8_t *spots = taken(2 * readings), *same_spots = copied(spots, 2 * readings);
    uint8_t *places = taken(2 * rows);
    answer(probe_pool(spacing, count, inside(spots), readings, inside(places), rows), places,
           2 * rows);
    must_be_kept(spots, same_spots, 2 * readings);
}

int main(void)
{
    uint32_t head[4];
    while (take(head, sizeof head))
        pool_case(head[0], head[1], head[2], head[3]);
    return 0;
}
