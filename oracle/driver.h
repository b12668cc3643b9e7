/* What the drivers of oracle/check share: input, room with guard bytes around it, and answers. */

#include <stdint.h>
#include <stdio.h>
#include <stdlib.h>
#include <string.h>

enum { GUARD = 32, GUARD_BYTE = 0xA5 };

static int take(void *into, size_t size)
{
    return fread(into, 1, size, stdin) == size;
}

/* Room for a number of bytes: they begin after the guard. */
static uint8_t *room(size_t size)
{
    uint8_t *space = malloc(size + 2 * GUARD);
    if (!space)
        exit(3);
    memset(space, GUARD_BYTE, size + 2 * GUARD);
    return space;
}

/* The bytes between the guards. The guard keeps malloc's alignment, so numbers may stand there. */
static void *inside(uint8_t *space)
{
    return space + GUARD;
}

/* Room filled from standard input. */
static uint8_t *taken(size_t size)
{
    uint8_t *space = room(size);
    if (!take(inside(space), size))
        exit(3);
    return space;
}

/* This and the last are inline so that a driver may do without them. */
static inline uint8_t *copied(const uint8_t *space, size_t size)
{
    uint8_t *copy = room(size);
    memcpy(copy, space, size + 2 * GUARD);
    return copy;
}

static void must_be_guarded(const uint8_t *space, size_t size)
{
    for (size_t at = 0; at < GUARD; at++)
        if (space[at] != GUARD_BYTE || space[GUARD + size + at] != GUARD_BYTE) {
            fputs("the call wrote outside its buffer\n", stderr);
            exit(4);
        }
}

/* Says what a call gave back, and what it left in the room that was lent. Frees that. */
static void answer(uint64_t result, uint8_t *lent, size_t size)
{
    fwrite(&result, sizeof result, 1, stdout);
    fwrite(inside(lent), 1, size, stdout);
    must_be_guarded(lent, size);
    free(lent);
}

/* What a call only reads is as it was, guards included. Frees both. */
static inline void must_be_kept(uint8_t *space, uint8_t *copy, size_t size)
{
    if (memcmp(space, copy, size + 2 * GUARD) != 0) {
        fputs("the call changed what it only reads\n", stderr);
        exit(4);
    }
    free(space);
    free(copy);
}
