/* What the C programs share: an end with status 1 where something does not hold, and a dispatcher to lend. */
#ifndef LENT_H
#define LENT_H

#include <stdio.h>
#include <stdlib.h>
#include <string.h>

#include "makxirund.h"

#define COUNT(a) (sizeof(a) / sizeof((a)[0]))

/* What is being checked, where a program checks many things alike; it ends the message. */
static char about[80];

static void expect(int holds, const char *what, const char *file, int line)
{
    if (!holds) {
        fprintf(stderr, "%s:%d: %s does not hold%s\n", file, line, what, about);
        exit(1);
    }
}

#define EXPECT(what) expect(what, #what, __FILE__, __LINE__)

/* Room around the dispatcher, so that a library with another idea of its size is caught, not crashed by. */
#define MARGIN 4096
#define PATTERN 0xA5

static union {
    unsigned char bytes[MARGIN + sizeof(struct makxirund_dispatcher) + MARGIN];
    max_align_t aligned;
} room;

static struct makxirund_dispatcher *lend(void)
{
    memset(room.bytes, PATTERN, sizeof room.bytes);
    return (struct makxirund_dispatcher *)(room.bytes + MARGIN);
}

static int margins_kept(void)
{
    for (size_t i = 0; i < MARGIN; i++) {
        if (room.bytes[i] != PATTERN || room.bytes[MARGIN + sizeof(struct makxirund_dispatcher) + i] != PATTERN)
            return 0;
    }
    return 1;
}

/* The buffer's bytes from a place on are as they were lent. */
static int kept_from(const uint8_t *buffer, size_t size, size_t place)
{
    while (place < size && buffer[place] == PATTERN)
        place++;
    return place == size;
}

#endif
