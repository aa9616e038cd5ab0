/*
 * guards.c - the harness on a board (host/harness.h): areas between guard bytes, on a word or beside one, and a first
 * failure that ends the program.
 */
#include <stdio.h>
#include <string.h>

#include "harness.h"
#include "platform.h"

#define GUARD 16
#define GUARD_BYTE 0xC3

/* Each area of a call in its room, which it fills in part. */
static uint8_t room[AREAS][GUARD + LEN_MAX + 1 + GUARD] __attribute__((aligned(8)));
static struct {
    uint8_t *start;
    size_t len;
} lent[AREAS];

static unsigned passed;

uint8_t *lend(enum entry entry, enum area i, const uint8_t *bytes, size_t len, int other_way)
{
    uint8_t *start = room[i] + GUARD + (other_way ? 1 : 0);

    (void)entry; /* that an area is only read is seen by its bytes */
    memset(start - GUARD, GUARD_BYTE, GUARD);
    memcpy(start, bytes, len);
    memset(start + len, GUARD_BYTE, GUARD);
    lent[i].start = start;
    lent[i].len = len;
    return start;
}

void check_around(void)
{
    for (unsigned i = 0; i < AREAS; i++) {
        for (unsigned k = 0; lent[i].start != NULL && k < GUARD; k++) {
            if (lent[i].start[-1 - (int)k] != GUARD_BYTE || lent[i].start[lent[i].len + k] != GUARD_BYTE)
                fail("a byte beside %s is changed", area_name[i]);
        }
    }
}

void fail(const char *format, ...)
{
    va_list list;

    printf("FAIL call %lu: ", calls);
    va_start(list, format);
    vprintf(format, list);
    va_end(list);
    printf("\n");
    quit(1);
}

void section(const char *name, void (*run)(void))
{
    unsigned long first = calls;

    seed_random(++passed);
    run();
    printf("ok   %-46s %8lu calls\n", name, calls - first);
}

int finish(const char *program)
{
    printf("%s: %u passed, 0 failed, %lu calls\n", program, passed, calls);
    return 0;
}
