/*
 * pages.c - the harness on a host (harness.h): areas against inaccessible pages, lengths of every size, and sections that
 * a failure ends.
 */
#define _DEFAULT_SOURCE

#include <inttypes.h>
#include <setjmp.h>
#include <signal.h>
#include <stdarg.h>
#include <stdio.h>
#include <stdlib.h>
#include <string.h>
#include <sys/mman.h>
#include <time.h>
#include <unistd.h>

#include "harness.h"

#define DEFAULT_SEED 1

static uint64_t seed;
static unsigned share = 1;

unsigned rounds(unsigned all)
{
    return all / share;
}

/* ---- Sections ---- */

static sigjmp_buf section_end;
static unsigned passed, failed;

void fail(const char *format, ...)
{
    va_list list;

    printf("     call %lu, seed %" PRIu64 ": ", calls, seed);
    va_start(list, format);
    vprintf(format, list);
    va_end(list);
    printf("\n");
    siglongjmp(section_end, 1);
}

void section(const char *name, void (*run)(void))
{
    clock_t start = clock();
    unsigned long first = calls;
    const char *word;

    if (sigsetjmp(section_end, 1) == 0) {
        seed_random(seed * 1000 + passed + failed);
        run();
        passed++;
        word = "ok  ";
    } else {
        failed++;
        word = "FAIL";
    }
    printf("%s %-46s %8lu calls %5.1f s\n", word, name, calls - first, (double)(clock() - start) / CLOCKS_PER_SEC);
    fflush(stdout);
}

/* ---- Areas ---- */

struct guarded guarded[AREAS];
static size_t page, room; /* the machine's page, and as many whole ones as hold LEN_MAX bytes */

static uint8_t *map_view(int file, int access)
{
    uint8_t *all = mmap(NULL, room + 2 * page, PROT_NONE, MAP_PRIVATE | MAP_ANONYMOUS, -1, 0);

    if (all == MAP_FAILED || mmap(all + page, room, access, MAP_SHARED | MAP_FIXED, file, 0) == MAP_FAILED) {
        perror("mmap");
        exit(EXIT_FAILURE);
    }
    return all + page;
}

static void map_areas(void)
{
    page = (size_t)sysconf(_SC_PAGESIZE);
    room = (LEN_MAX + page - 1) / page * page;
    for (unsigned i = 0; i < AREAS; i++) {
        FILE *file = tmpfile();

        if (file == NULL || ftruncate(fileno(file), (off_t)room) != 0) {
            perror("tmpfile");
            exit(EXIT_FAILURE);
        }
        guarded[i].writable = map_view(fileno(file), PROT_READ | PROT_WRITE);
        guarded[i].readable = map_view(fileno(file), PROT_READ);
        fclose(file);
    }
}

/* Says where a stray access went, and ends the section. */
static void on_fault(int signal, siginfo_t *info, void *context)
{
    const uint8_t *at = info->si_addr;

    (void)signal, (void)context;
    for (unsigned i = 0; i < AREAS; i++) {
        const uint8_t *view[2] = {guarded[i].writable, guarded[i].readable};

        for (unsigned v = 0; v < 2; v++) {
            if (at >= view[v] - page && at < view[v] + room + page)
                fail("stray access to %s at %td%s", area_name[i], at - guarded[i].lent,
                     v == 1 ? ", which is only to be read" : "");
        }
    }
    fail("stray access outside all areas");
}

uint8_t *lend(enum entry entry, enum area i, const uint8_t *bytes, size_t len, int at_end)
{
    size_t at = at_end ? room - len : 0;
    int only_read = entry_form[entry].only_read >> i & 1;
    uint8_t *lent = (only_read ? guarded[i].readable : guarded[i].writable) + at;

    memcpy(guarded[i].writable + at, bytes, len);
    guarded[i].lent = lent;
    return lent;
}

/* A stray access has trapped. */
void check_around(void)
{
}

/* ---- Lengths ---- */

/* A length that is right in its low 8, 16 or 32 bits; the area is as long as that, and read-only. */
static void long_area(enum entry entry, enum area i, size_t more)
{
    struct call c = make_call(entry, 1, 1);
    size_t len = area_len[i] + more;
    uint8_t *lent[AREAS];
    uint8_t *map = mmap(NULL, len, PROT_READ, MAP_PRIVATE | MAP_ANONYMOUS | MAP_NORESERVE, -1, 0);

    if (map == MAP_FAILED)
        fail("no area of %zu bytes", len);
    for (unsigned k = 0; k < AREAS; k++)
        lent[k] = lend(entry, k, area[k], area_len[k], 1);
    c.len[i] = len;
    lent[i] = map;
    expect("long area", call_router(&c, lent), ROUTER_BAD_LENGTH);
    for (unsigned k = 0; k < AREAS; k++) {
        if (k != i && memcmp(lent[k], area[k], area_len[k]) != 0)
            fail("%s changed in a call with a long area", area_name[k]);
    }
    munmap(map, len);
}

void try_lengths(enum entry entry, void (*ready)(unsigned))
{
    struct call none = {entry, {0}, 0, 0};

    for (unsigned i = 0; i < AREAS; i++) {
        if ((entry_form[entry].lent >> i & 1) == 0)
            continue;
        for (size_t len = 0; len <= 2 * area_len[i]; len++) {
            if (len % 64 == 0)
                ready(below(257));
            if (len != area_len[i])
                try_length(entry, i, len);
        }
        for (unsigned k = 0; k < AREAS; k++) {
            if (area_len[k] != area_len[i])
                try_length(entry, i, area_len[k]);
        }
        long_area(entry, i, (size_t)1 << 8);
        long_area(entry, i, (size_t)1 << 16);
        if (SIZE_MAX > UINT32_MAX)
            long_area(entry, i, (size_t)UINT32_MAX + 1);
    }
    expect("all lengths zero", call_both(&none), ROUTER_BAD_LENGTH);
}

/* ---- The program ---- */

void start(int argc, char **argv)
{
    struct sigaction action;

    seed = argc > 1 ? strtoull(argv[1], NULL, 10) : DEFAULT_SEED;
    share = argc > 2 ? (unsigned)strtoul(argv[2], NULL, 10) : 1;
    if (share == 0) {
        fprintf(stderr, "usage: %s [SEED [SHARE]], and a share is 1 or more\n", argv[0]);
        exit(EXIT_FAILURE);
    }
    memset(&action, 0, sizeof action);
    action.sa_sigaction = on_fault;
    action.sa_flags = SA_SIGINFO | SA_NODEFER;
    sigaction(SIGSEGV, &action, NULL);
    sigaction(SIGBUS, &action, NULL);
    map_areas();
    printf("seed %" PRIu64 "\n", seed);
}

int finish(const char *program)
{
    printf("%s: %u passed, %u failed, %lu calls, %.0f s of processor time\n", program, passed, failed, calls,
           (double)clock() / CLOCKS_PER_SEC);
    return failed == 0 ? EXIT_SUCCESS : EXIT_FAILURE;
}
