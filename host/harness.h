/*
 * harness.h - what the tests share: random numbers, areas, calls of the implementation under test and of the plain one,
 * the order of packets, and makers of states, packets and calls (harness.c); and what a test stands on, which is pages.c
 * on a host and board/guards.c on a board.
 */
#ifndef HARNESS_H
#define HARNESS_H

#include "entries.h"
#include "fields.h"

/* ---- Random numbers ---- */

void seed_random(uint64_t seed);
unsigned below(unsigned limit);
int between(int low, int high);
int edgy(int low, int high); /* between, and often one of the two */
int chance(unsigned percent);
uint8_t random_byte(void);
void random_bytes(uint8_t *bytes, size_t len);

/* ---- What a test stands on ---- */

/* Runs a part of the test, which ends at its end or at its first failure; prints its line. */
void section(const char *name, void (*run)(void));
void fail(const char *format, ...);

/* Prints the last line; returns the exit status. */
int finish(const char *program);

/* ---- Failures ---- */

extern unsigned long calls; /* of the implementation under test */

void expect(const char *what, unsigned got, unsigned should);

/* Prints how often each number of these entries, a set, and each event occurred; fails if one never did. */
void check_occurred(unsigned entries, const char *const *name, const unsigned long *occurred, unsigned events);

/* ---- Areas ---- */

enum area { STATE, MEMORY, ARRIVALS, OUTGOING, ANSWERS, QUEUES, AREAS };

#define SET(i) (1u << (i)) /* sets of areas, of entries and of numbers */
#define STORE (SET(STATE) | SET(MEMORY))

#define LEN_MAX (2 * ROUTER_MEMORY_LEN) /* of the areas tried; longer ones are lent to calls that may not touch them */

extern const char *const area_name[AREAS];
extern const size_t area_len[AREAS];

/* The areas of the plain implementation, and as they were before the call. */
extern uint8_t area[AREAS][LEN_MAX], before[AREAS][LEN_MAX];
extern uint8_t *const state, *const memory, *const answers, *const queues;

/* Keeps state, memory and queues, and brings them back. */
void keep(void);
void come_back(void);

uint8_t *stored_at(unsigned s);
uint8_t *arrival_at(unsigned port);
unsigned withdrawn_at(const uint8_t *bytes, unsigned port);

/* ---- Calls ---- */

/* The entries that put questions, of both archives. */
enum entry { FRESH, CONTROL, TICK, FILL, QUEUES_CONTROL, QUEUES_TICK, FAULT, ENTRIES };

struct call {
    enum entry entry;
    size_t len[AREAS];
    uint8_t first, second; /* clock; register and value; arrivals and best-effort mask */
};

struct entry_form {
    const char *name;
    unsigned lent, only_read; /* sets of areas */
    unsigned numbers;         /* the set of those that it can return */
};

extern const struct entry_form entry_form[ENTRIES];

/* Whose control writes and ticks the harness calls: the router's, or those of the queue engine. */
extern enum subject { ROUTER, ENGINE } subject;

/* Of each test program: what to look at after a call of both implementations. */
void after_call(const struct call *c, unsigned number);

struct call make_call(enum entry entry, unsigned first, unsigned second);

/*
 * Of what the test stands on: places an area of the call, by turns in one of two ways, and fills it; and, after the call
 * of the implementation under test, fails if it touched what lies around the areas.
 */
uint8_t *lend(enum entry entry, enum area i, const uint8_t *bytes, size_t len, int other_way);
void check_around(void);

/* Fails, naming the first byte in which an area is not as expected. */
void differs(const struct call *c, enum area i, const uint8_t *got, const uint8_t *expected);

/* Calls the implementation under test alone, with areas that start at `at`. */
unsigned call_router(const struct call *c, uint8_t *const *at);

/* Calls both with the content of `area`, and compares number and areas; returns the number. */
unsigned call_both(const struct call *c);

unsigned control(unsigned reg, unsigned value);
unsigned tick(unsigned arrivals_mask, unsigned best_effort_mask); /* outgoing and answers are random before it */

/* ---- The order of packets ---- */

/* A stored slot as the rules see it. */
struct seen {
    int early;
    int key;       /* on time: ticks to the deadline; early: ticks to the time */
    int second;    /* on time: the time's offset; early: ticks to the deadline */
    uint8_t plain; /* the byte that the second key is made from */
    unsigned slot, mask;
};

/* The stored slots of a state, the lowest first; says how many. */
unsigned see_slots(const uint8_t *bytes, struct seen *seen);

/* Below 0 if the packet goes before the other, as qsort wants it: on time, least key, least second key, lowest slot. */
int in_order(const void *one, const void *other);

/*
 * What there is to a tie of keys: the second key decides, against the lower slot, or against the plain byte that it is
 * made from, or against the offset of a deadline; or it is equal too, and the slot decides.
 */
enum tie {
    BY_TIME, NOT_BY_TIME_BYTE, ON_TIME_BY_SLOT,
    BY_DEADLINE, NOT_BY_DEADLINE_BYTE, NOT_BY_OFFSET, EARLY_BY_SLOT,
    TIES
};

#define TIE_NAMES(where)                                                                                             \
    where "on-time tie: by time, against slots", where "on-time tie: against times as plain bytes",                  \
        where "on-time tie: by slot", where "early tie: by deadline, against slots",                                 \
        where "early tie: against deadlines as plain bytes", where "early tie: against offsets of deadlines",        \
        where "early tie: by slot"

/* Two packets wait for one port, the first goes before the next: counts what there is to their tie, if it is one. */
void count_tie(const struct seen *first, const struct seen *next, unsigned long *occurred);

/* ---- Makers of states, packets and calls ---- */

void open_connection(unsigned in, unsigned out, unsigned d, unsigned mask);
void set_horizons(unsigned ports, unsigned horizon);
void put_arrival(unsigned port, unsigned connection, int offset);   /* its time given by its offset */
void put_stored(unsigned s, int offset, unsigned d, unsigned mask); /* into slot s */

/* Makes a random sound state with so many packets; every byte that is free to be anything is random. */
void make_sound(unsigned stored);

/* How a run of random calls is to look. */
struct regime {
    unsigned arrivals, best_effort, controls, odd; /* percent */
    unsigned connections, delay_max, horizon_max;
    enum { ANY_VALID, ANY, EDGES, AHEAD, NEAR, SHARED_TIMES, SHARED_DEADLINES, OFFSETS } offsets;
    int unicast;
};

struct regime random_regime(void);

/*
 * Makes a random sound state in which packets share times, or deadlines, as the regime's offsets have it, and all are
 * for the same ports; so are the connections, by which arrivals of this regime come to share them too.
 */
void make_tied(const struct regime *r, unsigned stored);

uint8_t random_mask(unsigned percent);
void random_control(const struct regime *r, uint8_t *reg, uint8_t *value);

/* Puts a random packet into the arrivals of the router with this state; says its offset. */
int random_arrival(const struct regime *r, const uint8_t *bytes, uint8_t *packet);
void random_arrivals(const struct regime *r); /* one for each port of `area` */

/* A control write or a tick. */
void random_call(const struct regime *r);

/* Changes so many random bytes, mostly of the state, else of the memory. */
void damage(unsigned changes);

/* ---- Tests of single calls, from areas that `ready` makes for so many packets ---- */

/* The area has this length, which is wrong; all else is right, or all else is wrong too. */
void try_length(enum entry entry, enum area i, size_t len);
void try_masks(void (*ready)(unsigned));
void try_registers(void (*ready)(unsigned));

/* ---- On a host alone (pages.c) ---- */

/* Takes the seed, and the share of the random rounds that is to run, from the arguments, and makes the areas. */
void start(int argc, char **argv);

/* So many random rounds, or of these one in as many as the share says. */
unsigned rounds(unsigned all);

/*
 * The room for an area of a call: two views of the same pages, with an inaccessible page at both ends. The area lies at
 * its start or at its end, and gets the read-only view where the entry only reads, so that a stray access is seen.
 */
struct guarded {
    uint8_t *writable, *readable;
    const uint8_t *lent; /* where the area of the current call starts */
};

extern struct guarded guarded[AREAS];

/* Every length to twice the right one, and some that are right in their low bits. */
void try_lengths(enum entry entry, void (*ready)(unsigned));

#endif
