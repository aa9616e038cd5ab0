/*
 * queues_test.c - compares the queue engine (router_queues_*, from an archive) with the plain one, byte for byte over
 * all areas and numbers and for queues of any content; where the queues are those of the state, with the comparator
 * too (router_control, router_tick), and every queue after a call with a sort of the state's slots.
 *   queues_test [SEED [SHARE]]   (SHARE: of the random rounds one in so many)
 */

#include <stdio.h>
#include <stdlib.h>
#include <string.h>

#include "harness.h"
#include "plain.h"

#define SORTS 2

#define FILLED_ROUNDS 20u     /* for each number of packets */
#define ORDER_ROUNDS 20000u
#define LONG_CALLS 200000u
#define MADE_CALLS 100000u
#define TIED_CALLS 100000u
#define DAMAGED_CALLS 100000u
#define FOREIGN_ROUNDS 5000u /* for each way to make queues that are not the state's */

/* ---- What has to occur ---- */

enum event {
    AGREED, UNNOTICED,
    SENT_ON_TIME, BEST_EFFORT, SENT_EARLY, HELD_EARLY, STORED, REFUSED, WITHDRAWN,
    FULL_ON_TIME, FULL_EARLY, MOVED_OVER, ALL_MOVED, ENTERED_BETWEEN, CLOCK_TURN,
    TIE,
    EVENTS = TIE + TIES
};

static const char *const event_name[EVENTS] = {
    "accepted with the state's queues, as the comparator", "accepted with other queues, as the plain engine",
    "port: first of the on-time queue", "port: best-effort", "port: first of the early queue",
    "port: idle before an early queue", "arrival stored", "arrival refused", "packet withdrawn",
    "on-time queue of 256", "early queue of 256", "packet moved over", "200 moved over on a port in a tick",
    "arrival entered between others", "clock turn",
    TIE_NAMES(""),
};

static unsigned long occurred[EVENTS];

/* ---- The queues by a sort ---- */

static uint8_t *queue_at(uint8_t *bytes, unsigned p, unsigned sort)
{
    return bytes + ROUTER_QUEUE_LEN * (2 * p + sort);
}

static unsigned size_at(const uint8_t *queue)
{
    return queue[0] * 256u + queue[1];
}

static void set_size(uint8_t *queue, unsigned n)
{
    queue[0] = (uint8_t)(n / 256);
    queue[1] = (uint8_t)(n % 256);
}

/* The queues of a state, with zero from entry n on. Counts the ties of neighbours in them. */
static void queues_of(uint8_t *bytes, uint8_t *result)
{
    struct seen seen[ROUTER_SLOTS];
    unsigned n = see_slots(bytes, seen);

    qsort(seen, n, sizeof *seen, in_order);
    memset(result, 0, ROUTER_QUEUES_LEN);
    for (unsigned p = 0; p < ROUTER_PORTS; p++) {
        const struct seen *next = NULL;

        for (unsigned i = n; i-- > 0;) {
            uint8_t *queue = queue_at(result, p, (unsigned)seen[i].early);

            if ((seen[i].mask >> p & 1) == 0)
                continue;
            queue[ROUTER_QUEUE_ENTRIES + size_at(queue)] = (uint8_t)seen[i].slot;
            set_size(queue, size_at(queue) + 1);
            if (next != NULL)
                count_tie(&seen[i], next, occurred + TIE);
            next = &seen[i];
        }
    }
}

/* Whether two areas have the same queues, whatever stands from entry n on. */
static int same_queues(uint8_t *one, uint8_t *other)
{
    for (unsigned p = 0; p < ROUTER_PORTS; p++) {
        for (unsigned sort = 0; sort < SORTS; sort++) {
            uint8_t *x = queue_at(one, p, sort), *y = queue_at(other, p, sort);

            if (size_at(x) > ROUTER_SLOTS || memcmp(x, y, ROUTER_QUEUE_ENTRIES + size_at(x)) != 0)
                return 0;
        }
    }
    return 1;
}

/* The last state and queues that were seen to belong together, so that the next call need not sort again. */
static uint8_t known[AREAS][LEN_MAX];

static int belong(uint8_t *bytes, uint8_t *held)
{
    uint8_t right[ROUTER_QUEUES_LEN];

    if (memcmp(known[STATE], bytes, ROUTER_STATE_LEN) == 0 && memcmp(known[QUEUES], held, ROUTER_QUEUES_LEN) == 0)
        return 1;
    queues_of(bytes, right);
    if (!same_queues(right, held))
        return 0;
    memcpy(known[STATE], bytes, ROUTER_STATE_LEN);
    memcpy(known[QUEUES], held, ROUTER_QUEUES_LEN);
    return 1;
}

/* ---- After each call ---- */

/* Counts what an accepted tick did that began with the state's queues. */
static void count_tick(void)
{
    for (unsigned p = 0; p < ROUTER_PORTS; p++) {
        uint8_t code = answers[ROUTER_ANSWERS_PORTS + p], arrival = answers[ROUTER_ANSWERS_ARRIVALS + p];
        const uint8_t *on_time = queue_at(queues, p, ROUTER_QUEUE_ON_TIME);
        const uint8_t *early = queue_at(queues, p, ROUTER_QUEUE_EARLY);
        unsigned moved = 0;

        occurred[SENT_ON_TIME] += code == ROUTER_PORT_ON_TIME;
        occurred[BEST_EFFORT] += code == ROUTER_PORT_BEST_EFFORT;
        occurred[SENT_EARLY] += code == ROUTER_PORT_EARLY;
        occurred[HELD_EARLY] += code == ROUTER_PORT_IDLE && size_at(early) > 0;
        occurred[STORED] += arrival == ROUTER_ARRIVAL_STORED;
        occurred[REFUSED] += arrival > ROUTER_ARRIVAL_STORED;
        occurred[WITHDRAWN] += withdrawn_at(answers, p);
        occurred[FULL_ON_TIME] += size_at(on_time) == ROUTER_SLOTS;
        occurred[FULL_EARLY] += size_at(early) == ROUTER_SLOTS;
        for (unsigned n = size_at(on_time); n-- > 0;) {
            unsigned s = on_time[ROUTER_QUEUE_ENTRIES + n];

            moved += state[slot_at(s) + ROUTER_SLOT_TIME] == state[ROUTER_STATE_CLOCK];
            occurred[ENTERED_BETWEEN] += n > 0 && n + 1 < size_at(on_time) &&
                                         before[STATE][slot_at(s) + ROUTER_SLOT_MASK] == 0;
        }
        occurred[MOVED_OVER] += moved;
        occurred[ALL_MOVED] += moved >= 200;
    }
    occurred[CLOCK_TURN] += state[ROUTER_STATE_CLOCK] == 0;
}

/* What the comparator makes of the areas before the call. A control write of what is there puts a fill's questions. */
static uint8_t other[AREAS][LEN_MAX];

static unsigned call_comparator(const struct call *c)
{
    struct call like = *c;
    uint8_t *at[AREAS];

    for (unsigned i = 0; i < AREAS; i++) {
        at[i] = other[i];
        if ((entry_form[c->entry].lent >> i & 1) != 0)
            memcpy(other[i], before[i], c->len[i]);
    }
    like.entry = c->entry == QUEUES_TICK ? TICK : CONTROL;
    if (c->entry == FILL) {
        like.first = ROUTER_REG_OUT_ID;
        like.second = other[STATE][ROUTER_STATE_OUT_ID];
    }
    return call_router(&like, at);
}

void after_call(const struct call *c, unsigned number)
{
    unsigned expected = c->len[QUEUES] == ROUTER_QUEUES_LEN ? call_comparator(c) : ROUTER_BAD_LENGTH;

    if (expected == ROUTER_ACCEPTED && c->entry != FILL && !belong(before[STATE], before[QUEUES])) {
        occurred[UNNOTICED] += number == ROUTER_ACCEPTED;
        return;
    }
    expect("number, by the comparator,", number, expected);
    if (number != ROUTER_ACCEPTED)
        return;

    occurred[AGREED]++;
    for (unsigned i = 0; i < AREAS; i++) {
        if ((entry_form[c->entry].lent >> i & 1) != 0 && i != QUEUES && memcmp(area[i], other[i], c->len[i]) != 0)
            differs(c, i, area[i], other[i]);
    }
    if (!belong(state, queues))
        fail("%s (%u, %u): a queue does not hold its slots in their order", entry_form[c->entry].name, c->first,
             c->second);
    if (c->entry == QUEUES_TICK)
        count_tick();
}

/* ---- Makers ---- */

static unsigned fill(void)
{
    struct call c = make_call(FILL, 0, 0);

    return call_both(&c);
}

/* A random sound state with so many packets, and its queues. */
static void make_filled(unsigned stored)
{
    make_sound(stored);
    queues_of(state, queues);
}

/* Puts random bytes where no rule names them, from entry n on. */
static void scatter_rest(void)
{
    for (unsigned p = 0; p < ROUTER_PORTS; p++) {
        for (unsigned sort = 0; sort < SORTS; sort++) {
            uint8_t *queue = queue_at(queues, p, sort);

            random_bytes(queue + ROUTER_QUEUE_ENTRIES + size_at(queue), ROUTER_SLOTS - size_at(queue));
        }
    }
}

/* ---- Tests of single calls ---- */

static void test_fill(void)
{
    for (unsigned stored = 0; stored <= ROUTER_SLOTS; stored++) {
        for (unsigned round = 0; round < rounds(FILLED_ROUNDS); round++) {
            uint8_t right[ROUTER_QUEUES_LEN];

            make_sound(stored);
            random_bytes(queues, ROUTER_QUEUES_LEN);
            queues_of(state, right);
            expect("fill", fill(), ROUTER_ACCEPTED);
            if (memcmp(queues, right, ROUTER_QUEUES_LEN) != 0)
                fail("filled queues have other bytes than sorted ones");
        }
    }
}

static void test_lengths(void)
{
    try_lengths(FILL, make_filled);
    try_lengths(QUEUES_CONTROL, make_filled);
    try_lengths(QUEUES_TICK, make_filled);
}

static void test_masks(void)
{
    try_masks(make_filled);
}

static void test_registers(void)
{
    try_registers(make_filled);
}

/*
 * Queues that can be told not to be the state's: 3, 4 and 5 come before their number, and a fill never asks. That a
 * state which is not sound comes before too is in faults_test.c.
 */
static void test_order(void)
{
    for (unsigned round = 0; round < rounds(ORDER_ROUNDS); round++) {
        unsigned first = random_byte(), second = random_byte();
        uint8_t *queue;

        if (round % 16 == 0)
            make_filled(below(257));
        queue = queue_at(queues, below(ROUTER_PORTS), below(SORTS));
        set_size(queue, size_at(queue) + 1 + below(65000));
        expect("tick", tick(first, second),
               first > ROUTER_MASK_MAX || second > ROUTER_MASK_MAX ? ROUTER_BAD_PORT_MASK : ROUTER_BAD_QUEUES);
        expect("tick", tick(first & ROUTER_MASK_MAX, second & ROUTER_MASK_MAX), ROUTER_BAD_QUEUES);
        expect("control write", control(ROUTER_REGISTERS + first % 250, second), ROUTER_BAD_REGISTER);
        expect("control write", control(ROUTER_REG_MASK, second | 128), ROUTER_BAD_VALUE);
        expect("control write", control(ROUTER_REG_IN_ID, second), ROUTER_BAD_QUEUES);
        expect("fill", fill(), ROUTER_ACCEPTED);
    }
}

/* ---- Times ---- */

/* For each d: 256 packets stored, of every offset, and then arrivals of every offset, five in a tick. */
static void test_offsets(void)
{
    for (int d = 0; d <= ROUTER_DELAY_MAX; d++) {
        unsigned s = below(ROUTER_SLOTS);
        unsigned connection = random_byte();

        make_sound(ROUTER_SLOTS);
        state[entry_at(connection) + ROUTER_ENTRY_DELAY] = (uint8_t)d;
        state[entry_at(connection) + ROUTER_ENTRY_MASK] = (uint8_t)(1 + below(ROUTER_MASK_MAX));
        for (int k = 0; k < ROUTER_SLOTS; k++, s = (s + 77) % ROUTER_SLOTS)
            put_stored(s, k % (d + 127) - d, (unsigned)d, 1 + below(ROUTER_MASK_MAX));
        expect("fill", fill(), ROUTER_ACCEPTED);
        for (int offset = 0; offset < 256 + 64; offset++) {
            for (unsigned p = 0; p < ROUTER_PORTS; p++)
                put_arrival(p, connection, offset + (int)p * 51);
            expect("tick", tick(ROUTER_MASK_MAX, random_mask(30)), ROUTER_ACCEPTED);
        }
    }
}

/* ---- Full and empty queues ---- */

/* Fills all slots, with these ports; the packets' times and deadlines by one of six patterns. */
static void make_full(unsigned mask, unsigned pattern)
{
    make_sound(ROUTER_SLOTS);
    for (unsigned s = 0; s < ROUTER_SLOTS; s++) {
        int step = (int)(s * 77 % 128);

        switch (pattern) {
        case 0: /* all early until the next tick, with one key */
            put_stored(s, 1, 5, mask);
            break;
        case 1: /* all early, to come one after the other */
            put_stored(s, 1 + step % 126, 3, mask);
            break;
        case 2: /* all on time with one key, the last tick */
            put_stored(s, -step, (unsigned)step, mask);
            break;
        case 3: /* all on time, with keys of their own */
            put_stored(s, -(int)(s % 3), 2 + (unsigned)step * 125 / 127, mask);
            break;
        case 4: /* on time and early by turns */
            put_stored(s, s % 2 == 0 ? -step : 1 + step % 126, 127, mask);
            break;
        default: /* all early with one key, to be sent early or moved over */
            put_stored(s, 40, 127, mask);
        }
    }
    memset(state + ROUTER_STATE_HORIZONS, pattern == 5 ? 20 : 0, ROUTER_PORTS);
}

static void test_full(void)
{
    for (unsigned mask = 1; mask <= ROUTER_MASK_MAX; mask++) {
        for (unsigned pattern = 0; pattern < 6; pattern++) {
            make_full(mask, pattern);
            expect("fill", fill(), ROUTER_ACCEPTED);
            for (unsigned k = 0; k < 4; k++) {
                put_arrival(k, random_byte(), between(-128, 127));
                tick(random_mask(50), random_mask(10));
            }
            while (free_count(state) < ROUTER_SLOTS)
                expect("tick", tick(0, random_mask(20)), ROUTER_ACCEPTED);
            for (unsigned k = 0; k < 4; k++)
                expect("tick of an empty router", tick(0, random_mask(50)), ROUTER_ACCEPTED);
        }
    }
}

/* ---- Random calls ---- */

/* One call in so many fills again. */
static void random_or_fill(const struct regime *r)
{
    if (below(200) == 0)
        fill();
    else
        random_call(r);
}

/* Long runs; nothing but the calls themselves changes an area. */
static void test_long(void)
{
    struct regime r = random_regime();

    for (unsigned k = 0; k < rounds(LONG_CALLS); k++) {
        if (k % 25000 == 0) {
            plain_fresh(state, ROUTER_STATE_LEN, memory, ROUTER_MEMORY_LEN, random_byte());
            expect("fill", fill(), ROUTER_ACCEPTED);
        }
        if (k % 1000 == 0)
            r = random_regime();
        random_or_fill(&r);
    }
}

/* Short runs from random sound states. */
static void test_made(void)
{
    for (unsigned k = 0; k < rounds(MADE_CALLS); k += 20) {
        struct regime r = random_regime();

        make_filled(chance(20) ? ROUTER_SLOTS - below(6) : below(257));
        scatter_rest();
        for (unsigned c = 0; c < 20; c++)
            random_or_fill(&r);
    }
}

/* Runs in which times, deadlines and ports are few, so that most keys are equal. */
static void test_ties(void)
{
    for (unsigned k = 0; k < rounds(TIED_CALLS); k += 40) {
        struct regime r = random_regime();
        int offsets = 1 + (int)below(3), delays = 1 + (int)below(3);
        unsigned ports = 1 + below(ROUTER_MASK_MAX);

        make_sound(below(257));
        for (unsigned c = 0; c < ROUTER_CONNECTIONS; c++) {
            state[entry_at(c) + ROUTER_ENTRY_DELAY] = (uint8_t)(offsets + between(0, delays));
            state[entry_at(c) + ROUTER_ENTRY_MASK] = (uint8_t)ports;
        }
        for (unsigned s = 0; s < ROUTER_SLOTS; s++) {
            if (state[slot_at(s) + ROUTER_SLOT_MASK] != 0)
                put_stored(s, between(-offsets, offsets), (unsigned)(offsets + between(0, delays)), ports);
        }
        r.controls = 2;
        r.delay_max = (unsigned)delays;
        r.offsets = NEAR;
        expect("fill", fill(), ROUTER_ACCEPTED);
        for (unsigned c = 0; c < 40; c++)
            random_or_fill(&r);
    }
}

/* Runs in which times, or deadlines, are shared, with all delays, on either side of the clock's turn. */
static void test_shared(void)
{
    for (unsigned k = 0; k < rounds(TIED_CALLS); k += 40) {
        struct regime r = random_regime();

        r.offsets = chance(50) ? SHARED_TIMES : SHARED_DEADLINES;
        r.controls = 2;
        make_tied(&r, below(257));
        expect("fill", fill(), ROUTER_ACCEPTED);
        for (unsigned c = 0; c < 40; c++)
            random_or_fill(&r);
    }
}

/* Random bytes of state and memory changed, while the queues stay. */
static void test_damaged(void)
{
    struct regime r = random_regime();

    for (unsigned k = 0; k < rounds(DAMAGED_CALLS); k++) {
        if (k % 50 == 0) {
            r = random_regime();
            make_filled(below(257));
            keep();
        }
        damage(below(4));
        if (below(20) == 0)
            fill();
        else
            random_call(&r);
        if (chance(70))
            come_back();
    }
}

/* ---- Queues that are not the state's ---- */

static void all_random(void)
{
    random_bytes(queues, ROUTER_QUEUES_LEN);
}

/* The sizes are right, or cut at another place; entries are random. */
static void sizes_right(void)
{
    uint8_t right[ROUTER_QUEUES_LEN];

    memcpy(right, queues, ROUTER_QUEUES_LEN);
    all_random();
    for (unsigned p = 0; p < ROUTER_PORTS; p++) {
        unsigned on_time = size_at(queue_at(right, p, ROUTER_QUEUE_ON_TIME));
        unsigned both = on_time + size_at(queue_at(right, p, ROUTER_QUEUE_EARLY));
        unsigned size = chance(50) ? on_time : below(both + 1);

        set_size(queue_at(queues, p, ROUTER_QUEUE_ON_TIME), size);
        set_size(queue_at(queues, p, ROUTER_QUEUE_EARLY), both - size);
    }
}

/* Sizes and first entries are right, so that nobody can tell; all else is random. */
static void firsts_right(void)
{
    for (unsigned p = 0; p < ROUTER_PORTS; p++) {
        for (unsigned sort = 0; sort < SORTS; sort++) {
            uint8_t *queue = queue_at(queues, p, sort);
            unsigned n = size_at(queue), at = ROUTER_QUEUE_ENTRIES + n - 1;
            uint8_t first = n > 0 ? queue[at] : 0;

            random_bytes(queue + ROUTER_QUEUE_ENTRIES, ROUTER_SLOTS);
            if (n > 0)
                queue[at] = first;
        }
    }
}

static void one_byte(void)
{
    queues[below(ROUTER_QUEUES_LEN)] ^= (uint8_t)(1 + below(255));
}

/* One byte that is a size or in a queue, which holds something. */
static void one_byte_in_queue(void)
{
    for (unsigned k = 0; k < 100; k++) {
        uint8_t *queue = queue_at(queues, below(ROUTER_PORTS), below(SORTS));

        if (size_at(queue) > 0) {
            queue[below(ROUTER_QUEUE_ENTRIES + size_at(queue))] ^= (uint8_t)(1 + below(255));
            return;
        }
    }
}

static void two_swapped(void)
{
    uint8_t *queue = queue_at(queues, below(ROUTER_PORTS), below(SORTS));
    unsigned n = size_at(queue);

    if (n > 1) {
        uint8_t *one = queue + ROUTER_QUEUE_ENTRIES + below(n), *two = queue + ROUTER_QUEUE_ENTRIES + below(n);
        uint8_t entry = *one;

        *one = *two;
        *two = entry;
    }
}

/* The router has gone on without the queues, for some ticks with or without arrivals. */
static void run_on(unsigned ticks, unsigned arrivals)
{
    struct regime r = random_regime();

    for (unsigned k = 0; k < ticks; k++) {
        random_arrivals(&r);
        router_tick(state, ROUTER_STATE_LEN, memory, ROUTER_MEMORY_LEN, area[ARRIVALS], ROUTER_ARRIVALS_LEN,
                    area[OUTGOING], ROUTER_OUTGOING_LEN, answers, ROUTER_ANSWERS_LEN, random_mask(arrivals), 0);
    }
}

static void stale_by_a_tick(void)
{
    run_on(1, 50);
}

static void stale_by_a_quiet_tick(void)
{
    run_on(1, 0);
}

static void stale_by_ticks(void)
{
    run_on(1 + below(50), below(101));
}

static void of_another_state(void)
{
    uint8_t taken[ROUTER_QUEUES_LEN];

    memcpy(taken, queues, ROUTER_QUEUES_LEN);
    make_sound(free_count(state));
    memcpy(queues, taken, ROUTER_QUEUES_LEN);
}

/* Whatever the queues are, the engine does to every byte what the plain one does, over a few calls. */
static void test_foreign(void)
{
    static const struct {
        const char *name;
        void (*make)(void);
    } way[] = {
        {"random bytes", all_random},
        {"right sizes, random entries", sizes_right},
        {"right sizes and first entries, random others", firsts_right},
        {"one byte of the area damaged", one_byte},
        {"a size or an entry damaged", one_byte_in_queue},
        {"two entries of a queue swapped", two_swapped},
        {"stale: a tick of the comparator, with arrivals", stale_by_a_tick},
        {"stale: a tick of the comparator, without", stale_by_a_quiet_tick},
        {"stale: 1 to 50 ticks of the comparator", stale_by_ticks},
        {"of another state", of_another_state},
    };

    printf("     queues that are not the state's %14s %10s %10s\n", "areas", "get 21", "accepted");
    for (unsigned w = 0; w < sizeof way / sizeof *way; w++) {
        unsigned long areas = 0, refused = 0;

        for (unsigned round = 0; round < rounds(FOREIGN_ROUNDS); round++) {
            struct regime r = random_regime();
            unsigned number;

            make_filled(round % 4 == 0 ? 1 + below(8) : below(257));
            way[w].make();
            if (belong(state, queues))
                continue;
            areas++;
            random_arrivals(&r);
            number = tick(random_mask(r.arrivals), random_mask(r.best_effort));
            refused += number == ROUTER_BAD_QUEUES;
            for (unsigned k = below(12); k > 0 && number == ROUTER_ACCEPTED; k--) {
                random_call(&r);
                number = control(ROUTER_REG_OUT_ID, 0);
            }
        }
        printf("     %-46s %8lu %10lu %10lu\n", way[w].name, areas, refused, areas - refused);
    }
}

/* ---- All ---- */

static void test_occurred(void)
{
    check_occurred(SET(FILL) | SET(QUEUES_CONTROL) | SET(QUEUES_TICK), event_name, occurred, EVENTS);
}

int main(int argc, char **argv)
{
    subject = ENGINE;
    start(argc, argv);
    section("filling, every number of packets", test_fill);
    section("wrong and zero lengths", test_lengths);
    section("masks of every value", test_masks);
    section("registers and values of every value", test_registers);
    section("queues are asked about last", test_order);
    section("every offset and every d", test_offsets);
    section("full and empty queues", test_full);
    section("ties, of few times and delays", test_ties);
    section("ties, of shared times and deadlines", test_shared);
    section("long runs from a fresh router", test_long);
    section("random calls from random sound states", test_made);
    section("random damage to state and memory", test_damaged);
    section("queues that are not the state's", test_foreign);
    section("all numbers, codes and events occurred", test_occurred);
    return finish("queues_test");
}
