/*
 * test.c - on a board: compares the entries of both archives with the plain implementations, call by call, number by
 * number and byte by byte, and measures the stack of each entry. The first failure ends it.
 */
#include <stdio.h>
#include <string.h>

#include "harness.h"
#include "plain.h"
#include "platform.h"

#define EVOLVING_CALLS 8000u /* of the router, and as many of the queue engine */
#define MADE_CALLS 3000u
#define TIED_CALLS 3000u
#define DAMAGED_CALLS 2000u
#define RUN 20u /* calls from one state */

/* ---- What has to occur ---- */

enum event {
    ARRIVAL_STORED, ARRIVAL_CLOSED, ARRIVAL_LATE, ARRIVAL_FULL,
    PORT_IDLE, PORT_ON_TIME, PORT_BEST_EFFORT, PORT_EARLY,
    WITHDRAWN, CLOCK_TURN, DISPLAY_PART, DISPLAY_NONE,
    TIE,
    EVENTS = TIE + TIES
};

static const char *const event_name[EVENTS] = {
    "arrival: 1 stored", "arrival: 6 closed", "arrival: 7 late", "arrival: 8 full",
    "port: 0 idle", "port: 1 on time", "port: 2 best-effort", "port: 3 early",
    "packet withdrawn", "clock turn", "display: a part", "display: none",
    TIE_NAMES(""),
};

static unsigned long occurred[EVENTS];

/* Counts what an accepted tick did. */
void after_call(const struct call *c, unsigned number)
{
    if ((c->entry != TICK && c->entry != QUEUES_TICK) || number != ROUTER_ACCEPTED)
        return;
    for (unsigned p = 0; p < ROUTER_PORTS; p++) {
        uint8_t arrival = answers[ROUTER_ANSWERS_ARRIVALS + p];

        occurred[PORT_IDLE + answers[ROUTER_ANSWERS_PORTS + p]]++;
        occurred[WITHDRAWN] += withdrawn_at(answers, p);
        if (arrival == ROUTER_ARRIVAL_STORED)
            occurred[ARRIVAL_STORED]++;
        else if (arrival != ROUTER_ARRIVAL_NONE)
            occurred[ARRIVAL_CLOSED + arrival - ROUTER_ARRIVAL_CLOSED]++;
    }
    occurred[CLOCK_TURN] += state[ROUTER_STATE_CLOCK] == 0;
}

/* Counts the ties of the packets that wait for port 0, each with the one that goes first. */
static void count_ties(void)
{
    static struct seen seen[ROUTER_SLOTS];
    unsigned n = see_slots(state, seen);
    const struct seen *first = NULL;

    for (unsigned i = 0; i < n; i++) {
        if ((seen[i].mask & 1) != 0 && (first == NULL || in_order(&seen[i], first) < 0))
            first = &seen[i];
    }
    for (unsigned i = 0; i < n; i++) {
        if ((seen[i].mask & 1) != 0 && &seen[i] != first)
            count_tie(first, &seen[i], occurred + TIE);
    }
}

/* ---- Single calls ---- */

static unsigned call_of(enum entry entry, unsigned first, unsigned second)
{
    struct call c = make_call(entry, first, second);

    return call_both(&c);
}

static void test_versions(void)
{
    expect("router_version", router_version(), ROUTER_VERSION);
    expect("service_version", service_version(), ROUTER_VERSION);
}

static void test_fresh(void)
{
    for (unsigned clock = 0; clock < 256; clock += 5) {
        random_bytes(state, ROUTER_STATE_LEN);
        random_bytes(memory, ROUTER_MEMORY_LEN);
        expect("fresh", call_of(FRESH, clock, 0), ROUTER_ACCEPTED);
        expect("fresh is sound", call_of(FAULT, 0, 0), ROUTER_ACCEPTED);
        expect("clock", state[ROUTER_STATE_CLOCK], clock);
    }
}

/* A length above all that the areas have: the call is refused, and touches none of them. */
static void try_long(enum entry entry, enum area i, size_t len)
{
    struct call c = make_call(entry, 1, 1);
    uint8_t *lent[AREAS];

    for (unsigned k = 0; k < AREAS; k++)
        lent[k] = lend(entry, k, area[k], area_len[k], 1);
    c.len[i] = len;
    expect("long area", call_router(&c, lent), ROUTER_BAD_LENGTH);
    for (unsigned k = 0; k < AREAS; k++) {
        if (memcmp(lent[k], area[k], area_len[k]) != 0)
            fail("%s changed in a call with a long area", area_name[k]);
    }
}

static void test_lengths(void)
{
    for (unsigned entry = 0; entry < ENTRIES; entry++) {
        make_sound(below(257));
        for (unsigned i = 0; i < AREAS; i++) {
            size_t right = area_len[i];

            if ((entry_form[entry].lent >> i & 1) == 0)
                continue;
            try_length(entry, i, 0);
            try_length(entry, i, 1);
            try_length(entry, i, right - 1);
            try_length(entry, i, right + 1);
            try_length(entry, i, 2 * right);
            for (unsigned k = 0; k < AREAS; k++) {
                if (area_len[k] != right)
                    try_length(entry, i, area_len[k]);
            }
            /* Right in its low bits, however many a processor might keep of it, and the longest. */
            try_long(entry, i, right + 0x10000);
            try_long(entry, i, right + 0x1000000);
            try_long(entry, i, right + 0x80000000u);
            if (SIZE_MAX > UINT32_MAX)
                try_long(entry, i, right + ((size_t)UINT32_MAX + 1));
            try_long(entry, i, SIZE_MAX);
        }
    }
}

static void test_display(void)
{
    random_bytes(area[OUTGOING], LEN_MAX);
    for (size_t len = 90; len <= 110; len++) {
        for (unsigned port = 0; port < 256; port += port < 8 ? 1 : 31) {
            size_t start = router_display(area[OUTGOING], len, (uint8_t)port);

            calls++;
            if (start != plain_display(area[OUTGOING], len, (uint8_t)port))
                fail("the display part of port %u in %zu bytes starts at %zu", port, len, start);
            occurred[start < len ? DISPLAY_PART : DISPLAY_NONE]++;
        }
    }
    if (router_display(area[OUTGOING], SIZE_MAX, 0) != SIZE_MAX)
        fail("the display part of a long area is not empty");
}

/* Registers and values, and masks, about the last that is allowed. */
static void test_numbers(void)
{
    static const uint8_t edge[] = {0, 1, 5, 6, 30, 31, 32, 33, 127, 128, 129, 255};

    for (unsigned i = 0; i < sizeof edge; i++) {
        make_sound(below(257));
        for (unsigned k = 0; k < sizeof edge; k++) {
            call_of(CONTROL, i < ROUTER_REGISTERS ? i : edge[i], edge[k]);
            random_arrivals(&(struct regime){.connections = 256, .offsets = ANY});
            call_of(TICK, edge[i], edge[k]);
        }
    }
}

/* ---- Random calls, of the router and of the queue engine ---- */

/* The engine's queues are those of the state. */
static void fill_queues(void)
{
    if (subject == ENGINE)
        expect("fill", call_of(FILL, 0, 0), ROUTER_ACCEPTED);
}

static void evolve(void)
{
    struct regime r = random_regime();

    expect("fresh", call_of(FRESH, random_byte(), 0), ROUTER_ACCEPTED);
    fill_queues();
    for (unsigned k = 0; k < EVOLVING_CALLS; k++) {
        if (k % 128 == 0)
            r = random_regime();
        random_call(&r);
    }
}

static void from_made(void)
{
    for (unsigned k = 0; k < MADE_CALLS; k += RUN) {
        struct regime r = random_regime();

        make_sound(chance(30) ? ROUTER_SLOTS - below(6) : below(257));
        fill_queues();
        for (unsigned c = 0; c < RUN; c++)
            random_call(&r);
    }
}

static void from_tied(void)
{
    for (unsigned k = 0; k < TIED_CALLS; k += RUN) {
        struct regime r = random_regime();

        r.offsets = chance(50) ? SHARED_TIMES : SHARED_DEADLINES;
        r.controls = 2;
        make_tied(&r, below(257));
        fill_queues();
        for (unsigned c = 0; c < RUN; c++) {
            count_ties();
            random_call(&r);
        }
    }
}

/* Random bytes changed: every entry refuses what is not sound, and names the fault alike. */
static void from_damaged(void)
{
    for (unsigned k = 0; k < DAMAGED_CALLS; k += RUN) {
        struct regime r = random_regime();

        make_sound(below(257));
        fill_queues();
        keep();
        for (unsigned c = 0; c < RUN; c++) {
            damage(below(4));
            if (subject == ENGINE && chance(20))
                queues[below(ROUTER_QUEUES_LEN)] ^= (uint8_t)(1u << below(8));
            random_call(&r);
            call_of(FAULT, 0, 0);
            call_of(FILL, 0, 0);
            if (control(ROUTER_REG_OUT_ID, 0) != ROUTER_ACCEPTED || chance(20))
                come_back();
        }
    }
}

static void test_all_of(enum subject which, void (*run)(void))
{
    subject = which;
    run();
}

static void test_evolving(void)
{
    test_all_of(ROUTER, evolve);
    test_all_of(ENGINE, evolve);
}

static void test_made(void)
{
    test_all_of(ROUTER, from_made);
    test_all_of(ENGINE, from_made);
}

static void test_ties(void)
{
    test_all_of(ROUTER, from_tied);
    test_all_of(ENGINE, from_tied);
}

static void test_damaged(void)
{
    test_all_of(ROUTER, from_damaged);
    test_all_of(ENGINE, from_damaged);
}

static void test_occurred(void)
{
    check_occurred(SET(ENTRIES) - 1, event_name, occurred, EVENTS);
}

/* ---- Stack ---- */

#define STORED_AREAS area[STATE], ROUTER_STATE_LEN, area[MEMORY], ROUTER_MEMORY_LEN
#define QUEUES_AREA area[QUEUES], ROUTER_QUEUES_LEN
#define TICK_AREAS                                                                                                   \
    area[ARRIVALS], ROUTER_ARRIVALS_LEN, area[OUTGOING], ROUTER_OUTGOING_LEN, area[ANSWERS], ROUTER_ANSWERS_LEN,    \
        ROUTER_MASK_MAX, 0

static void no_entry(void)
{
}

static void fresh_entry(void)
{
    router_fresh(STORED_AREAS, 0);
}

static void control_entry(void)
{
    router_control(STORED_AREAS, ROUTER_REG_IN_ID, 0);
}

static void tick_entry(void)
{
    router_tick(STORED_AREAS, TICK_AREAS);
}

static void display_entry(void)
{
    router_display(area[OUTGOING], ROUTER_OUTGOING_LEN, 1);
}

static void fault_entry(void)
{
    router_fault(STORED_AREAS);
}

static void fill_entry(void)
{
    router_queues_fill(STORED_AREAS, QUEUES_AREA);
}

static void queues_control_entry(void)
{
    router_queues_control(STORED_AREAS, QUEUES_AREA, ROUTER_REG_IN_ID, 0);
}

static void queues_tick_entry(void)
{
    router_queues_tick(STORED_AREAS, QUEUES_AREA, TICK_AREAS);
}

static const struct {
    const char *name;
    void (*call)(void);
    size_t most; /* bytes of stack, on every board */
} entry_stack[] = {
    {"router_fresh", fresh_entry, 5120},
    {"router_control", control_entry, 640},
    {"router_tick", tick_entry, 1024},
    {"router_display", display_entry, 64},
    {"router_fault", fault_entry, 640},
    {"router_queues_fill", fill_entry, 640},
    {"router_queues_control", queues_control_entry, 640},
    {"router_queues_tick", queues_tick_entry, 1280},
};

/* The bytes from the top of a painted stack down to the deepest one that a call changed. */
static size_t depth(void (*call)(void))
{
    static uint8_t painted[8192] __attribute__((aligned(16)));
    size_t most = 0;

    for (unsigned paint = 0x5A; paint <= 0xA5; paint += 0xA5 - 0x5A) {
        size_t intact = 0;

        make_sound(128);
        random_arrivals(&(struct regime){.connections = 256, .offsets = ANY_VALID});
        plain_queues_fill(STORED_AREAS, QUEUES_AREA);
        memset(painted, (int)paint, sizeof painted);
        run_on(painted, sizeof painted, call);
        while (intact < sizeof painted && painted[intact] == paint)
            intact++;
        most = sizeof painted - intact > most ? sizeof painted - intact : most;
    }
    return most;
}

static void test_stack(void)
{
    size_t none = depth(no_entry);

    for (unsigned i = 0; i < sizeof entry_stack / sizeof *entry_stack; i++) {
        size_t bytes = depth(entry_stack[i].call) - none;

        printf("     %-48s %10zu bytes of stack\n", entry_stack[i].name, bytes);
        if (bytes > entry_stack[i].most)
            fail("%s takes more than %zu bytes of stack", entry_stack[i].name, entry_stack[i].most);
    }
}

int main(void)
{
    section("the archives' versions", test_versions);
    section("a fresh router", test_fresh);
    section("wrong lengths", test_lengths);
    section("the display part", test_display);
    section("registers, values and masks", test_numbers);
    section("random calls from a fresh router", test_evolving);
    section("random calls from random sound states", test_made);
    section("ties, of shared times and deadlines", test_ties);
    section("random damage", test_damaged);
    section("all numbers, codes and events occurred", test_occurred);
    section("the stack of each entry", test_stack);
    return finish("board");
}
