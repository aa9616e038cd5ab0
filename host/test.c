/*
 * test.c - compares the router (router_*, from an archive) with the plain implementation, byte for byte over all
 * areas and numbers, with the order of packets, and with the router that never turns over; then runs the experiment of
 * document 001, Fig. 10.
 *   test [SEED [SHARE]]   (SHARE: of the random calls one in so many)
 */
#define _DEFAULT_SOURCE

#include <stdio.h>
#include <string.h>
#include <sys/mman.h>

#include "harness.h"
#include "plain.h"
#include "whole.h"

#define EVOLVING_CALLS 2000000u
#define MADE_CALLS 800000u
#define TIED_PAIRS 200u /* of each sort and for each clock */
#define TIED_CALLS 400000u
#define DAMAGED_CALLS 800000u
#define WHOLE_TICKS 1200000u

/* ---- What has to occur ---- */

enum event {
    ARRIVAL_0, ARRIVAL_1, ARRIVAL_6, ARRIVAL_7, ARRIVAL_8,
    PORT_0, PORT_1, PORT_2, PORT_3,
    WITHDRAWN, WITHDRAWN_255, MULTICAST_STORED, MULTICAST_AT_ONCE, MULTICAST_IN_PART, SEVERAL_EMPTIED,
    STORED_256, FULL_AND_FREED, CLOCK_TURN, HELD_BACK,
    DISPLAY_PART, DISPLAY_NONE,
    WHOLE_TICK, WHOLE_REFUSED, WHOLE_TURN, WHOLE_BELOW_ZERO, FATE_ON_TIME, FATE_EARLY, FATE_WITHDRAWN,
    TIE,
    WHOLE_TIE = TIE + TIES,
    EVENTS = WHOLE_TIE + TIES
};

static const char *const event_name[EVENTS] = {
    "arrival: 0 none", "arrival: 1 stored", "arrival: 6 closed", "arrival: 7 late", "arrival: 8 full",
    "port: 0 idle", "port: 1 on time", "port: 2 best-effort", "port: 3 early",
    "packet withdrawn", "255 withdrawn on a port in a tick", "multicast packet stored",
    "multicast: several ports in one tick", "multicast: some ports served, others left",
    "several slots emptied in one tick",
    "256 stored", "arrival gets 8 in a tick that frees a slot", "clock turn",
    "best-effort before an early packet (sampled)",
    "display: a part", "display: none",
    "whole: tick accepted", "whole: call refused", "whole: clock turn", "whole: time below zero",
    "fate: sent on time", "fate: sent early", "fate: withdrawn in its deadline tick",
    TIE_NAMES(""), TIE_NAMES("whole: "),
};

static unsigned long occurred[EVENTS];

/* ---- After each call ---- */

static int several(unsigned mask)
{
    return (mask & (mask - 1)) != 0;
}

#define CHOICE_SAMPLE 16 /* one tick in so many is looked at */

/*
 * Looks at what the ports of an accepted tick chose among the packets stored before it, where state and memory are of
 * then. In a tick that stores nothing a port that sends sends the first of these. Counts its ties with the others, and
 * best-effort before an early packet.
 */
static void look_at_choices(const uint8_t *state_then, const uint8_t *memory_then, const uint8_t *outgoing,
                            const uint8_t *answered, unsigned long *ties)
{
    struct seen seen[ROUTER_SLOTS];
    unsigned n = see_slots(state_then, seen);
    int stores = memchr(answered + ROUTER_ANSWERS_ARRIVALS, ROUTER_ARRIVAL_STORED, ROUTER_PORTS) != NULL;

    for (unsigned p = 0; p < ROUTER_PORTS; p++) {
        uint8_t code = answered[ROUTER_ANSWERS_PORTS + p];
        const struct seen *first = NULL;

        for (unsigned i = 0; i < n; i++) {
            if ((seen[i].mask >> p & 1) != 0 && (first == NULL || in_order(&seen[i], first) < 0))
                first = &seen[i];
        }
        if (first == NULL || code == ROUTER_PORT_IDLE)
            continue;
        if (code == ROUTER_PORT_BEST_EFFORT) {
            occurred[HELD_BACK] += first->key <= state_then[ROUTER_STATE_HORIZONS + p];
            continue;
        }
        if (memcmp(outgoing + ROUTER_PACKET_LEN * p, memory_then + ROUTER_PACKET_LEN * first->slot,
                   ROUTER_PACKET_LEN) != 0) {
            if (!stores)
                fail("port %u does not send slot %u, which is first", p, first->slot);
            continue;
        }
        for (unsigned i = 0; i < n; i++) {
            if ((seen[i].mask >> p & 1) != 0 && &seen[i] != first)
                count_tie(first, &seen[i], ties);
        }
    }
}

/* Counts what an accepted tick did. */
static void count_tick(void)
{
    static const enum event arrival_event[9] = {ARRIVAL_0, ARRIVAL_1, EVENTS,    EVENTS,   EVENTS,
                                                EVENTS,    ARRIVAL_6, ARRIVAL_7, ARRIVAL_8};
    unsigned emptied = 0, full = 0, n = free_count(state);
    uint8_t t = before[STATE][ROUTER_STATE_CLOCK];

    for (unsigned p = 0; p < ROUTER_PORTS; p++) {
        uint8_t code = answers[ROUTER_ANSWERS_PORTS + p], arrival = answers[ROUTER_ANSWERS_ARRIVALS + p];
        unsigned withdrawn = withdrawn_at(answers, p);

        if (code > ROUTER_PORT_EARLY || arrival > ROUTER_ARRIVAL_FULL || arrival_event[arrival] == EVENTS)
            fail("port %u has code %u, arrival %u", p, code, arrival);
        occurred[PORT_0 + code]++;
        occurred[arrival_event[arrival]]++;
        occurred[WITHDRAWN] += withdrawn;
        occurred[WITHDRAWN_255] += withdrawn == 255;
        full |= arrival == ROUTER_ARRIVAL_FULL;
        if (arrival == ROUTER_ARRIVAL_STORED)
            occurred[MULTICAST_STORED] +=
                several(state[entry_at(arrival_at(p)[ROUTER_PACKET_ID]) + ROUTER_ENTRY_MASK]);
    }
    for (unsigned s = 0; s < ROUTER_SLOTS; s++) {
        const uint8_t *slot = state + slot_at(s);
        unsigned was = before[STATE][slot_at(s) + ROUTER_SLOT_MASK], is = slot[ROUTER_SLOT_MASK];

        if (was == is)
            continue;
        emptied += is == 0;
        occurred[MULTICAST_IN_PART] += was != 0 && is != 0;
        occurred[MULTICAST_AT_ONCE] += several(was & ~is) && slot[ROUTER_SLOT_DEADLINE] != t;
    }
    occurred[SEVERAL_EMPTIED] += emptied > 1;
    occurred[STORED_256] += n == 0;
    occurred[FULL_AND_FREED] += full && n > 0;
    occurred[CLOCK_TURN] += t == 255;
}

void after_call(const struct call *c, unsigned number)
{
    if (c->entry == TICK && number == ROUTER_ACCEPTED) {
        count_tick();
        if (calls % CHOICE_SAMPLE == 0)
            look_at_choices(before[STATE], before[MEMORY], area[OUTGOING], answers, occurred + TIE);
    }
}

/* ---- Tests of single calls ---- */

/* Both archives are of this header's version. */
static void test_versions(void)
{
    expect("router_version", router_version(), ROUTER_VERSION);
    expect("service_version", service_version(), ROUTER_VERSION);
    expect("plain version", plain_version(), ROUTER_VERSION);
    expect("plain service version", plain_service_version(), ROUTER_VERSION);
}

static unsigned fresh(unsigned clock)
{
    struct call c = make_call(FRESH, clock, 0);

    return call_both(&c);
}

static void test_fresh(void)
{
    for (unsigned clock = 0; clock < 256; clock++) {
        random_bytes(state, ROUTER_STATE_LEN);
        random_bytes(memory, ROUTER_MEMORY_LEN);
        expect("fresh", fresh(clock), ROUTER_ACCEPTED);
        for (unsigned i = 0; i < ROUTER_STATE_LEN; i++) {
            unsigned should = i == ROUTER_STATE_CLOCK  ? clock
                              : i == ROUTER_STATE_FREE ? 1
                              : i >= ROUTER_STATE_STACK && i < ROUTER_STATE_SLOTS
                                  ? 255 - (i - ROUTER_STATE_STACK)
                                  : 0;

            expect("state byte", state[i], should);
        }
        for (unsigned i = 0; i < ROUTER_MEMORY_LEN; i++)
            expect("memory byte", memory[i], 0);
        expect("fresh is sound", control(ROUTER_REG_OUT_ID, 0), ROUTER_ACCEPTED);
    }
}

static void test_lengths(void)
{
    try_lengths(FRESH, make_sound);
    try_lengths(CONTROL, make_sound);
    try_lengths(TICK, make_sound);
}

static void test_masks(void)
{
    try_masks(make_sound);
}

static void test_registers(void)
{
    try_registers(make_sound);
}

/* The display part in an area of any length, which is lent read-only at either end of its pages. */
static void display_both(const uint8_t *outgoing, size_t len, unsigned port)
{
    size_t should = plain_display(outgoing, len, (uint8_t)port);
    int whole = len == ROUTER_OUTGOING_LEN && port < ROUTER_PORTS;

    if (should != (whole ? ROUTER_PACKET_LEN * port + ROUTER_PACKET_DATA : len))
        fail("plain display of port %u in %zu bytes starts at %zu", port, len, should);
    occurred[whole ? DISPLAY_PART : DISPLAY_NONE]++;
    for (int at_end = 0; at_end < 2; at_end++) {
        const uint8_t *lent = lend(TICK, ARRIVALS, outgoing, len, at_end);
        size_t start;

        calls++;
        start = router_display(lent, len, (uint8_t)port);
        if (start != should)
            fail("display of port %u in %zu bytes starts at %zu and should at %zu", port, len, start, should);
        if (whole && memcmp(lent + start, outgoing + should, ROUTER_DATA_LEN) != 0)
            fail("display of port %u has other bytes", port);
    }
}

/* A length that is right in its low bits, for display. */
static void display_long(size_t more)
{
    size_t len = ROUTER_OUTGOING_LEN + more;
    uint8_t *map = mmap(NULL, len, PROT_READ, MAP_PRIVATE | MAP_ANONYMOUS | MAP_NORESERVE, -1, 0);

    if (map == MAP_FAILED)
        fail("no area of %zu bytes", len);
    for (unsigned port = 0; port < 256; port++) {
        calls++;
        if (router_display(map, len, (uint8_t)port) != len)
            fail("display of port %u in %zu bytes is not empty", port, len);
    }
    munmap(map, len);
}

static void test_display(void)
{
    random_bytes(area[OUTGOING], LEN_MAX);
    for (size_t len = 0; len <= 4 * ROUTER_OUTGOING_LEN; len++) {
        for (unsigned port = 0; port < 256; port++)
            display_both(area[OUTGOING], len, port);
    }
    display_both(area[OUTGOING], LEN_MAX, 0);
    display_long((size_t)1 << 8);
    display_long((size_t)1 << 16);
    if (SIZE_MAX > UINT32_MAX)
        display_long((size_t)UINT32_MAX + 1);
}

/* ---- Times ---- */

/* A packet of each offset and each d: whether it is stored, what becomes of it at once, and when it leaves. */
static void test_offsets(void)
{
    for (int d = 0; d <= ROUTER_DELAY_MAX; d++) {
        for (int offset = -128; offset <= 127; offset++) {
            unsigned port = below(ROUTER_PORTS), in = below(ROUTER_PORTS), connection = random_byte();
            int horizon = edgy(0, 127);
            uint8_t *entry = state + entry_at(connection);
            unsigned number = offset >= -d ? ROUTER_ARRIVAL_STORED : ROUTER_ARRIVAL_LATE;
            unsigned code = number != ROUTER_ARRIVAL_STORED ? ROUTER_PORT_IDLE
                            : offset <= 0                   ? ROUTER_PORT_ON_TIME
                            : offset <= horizon             ? ROUTER_PORT_EARLY
                                                            : ROUTER_PORT_IDLE;

            fresh(random_byte());
            entry[ROUTER_ENTRY_OUT_ID] = random_byte();
            entry[ROUTER_ENTRY_DELAY] = (uint8_t)d;
            entry[ROUTER_ENTRY_MASK] = (uint8_t)(1u << port);
            state[ROUTER_STATE_HORIZONS + port] = (uint8_t)horizon;
            put_arrival(in, connection, offset);
            expect("tick", tick(1u << in, 0), ROUTER_ACCEPTED);
            expect("arrival", answers[ROUTER_ANSWERS_ARRIVALS + in], number);
            expect("port code", answers[ROUTER_ANSWERS_PORTS + port], code);
            if (number == ROUTER_ARRIVAL_STORED && code == ROUTER_PORT_IDLE && chance(20)) {
                for (int wait = offset; wait-- > 0;) {
                    expect("tick", tick(0, 1u << port), ROUTER_ACCEPTED);
                    expect("later code", answers[ROUTER_ANSWERS_PORTS + port],
                           wait == 0 ? ROUTER_PORT_ON_TIME : ROUTER_PORT_BEST_EFFORT);
                }
            }
        }
    }
}

/* ---- One connection: choices of its port, and a full memory ---- */

#define ONE_CLOCK 240
#define ONE_PORT 1
#define ONE_CONNECTION 5
#define ONE_OUT 33

/* A fresh router with the connection open, and one arrival. */
static void start_one(int offset, unsigned d, unsigned mask, unsigned horizon)
{
    fresh(ONE_CLOCK);
    open_connection(ONE_CONNECTION, ONE_OUT, d, mask);
    set_horizons(mask, horizon);
    put_arrival(0, ONE_CONNECTION, offset);
}

/* Stores packets in slots 9 and 2 at this clock, and ticks once: the one in this slot is sent. */
static void sent_of_two(unsigned clock, unsigned slot, int offset_9, unsigned d_9, int offset_2, unsigned d_2)
{
    make_sound(0);
    state[ROUTER_STATE_CLOCK] = (uint8_t)clock;
    memset(state + ROUTER_STATE_HORIZONS, ROUTER_HORIZON_MAX, ROUTER_PORTS);
    for (unsigned s = 0; s < ROUTER_SLOTS; s++)
        state[ROUTER_STATE_STACK + s] = (uint8_t)s;
    set_free_count(state, ROUTER_SLOTS - 2);
    state[ROUTER_STATE_STACK + 2] = 254;
    state[ROUTER_STATE_STACK + 9] = 255;
    put_stored(9, offset_9, d_9, 1u << ONE_PORT);
    put_stored(2, offset_2, d_2, 1u << ONE_PORT);
    expect("tick", tick(0, 0), ROUTER_ACCEPTED);
    if (memcmp(area[OUTGOING] + ROUTER_PACKET_LEN * ONE_PORT, stored_at(slot), ROUTER_PACKET_LEN) != 0)
        fail("slot %u is not sent at clock %u", slot, clock);
}

static void test_choices(void)
{
    for (unsigned clock = 0; clock < 256; clock++) {
        /* The smaller key, on time and early. */
        sent_of_two(clock, 9, -3, 10, 0, 8);
        sent_of_two(clock, 9, 4, 100, 5, 0);
        /* One time and one deadline, on time and early: slot 2. */
        sent_of_two(clock, 2, -5, 12, -5, 12);
        sent_of_two(clock, 2, 7, 30, 7, 30);
        /* One deadline, and the time of slot 9 is earlier. */
        sent_of_two(clock, 9, -6, 13, -5, 12);
        sent_of_two(clock, 9, -ROUTER_DELAY_MAX, ROUTER_DELAY_MAX, 0, 0);
        /* One time, and the deadline of slot 9 is earlier: also if it is 127 ticks ahead, and that of slot 2 more. */
        sent_of_two(clock, 9, 7, 30, 7, 31);
        sent_of_two(clock, 9, 1, 126, 1, 127);
        sent_of_two(clock, 9, 126, 1, 126, 2);
        sent_of_two(clock, 9, 126, 0, 126, 127);
    }

    /* Mask 31: five ports send in one tick, and the slot is next to be taken. */
    start_one(0, 40, ROUTER_MASK_MAX, 0);
    expect("tick", tick(1, 0), ROUTER_ACCEPTED);
    for (unsigned p = 0; p < ROUTER_PORTS; p++)
        expect("port code", answers[ROUTER_ANSWERS_PORTS + p], ROUTER_PORT_ON_TIME);
    expect("free count", free_count(state), ROUTER_SLOTS);
    expect("top of the stack", state[ROUTER_STATE_STACK + 255], 0);

    /* Best-effort traffic goes before an early packet within the horizon, and not before one on time. */
    start_one(1, 40, 1u << ONE_PORT, ROUTER_HORIZON_MAX);
    expect("tick", tick(1, ROUTER_MASK_MAX), ROUTER_ACCEPTED);
    expect("port code", answers[ROUTER_ANSWERS_PORTS + ONE_PORT], ROUTER_PORT_BEST_EFFORT);

    /* The stored packet keeps its d when its entry changes. */
    open_connection(ONE_CONNECTION, ONE_OUT, 3, 1);
    expect("tick", tick(0, ROUTER_MASK_MAX), ROUTER_ACCEPTED);
    expect("port code", answers[ROUTER_ANSWERS_PORTS + ONE_PORT], ROUTER_PORT_ON_TIME);
    expect("outgoing time", area[OUTGOING][ROUTER_PACKET_LEN * ONE_PORT + ROUTER_PACKET_TIME],
           (uint8_t)(ONE_CLOCK + 1 + 40));
}

/* Two packets of one deadline, on time, and two of one time, early, at every clock. */
static void test_pairs(void)
{
    for (unsigned round = 0; round < 256 * rounds(TIED_PAIRS); round++) {
        unsigned clock = round % 256;
        int key = edgy(0, ROUTER_DELAY_MAX), low = key - ROUTER_DELAY_MAX;
        int time_9 = edgy(low, 0), time_2 = edgy(low, 0);
        int ahead = edgy(1, 126), d_9 = edgy(0, ROUTER_DELAY_MAX), d_2 = edgy(0, ROUTER_DELAY_MAX);

        sent_of_two(clock, time_9 < time_2 ? 9 : 2, time_9, (unsigned)(key - time_9), time_2,
                    (unsigned)(key - time_2));
        sent_of_two(clock, d_9 < d_2 ? 9 : 2, ahead, (unsigned)d_9, ahead, (unsigned)d_2);
    }
}

/* 256 stored: a packet that passes 6 and 7 gets 8, though the tick frees a slot. */
static void test_full(void)
{
    for (unsigned round = 0; round < 256; round++) {
        unsigned stored = 0;

        fresh(round);
        open_connection(ONE_CONNECTION, ONE_OUT, round % 128, 1u << ONE_PORT);
        while (stored < ROUTER_SLOTS) {
            for (unsigned p = 0; p < ROUTER_PORTS; p++)
                put_arrival(p, ONE_CONNECTION, 127);
            expect("tick", tick(ROUTER_MASK_MAX, 0), ROUTER_ACCEPTED);
            for (unsigned p = 0; p < ROUTER_PORTS; p++)
                expect("arrival", answers[ROUTER_ANSWERS_ARRIVALS + p],
                       stored++ < ROUTER_SLOTS ? ROUTER_ARRIVAL_STORED : ROUTER_ARRIVAL_FULL);
        }
        put_arrival(1, ONE_CONNECTION + 1, 0);
        put_arrival(2, ONE_CONNECTION, -128);
        do {
            put_arrival(4, ONE_CONNECTION, 0);
            expect("tick", tick(1 << 1 | 1 << 2 | 1 << 4, 0), ROUTER_ACCEPTED);
            expect("arrival", answers[ROUTER_ANSWERS_ARRIVALS + 1], ROUTER_ARRIVAL_CLOSED);
            expect("arrival", answers[ROUTER_ANSWERS_ARRIVALS + 4], ROUTER_ARRIVAL_FULL);
        } while (answers[ROUTER_ANSWERS_PORTS + ONE_PORT] != ROUTER_PORT_ON_TIME);
        put_arrival(4, ONE_CONNECTION, 0);
        expect("tick", tick(1 << 4, 0), ROUTER_ACCEPTED);
        expect("arrival", answers[ROUTER_ANSWERS_ARRIVALS + 4], ROUTER_ARRIVAL_STORED);
    }
    for (unsigned mask = 1; mask <= ROUTER_MASK_MAX; mask++) {
        make_sound(ROUTER_SLOTS);
        for (unsigned s = 0; s < ROUTER_SLOTS; s++)
            put_stored(s, -(int)(s % 128), s % 128, mask);
        expect("tick", tick(ROUTER_MASK_MAX, random_mask(50)), ROUTER_ACCEPTED);
        for (unsigned p = 0; p < ROUTER_PORTS; p++)
            expect("withdrawn", withdrawn_at(answers, p), (mask >> p & 1) * 255);
        expect("free count", free_count(state), ROUTER_SLOTS);
        for (unsigned s = 0; s < ROUTER_SLOTS; s++)
            expect("stack", state[ROUTER_STATE_STACK + s], s);
    }
}

/* ---- Random calls ---- */

/* Long runs from a fresh router. */
static void test_evolving(void)
{
    struct regime r = random_regime();

    for (unsigned k = 0; k < rounds(EVOLVING_CALLS); k++) {
        if (k % 4000 == 0)
            fresh(random_byte());
        if (k % 1000 == 0)
            r = random_regime();
        random_call(&r);
    }
}

/* Short runs from random sound states. */
static void test_made(void)
{
    for (unsigned k = 0; k < rounds(MADE_CALLS); k += 20) {
        struct regime r = random_regime();

        make_sound(chance(20) ? ROUTER_SLOTS - below(6) : below(257));
        for (unsigned c = 0; c < 20; c++)
            random_call(&r);
    }
}

/* Short runs in which many packets share a deadline, or a time, on either side of the clock's turn. */
static void test_ties(void)
{
    for (unsigned k = 0; k < rounds(TIED_CALLS); k += 20) {
        struct regime r = random_regime();

        r.offsets = chance(50) ? SHARED_TIMES : SHARED_DEADLINES;
        r.controls = 2;
        make_tied(&r, below(257));
        for (unsigned c = 0; c < 20; c++)
            random_call(&r);
    }
}

/* Random bytes changed, in sound states and after ticks. */
static void test_damaged(void)
{
    struct regime r = random_regime();

    for (unsigned k = 0; k < rounds(DAMAGED_CALLS); k++) {
        if (k % 50 == 0) {
            r = random_regime();
            make_sound(below(257));
            keep();
        }
        damage(below(4));
        random_call(&r);
        if (control(ROUTER_REG_OUT_ID, 0) != ROUTER_ACCEPTED || chance(20))
            come_back();
    }
}

/* ---- The router that never turns over ---- */

/* A packet that is still stored, as the ledger of fates has it. */
struct fate {
    uint64_t serial; /* stands at the start of the packet's data */
    int64_t time, deadline;
    uint8_t out_id, left;
};

/* The areas of a tick besides state and memory, and the most bytes that one of them may have here. */
static const enum area beside[] = {ARRIVALS, OUTGOING, ANSWERS};
#define BESIDE (sizeof beside / sizeof *beside)
#define ODD_LEN_MAX 200

static struct whole whole;
static struct fate ledger[ROUTER_SLOTS];
static unsigned ledger_count;
static uint64_t last_serial;
static uint8_t *whole_state, *whole_memory; /* of the router under test */

/* Slot s and its memory show what place s holds, n is 256 less the packets stored, and all else agrees too. */
static void check_correspondence(void)
{
    unsigned stored = 0, n = free_count(whole_state);

    expect("clock", whole_state[ROUTER_STATE_CLOCK], whole_cut(whole.clock));
    for (unsigned s = 0; s < ROUTER_SLOTS; s++) {
        const struct whole_place *place = &whole.place[s];
        const uint8_t *slot = whole_state + slot_at(s), *packet = whole_memory + ROUTER_PACKET_LEN * s;

        if (slot[ROUTER_SLOT_MASK] != place->left)
            fail("slot %u has ports %u and should have %u", s, slot[ROUTER_SLOT_MASK], place->left);
        if (place->left == 0)
            continue;
        stored++;
        if (slot[ROUTER_SLOT_TIME] != whole_cut(place->time) ||
            slot[ROUTER_SLOT_DEADLINE] != whole_cut(place->deadline) ||
            packet[ROUTER_PACKET_ID] != place->out_id ||
            packet[ROUTER_PACKET_TIME] != whole_cut(place->deadline) ||
            memcmp(packet + ROUTER_PACKET_DATA, place->data, ROUTER_DATA_LEN) != 0)
            fail("slot %u or its memory does not show its place", s);
    }
    expect("free count", n, ROUTER_SLOTS - stored);
    for (unsigned i = 0; i < n; i++)
        expect("free place", whole_state[ROUTER_STATE_STACK + n - 1 - i], whole.free[i]);
}

static void check_settings(void)
{
    const struct whole_entry *written = &whole.written;

    expect("register 0", whole_state[ROUTER_STATE_OUT_ID], written->out_id);
    expect("register 1", whole_state[ROUTER_STATE_DELAY], written->delay);
    expect("register 2", whole_state[ROUTER_STATE_MASK], written->mask);
    expect("register 4", whole_state[ROUTER_STATE_PORTS], whole.ports);
    for (unsigned p = 0; p < ROUTER_PORTS; p++)
        expect("horizon", whole_state[ROUTER_STATE_HORIZONS + p], whole.horizon[p]);
    for (unsigned c = 0; c < ROUTER_CONNECTIONS; c++) {
        const uint8_t *entry = whole_state + entry_at(c);

        expect("entry identifier", entry[ROUTER_ENTRY_OUT_ID], whole.table[c].out_id);
        expect("entry d", entry[ROUTER_ENTRY_DELAY], whole.table[c].delay);
        expect("entry mask", entry[ROUTER_ENTRY_MASK], whole.table[c].mask);
    }
}

/* Writes an accepted arrival into the ledger; the entry is as in the tick, which no control write has touched. */
static void enter_fate(const uint8_t *packet, int64_t time, int64_t now)
{
    const uint8_t *entry = whole_state + entry_at(packet[ROUTER_PACKET_ID]);
    struct fate *fate = &ledger[ledger_count];

    if (ledger_count == ROUTER_SLOTS)
        fail("a packet accepted though 256 are stored");
    ledger_count++;
    memcpy(&fate->serial, packet + ROUTER_PACKET_DATA, sizeof fate->serial);
    fate->time = time;
    fate->deadline = time + entry[ROUTER_ENTRY_DELAY];
    fate->out_id = entry[ROUTER_ENTRY_OUT_ID];
    fate->left = entry[ROUTER_ENTRY_MASK];
    if (fate->deadline < now)
        fail("a packet accepted after its deadline");
}

/* A packet left by a port: it is one that is still to be served there, and may go now. */
static void leave_fate(const uint8_t *packet, unsigned port, uint8_t code, int64_t now, uint8_t horizon)
{
    uint64_t serial;
    unsigned i = 0;

    memcpy(&serial, packet + ROUTER_PACKET_DATA, sizeof serial);
    while (i < ledger_count && ledger[i].serial != serial)
        i++;
    if (i == ledger_count || !(ledger[i].left >> port & 1))
        fail("port %u sends a packet that it has not to serve", port);
    if (packet[ROUTER_PACKET_ID] != ledger[i].out_id || packet[ROUTER_PACKET_TIME] != whole_cut(ledger[i].deadline))
        fail("port %u sends a wrong identifier or deadline", port);
    if (now > ledger[i].deadline || (code == ROUTER_PORT_ON_TIME) != (ledger[i].time <= now) ||
        ledger[i].time - now > horizon)
        fail("port %u sends a packet at a wrong time", port);
    ledger[i].left = (uint8_t)(ledger[i].left & ~(1u << port));
    occurred[code == ROUTER_PORT_ON_TIME ? FATE_ON_TIME : FATE_EARLY]++;
}

/* Fates of one accepted tick: each port of a packet is served once, or withdrawn in the deadline tick. */
static void check_fates(const uint8_t *arrivals, const int64_t *time, const uint8_t *outgoing,
                        const uint8_t *answered, int64_t now)
{
    unsigned withdrawn[ROUTER_PORTS] = {0}, kept_count = 0;

    for (unsigned p = 0; p < ROUTER_PORTS; p++) {
        if (answered[ROUTER_ANSWERS_ARRIVALS + p] == ROUTER_ARRIVAL_STORED)
            enter_fate(arrivals + ROUTER_PACKET_LEN * p, time[p], now);
    }
    for (unsigned p = 0; p < ROUTER_PORTS; p++) {
        uint8_t code = answered[ROUTER_ANSWERS_PORTS + p];

        if (code == ROUTER_PORT_ON_TIME || code == ROUTER_PORT_EARLY)
            leave_fate(outgoing + ROUTER_PACKET_LEN * p, p, code, now, whole_state[ROUTER_STATE_HORIZONS + p]);
    }
    for (unsigned i = 0; i < ledger_count; i++) {
        if (ledger[i].deadline == now) {
            for (unsigned p = 0; p < ROUTER_PORTS; p++)
                withdrawn[p] += ledger[i].left >> p & 1;
            occurred[FATE_WITHDRAWN] += ledger[i].left != 0;
            ledger[i].left = 0;
        }
        if (ledger[i].left != 0)
            ledger[kept_count++] = ledger[i];
    }
    ledger_count = kept_count;
    for (unsigned p = 0; p < ROUTER_PORTS; p++)
        expect("withdrawn", withdrawn_at(answered, p), withdrawn[p]);
    expect("packets stored", ROUTER_SLOTS - free_count(whole_state), ledger_count);
}

/* A tick of both; with `serials` each packet has its own data, else all have the same. */
static void whole_tick_both(const struct regime *r, int serials)
{
    struct call c = make_call(TICK, chance(r->odd) ? random_byte() : random_mask(r->arrivals),
                              chance(r->odd) ? random_byte() : random_mask(r->best_effort));
    uint8_t bytes[AREAS][ODD_LEN_MAX]; /* those areas of the other router */
    uint8_t *lent[AREAS] = {whole_state, whole_memory};
    int64_t time[ROUTER_PORTS], now = whole.clock;
    int looked_at = serials && below(CHOICE_SAMPLE) == 0;
    unsigned expected, number;

    if (looked_at) {
        memcpy(before[STATE], whole_state, ROUTER_STATE_LEN);
        memcpy(before[MEMORY], whole_memory, ROUTER_MEMORY_LEN);
    }
    for (unsigned k = 0; k < BESIDE; k++) {
        enum area i = beside[k];

        if (chance(r->odd) && chance(20))
            c.len[i] = below(ODD_LEN_MAX);
        memset(bytes[i], random_byte(), sizeof bytes[i]);
    }
    for (unsigned p = 0; p < ROUTER_PORTS; p++) {
        uint8_t *packet = bytes[ARRIVALS] + ROUTER_PACKET_LEN * p;

        time[p] = now + random_arrival(r, whole_state, packet);
        memset(packet + ROUTER_PACKET_DATA, 0, ROUTER_DATA_LEN);
        last_serial++;
        if (serials)
            memcpy(packet + ROUTER_PACKET_DATA, &last_serial, sizeof last_serial);
        occurred[WHOLE_BELOW_ZERO] += time[p] < 0;
    }
    for (unsigned k = 0; k < BESIDE; k++) {
        enum area i = beside[k];

        lent[i] = lend(TICK, i, bytes[i], c.len[i], (int)below(2));
    }
    expected = whole_tick(&whole, bytes[ARRIVALS], c.len[ARRIVALS], time, bytes[OUTGOING], c.len[OUTGOING],
                          bytes[ANSWERS], c.len[ANSWERS], c.first, c.second);
    number = call_router(&c, lent);
    expect("number", number, expected);
    for (unsigned k = 0; k < BESIDE; k++) {
        enum area i = beside[k];

        if (memcmp(lent[i], bytes[i], c.len[i]) != 0)
            differs(&c, i, lent[i], bytes[i]);
    }
    if (number != ROUTER_ACCEPTED) {
        occurred[WHOLE_REFUSED]++;
        return;
    }
    occurred[WHOLE_TICK]++;
    occurred[WHOLE_TURN] += whole_cut(whole.clock) == 0;
    if (serials)
        check_fates(lent[ARRIVALS], time, lent[OUTGOING], lent[ANSWERS], now);
    if (looked_at)
        look_at_choices(before[STATE], before[MEMORY], lent[OUTGOING], lent[ANSWERS], occurred + WHOLE_TIE);
}

static void whole_control_both(const struct regime *r)
{
    struct call c = make_call(CONTROL, 0, 0);
    uint8_t *lent[AREAS] = {whole_state, guarded[MEMORY].readable + (whole_memory - guarded[MEMORY].writable)};
    unsigned number;

    random_control(r, &c.first, &c.second);
    number = call_router(&c, lent);
    expect("number", number, whole_control(&whole, c.first, c.second));
    occurred[WHOLE_REFUSED] += number != ROUTER_ACCEPTED;
    check_settings();
}

static void test_whole(void)
{
    struct regime r = random_regime();
    int serials = 1;

    for (unsigned ticks = 0; ticks < rounds(WHOLE_TICKS);) {
        if (ticks % 60000 == 0) {
            struct call c = make_call(FRESH, ticks == 0 ? 0 : random_byte(), 0);
            uint8_t *lent[AREAS];

            lent[STATE] = whole_state = lend(FRESH, STATE, state, ROUTER_STATE_LEN, (int)below(2));
            lent[MEMORY] = whole_memory = lend(FRESH, MEMORY, memory, ROUTER_MEMORY_LEN, (int)below(2));
            expect("fresh", call_router(&c, lent), ROUTER_ACCEPTED);
            whole_fresh(&whole, c.first);
            ledger_count = 0;
            serials = ticks % 240000 != 180000;
        }
        if (ticks % 500 == 0)
            r = random_regime();
        while (chance(r.controls)) {
            whole_control_both(&r);
            check_correspondence();
        }
        whole_tick_both(&r, serials);
        check_correspondence();
        ticks++;
    }
    check_settings();
}

/* ---- Document 001, Fig. 10 ---- */

#define FIG_CONNECTIONS 3
#define FIG_PERIOD (9u * 7u * 4u) /* in which each connection has a whole number of packets */
#define FIG_TICKS (400u * FIG_PERIOD)
#define FIG_PORT 2
#define FIG_BACKLOG 100 /* a source hands over its packets this long before their logical arrival time */

static void test_fig_10(void)
{
    static const unsigned delay[FIG_CONNECTIONS] = {8, 5, 3}, spacing[FIG_CONNECTIONS] = {9, 7, 4};
    unsigned next[FIG_CONNECTIONS] = {0}, sent[FIG_CONNECTIONS] = {0}, best_effort = 0;

    fresh(0);
    for (unsigned c = 0; c < FIG_CONNECTIONS; c++)
        open_connection(c, c, delay[c], 1u << FIG_PORT);
    for (unsigned now = 0; now < FIG_TICKS; now++) {
        unsigned arrivals = 0;
        const uint8_t *out = area[OUTGOING] + ROUTER_PACKET_LEN * FIG_PORT;

        for (unsigned c = 0; c < FIG_CONNECTIONS; c++) {
            if (next[c] <= now + FIG_BACKLOG) {
                put_arrival(c, c, (int)(next[c] - now));
                next[c] += spacing[c];
                arrivals |= 1u << c;
            }
        }
        expect("tick", tick(arrivals, 1u << FIG_PORT), ROUTER_ACCEPTED);
        for (unsigned c = 0; c < FIG_CONNECTIONS; c++)
            expect("arrival", answers[ROUTER_ANSWERS_ARRIVALS + c], arrivals >> c & 1);
        expect("withdrawn", withdrawn_at(answers, FIG_PORT), 0);
        if (answers[ROUTER_ANSWERS_PORTS + FIG_PORT] == ROUTER_PORT_BEST_EFFORT) {
            best_effort++;
            continue;
        }
        expect("port code", answers[ROUTER_ANSWERS_PORTS + FIG_PORT], ROUTER_PORT_ON_TIME);
        if (out[ROUTER_PACKET_ID] >= FIG_CONNECTIONS)
            fail("no such connection: %u", out[ROUTER_PACKET_ID]);
        sent[out[ROUTER_PACKET_ID]]++;
    }
    printf("     Fig. 10: %u ticks, no deadline missed\n", FIG_TICKS);
    printf("     | traffic      | d | I_min | packets | share  | reserved |\n");
    for (unsigned c = 0; c < FIG_CONNECTIONS; c++) {
        printf("     | connection %u | %u | %5u | %7u | %.4f | %8.4f |\n", c, delay[c], spacing[c], sent[c],
               (double)sent[c] / FIG_TICKS, 1.0 / spacing[c]);
        expect("packets sent", sent[c], FIG_TICKS / spacing[c]);
    }
    printf("     | best-effort  |   |       | %7u | %.4f |     rest |\n", best_effort,
           (double)best_effort / FIG_TICKS);
    expect("best-effort", best_effort, FIG_TICKS - sent[0] - sent[1] - sent[2]);
}

/* ---- All ---- */

static void test_occurred(void)
{
    check_occurred(SET(FRESH) | SET(CONTROL) | SET(TICK), event_name, occurred, EVENTS);
}

int main(int argc, char **argv)
{
    start(argc, argv);
    section("the archives' versions", test_versions);
    section("a fresh router, every clock", test_fresh);
    section("wrong and zero lengths", test_lengths);
    section("the display part, every port", test_display);
    section("masks of every value", test_masks);
    section("registers and values of every value", test_registers);
    section("every offset and every d", test_offsets);
    section("choices of a port", test_choices);
    section("ties of two packets, every clock", test_pairs);
    section("256 stored", test_full);
    section("random calls from a fresh router", test_evolving);
    section("random calls from random sound states", test_made);
    section("ties, of shared times and deadlines", test_ties);
    section("random damage", test_damaged);
    section("the router that never turns over, and fates", test_whole);
    section("document 001, Fig. 10", test_fig_10);
    section("all numbers, codes and events occurred", test_occurred);
    return finish("test");
}
