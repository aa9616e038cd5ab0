/*
 * faults_test.c - which number a state and its memory get, of every entry that asks whether they are sound: those of
 * the router, those of the queue engine, and router_fault, which names a slot too. Every clause of soundness is broken
 * alone and in pairs, and kept at its limit; the numbers expected are those of document 02, request [2], in the table
 * of ways below.
 *   faults_test [SEED [SHARE]]   (SHARE: of the random rounds one in so many)
 */

#include <stdio.h>
#include <string.h>

#include "harness.h"

#define SOUND_ROUNDS 10u /* for each number of packets */
#define PAIR_ROUNDS 40u  /* for each pair of ways */
#define SEVERAL_ROUNDS 2000u
#define LIMIT_ROUNDS 4u
#define FREE_ROUNDS 10000u
#define DAMAGED_ROUNDS 300000u

/* The numbers of document 02. */
enum { SOUND = 0, SETTINGS = 13, STACK = 14, PACKETS = 15 };

/* ---- What has to occur ---- */

enum event { FIRST_IS_LOWER, SECOND_IS_LOWER, NAMED_0, NAMED_255, EVENTS };

static const char *const event_name[EVENTS] = {
    "two bad packets: the lower is the first way's", "two bad packets: the lower is the second way's",
    "slot 0 named", "slot 255 named",
};

static unsigned long occurred[EVENTS];

void after_call(const struct call *c, unsigned number)
{
    occurred[NAMED_0] += c->entry == FAULT && number == PACKETS;
    occurred[NAMED_255] += c->entry == FAULT && number == PACKETS + 256 * 255;
}

/* ---- The entries that ask ---- */

#define ALL (SET(CONTROL) | SET(TICK) | SET(FILL) | SET(QUEUES_CONTROL) | SET(QUEUES_TICK) | SET(FAULT))

/* router_fault and one of the others, with a fill where that wants the state's queues. */
static unsigned some(void)
{
    unsigned entry = CONTROL + below(FAULT - CONTROL);

    return SET(FAULT) | SET(entry) | (entry > FILL ? SET(FILL) : 0);
}

/* What else the entry is handed is right; state and memory come back, while the queues of a fill stay. */
static void accepts(enum entry entry, const char *rule)
{
    struct call c = make_call(entry, 0, 0);
    unsigned number = call_both(&c);

    if (number != ROUTER_ACCEPTED)
        fail("within the rule: %s; %s gives %u", rule, entry_form[entry].name, number);
    memcpy(state, before[STATE], ROUTER_STATE_LEN);
    memcpy(memory, before[MEMORY], ROUTER_MEMORY_LEN);
}

/* What else the entry is handed is random; router_fault gives the fault, and the others its number. */
static void refuses(enum entry entry, const char *rule, unsigned fault)
{
    struct call c = make_call(entry, random_byte(), random_byte());
    unsigned should = entry == FAULT ? fault : fault % 256;
    unsigned number = call_both(&c);

    if (number != should)
        fail("broken: %s; %s gives %u and should give %u", rule, entry_form[entry].name, number, should);
}

/* Puts the question by these entries, a set; then the kept state comes back. */
static void ask(unsigned entries, const char *rule, unsigned fault)
{
    for (unsigned entry = CONTROL; entry < ENTRIES; entry++) {
        if ((entries >> entry & 1) == 0)
            continue;
        if (fault == SOUND)
            accepts(entry, rule);
        else
            refuses(entry, rule, fault);
    }
    come_back();
}

static unsigned packets_fault(unsigned s)
{
    return PACKETS + 256 * s;
}

/* A sound state to be broken, with queues that are not its own: their question comes after. */
static void make_base(unsigned stored)
{
    make_sound(stored);
    random_bytes(queues, ROUTER_QUEUES_LEN);
    keep();
}

/* ---- Ways to break one clause ---- */

/* Where to break it. */
struct place {
    unsigned port, connection;
    unsigned entry, other; /* of the stack */
    unsigned slot;         /* with a packet */
};

static uint8_t *const stack = area[STATE] + ROUTER_STATE_STACK;

static void entry_delay(const struct place *at)
{
    state[entry_at(at->connection) + ROUTER_ENTRY_DELAY] = (uint8_t)edgy(128, 255);
}

static void entry_mask(const struct place *at)
{
    state[entry_at(at->connection) + ROUTER_ENTRY_MASK] = (uint8_t)edgy(32, 255);
}

static void horizon(const struct place *at)
{
    state[ROUTER_STATE_HORIZONS + at->port] = (uint8_t)edgy(128, 255);
}

static void register_1(const struct place *at)
{
    (void)at;
    state[ROUTER_STATE_DELAY] = (uint8_t)edgy(128, 255);
}

static void register_2(const struct place *at)
{
    (void)at;
    state[ROUTER_STATE_MASK] = (uint8_t)edgy(32, 255);
}

static void register_4(const struct place *at)
{
    (void)at;
    state[ROUTER_STATE_PORTS] = (uint8_t)edgy(32, 255);
}

static void count_above(const struct place *at)
{
    (void)at;
    set_free_count(state, (unsigned)edgy(257, 65535));
}

static void count_less(const struct place *at)
{
    (void)at;
    set_free_count(state, free_count(state) - 1);
}

static void count_more_idle(const struct place *at)
{
    stack[free_count(state)] = stack[at->entry];
    set_free_count(state, free_count(state) + 1);
}

static void count_more_stored(const struct place *at)
{
    stack[free_count(state)] = (uint8_t)at->slot;
    set_free_count(state, free_count(state) + 1);
}

static void entry_twice(const struct place *at)
{
    stack[at->entry] = stack[at->other];
}

static void stored_on_stack(const struct place *at)
{
    stack[at->entry] = (uint8_t)at->slot;
}

static void idle_missing(const struct place *at)
{
    state[slot_at(at->slot) + ROUTER_SLOT_MASK] = 0;
}

static void packet_in_idle(const struct place *at)
{
    put_stored(stack[at->entry], 0, 0, 1 + below(ROUTER_MASK_MAX));
}

static void mask_of_idle(const struct place *at)
{
    state[slot_at(stack[at->entry]) + ROUTER_SLOT_MASK] = (uint8_t)edgy(32, 255);
}

static void slot_mask(const struct place *at)
{
    state[slot_at(at->slot) + ROUTER_SLOT_MASK] = (uint8_t)edgy(32, 255);
}

static void slot_delay(const struct place *at)
{
    put_stored(at->slot, edgy(-128, 126), (unsigned)edgy(128, 255), 1 + below(ROUTER_MASK_MAX));
}

static void slot_ahead(const struct place *at)
{
    put_stored(at->slot, 127, (unsigned)edgy(0, 127), 1 + below(ROUTER_MASK_MAX));
}

static void slot_passed(const struct place *at)
{
    int d = edgy(0, 127);

    put_stored(at->slot, edgy(-128, -d - 1), (unsigned)d, 1 + below(ROUTER_MASK_MAX));
}

static void header_byte(const struct place *at)
{
    stored_at(at->slot)[ROUTER_PACKET_TIME] ^= (uint8_t)(1 + below(255));
}

struct way {
    const char *clause;
    unsigned number;
    void (*break_at)(const struct place *at);
    unsigned idle, stored; /* slots that it needs */
    int counts;            /* it sets the free count, which has one value: two such ways don't go together */
};

static const struct way ways[] = {
    {"d of an entry at most 127", SETTINGS, entry_delay, 0, 0, 0},
    {"mask of an entry at most 31", SETTINGS, entry_mask, 0, 0, 0},
    {"horizon at most 127", SETTINGS, horizon, 0, 0, 0},
    {"register 1 at most 127", SETTINGS, register_1, 0, 0, 0},
    {"register 2 at most 31", SETTINGS, register_2, 0, 0, 0},
    {"register 4 at most 31", SETTINGS, register_4, 0, 0, 0},
    {"free count at most 256", STACK, count_above, 0, 0, 1},
    {"entries differ (an idle address again on top)", STACK, count_more_idle, 1, 1, 1},
    {"entries differ (an entry in the place of another)", STACK, entry_twice, 2, 0, 0},
    {"entries are empty (a stored slot on top)", STACK, count_more_stored, 0, 1, 1},
    {"entries are empty (a stored slot in the place of an idle one)", STACK, stored_on_stack, 1, 1, 0},
    {"entries are empty (a packet in an idle slot)", STACK, packet_in_idle, 1, 0, 0},
    {"entries are empty (a mask above 31 in an idle slot)", STACK, mask_of_idle, 1, 0, 0},
    {"empty slots are entries (the count one less)", STACK, count_less, 1, 0, 1},
    {"empty slots are entries (a slot emptied)", STACK, idle_missing, 0, 1, 0},
    {"mask of a packet at most 31", PACKETS, slot_mask, 0, 1, 0},
    {"d of a packet at most 127", PACKETS, slot_delay, 0, 1, 0},
    {"offset of a packet at most 126", PACKETS, slot_ahead, 0, 1, 0},
    {"offset of a packet at least -d", PACKETS, slot_passed, 0, 1, 0},
    {"byte 1 in memory is the deadline", PACKETS, header_byte, 0, 1, 0},
};

#define WAYS (sizeof ways / sizeof *ways)

/* The slot of the k-th packet, where there is one. */
static unsigned stored_slot(unsigned k)
{
    unsigned s = 0;

    for (; s < ROUTER_SLOTS - 1; s++) {
        if (state[slot_at(s) + ROUTER_SLOT_MASK] != 0 && k-- == 0)
            break;
    }
    return s;
}

/* The k-th place in a sound state, among so many entries of the stack. */
static struct place place_at(unsigned k, unsigned entries)
{
    unsigned stored = ROUTER_SLOTS - free_count(state);
    struct place at = {k % ROUTER_PORTS, k % ROUTER_CONNECTIONS, 0, 0, 0};

    if (entries > 0) {
        at.entry = k % entries;
        at.other = (k + 1) % entries;
    }
    if (stored > 0)
        at.slot = stored_slot(k % stored);
    return at;
}

/* Each way at every port, entry and slot. */
static void test_alone(void)
{
    static const unsigned stored[] = {0, 1, 2, 128, 250, 255, 256};

    for (unsigned b = 0; b < sizeof stored / sizeof *stored; b++) {
        unsigned idle = ROUTER_SLOTS - stored[b];

        make_base(stored[b]);
        for (unsigned k = 0; k < WAYS * ROUTER_SLOTS; k++) {
            const struct way *way = &ways[k % WAYS];
            struct place at = place_at(k / WAYS, idle);

            if (way->idle > idle || way->stored > stored[b])
                continue;
            way->break_at(&at);
            ask(ALL, way->clause, way->number == PACKETS ? packets_fault(at.slot) : way->number);
        }
    }
}

/* What two ways make together: the number that is asked about first; of two bad packets the lower slot. */
static unsigned fault_of(const struct way *one, const struct place *at_one, const struct way *two,
                         const struct place *at_two)
{
    if (one->number != PACKETS || two->number != PACKETS)
        return one->number < two->number ? one->number : two->number;
    occurred[at_one->slot < at_two->slot ? FIRST_IS_LOWER : SECOND_IS_LOWER]++;
    return packets_fault(at_one->slot < at_two->slot ? at_one->slot : at_two->slot);
}

/*
 * Places that are two apart share nothing, given three packets and four entries. The top of the stack is no place, so
 * that a count one less undoes nothing.
 */
static void break_both(const struct way *one, const struct way *two)
{
    unsigned stored = (unsigned)edgy(3, ROUTER_SLOTS - 5), k = below(ROUTER_SLOTS);
    unsigned entries = ROUTER_SLOTS - stored - 1;
    struct place at_one, at_two;
    char rule[200];

    make_base(stored);
    at_one = place_at(k + 2, entries);
    at_two = place_at(chance(50) ? k : k + 4, entries);
    one->break_at(&at_one);
    two->break_at(&at_two);
    snprintf(rule, sizeof rule, "%s, and %s", one->clause, two->clause);
    ask(ALL, rule, fault_of(one, &at_one, two, &at_two));
}

/* Each pair of ways, a way with itself among them. */
static void test_pairs(void)
{
    for (unsigned one = 0; one < WAYS; one++) {
        for (unsigned two = one; two < WAYS; two++) {
            for (unsigned round = 0; round < rounds(PAIR_ROUNDS); round++) {
                if (!ways[one].counts || !ways[two].counts)
                    break_both(&ways[one], &ways[two]);
            }
        }
    }
}

/* Any number of packets are bad, each in one way; the lowest is named. */
static void test_several(void)
{
    const struct way *of_packets = ways;
    unsigned ways_of_packets;

    while (of_packets->number != PACKETS)
        of_packets++;
    ways_of_packets = (unsigned)(ways + WAYS - of_packets);
    for (unsigned round = 0; round < rounds(SEVERAL_ROUNDS); round++) {
        unsigned stored = (unsigned)edgy(1, ROUTER_SLOTS), percent = below(101);
        unsigned sure, lowest = ROUTER_SLOTS;

        make_base(stored);
        sure = stored_slot(below(stored));
        for (unsigned s = ROUTER_SLOTS; s-- > 0;) {
            struct place at = {0, 0, 0, 0, s};

            if (state[slot_at(s) + ROUTER_SLOT_MASK] == 0 || (s != sure && !chance(percent)))
                continue;
            of_packets[below(ways_of_packets)].break_at(&at);
            lowest = s;
        }
        ask(ALL, "several packets", packets_fault(lowest));
    }
}

/* ---- Within the clauses, and at their limits ---- */

static void test_sound(void)
{
    for (unsigned clock = 0; clock < 256; clock++) {
        struct call c = make_call(FRESH, clock, 0);

        expect("fresh", call_both(&c), ROUTER_ACCEPTED);
        keep();
        ask(ALL, "a fresh router", SOUND);
    }
    for (unsigned stored = 0; stored <= ROUTER_SLOTS; stored++) {
        for (unsigned round = 0; round < rounds(SOUND_ROUNDS); round++) {
            make_base(stored);
            ask(ALL, "a sound state", SOUND);
        }
    }
}

/* Every value of a byte of the settings. */
static void sweep(const char *rule, uint8_t *byte, unsigned limit)
{
    for (unsigned value = 0; value < 256; value++) {
        *byte = (uint8_t)value;
        ask(some(), rule, value <= limit ? SOUND : SETTINGS);
    }
}

static void test_settings(void)
{
    for (unsigned round = 0; round < LIMIT_ROUNDS; round++) {
        unsigned connection = random_byte();

        make_base(below(257));
        for (unsigned p = 0; p < ROUTER_PORTS; p++)
            sweep("horizon", state + ROUTER_STATE_HORIZONS + p, 127);
        sweep("register 0", state + ROUTER_STATE_OUT_ID, 255);
        sweep("register 1", state + ROUTER_STATE_DELAY, 127);
        sweep("register 2", state + ROUTER_STATE_MASK, 31);
        sweep("register 4", state + ROUTER_STATE_PORTS, 31);
        sweep("d of an entry", state + entry_at(connection) + ROUTER_ENTRY_DELAY, 127);
        sweep("mask of an entry", state + entry_at(connection) + ROUTER_ENTRY_MASK, 31);
        for (unsigned c = 0; c < ROUTER_CONNECTIONS; c++) {
            state[entry_at(c) + ROUTER_ENTRY_DELAY] = 127;
            state[entry_at(c) + ROUTER_ENTRY_MASK] = 31;
            ask(some(), "largest d and mask of an entry", SOUND);
        }
    }
}

/* Every mask of a slot, idle or stored; free counts up to 65,535, of which those above 256 reach past the stack. */
static void test_stack(void)
{
    for (unsigned round = 0; round < LIMIT_ROUNDS; round++) {
        unsigned n, idle, s;

        make_base(1 + below(255));
        n = free_count(state);
        idle = stack[below(n)];
        s = stored_slot(below(ROUTER_SLOTS - n));
        for (unsigned mask = 0; mask < 256; mask++) {
            state[slot_at(idle) + ROUTER_SLOT_MASK] = (uint8_t)mask;
            ask(ALL, "mask of an idle slot", mask == 0 ? SOUND : STACK);
            state[slot_at(s) + ROUTER_SLOT_MASK] = (uint8_t)mask;
            ask(ALL, "mask of a stored slot", mask == 0 ? STACK : mask <= 31 ? SOUND : packets_fault(s));
        }
        for (unsigned count = 0; count <= 65535; count += count < 1024 ? 1 : 1 + below(64)) {
            set_free_count(state, count);
            ask(some(), "free count", count == n ? SOUND : STACK);
        }
        set_free_count(state, 65535);
        ask(ALL, "free count 65535", STACK);
    }
}

/* Every d and every offset of a packet, and every byte 1 of its memory. */
static void test_packet(void)
{
    unsigned s;

    make_base(200);
    s = stored_slot(below(200));
    for (int d = 0; d < 256; d++) {
        for (int offset = -128; offset <= 127; offset++) {
            put_stored(s, offset, (unsigned)d, 1 + below(ROUTER_MASK_MAX));
            ask(some(), "d and offset", d <= 127 && offset >= -d && offset <= 126 ? SOUND : packets_fault(s));
        }
    }
    for (unsigned byte = 0; byte < 256; byte++) {
        stored_at(s)[ROUTER_PACKET_TIME] = (uint8_t)byte;
        ask(ALL, "byte 1 in memory", byte == state[slot_at(s) + ROUTER_SLOT_DEADLINE] ? SOUND : packets_fault(s));
    }
}

/* Bytes that no clause names may be anything: those of empty slots and of their memory among them. */
static void test_free(void)
{
    for (unsigned round = 0; round < rounds(FREE_ROUNDS); round++) {
        unsigned n;

        if (round % 50 == 0)
            make_base(below(257));
        n = free_count(state);
        random_bytes(stack + n, ROUTER_SLOTS - n);
        state[ROUTER_STATE_OUT_ID] = random_byte();
        for (unsigned s = 0; s < ROUTER_SLOTS; s++) {
            uint8_t *slot = state + slot_at(s), *packet = stored_at(s);

            state[entry_at(s) + ROUTER_ENTRY_OUT_ID] = random_byte();
            packet[ROUTER_PACKET_ID] = random_byte();
            packet[ROUTER_PACKET_DATA + below(ROUTER_DATA_LEN)] = random_byte();
            if (slot[ROUTER_SLOT_MASK] == 0) {
                slot[ROUTER_SLOT_TIME] = random_byte();
                slot[ROUTER_SLOT_DEADLINE] = random_byte();
                packet[ROUTER_PACKET_TIME] = random_byte();
            }
        }
        ask(some(), "bytes that no clause names", SOUND);
    }
}

/* ---- Random damage ---- */

/* One byte changed or several: router_fault gives what the plain one does, and the other entries its number. */
static void test_damaged(void)
{
    struct call c = make_call(FAULT, 0, 0);
    unsigned fault;

    for (unsigned round = 0; round < rounds(DAMAGED_ROUNDS); round++) {
        if (round % 50 == 0)
            make_base(below(257));
        damage(chance(50) ? 1 : 2 + below(20));
        fault = call_both(&c);
        ask(some() & ~SET(FAULT), "random damage", fault);
    }
}

/* ---- All ---- */

static void test_lengths(void)
{
    try_lengths(FAULT, make_sound);
}

static void test_occurred(void)
{
    check_occurred(SET(FAULT), event_name, occurred, EVENTS);
}

int main(int argc, char **argv)
{
    start(argc, argv);
    section("wrong and zero lengths", test_lengths);
    section("sound states, 0 to 256 stored", test_sound);
    section("each clause broken alone", test_alone);
    section("two clauses broken together", test_pairs);
    section("several bad packets", test_several);
    section("every value of the settings", test_settings);
    section("every mask of a slot, free counts", test_stack);
    section("every d and offset of a packet", test_packet);
    section("bytes that no clause names", test_free);
    section("random damage", test_damaged);
    section("all numbers and events occurred", test_occurred);
    return finish("faults_test");
}
