/* harness.c - what the tests share (harness.h), on a host and on a board. */
#include <stdio.h>
#include <string.h>

#include "harness.h"
#include "plain.h"

/* ---- Random numbers ---- */

static uint64_t random_state;

void seed_random(uint64_t seed)
{
    random_state = seed;
}

static uint64_t next_random(void)
{
    uint64_t z = random_state += UINT64_C(0x9E3779B97F4A7C15);

    z = (z ^ z >> 30) * UINT64_C(0xBF58476D1CE4E5B9);
    z = (z ^ z >> 27) * UINT64_C(0x94D049BB133111EB);
    return z ^ z >> 31;
}

unsigned below(unsigned limit)
{
    return (unsigned)((next_random() >> 32) * limit >> 32);
}

int between(int low, int high)
{
    return low + (int)below((unsigned)(high - low + 1));
}

int edgy(int low, int high)
{
    unsigned which = below(8);

    return which == 0 ? low : which == 1 ? high : between(low, high);
}

int chance(unsigned percent)
{
    return below(100) < percent;
}

uint8_t random_byte(void)
{
    return (uint8_t)below(256);
}

void random_bytes(uint8_t *bytes, size_t len)
{
    for (size_t i = 0; i < len; i++)
        bytes[i] = random_byte();
}

/* ---- Failures ---- */

unsigned long calls;

void expect(const char *what, unsigned got, unsigned should)
{
    if (got != should)
        fail("%s is %u and should be %u", what, got, should);
}

/* ---- Areas ---- */

const char *const area_name[AREAS] = {"state", "memory", "arrivals", "outgoing", "answers", "queues"};
const size_t area_len[AREAS] = {
    ROUTER_STATE_LEN,    ROUTER_MEMORY_LEN,  ROUTER_ARRIVALS_LEN,
    ROUTER_OUTGOING_LEN, ROUTER_ANSWERS_LEN, ROUTER_QUEUES_LEN,
};

uint8_t area[AREAS][LEN_MAX], before[AREAS][LEN_MAX];
uint8_t *const state = area[STATE], *const memory = area[MEMORY], *const answers = area[ANSWERS];
uint8_t *const queues = area[QUEUES];
static uint8_t kept[AREAS][LEN_MAX];

#define KEPT (STORE | SET(QUEUES))

void keep(void)
{
    for (unsigned i = 0; i < AREAS; i++) {
        if ((KEPT >> i & 1) != 0)
            memcpy(kept[i], area[i], area_len[i]);
    }
}

void come_back(void)
{
    for (unsigned i = 0; i < AREAS; i++) {
        if ((KEPT >> i & 1) != 0)
            memcpy(area[i], kept[i], area_len[i]);
    }
}

uint8_t *stored_at(unsigned s)
{
    return memory + ROUTER_PACKET_LEN * s;
}

uint8_t *arrival_at(unsigned port)
{
    return area[ARRIVALS] + ROUTER_PACKET_LEN * port;
}

unsigned withdrawn_at(const uint8_t *bytes, unsigned port)
{
    return bytes[ROUTER_ANSWERS_WITHDRAWN + 2 * port] * 256u + bytes[ROUTER_ANSWERS_WITHDRAWN + 2 * port + 1];
}

/* ---- The entries ---- */

#define NUMBERS (ROUTER_BAD_QUEUES + 1)

static const char *const number_name[NUMBERS] = {
    [ROUTER_ACCEPTED] = "accepted", [ROUTER_BAD_LENGTH] = "length",      [ROUTER_BAD_SETTINGS] = "settings",
    [ROUTER_BAD_STACK] = "stack",   [ROUTER_BAD_PACKETS] = "packets",    [ROUTER_BAD_PORT_MASK] = "mask",
    [ROUTER_BAD_VALUE] = "value",   [ROUTER_BAD_REGISTER] = "register",  [ROUTER_BAD_QUEUES] = "queues",
};

#define OF_ALL (SET(ROUTER_ACCEPTED) | SET(ROUTER_BAD_LENGTH))
#define OF_STATE (OF_ALL | SET(ROUTER_BAD_SETTINGS) | SET(ROUTER_BAD_STACK) | SET(ROUTER_BAD_PACKETS))
#define OF_CONTROL (OF_STATE | SET(ROUTER_BAD_REGISTER) | SET(ROUTER_BAD_VALUE))
#define OF_TICK (OF_STATE | SET(ROUTER_BAD_PORT_MASK))
#define TICK_AREAS (STORE | SET(ARRIVALS) | SET(OUTGOING) | SET(ANSWERS))

const struct entry_form entry_form[ENTRIES] = {
    [FRESH] = {"fresh", STORE, 0, OF_ALL},
    [CONTROL] = {"control", STORE, SET(MEMORY), OF_CONTROL},
    [TICK] = {"tick", TICK_AREAS, SET(ARRIVALS), OF_TICK},
    [FILL] = {"queues fill", STORE | SET(QUEUES), STORE, OF_STATE},
    [QUEUES_CONTROL] = {"queues control", STORE | SET(QUEUES), SET(MEMORY) | SET(QUEUES),
                        OF_CONTROL | SET(ROUTER_BAD_QUEUES)},
    [QUEUES_TICK] = {"queues tick", TICK_AREAS | SET(QUEUES), SET(ARRIVALS), OF_TICK | SET(ROUTER_BAD_QUEUES)},
    [FAULT] = {"fault", STORE, STORE, OF_STATE},
};

static const struct implementation router = {"router", ENTRIES_OF(router)}, plain = {"plain", ENTRIES_OF(plain)};

#define LENT(i) at[i], c->len[i]

static unsigned call(const struct implementation *by, const struct call *c, uint8_t *const *at)
{
    switch (c->entry) {
    case FRESH:
        return by->fresh(LENT(STATE), LENT(MEMORY), c->first);
    case CONTROL:
        return by->control(LENT(STATE), LENT(MEMORY), c->first, c->second);
    case TICK:
        return by->tick(LENT(STATE), LENT(MEMORY), LENT(ARRIVALS), LENT(OUTGOING), LENT(ANSWERS), c->first, c->second);
    case FILL:
        return by->queues_fill(LENT(STATE), LENT(MEMORY), LENT(QUEUES));
    case QUEUES_CONTROL:
        return by->queues_control(LENT(STATE), LENT(MEMORY), LENT(QUEUES), c->first, c->second);
    case QUEUES_TICK:
        return by->queues_tick(LENT(STATE), LENT(MEMORY), LENT(QUEUES), LENT(ARRIVALS), LENT(OUTGOING),
                               LENT(ANSWERS), c->first, c->second);
    default: /* FAULT */
        return by->fault(LENT(STATE), LENT(MEMORY));
    }
}

/* How often each entry returned each number. */
static unsigned long returned[ENTRIES][NUMBERS];

static void count_number(const struct call *c, unsigned number)
{
    const struct entry_form *form = &entry_form[c->entry];

    if (c->entry == FAULT)
        number = ROUTER_FAULT_NUMBER(number);
    if (number >= NUMBERS || (form->numbers >> number & 1) == 0)
        fail("%s (%u, %u) returns %u", form->name, c->first, c->second, number);
    returned[c->entry][number]++;
}

static unsigned print_count(unsigned long count)
{
    printf(" %10lu%s\n", count, count == 0 ? "   NEVER" : "");
    return count == 0;
}

void check_occurred(unsigned entries, const char *const *name, const unsigned long *occurred, unsigned events)
{
    unsigned missing = 0;

    for (unsigned e = 0; e < ENTRIES; e++) {
        for (unsigned k = 0; k < NUMBERS; k++) {
            if ((entries >> e & 1) == 0 || (entry_form[e].numbers >> k & 1) == 0)
                continue;
            printf("     %-15s %2u %-29s", entry_form[e].name, k, number_name[k]);
            missing += print_count(returned[e][k]);
        }
    }
    for (unsigned e = 0; e < events; e++) {
        printf("     %-48s", name[e]);
        missing += print_count(occurred[e]);
    }
    if (missing != 0)
        fail("%u of these never occurred", missing);
}

/* ---- Calls ---- */

enum subject subject;

struct call make_call(enum entry entry, unsigned first, unsigned second)
{
    struct call c = {entry, {0}, (uint8_t)first, (uint8_t)second};

    memcpy(c.len, area_len, sizeof c.len);
    return c;
}

void differs(const struct call *c, enum area i, const uint8_t *got, const uint8_t *expected)
{
    size_t at = 0;

    while (got[at] == expected[at])
        at++;
    fail("%s (%u, %u): %s byte %zu is %u and should be %u", entry_form[c->entry].name, c->first, c->second,
         area_name[i], at, got[at], expected[at]);
}

unsigned call_router(const struct call *c, uint8_t *const *at)
{
    unsigned number;

    calls++;
    number = call(&router, c, at);
    check_around();
    return number;
}

unsigned call_both(const struct call *c)
{
    const struct entry_form *form = &entry_form[c->entry];
    unsigned ends = below(SET(AREAS));
    uint8_t *lent[AREAS] = {NULL}, *own[AREAS];
    unsigned expected, number;

    for (unsigned i = 0; i < AREAS; i++) {
        own[i] = area[i];
        if ((form->lent >> i & 1) == 0)
            continue;
        lent[i] = lend(c->entry, i, area[i], c->len[i], ends >> i & 1);
        memcpy(before[i], area[i], c->len[i]);
    }
    expected = call(&plain, c, own);
    number = call_router(c, lent);
    if (number != expected)
        fail("%s (%u, %u): number is %u and should be %u", form->name, c->first, c->second, number, expected);
    for (unsigned i = 0; i < AREAS; i++) {
        int written = number == ROUTER_ACCEPTED && (form->only_read >> i & 1) == 0;
        const uint8_t *should = written ? area[i] : before[i];

        if ((form->lent >> i & 1) == 0)
            continue;
        if (memcmp(lent[i], should, c->len[i]) != 0)
            differs(c, i, lent[i], should);
        if (memcmp(area[i], should, c->len[i]) != 0)
            fail("the plain %s (%u, %u) changes %s, number %u", form->name, c->first, c->second, area_name[i], number);
    }
    count_number(c, number);
    after_call(c, number);
    return number;
}

unsigned control(unsigned reg, unsigned value)
{
    struct call c = make_call(subject == ENGINE ? QUEUES_CONTROL : CONTROL, reg, value);

    return call_both(&c);
}

unsigned tick(unsigned arrivals_mask, unsigned best_effort_mask)
{
    struct call c = make_call(subject == ENGINE ? QUEUES_TICK : TICK, arrivals_mask, best_effort_mask);

    memset(area[OUTGOING], random_byte(), ROUTER_OUTGOING_LEN);
    memset(answers, random_byte(), ROUTER_ANSWERS_LEN);
    return call_both(&c);
}

/* ---- The order of packets ---- */

/* The offset of a time: the difference of the two bytes, brought into -128 to 127. */
static int offset_of(int time, int t)
{
    int offset = time - t;

    return offset < -128 ? offset + 256 : offset > 127 ? offset - 256 : offset;
}

/* Ticks from now to a time that is ahead, 0 to 255. */
static int ticks_to(int time, int t)
{
    return time < t ? time - t + 256 : time - t;
}

unsigned see_slots(const uint8_t *bytes, struct seen *seen)
{
    int t = bytes[ROUTER_STATE_CLOCK];
    unsigned n = 0;

    for (unsigned s = 0; s < ROUTER_SLOTS; s++) {
        const uint8_t *slot = bytes + slot_at(s);
        uint8_t time = slot[ROUTER_SLOT_TIME], deadline = slot[ROUTER_SLOT_DEADLINE];
        int offset = offset_of(time, t);

        if (slot[ROUTER_SLOT_MASK] == 0)
            continue;
        seen[n].early = offset > 0;
        seen[n].key = offset > 0 ? offset : ticks_to(deadline, t);
        seen[n].second = offset > 0 ? ticks_to(deadline, t) : offset;
        seen[n].plain = offset > 0 ? deadline : time;
        seen[n].slot = s;
        seen[n].mask = slot[ROUTER_SLOT_MASK];
        n++;
    }
    return n;
}

int in_order(const void *one, const void *other)
{
    const struct seen *x = one, *y = other;

    if (x->early != y->early)
        return x->early - y->early;
    if (x->key != y->key)
        return x->key - y->key;
    if (x->second != y->second)
        return x->second - y->second;
    return (int)x->slot - (int)y->slot;
}

void count_tie(const struct seen *first, const struct seen *next, unsigned long *occurred)
{
    int early = first->early;

    if (early != next->early || first->key != next->key)
        return;
    if (first->second == next->second) {
        occurred[early ? EARLY_BY_SLOT : ON_TIME_BY_SLOT]++;
        return;
    }
    occurred[early ? BY_DEADLINE : BY_TIME] += first->slot > next->slot;
    occurred[early ? NOT_BY_DEADLINE_BYTE : NOT_BY_TIME_BYTE] += first->plain > next->plain;
    occurred[NOT_BY_OFFSET] += early && first->second < 128 && next->second >= 128;
}

/* ---- Makers of states, packets and calls ---- */

void open_connection(unsigned in, unsigned out, unsigned d, unsigned mask)
{
    expect("outgoing identifier", control(ROUTER_REG_OUT_ID, out), ROUTER_ACCEPTED);
    expect("delay", control(ROUTER_REG_DELAY, d), ROUTER_ACCEPTED);
    expect("mask", control(ROUTER_REG_MASK, mask), ROUTER_ACCEPTED);
    expect("incoming identifier", control(ROUTER_REG_IN_ID, in), ROUTER_ACCEPTED);
}

void set_horizons(unsigned ports, unsigned horizon)
{
    expect("ports", control(ROUTER_REG_PORTS, ports), ROUTER_ACCEPTED);
    expect("horizon", control(ROUTER_REG_HORIZON, horizon), ROUTER_ACCEPTED);
}

void put_arrival(unsigned port, unsigned connection, int offset)
{
    uint8_t *packet = arrival_at(port);

    random_bytes(packet, ROUTER_PACKET_LEN);
    packet[ROUTER_PACKET_ID] = (uint8_t)connection;
    packet[ROUTER_PACKET_TIME] = (uint8_t)(state[ROUTER_STATE_CLOCK] + offset);
}

void put_stored(unsigned s, int offset, unsigned d, unsigned mask)
{
    uint8_t *slot = state + slot_at(s);

    slot[ROUTER_SLOT_TIME] = (uint8_t)(state[ROUTER_STATE_CLOCK] + offset);
    slot[ROUTER_SLOT_DEADLINE] = (uint8_t)(slot[ROUTER_SLOT_TIME] + d);
    slot[ROUTER_SLOT_MASK] = (uint8_t)mask;
    stored_at(s)[ROUTER_PACKET_TIME] = slot[ROUTER_SLOT_DEADLINE];
}

void make_sound(unsigned stored)
{
    uint8_t order[ROUTER_SLOTS] = {0};
    int spread = edgy(0, 126);

    random_bytes(state, ROUTER_STATE_LEN);
    random_bytes(memory, ROUTER_MEMORY_LEN);
    for (unsigned p = 0; p < ROUTER_PORTS; p++)
        state[ROUTER_STATE_HORIZONS + p] &= ROUTER_HORIZON_MAX;
    state[ROUTER_STATE_DELAY] &= ROUTER_DELAY_MAX;
    state[ROUTER_STATE_MASK] &= ROUTER_MASK_MAX;
    state[ROUTER_STATE_PORTS] &= ROUTER_MASK_MAX;
    for (unsigned c = 0; c < ROUTER_CONNECTIONS; c++) {
        state[entry_at(c) + ROUTER_ENTRY_DELAY] &= ROUTER_DELAY_MAX;
        state[entry_at(c) + ROUTER_ENTRY_MASK] &= ROUTER_MASK_MAX;
    }
    for (unsigned s = 0; s < ROUTER_SLOTS; s++) {
        unsigned other = below(s + 1);

        order[s] = order[other];
        order[other] = (uint8_t)s;
    }
    set_free_count(state, ROUTER_SLOTS - stored);
    for (unsigned i = 0; i < ROUTER_SLOTS - stored; i++) {
        state[ROUTER_STATE_STACK + i] = order[i];
        state[slot_at(order[i]) + ROUTER_SLOT_MASK] = 0;
    }
    for (unsigned i = ROUTER_SLOTS - stored; i < ROUTER_SLOTS; i++) {
        int d = edgy(0, ROUTER_DELAY_MAX);
        int low = -d > -spread ? -d : -spread;

        put_stored(order[i], chance(5) ? -d : edgy(low, spread), (unsigned)d, 1 + below(ROUTER_MASK_MAX));
    }
}

struct regime random_regime(void)
{
    struct regime r;

    r.arrivals = below(2) ? 100 : below(101);
    r.best_effort = below(3) ? below(101) : 0;
    r.controls = 1 + below(40);
    r.odd = below(4);
    r.connections = below(2) ? 1 + below(8) : 1 + below(256);
    r.delay_max = below(2) ? ROUTER_DELAY_MAX : below(16);
    r.horizon_max = below(2) ? ROUTER_HORIZON_MAX : below(8);
    r.offsets = below(OFFSETS);
    r.unicast = chance(40);
    return r;
}

/* Packets that share a time, or a deadline, have one of the readings of the clock that this divides. */
#define SHARED_EVERY 32

/* The offset of a packet that shares its time, or its deadline: this is one of the next four such readings. */
static int shared_offset(const struct regime *r, uint8_t t, int d)
{
    int ahead = (SHARED_EVERY - t % SHARED_EVERY) % SHARED_EVERY + SHARED_EVERY * (int)below(128 / SHARED_EVERY);

    return r->offsets == SHARED_DEADLINES ? ahead - d : ahead;
}

void make_tied(const struct regime *r, unsigned stored)
{
    int low = between(0, ROUTER_DELAY_MAX), high = between(low, ROUTER_DELAY_MAX);
    unsigned ports = 1 + below(ROUTER_MASK_MAX);

    make_sound(stored);
    for (unsigned c = 0; c < ROUTER_CONNECTIONS; c++) {
        state[entry_at(c) + ROUTER_ENTRY_DELAY] = (uint8_t)edgy(low, high);
        state[entry_at(c) + ROUTER_ENTRY_MASK] = (uint8_t)ports;
    }
    for (unsigned s = 0; s < ROUTER_SLOTS; s++) {
        int d = edgy(low, high), offset = shared_offset(r, state[ROUTER_STATE_CLOCK], d);

        if (state[slot_at(s) + ROUTER_SLOT_MASK] != 0)
            put_stored(s, offset > 126 ? offset - SHARED_EVERY : offset, (unsigned)d, ports);
    }
}

static int random_offset(const struct regime *r, uint8_t t, int d)
{
    const int edge[] = {-128, -d - 1, -d, -d + 1, -1, 0, 1, 2, 126, 127};

    switch (chance((unsigned)r->odd) ? ANY : r->offsets) {
    case ANY_VALID:
        return between(-d, 127);
    case ANY:
        return between(-128, 127);
    case EDGES:
        return edge[below(sizeof edge / sizeof *edge)];
    case AHEAD:
        return between(64, 127);
    case NEAR:
        return between(-d, 8);
    default:
        return shared_offset(r, t, d);
    }
}

int random_arrival(const struct regime *r, const uint8_t *bytes, uint8_t *packet)
{
    unsigned connection = chance(r->odd) ? random_byte() : below(r->connections);
    uint8_t t = bytes[ROUTER_STATE_CLOCK];
    int offset = random_offset(r, t, bytes[entry_at(connection) + ROUTER_ENTRY_DELAY]);

    random_bytes(packet, ROUTER_PACKET_LEN);
    packet[ROUTER_PACKET_ID] = (uint8_t)connection;
    packet[ROUTER_PACKET_TIME] = (uint8_t)(t + offset);
    return offset;
}

uint8_t random_mask(unsigned percent)
{
    unsigned mask = 0;

    for (unsigned p = 0; p < ROUTER_PORTS; p++)
        mask |= (unsigned)chance(percent) << p;
    return (uint8_t)mask;
}

void random_control(const struct regime *r, uint8_t *reg, uint8_t *value)
{
    *reg = (uint8_t)(chance(r->odd) ? random_byte() : below(ROUTER_REGISTERS));
    if (chance(r->odd)) {
        *value = random_byte();
        return;
    }
    switch (*reg) {
    case ROUTER_REG_DELAY:
        *value = (uint8_t)edgy(0, (int)r->delay_max);
        break;
    case ROUTER_REG_MASK:
        *value = (uint8_t)(r->unicast ? 1u << below(ROUTER_PORTS) : below(ROUTER_MASK_MAX + 1));
        break;
    case ROUTER_REG_IN_ID:
        *value = (uint8_t)below(r->connections);
        break;
    case ROUTER_REG_PORTS:
        *value = (uint8_t)below(ROUTER_MASK_MAX + 1);
        break;
    case ROUTER_REG_HORIZON:
        *value = (uint8_t)edgy(0, (int)r->horizon_max);
        break;
    default:
        *value = random_byte();
    }
}

void random_arrivals(const struct regime *r)
{
    for (unsigned p = 0; p < ROUTER_PORTS; p++)
        random_arrival(r, state, arrival_at(p));
}

void random_call(const struct regime *r)
{
    uint8_t first, second;

    if (chance(r->controls)) {
        random_control(r, &first, &second);
        control(first, second);
        return;
    }
    random_arrivals(r);
    first = chance(r->odd) ? random_byte() : random_mask(r->arrivals);
    second = chance(r->odd) ? random_byte() : random_mask(r->best_effort);
    tick(first, second);
}

void damage(unsigned changes)
{
    for (; changes > 0; changes--) {
        uint8_t *byte = chance(90) ? state + below(ROUTER_STATE_LEN) : memory + below(ROUTER_MEMORY_LEN);

        *byte = (uint8_t)(chance(50) ? random_byte() : *byte ^ 1u << below(8));
    }
}

/* ---- Tests of single calls ---- */

void try_length(enum entry entry, enum area i, size_t len)
{
    for (unsigned damaged = 0; damaged < 2; damaged++) {
        struct call c = make_call(entry, damaged ? 255 : 1, damaged ? 255 : 1);

        c.len[i] = len;
        state[ROUTER_STATE_HORIZONS] ^= (uint8_t)(damaged << 7);
        expect("wrong length", call_both(&c), ROUTER_BAD_LENGTH);
        state[ROUTER_STATE_HORIZONS] ^= (uint8_t)(damaged << 7);
    }
}

void try_masks(void (*ready)(unsigned))
{
    for (unsigned arrivals = 0; arrivals < 256; arrivals++) {
        ready(below(257));
        for (unsigned best_effort = 0; best_effort < 256; best_effort++) {
            unsigned number = arrivals > ROUTER_MASK_MAX || best_effort > ROUTER_MASK_MAX ? ROUTER_BAD_PORT_MASK
                                                                                          : ROUTER_ACCEPTED;

            for (unsigned p = 0; p < ROUTER_PORTS; p++)
                put_arrival(p, random_byte(), between(-20, 127));
            expect("tick", tick(arrivals, best_effort), number);
        }
    }
}

void try_registers(void (*ready)(unsigned))
{
    static const unsigned largest[ROUTER_REGISTERS] = {255, 127, 31, 255, 31, 127};

    for (unsigned reg = 0; reg < 256; reg++) {
        for (unsigned value = 0; value < 256; value++) {
            unsigned number = reg >= ROUTER_REGISTERS ? ROUTER_BAD_REGISTER
                              : value > largest[reg]  ? ROUTER_BAD_VALUE
                                                      : ROUTER_ACCEPTED;

            if (value % 16 == 0)
                ready(below(257));
            expect("control write", control(reg, value), number);
        }
    }
}
