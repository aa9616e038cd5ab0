/*
 * plain_queues.c - the plain implementation of the service entries: the fault of a state, and the queue engine, with
 * the three queues of document 001, Table 1, for each port, kept in the lent bytes and chosen from by their first
 * entries alone. The queues may have any content: where they are not those of the state, too, every byte after a call
 * is that of the definitions (crates/queues/specs).
 */

#include "parts.h"
#include "plain.h"

#define NO_SLOT ROUTER_SLOTS

/* ---- Slots ---- */

static int waits_for(const uint8_t *state, unsigned s, unsigned p)
{
    return state[slot_at(s) + ROUTER_SLOT_MASK] >> p & 1;
}

/* Ticks from now to one of the slot's two times. */
static unsigned ticks_to(const uint8_t *state, unsigned s, unsigned which)
{
    return (uint8_t)(state[slot_at(s) + which] - state[ROUTER_STATE_CLOCK]);
}

static int is_due(const uint8_t *state, unsigned s)
{
    return ticks_to(state, s, ROUTER_SLOT_DEADLINE) == 0;
}

/* An offset above 0 is 1 to 127. */
static int is_early(const uint8_t *state, unsigned s)
{
    return ticks_to(state, s, ROUTER_SLOT_TIME) - 1 < OFFSET_MAX;
}

/* The comparator's order as one number: by rank, then by slot. */
static unsigned standing(const uint8_t *state, unsigned s)
{
    return rank(state + slot_at(s), state[ROUTER_STATE_CLOCK]) * ROUTER_SLOTS + s;
}

/* ---- One queue ---- */

static unsigned size_of(const uint8_t *queue)
{
    return (unsigned)queue[0] << 8 | queue[1];
}

static void resize(uint8_t *queue, unsigned n)
{
    queue[0] = (uint8_t)(n >> 8);
    queue[1] = (uint8_t)n;
}

/* The first slot of a queue of at most 256, if there is one. */
static unsigned first_of(const uint8_t *queue)
{
    unsigned n = size_of(queue);

    return n == 0 ? NO_SLOT : queue[ROUTER_QUEUE_ENTRIES + n - 1];
}

static void drop_first(uint8_t *queue)
{
    resize(queue, size_of(queue) - 1);
}

/* A slot comes in at its place; those that go before it move up, the first one first. A full queue takes nothing. */
static void insert(uint8_t *queue, const uint8_t *state, unsigned s)
{
    uint8_t *entry = queue + ROUTER_QUEUE_ENTRIES;
    unsigned own = standing(state, s);
    unsigned n = size_of(queue);

    if (n >= ROUTER_SLOTS)
        return;
    resize(queue, n + 1);
    for (; n > 0 && standing(state, entry[n - 1]) < own; n--)
        entry[n] = entry[n - 1];
    entry[n] = (uint8_t)s;
}

/* ---- All queues ---- */

static size_t place_of(unsigned p, int sort)
{
    return ROUTER_QUEUE_LEN * (2 * p + (unsigned)sort);
}

/* A slot enters the queue of its sort on every port of its mask. */
static void enter(uint8_t *queues, const uint8_t *state, unsigned s)
{
    int sort = is_early(state, s) ? ROUTER_QUEUE_EARLY : ROUTER_QUEUE_ON_TIME;
    unsigned mask = state[slot_at(s) + ROUTER_SLOT_MASK];

    for (unsigned p = 0; mask != 0; p++, mask >>= 1) {
        if ((mask & 1) != 0)
            insert(queues + place_of(p, sort), state, s);
    }
}

/* The first of a queue, if any, waits for the port and is of the queue's sort. */
static int first_fits(const uint8_t *state, const uint8_t *queue, unsigned p, int sort)
{
    unsigned s = first_of(queue);

    return s == NO_SLOT || (waits_for(state, s, p) && is_early(state, s) == (sort == ROUTER_QUEUE_EARLY));
}

/* Question 21: do the queues belong to the state, as far as their sizes and first slots tell? */
static int fitting(const uint8_t *state, const uint8_t *queues)
{
    unsigned waiting[ROUTER_PORTS] = {0};

    for (unsigned s = 0; s < ROUTER_SLOTS; s++) {
        unsigned mask = state[slot_at(s) + ROUTER_SLOT_MASK];

        for (unsigned p = 0; mask != 0; p++, mask >>= 1)
            waiting[p] += mask & 1;
    }
    for (unsigned p = 0; p < ROUTER_PORTS; p++) {
        const uint8_t *on_time = queues + place_of(p, ROUTER_QUEUE_ON_TIME);
        const uint8_t *early = queues + place_of(p, ROUTER_QUEUE_EARLY);

        /* The sizes come first: once they make at most 256, the first entries are within their queues. */
        if (size_of(on_time) + size_of(early) != waiting[p] ||
            !first_fits(state, on_time, p, ROUTER_QUEUE_ON_TIME) || !first_fits(state, early, p, ROUTER_QUEUE_EARLY))
            return 0;
    }
    return 1;
}

/* ---- The steps of a tick, as far as they concern the queues ---- */

/* Step 1: the packets stored took entries n - 1, n - 2, .. of the idle-address stack; they enter in that order. */
static void receive(uint8_t *queues, const uint8_t *state, unsigned n)
{
    while (n > free_count(state))
        enter(queues, state, state[ROUTER_STATE_STACK + --n]);
}

/* The first of a queue, if it is a slot that waits for the port. */
static unsigned heading(const uint8_t *state, const uint8_t *queue, unsigned p)
{
    unsigned s = first_of(queue);

    return s != NO_SLOT && waits_for(state, s, p) ? s : NO_SLOT;
}

/* Steps 2 and 3 for port p: which of its three queues has it; what it sends leaves its queue. */
static uint8_t serve(const uint8_t *state, const uint8_t *memory, uint8_t *queues, unsigned p, int best_effort,
                     uint8_t *outgoing, uint8_t *sent)
{
    uint8_t *on_time = queues + place_of(p, ROUTER_QUEUE_ON_TIME);
    uint8_t *early = queues + place_of(p, ROUTER_QUEUE_EARLY);
    unsigned s = heading(state, on_time, p);

    if (s != NO_SLOT) {
        send(memory, s, p, outgoing, sent);
        drop_first(on_time);
        return ROUTER_PORT_ON_TIME;
    }
    if (best_effort)
        return ROUTER_PORT_BEST_EFFORT;
    s = heading(state, early, p);
    if (s == NO_SLOT || ticks_to(state, s, ROUTER_SLOT_TIME) > state[ROUTER_STATE_HORIZONS + p])
        return ROUTER_PORT_IDLE;
    send(memory, s, p, outgoing, sent);
    drop_first(early);
    return ROUTER_PORT_EARLY;
}

/* Step 4: the first ones on time that are due leave the queue. */
static void drop_due(uint8_t *queue, const uint8_t *state)
{
    while (size_of(queue) > 0 && is_due(state, first_of(queue)))
        drop_first(queue);
}

/* After step 6: the first early ones whose time has come move over to those on time. */
static void move_over(uint8_t *early, uint8_t *on_time, const uint8_t *state)
{
    while (size_of(early) > 0 && !is_early(state, first_of(early))) {
        unsigned s = first_of(early);

        drop_first(early);
        insert(on_time, state, s);
    }
}

/* ---- The entries ---- */

uint16_t plain_fault(const uint8_t *state, size_t state_len,
                     const uint8_t *memory, size_t memory_len)
{
    if (!store_full(state_len, memory_len))
        return ROUTER_BAD_LENGTH;
    return (uint16_t)first_fault(state, memory);
}

uint8_t plain_queues_fill(const uint8_t *state, size_t state_len,
                          const uint8_t *memory, size_t memory_len,
                          uint8_t *queues, size_t queues_len)
{
    uint8_t number;

    if (!store_full(state_len, memory_len) || queues_len != ROUTER_QUEUES_LEN)
        return ROUTER_BAD_LENGTH;
    number = soundness_number(state, memory);
    if (number != ROUTER_ACCEPTED)
        return number;

    memset(queues, 0, ROUTER_QUEUES_LEN);
    for (unsigned s = 0; s < ROUTER_SLOTS; s++)
        enter(queues, state, s);
    return ROUTER_ACCEPTED;
}

uint8_t plain_queues_control(uint8_t *state, size_t state_len,
                             const uint8_t *memory, size_t memory_len,
                             const uint8_t *queues, size_t queues_len,
                             uint8_t reg, uint8_t value)
{
    uint8_t number;

    if (!store_full(state_len, memory_len) || queues_len != ROUTER_QUEUES_LEN)
        return ROUTER_BAD_LENGTH;
    number = soundness_number(state, memory);
    if (number == ROUTER_ACCEPTED)
        number = register_number(reg, value);
    if (number != ROUTER_ACCEPTED)
        return number;
    if (!fitting(state, queues))
        return ROUTER_BAD_QUEUES;

    write_register(state, reg, value);
    return ROUTER_ACCEPTED;
}

uint8_t plain_queues_tick(uint8_t *state, size_t state_len,
                          uint8_t *memory, size_t memory_len,
                          uint8_t *queues, size_t queues_len,
                          const uint8_t *arrivals, size_t arrivals_len,
                          uint8_t *outgoing, size_t outgoing_len,
                          uint8_t *answers, size_t answers_len,
                          uint8_t arrivals_mask, uint8_t best_effort_mask)
{
    uint8_t sent[ROUTER_SLOTS]; /* per slot the ports that send it */
    unsigned n;
    uint8_t number;

    if (!store_full(state_len, memory_len) || queues_len != ROUTER_QUEUES_LEN ||
        !areas_full(arrivals_len, outgoing_len, answers_len))
        return ROUTER_BAD_LENGTH;
    number = soundness_number(state, memory);
    if (number == ROUTER_ACCEPTED)
        number = masks_number(arrivals_mask, best_effort_mask);
    if (number != ROUTER_ACCEPTED)
        return number;
    if (!fitting(state, queues))
        return ROUTER_BAD_QUEUES;

    memset(outgoing, 0, ROUTER_OUTGOING_LEN);
    memset(answers, 0, ROUTER_ANSWERS_LEN);
    memset(sent, 0, sizeof sent);
    n = free_count(state);
    arrive_all(state, memory, arrivals, arrivals_mask, answers);
    receive(queues, state, n);
    for (unsigned p = 0; p < ROUTER_PORTS; p++) {
        answers[ROUTER_ANSWERS_PORTS + p] =
            serve(state, memory, queues, p, best_effort_mask >> p & 1, outgoing, sent);
        drop_due(queues + place_of(p, ROUTER_QUEUE_ON_TIME), state);
    }
    settle(state, sent, answers + ROUTER_ANSWERS_WITHDRAWN);
    state[ROUTER_STATE_CLOCK]++;
    for (unsigned p = 0; p < ROUTER_PORTS; p++)
        move_over(queues + place_of(p, ROUTER_QUEUE_EARLY), queues + place_of(p, ROUTER_QUEUE_ON_TIME), state);
    return ROUTER_ACCEPTED;
}

uint32_t plain_service_version(void)
{
    return ROUTER_VERSION;
}
