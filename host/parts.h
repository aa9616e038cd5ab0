/*
 * parts.h - what the plain implementations of the router and of the service entries share: the questions, control
 * writes, the order of packets, and those steps of a tick that choose nothing.
 */
#ifndef PARTS_H
#define PARTS_H

#include <string.h>

#include "fields.h"

/* The offset of an arriving packet is at most 127, and one tick later that of a stored one at most 126. */
#define OFFSET_MAX 127u
#define STORED_OFFSET_MAX 126u

/* ---- Questions 13 to 15: is the state sound? ---- */

/* Horizons, registers and connection table are in range. A limit is all ones, so an `or` of the bytes will do. */
static inline int settings_sound(const uint8_t *state)
{
    const uint8_t *entry = state + ROUTER_STATE_TABLE;
    const uint8_t *end = entry + ROUTER_ENTRY_LEN * ROUTER_CONNECTIONS;
    unsigned delays = state[ROUTER_STATE_DELAY];
    unsigned horizons = 0;
    unsigned masks = state[ROUTER_STATE_MASK] | state[ROUTER_STATE_PORTS];

    for (unsigned p = 0; p < ROUTER_PORTS; p++)
        horizons |= state[ROUTER_STATE_HORIZONS + p];
    for (; entry != end; entry += ROUTER_ENTRY_LEN) {
        delays |= entry[ROUTER_ENTRY_DELAY];
        masks |= entry[ROUTER_ENTRY_MASK];
    }
    return delays <= ROUTER_DELAY_MAX && horizons <= ROUTER_HORIZON_MAX && masks <= ROUTER_MASK_MAX;
}

/*
 * A stored packet is in range. Its offset is -d to 126 exactly if deadline - t, which is offset + d turned over at
 * 256, is 0 to d + 126.
 */
static int packet_sound(const uint8_t *slot, const uint8_t *packet, uint8_t t)
{
    uint8_t deadline = slot[ROUTER_SLOT_DEADLINE];
    uint8_t d = (uint8_t)(deadline - slot[ROUTER_SLOT_TIME]);
    uint8_t laxity = (uint8_t)(deadline - t);

    return slot[ROUTER_SLOT_MASK] <= ROUTER_MASK_MAX && d <= ROUTER_DELAY_MAX &&
           laxity <= d + STORED_OFFSET_MAX && packet[ROUTER_PACKET_TIME] == deadline;
}

/*
 * The fault of stack or packets, if any. The first n stack entries are to be the empty slots, each once: if they mark
 * exactly the empty slots and there are n of these, no entry stands twice. After a bad packet the pass goes on, for a
 * fault of the stack comes first.
 */
static inline unsigned slots_fault(const uint8_t *state, const uint8_t *memory)
{
    const uint8_t *stack = state + ROUTER_STATE_STACK;
    const uint8_t *slots = state + ROUTER_STATE_SLOTS, *slot = slots;
    const uint8_t *bad = NULL; /* the lowest slot with a bad packet */
    uint8_t t = state[ROUTER_STATE_CLOCK];
    uint8_t idle[ROUTER_SLOTS];
    unsigned n = free_count(state);
    unsigned empty = 0;

    if (n > ROUTER_SLOTS)
        return ROUTER_BAD_STACK;
    memset(idle, 0, sizeof idle);
    for (unsigned i = 0; i < n; i++)
        idle[stack[i]] = 1;
    for (unsigned s = 0; s < ROUTER_SLOTS; s++) {
        if (slot[ROUTER_SLOT_MASK] == 0) {
            if (!idle[s])
                return ROUTER_BAD_STACK;
            empty++;
        } else if (idle[s]) {
            return ROUTER_BAD_STACK;
        } else if (!packet_sound(slot, memory, t) && bad == NULL) {
            bad = slot;
        }
        slot += ROUTER_SLOT_LEN;
        memory += ROUTER_PACKET_LEN;
    }
    if (empty != n)
        return ROUTER_BAD_STACK;
    return bad == NULL ? ROUTER_ACCEPTED : ROUTER_BAD_PACKETS + 256 * (unsigned)((bad - slots) / ROUTER_SLOT_LEN);
}

/* The first fault, as router_fault tells it. Its two parts are inline, so that gcc makes one function of them. */
static unsigned first_fault(const uint8_t *state, const uint8_t *memory)
{
    return settings_sound(state) ? slots_fault(state, memory) : ROUTER_BAD_SETTINGS;
}

/* Its number alone, as the other entries return it. */
static uint8_t soundness_number(const uint8_t *state, const uint8_t *memory)
{
    return (uint8_t)ROUTER_FAULT_NUMBER(first_fault(state, memory));
}

/* ---- The other questions ---- */

/* Question 1, of state and memory, and of the other areas of a tick. */
static int store_full(size_t state_len, size_t memory_len)
{
    return state_len == ROUTER_STATE_LEN && memory_len == ROUTER_MEMORY_LEN;
}

static int areas_full(size_t arrivals_len, size_t outgoing_len, size_t answers_len)
{
    return arrivals_len == ROUTER_ARRIVALS_LEN && outgoing_len == ROUTER_OUTGOING_LEN &&
           answers_len == ROUTER_ANSWERS_LEN;
}

/* Questions 4 and 5, of a control write. */
static uint8_t register_number(uint8_t reg, uint8_t value)
{
    static const uint8_t largest[ROUTER_REGISTERS] = {
        UINT8_MAX, ROUTER_DELAY_MAX, ROUTER_MASK_MAX, UINT8_MAX, ROUTER_MASK_MAX, ROUTER_HORIZON_MAX,
    };

    if (reg >= ROUTER_REGISTERS)
        return ROUTER_BAD_REGISTER;
    if (value > largest[reg])
        return ROUTER_BAD_VALUE;
    return ROUTER_ACCEPTED;
}

/* Question 3, of a tick. */
static uint8_t masks_number(uint8_t arrivals_mask, uint8_t best_effort_mask)
{
    return arrivals_mask > ROUTER_MASK_MAX || best_effort_mask > ROUTER_MASK_MAX ? ROUTER_BAD_PORT_MASK
                                                                                 : ROUTER_ACCEPTED;
}

/* ---- An accepted control write ---- */

static void write_register(uint8_t *state, uint8_t reg, uint8_t value)
{
    switch (reg) {
    case ROUTER_REG_OUT_ID:
        state[ROUTER_STATE_OUT_ID] = value;
        break;
    case ROUTER_REG_DELAY:
        state[ROUTER_STATE_DELAY] = value;
        break;
    case ROUTER_REG_MASK:
        state[ROUTER_STATE_MASK] = value;
        break;
    case ROUTER_REG_IN_ID: {
        uint8_t *entry = state + ROUTER_STATE_TABLE + ROUTER_ENTRY_LEN * value;

        entry[ROUTER_ENTRY_OUT_ID] = state[ROUTER_STATE_OUT_ID];
        entry[ROUTER_ENTRY_DELAY] = state[ROUTER_STATE_DELAY];
        entry[ROUTER_ENTRY_MASK] = state[ROUTER_STATE_MASK];
        break;
    }
    case ROUTER_REG_PORTS:
        state[ROUTER_STATE_PORTS] = value;
        break;
    default: /* ROUTER_REG_HORIZON */
        for (unsigned p = 0; p < ROUTER_PORTS; p++) {
            if ((state[ROUTER_STATE_PORTS] >> p & 1) != 0)
                state[ROUTER_STATE_HORIZONS + p] = value;
        }
    }
}

/* ---- The order of packets ---- */

/*
 * The rank of a packet. Of those that wait for a port the least rank goes first, and of equal ranks the lower slot. On
 * time is below early; then the first key decides, which is that of document 001, Fig. 7, and then the second:
 *
 *            first key                 second key
 *   on time  ticks to the deadline     ticks to the time, from half a turn ago
 *   early    ticks to the time         ticks to the deadline
 *
 * So of two on time with one deadline the earlier time goes first, and of two early with one time the earlier deadline,
 * which can be 254 ticks ahead. Each key is a byte; those of an empty slot, which queues that are not the state's may
 * hold, can be any.
 */
#define KEYS 256u
#define RANK_EARLY (KEYS * KEYS)
#define RANK_NONE (2 * RANK_EARLY) /* of a port without a packet; its first key is beyond every horizon */
#define HALF_TURN 128u

static unsigned rank(const uint8_t *slot, uint8_t t)
{
    unsigned laxity = (uint8_t)(slot[ROUTER_SLOT_DEADLINE] - t);
    unsigned ahead = (uint8_t)(slot[ROUTER_SLOT_TIME] - t);

    if (ahead - 1 < OFFSET_MAX)
        return RANK_EARLY + KEYS * ahead + laxity;
    return KEYS * laxity + (uint8_t)(ahead + HALF_TURN);
}

/* ---- Steps of a tick ---- */

/* Step 1: stores an arriving packet in the top idle slot, or says why not. */
static uint8_t arrive(uint8_t *state, uint8_t *memory, const uint8_t *packet)
{
    const uint8_t *entry = state + ROUTER_STATE_TABLE + ROUTER_ENTRY_LEN * packet[ROUTER_PACKET_ID];
    uint8_t d = entry[ROUTER_ENTRY_DELAY];
    uint8_t deadline = (uint8_t)(packet[ROUTER_PACKET_TIME] + d);
    uint8_t laxity = (uint8_t)(deadline - state[ROUTER_STATE_CLOCK]);
    unsigned n = free_count(state);
    unsigned s;
    uint8_t *slot;

    if (entry[ROUTER_ENTRY_MASK] == 0)
        return ROUTER_ARRIVAL_CLOSED;
    if (laxity > d + OFFSET_MAX)
        return ROUTER_ARRIVAL_LATE;
    if (n == 0)
        return ROUTER_ARRIVAL_FULL;

    set_free_count(state, n - 1);
    s = state[ROUTER_STATE_STACK + n - 1];
    slot = state + slot_at(s);
    slot[ROUTER_SLOT_TIME] = packet[ROUTER_PACKET_TIME];
    slot[ROUTER_SLOT_DEADLINE] = deadline;
    slot[ROUTER_SLOT_MASK] = entry[ROUTER_ENTRY_MASK];
    memory += ROUTER_PACKET_LEN * s;
    memcpy(memory, packet, ROUTER_PACKET_LEN);
    memory[ROUTER_PACKET_ID] = entry[ROUTER_ENTRY_OUT_ID];
    memory[ROUTER_PACKET_TIME] = deadline;
    return ROUTER_ARRIVAL_STORED;
}

/* Step 1 for all ports, and their answers. */
static void arrive_all(uint8_t *state, uint8_t *memory, const uint8_t *arrivals, unsigned mask, uint8_t *answers)
{
    for (unsigned p = 0; p < ROUTER_PORTS; p++) {
        if ((mask >> p & 1) != 0)
            answers[ROUTER_ANSWERS_ARRIVALS + p] = arrive(state, memory, arrivals + ROUTER_PACKET_LEN * p);
    }
}

/* Step 3: copies the packet of a slot to its port in outgoing, and notes the port for `settle`. */
static void send(const uint8_t *memory, unsigned s, unsigned p, uint8_t *outgoing, uint8_t *sent)
{
    memcpy(outgoing + ROUTER_PACKET_LEN * p, memory + ROUTER_PACKET_LEN * s, ROUTER_PACKET_LEN);
    sent[s] |= (uint8_t)(1u << p);
}

/* Step 4: counts a withdrawn packet for each port that it still had. */
static void withdraw(uint8_t *withdrawn, unsigned mask)
{
    for (; mask != 0; mask >>= 1, withdrawn += 2) {
        if ((mask & 1) != 0 && ++withdrawn[1] == 0)
            withdrawn[0]++;
    }
}

/* Steps 3 to 5 on the slots: ports that sent leave, packets due now are withdrawn, emptied slots are given back. */
static void settle(uint8_t *state, const uint8_t *sent, uint8_t *withdrawn)
{
    uint8_t *slot = state + ROUTER_STATE_SLOTS;
    uint8_t t = state[ROUTER_STATE_CLOCK];
    unsigned n = free_count(state);

    for (unsigned s = 0; s < ROUTER_SLOTS; s++, slot += ROUTER_SLOT_LEN) {
        unsigned left = slot[ROUTER_SLOT_MASK];

        if (left == 0)
            continue;
        left &= ~(unsigned)sent[s];
        if (left != 0 && slot[ROUTER_SLOT_DEADLINE] == t) {
            withdraw(withdrawn, left);
            left = 0;
        }
        slot[ROUTER_SLOT_MASK] = (uint8_t)left;
        if (left == 0)
            state[ROUTER_STATE_STACK + n++] = (uint8_t)s;
    }
    set_free_count(state, n);
}

#endif
