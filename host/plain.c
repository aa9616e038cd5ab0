/* plain.c - the plain implementation of the router: the rules of document 01, step by step, over the lent bytes. */

#include "parts.h"
#include "plain.h"

/* The packet that a port would send next. */
struct choice {
    unsigned rank;
    unsigned slot;
};

/* ---- The choice ---- */

/* Step 2: finds the packet of least rank for each port, the lowest slot among equals. Says if a deadline is now. */
static int choose(const uint8_t *state, struct choice *choice)
{
    const uint8_t *slot = state + ROUTER_STATE_SLOTS;
    uint8_t t = state[ROUTER_STATE_CLOCK];
    int due = 0;

    for (unsigned p = 0; p < ROUTER_PORTS; p++)
        choice[p].rank = RANK_NONE;
    for (unsigned s = 0; s < ROUTER_SLOTS; s++, slot += ROUTER_SLOT_LEN) {
        unsigned mask = slot[ROUTER_SLOT_MASK];
        unsigned own;

        if (mask == 0)
            continue;
        due |= slot[ROUTER_SLOT_DEADLINE] == t;
        own = rank(slot, t);
        for (struct choice *c = choice; mask != 0; c++, mask >>= 1) {
            if ((mask & 1) != 0 && own < c->rank) {
                c->rank = own;
                c->slot = s;
            }
        }
    }
    return due;
}

/* Step 2, for one port: what its least rank, waiting best-effort traffic and its horizon make of it. */
static uint8_t port_code(unsigned least, int best_effort, uint8_t horizon)
{
    if (least < RANK_EARLY)
        return ROUTER_PORT_ON_TIME;
    if (best_effort)
        return ROUTER_PORT_BEST_EFFORT;
    if ((least - RANK_EARLY) / KEYS <= horizon)
        return ROUTER_PORT_EARLY;
    return ROUTER_PORT_IDLE;
}

/* ---- The entries ---- */

uint8_t plain_fresh(uint8_t *state, size_t state_len,
                    uint8_t *memory, size_t memory_len,
                    uint8_t clock)
{
    if (!store_full(state_len, memory_len))
        return ROUTER_BAD_LENGTH;

    memset(state, 0, ROUTER_STATE_LEN);
    memset(memory, 0, ROUTER_MEMORY_LEN);
    state[ROUTER_STATE_CLOCK] = clock;
    set_free_count(state, ROUTER_SLOTS);
    for (unsigned i = 0; i < ROUTER_SLOTS; i++)
        state[ROUTER_STATE_STACK + i] = (uint8_t)(ROUTER_SLOTS - 1 - i);
    return ROUTER_ACCEPTED;
}

uint8_t plain_control(uint8_t *state, size_t state_len,
                      const uint8_t *memory, size_t memory_len,
                      uint8_t reg, uint8_t value)
{
    uint8_t number;

    if (!store_full(state_len, memory_len))
        return ROUTER_BAD_LENGTH;
    number = soundness_number(state, memory);
    if (number == ROUTER_ACCEPTED)
        number = register_number(reg, value);
    if (number == ROUTER_ACCEPTED)
        write_register(state, reg, value);
    return number;
}

uint8_t plain_tick(uint8_t *state, size_t state_len,
                   uint8_t *memory, size_t memory_len,
                   const uint8_t *arrivals, size_t arrivals_len,
                   uint8_t *outgoing, size_t outgoing_len,
                   uint8_t *answers, size_t answers_len,
                   uint8_t arrivals_mask, uint8_t best_effort_mask)
{
    struct choice choice[ROUTER_PORTS];
    uint8_t sent[ROUTER_SLOTS]; /* per slot the ports that send it */
    int unsettled;
    uint8_t number;

    if (!store_full(state_len, memory_len) || !areas_full(arrivals_len, outgoing_len, answers_len))
        return ROUTER_BAD_LENGTH;
    number = soundness_number(state, memory);
    if (number == ROUTER_ACCEPTED)
        number = masks_number(arrivals_mask, best_effort_mask);
    if (number != ROUTER_ACCEPTED)
        return number;

    memset(outgoing, 0, ROUTER_OUTGOING_LEN);
    memset(answers, 0, ROUTER_ANSWERS_LEN);
    memset(sent, 0, sizeof sent);
    arrive_all(state, memory, arrivals, arrivals_mask, answers);

    unsettled = choose(state, choice);
    for (unsigned p = 0; p < ROUTER_PORTS; p++) {
        uint8_t code = port_code(choice[p].rank, best_effort_mask >> p & 1, state[ROUTER_STATE_HORIZONS + p]);

        answers[ROUTER_ANSWERS_PORTS + p] = code;
        if (code == ROUTER_PORT_ON_TIME || code == ROUTER_PORT_EARLY) {
            send(memory, choice[p].slot, p, outgoing, sent);
            unsettled = 1;
        }
    }
    if (unsettled)
        settle(state, sent, answers + ROUTER_ANSWERS_WITHDRAWN);
    state[ROUTER_STATE_CLOCK]++;
    return ROUTER_ACCEPTED;
}

size_t plain_display(const uint8_t *outgoing, size_t outgoing_len, uint8_t port)
{
    (void)outgoing;
    if (outgoing_len != ROUTER_OUTGOING_LEN || port >= ROUTER_PORTS)
        return outgoing_len;
    return ROUTER_PACKET_LEN * port + ROUTER_PACKET_DATA;
}

uint32_t plain_version(void)
{
    return ROUTER_VERSION;
}
