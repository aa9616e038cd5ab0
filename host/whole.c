/* whole.c - the router that never turns over, as document 01 words it: each port searches the places by itself. */

#include <string.h>

#include "whole.h"

#define CLOCK_TURN 256
#define NO_PLACE ROUTER_SLOTS

uint8_t whole_cut(int64_t time)
{
    int64_t rest = time % CLOCK_TURN;

    return (uint8_t)(rest < 0 ? rest + CLOCK_TURN : rest);
}

void whole_fresh(struct whole *w, uint8_t clock)
{
    memset(w, 0, sizeof *w);
    w->clock = clock;
    w->free_count = ROUTER_SLOTS;
    for (unsigned s = 0; s < ROUTER_SLOTS; s++)
        w->free[s] = (uint8_t)s;
}

uint8_t whole_control(struct whole *w, uint8_t reg, uint8_t value)
{
    switch (reg) {
    case ROUTER_REG_OUT_ID:
        w->written.out_id = value;
        return ROUTER_ACCEPTED;
    case ROUTER_REG_DELAY:
        if (value > ROUTER_DELAY_MAX)
            return ROUTER_BAD_VALUE;
        w->written.delay = value;
        return ROUTER_ACCEPTED;
    case ROUTER_REG_MASK:
        if (value > ROUTER_MASK_MAX)
            return ROUTER_BAD_VALUE;
        w->written.mask = value;
        return ROUTER_ACCEPTED;
    case ROUTER_REG_IN_ID:
        w->table[value] = w->written;
        return ROUTER_ACCEPTED;
    case ROUTER_REG_PORTS:
        if (value > ROUTER_MASK_MAX)
            return ROUTER_BAD_VALUE;
        w->ports = value;
        return ROUTER_ACCEPTED;
    case ROUTER_REG_HORIZON:
        if (value > ROUTER_HORIZON_MAX)
            return ROUTER_BAD_VALUE;
        for (unsigned p = 0; p < ROUTER_PORTS; p++) {
            if (w->ports >> p & 1)
                w->horizon[p] = value;
        }
        return ROUTER_ACCEPTED;
    default:
        return ROUTER_BAD_REGISTER;
    }
}

/* Stores an arriving packet in the first free place, or says why not. */
static uint8_t arrive(struct whole *w, const uint8_t *packet, int64_t time)
{
    const struct whole_entry *entry = &w->table[packet[ROUTER_PACKET_ID]];
    struct whole_place *place;

    if (entry->mask == 0)
        return ROUTER_ARRIVAL_CLOSED;
    if (time + entry->delay < w->clock)
        return ROUTER_ARRIVAL_LATE;
    if (w->free_count == 0)
        return ROUTER_ARRIVAL_FULL;

    place = &w->place[w->free[0]];
    w->free_count--;
    memmove(w->free, w->free + 1, w->free_count);
    place->time = time;
    place->deadline = time + entry->delay;
    place->out_id = entry->out_id;
    memcpy(place->data, packet + ROUTER_PACKET_DATA, ROUTER_DATA_LEN);
    place->left = entry->mask;
    return ROUTER_ARRIVAL_STORED;
}

/* Of two on time the one with the lesser deadline D goes first; where they have one deadline, the lesser time u. */
static int before_on_time(const struct whole_place *one, const struct whole_place *other)
{
    return one->deadline < other->deadline || (one->deadline == other->deadline && one->time < other->time);
}

/* Of two early ones that with the lesser time u; where they have one time, the lesser deadline D. */
static int before_early(const struct whole_place *one, const struct whole_place *other)
{
    return one->time < other->time || (one->time == other->time && one->deadline < other->deadline);
}

/* The first of the places on time that have the port left, the lowest where several are first, or NO_PLACE. */
static unsigned on_time(const struct whole *w, unsigned port)
{
    unsigned best = NO_PLACE;

    for (unsigned s = 0; s < ROUTER_SLOTS; s++) {
        const struct whole_place *place = &w->place[s];

        if ((place->left >> port & 1) && place->time <= w->clock &&
            (best == NO_PLACE || before_on_time(place, &w->place[best])))
            best = s;
    }
    return best;
}

/* The same of the early places; asked where none is on time, and so of all that have the port left. */
static unsigned earliest(const struct whole *w, unsigned port)
{
    unsigned best = NO_PLACE;

    for (unsigned s = 0; s < ROUTER_SLOTS; s++) {
        const struct whole_place *place = &w->place[s];

        if ((place->left >> port & 1) && (best == NO_PLACE || before_early(place, &w->place[best])))
            best = s;
    }
    return best;
}

/* Decides what a port does; a packet to be sent is left in *chosen. */
static uint8_t serve(const struct whole *w, unsigned port, int best_effort, unsigned *chosen)
{
    *chosen = on_time(w, port);
    if (*chosen != NO_PLACE)
        return ROUTER_PORT_ON_TIME;
    if (best_effort)
        return ROUTER_PORT_BEST_EFFORT;
    *chosen = earliest(w, port);
    if (*chosen != NO_PLACE && w->place[*chosen].time - w->clock <= w->horizon[port])
        return ROUTER_PORT_EARLY;
    *chosen = NO_PLACE;
    return ROUTER_PORT_IDLE;
}

static void free_place(struct whole *w, unsigned s)
{
    memmove(w->free + 1, w->free, w->free_count);
    w->free[0] = (uint8_t)s;
    w->free_count++;
}

uint8_t whole_tick(struct whole *w,
                   const uint8_t *arrivals, size_t arrivals_len, const int64_t *time,
                   uint8_t *outgoing, size_t outgoing_len,
                   uint8_t *answers, size_t answers_len,
                   uint8_t arrivals_mask, uint8_t best_effort_mask)
{
    unsigned withdrawn[ROUTER_PORTS] = {0};
    uint8_t held[ROUTER_SLOTS];

    if (arrivals_len != ROUTER_ARRIVALS_LEN || outgoing_len != ROUTER_OUTGOING_LEN ||
        answers_len != ROUTER_ANSWERS_LEN)
        return ROUTER_BAD_LENGTH;
    if (arrivals_mask > ROUTER_MASK_MAX || best_effort_mask > ROUTER_MASK_MAX)
        return ROUTER_BAD_PORT_MASK;

    for (unsigned p = 0; p < ROUTER_PORTS; p++) {
        answers[ROUTER_ANSWERS_ARRIVALS + p] = ROUTER_ARRIVAL_NONE;
        if (arrivals_mask >> p & 1)
            answers[ROUTER_ANSWERS_ARRIVALS + p] = arrive(w, arrivals + ROUTER_PACKET_LEN * p, time[p]);
    }
    for (unsigned s = 0; s < ROUTER_SLOTS; s++)
        held[s] = w->place[s].left != 0;

    for (unsigned p = 0; p < ROUTER_PORTS; p++) {
        uint8_t *out = outgoing + ROUTER_PACKET_LEN * p;
        unsigned chosen;

        answers[ROUTER_ANSWERS_PORTS + p] = serve(w, p, best_effort_mask >> p & 1, &chosen);
        memset(out, 0, ROUTER_PACKET_LEN);
        if (chosen != NO_PLACE) {
            struct whole_place *place = &w->place[chosen];

            out[ROUTER_PACKET_ID] = place->out_id;
            out[ROUTER_PACKET_TIME] = whole_cut(place->deadline);
            memcpy(out + ROUTER_PACKET_DATA, place->data, ROUTER_DATA_LEN);
            place->left = (uint8_t)(place->left & ~(1u << p));
        }
    }

    for (unsigned s = 0; s < ROUTER_SLOTS; s++) {
        struct whole_place *place = &w->place[s];

        if (place->left != 0 && place->deadline == w->clock) {
            for (unsigned p = 0; p < ROUTER_PORTS; p++)
                withdrawn[p] += place->left >> p & 1;
            place->left = 0;
        }
        if (held[s] && place->left == 0)
            free_place(w, s);
    }
    for (unsigned p = 0; p < ROUTER_PORTS; p++) {
        answers[ROUTER_ANSWERS_WITHDRAWN + 2 * p] = (uint8_t)(withdrawn[p] / 256);
        answers[ROUTER_ANSWERS_WITHDRAWN + 2 * p + 1] = (uint8_t)(withdrawn[p] % 256);
    }
    w->clock++;
    return ROUTER_ACCEPTED;
}
