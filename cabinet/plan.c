/*
 * plan.c - the planner: admits a channel only if each link on its way and the slots of each board suffice.
 *
 * A link sends one packet a tick, the least deadline first. A message with logical arrival time l at a hop can be sent
 * from l on if it entered at this board, which it does by l; after a link it can come at l + 1, as the tick of its
 * deadline l before is still in time there. It has to be sent by l + d, so its window is d + 1 or d ticks. Early
 * sending takes ticks that nobody on time wants. As messages of a channel are I_min apart in logical time on every
 * hop, a link holds if for each length L the windows that fit into L ask for no more than L ticks.
 *
 * With a load of at most 1 - 1/LOAD_PARTS and n channels the demand in L is at most L (1 - 1/LOAD_PARTS) + n, so no
 * window longer than n LOAD_PARTS needs a test. A board hands over one message a tick and is loaded no further.
 *
 * A packet is stored at most from 1 - (d + h) of the board before, relative to its logical arrival time (at its source
 * from -ahead), to d.
 */

#include <string.h>

#include "cabinet.h"

#define LOAD_MAX (1.0 - 1.0 / LOAD_PARTS)

void plan_fresh(struct plan *plan, int horizon)
{
    memset(plan, 0, sizeof *plan);
    plan->horizon = horizon;
}

static int least_delay(const struct channel *c, int depth)
{
    return c->delay[0][depth] < c->delay[1][depth] ? c->delay[0][depth] : c->delay[1][depth];
}

static int most_delay(const struct channel *c, int depth)
{
    return c->delay[0][depth] > c->delay[1][depth] ? c->delay[0][depth] : c->delay[1][depth];
}

/* The delays are no more than I_min and a time is less than half a turn of the clock away on each board. */
static int in_range(const struct plan *plan, const struct channel *c)
{
    for (int b = 0; b < BOARDS; b++) {
        int depth = c->hop[b].depth;

        if (depth != OFF_TREE && (least_delay(c, depth) < (depth > 0) || most_delay(c, depth) > c->interval ||
                                  most_delay(c, depth) + plan->horizon > ROUTER_DELAY_MAX))
            return 0;
    }
    return c->ahead <= ROUTER_DELAY_MAX;
}

static int window(const struct channel *c, int depth)
{
    return least_delay(c, depth) + (depth == 0);
}

static int demand(int length, int window, int interval)
{
    return length < window ? 0 : (length - window) / interval + 1;
}

static int link_holds(const struct plan *plan, const struct channel *c, int board, int port)
{
    int w = window(c, c->hop[board].depth);

    if (plan->link_channels[board][port] == LINK_CHANNELS_MAX ||
        plan->load[board][port] + 1.0 / c->interval > LOAD_MAX)
        return 0;
    for (int length = 1; length <= WINDOW_MAX; length++) {
        if (plan->demand[board][port][length] + demand(length, w, c->interval) > length)
            return 0;
    }
    return 1;
}

int plan_slots(const struct plan *plan, const struct channel *channel, int board, int interval, int ahead)
{
    int depth = channel->hop[board].depth;
    int early = depth == 0 ? ahead + 1 : most_delay(channel, depth - 1) + plan->horizon;

    return (most_delay(channel, depth) + early + interval - 1) / interval;
}

static void reserve(struct plan *plan, const struct channel *c)
{
    for (int b = 0; b < BOARDS; b++) {
        if (c->hop[b].depth == OFF_TREE)
            continue;
        plan->taken[b][c->hop[b].in_id] = 1;
        plan->slots[b] += plan_slots(plan, c, b, c->interval, c->ahead);
        for (int p = 0; p < ROUTER_PORTS; p++) {
            if ((c->hop[b].mask >> p & 1) == 0)
                continue;
            plan->link_channels[b][p]++;
            plan->load[b][p] += 1.0 / c->interval;
            for (int length = 1; length <= WINDOW_MAX; length++)
                plan->demand[b][p][length] += (uint16_t)demand(length, window(c, c->hop[b].depth), c->interval);
        }
    }
    plan->entry_load[c->source] += 1.0 / c->interval;
    plan->channel[plan->channels++] = *c;
}

static enum verdict admit(struct plan *plan, const struct channel *request, int tested)
{
    struct channel c = *request;

    if (plan->channels == CHANNELS_MAX)
        return NO_CHANNEL;
    memset(c.hop, 0, sizeof c.hop);
    route_tree(&c);
    if (!route_name(plan, &c))
        return NO_IDENTIFIER;
    if (tested && !in_range(plan, &c))
        return NO_RANGE;
    if (tested && plan->entry_load[c.source] + 1.0 / c.interval > LOAD_MAX)
        return NO_LINK;
    for (int b = 0; tested && b < BOARDS; b++) {
        if (c.hop[b].depth == OFF_TREE)
            continue;
        for (int p = 0; p < ROUTER_PORTS; p++) {
            if ((c.hop[b].mask >> p & 1) != 0 && !link_holds(plan, &c, b, p))
                return NO_LINK;
        }
        if (plan->slots[b] + plan_slots(plan, &c, b, c.interval, c.ahead) > ROUTER_SLOTS)
            return NO_SLOTS;
    }
    reserve(plan, &c);
    return ADMITTED;
}

enum verdict plan_admit(struct plan *plan, const struct channel *request)
{
    return admit(plan, request, 1);
}

enum verdict plan_force(struct plan *plan, const struct channel *request)
{
    return admit(plan, request, 0);
}
