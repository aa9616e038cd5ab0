/* route.c - routes channels x first, gives out identifiers on each hop, and writes the boards' tables. */

#include "cabinet.h"

int plan_start(const struct channel *channel, int setting, int depth)
{
    int start = 0;

    for (int j = 0; j < depth; j++)
        start += channel->delay[setting][j];
    return start;
}

int plan_bound(const struct channel *channel, int destination)
{
    return plan_start(channel, 0, channel->hop[channel->destination[destination]].depth + 1);
}

/* ---- Routes and identifiers ---- */

static int step_towards(int board, int destination)
{
    int dx = destination % SIDE - board % SIDE, dy = destination / SIDE - board / SIDE;

    if (dx != 0)
        return dx > 0 ? PLUS_X : MINUS_X;
    if (dy != 0)
        return dy > 0 ? PLUS_Y : MINUS_Y;
    return LOCAL;
}

void route_tree(struct channel *c)
{
    for (int b = 0; b < BOARDS; b++)
        c->hop[b].depth = OFF_TREE;
    for (int k = 0; k < c->destinations; k++) {
        int b = c->source;

        for (int depth = 0; b != NO_BOARD; depth++) {
            int port = step_towards(b, c->destination[k]);

            c->hop[b].depth = depth;
            c->hop[b].mask |= (uint8_t)(1u << port);
            b = neighbour(b, port);
        }
    }
}

/* An identifier that is free on the boards behind the ports of a mask, or ROUTER_CONNECTIONS. */
static int free_identifier(const struct plan *plan, int board, unsigned mask)
{
    int id = 0;

    for (int p = PLUS_X; id < ROUTER_CONNECTIONS && p < ROUTER_PORTS; p++) {
        if ((mask >> p & 1) != 0 && plan->taken[neighbour(board, p)][id]) {
            id++;
            p = LOCAL;
        }
    }
    return id;
}

int route_name(const struct plan *plan, struct channel *c)
{
    int root = 0;

    while (root < ROUTER_CONNECTIONS && plan->taken[c->source][root])
        root++;
    if (root == ROUTER_CONNECTIONS)
        return 0;
    c->hop[c->source].in_id = (uint8_t)root;
    for (int b = 0; b < BOARDS; b++) {
        int id;

        if (c->hop[b].depth == OFF_TREE)
            continue;
        id = free_identifier(plan, b, c->hop[b].mask);
        if (id == ROUTER_CONNECTIONS)
            return 0;
        c->hop[b].out_id = (uint8_t)id;
        for (int p = PLUS_X; p < ROUTER_PORTS; p++) {
            if ((c->hop[b].mask >> p & 1) != 0)
                c->hop[neighbour(b, p)].in_id = (uint8_t)id;
        }
    }
    return 1;
}

/* ---- Tables ---- */

void plan_write_hop(const struct plan *plan, struct mesh *mesh, int channel, int board, int setting)
{
    const struct channel *c = &plan->channel[channel];
    const struct hop *hop = &c->hop[board];

    mesh_connect(mesh, board, hop->in_id, hop->out_id, (uint8_t)c->delay[setting][hop->depth], hop->mask);
}

void plan_write(const struct plan *plan, struct mesh *mesh)
{
    mesh_horizon(mesh, (uint8_t)plan->horizon);
    for (int c = 0; c < plan->channels; c++) {
        for (int b = 0; b < BOARDS; b++) {
            if (plan->channel[c].hop[b].depth != OFF_TREE)
                plan_write_hop(plan, mesh, c, b, 0);
        }
    }
}

int plan_share_link(const struct channel *a, const struct channel *b)
{
    for (int i = 0; i < BOARDS; i++) {
        if ((a->hop[i].mask & b->hop[i].mask) != 0)
            return 1;
    }
    return 0;
}
