/* mesh.c - sixteen routers in a square mesh under one tick: what one sends, its neighbour gets in the next. */

#include <stdio.h>
#include <stdlib.h>
#include <string.h>

#include "cabinet.h"

static void must(const char *what, int holds)
{
    if (!holds) {
        printf("FAIL %s\n", what);
        exit(EXIT_FAILURE);
    }
}

static void control(struct board *b, uint8_t reg, uint8_t value)
{
    must("a control write is accepted", router_control(b->state, sizeof b->state, b->memory, sizeof b->memory,
                                                       reg, value) == ROUTER_ACCEPTED);
}

static int ports_in(unsigned mask)
{
    return (mask & 1) + (mask >> 1 & 1) + (mask >> 2 & 1) + (mask >> 3 & 1) + (mask >> 4 & 1);
}

int neighbour(int board, int port)
{
    static const int dx[ROUTER_PORTS] = {0, 1, -1, 0, 0}, dy[ROUTER_PORTS] = {0, 0, 0, 1, -1};
    int x = board % SIDE + dx[port], y = board / SIDE + dy[port];

    if (port == LOCAL || x < 0 || x >= SIDE || y < 0 || y >= SIDE)
        return NO_BOARD;
    return SIDE * y + x;
}

void mesh_fresh(struct mesh *mesh, uint8_t clock)
{
    memset(mesh, 0, sizeof *mesh);
    mesh->now = clock;
    for (int i = 0; i < BOARDS; i++) {
        struct board *b = &mesh->board[i];

        must("a fresh router is made",
             router_fresh(b->state, sizeof b->state, b->memory, sizeof b->memory, clock) == ROUTER_ACCEPTED);
    }
}

void mesh_connect(struct mesh *mesh, int board, uint8_t in_id, uint8_t out_id, uint8_t delay, uint8_t mask)
{
    struct board *b = &mesh->board[board];

    control(b, ROUTER_REG_OUT_ID, out_id);
    control(b, ROUTER_REG_DELAY, delay);
    control(b, ROUTER_REG_MASK, mask);
    control(b, ROUTER_REG_IN_ID, in_id);
}

void mesh_horizon(struct mesh *mesh, uint8_t horizon)
{
    for (int i = 0; i < BOARDS; i++) {
        control(&mesh->board[i], ROUTER_REG_PORTS, ROUTER_MASK_MAX);
        control(&mesh->board[i], ROUTER_REG_HORIZON, horizon);
    }
}

void mesh_inject(struct mesh *mesh, int board, const uint8_t *packet)
{
    struct board *b = &mesh->board[board];

    memcpy(b->arrivals + ROUTER_PACKET_LEN * LOCAL, packet, ROUTER_PACKET_LEN);
    b->arriving |= 1u << LOCAL;
}

/* Adds the answers of a tick to the account. The extra copies of an arrival are known from the table it met. */
static void book(struct board *b, const uint8_t *table, int free)
{
    for (int p = 0; p < ROUTER_PORTS; p++) {
        const uint8_t *withdrawn = b->answers + ROUTER_ANSWERS_WITHDRAWN + 2 * p;
        uint8_t code = b->answers[ROUTER_ANSWERS_PORTS + p];
        uint8_t arrival = b->answers[ROUTER_ANSWERS_ARRIVALS + p];
        unsigned id = b->arrivals[ROUTER_PACKET_LEN * p + ROUTER_PACKET_ID];

        b->account.arrived += b->arriving >> p & 1;
        b->account.closed += arrival == ROUTER_ARRIVAL_CLOSED;
        b->account.late += arrival == ROUTER_ARRIVAL_LATE;
        b->account.full += arrival == ROUTER_ARRIVAL_FULL;
        b->account.misjudged += arrival == (free > 0 ? ROUTER_ARRIVAL_FULL : ROUTER_ARRIVAL_STORED);
        if (arrival == ROUTER_ARRIVAL_STORED) {
            b->account.extra += ports_in(table[ROUTER_ENTRY_LEN * id + ROUTER_ENTRY_MASK]) - 1;
            free--;
        }
        b->account.sent += code == ROUTER_PORT_ON_TIME || code == ROUTER_PORT_EARLY;
        b->account.withdrawn += withdrawn[0] << 8 | withdrawn[1];
    }
}

void mesh_tick(struct mesh *mesh)
{
    for (int i = 0; i < BOARDS; i++) {
        struct board *b = &mesh->board[i];
        int free = mesh_free(b);

        must("a tick is accepted",
             router_tick(b->state, sizeof b->state, b->memory, sizeof b->memory, b->arrivals, sizeof b->arrivals,
                         b->outgoing, sizeof b->outgoing, b->answers, sizeof b->answers,
                         b->arriving, b->best_effort) == ROUTER_ACCEPTED);
        book(b, b->state + ROUTER_STATE_TABLE, free);
    }
}

void mesh_carry(struct mesh *mesh)
{
    static const int opposite[ROUTER_PORTS] = {LOCAL, MINUS_X, PLUS_X, MINUS_Y, PLUS_Y};

    for (int i = 0; i < BOARDS; i++)
        mesh->board[i].arriving = 0;
    for (int i = 0; i < BOARDS; i++) {
        const struct board *b = &mesh->board[i];

        for (int p = PLUS_X; p < ROUTER_PORTS; p++) {
            uint8_t code = b->answers[ROUTER_ANSWERS_PORTS + p];
            int next = neighbour(i, p);

            if (code != ROUTER_PORT_ON_TIME && code != ROUTER_PORT_EARLY)
                continue;
            must("no packet is sent by a boundary link", next != NO_BOARD);
            memcpy(mesh->board[next].arrivals + ROUTER_PACKET_LEN * opposite[p],
                   b->outgoing + ROUTER_PACKET_LEN * p, ROUTER_PACKET_LEN);
            mesh->board[next].arriving |= 1u << opposite[p];
        }
    }
    mesh->now++;
}

int mesh_free(const struct board *board)
{
    return board->state[ROUTER_STATE_FREE] << 8 | board->state[ROUTER_STATE_FREE + 1];
}

long mesh_held(const struct board *board)
{
    long held = 0;

    for (int s = 0; s < ROUTER_SLOTS; s++)
        held += ports_in(board->state[ROUTER_STATE_SLOTS + ROUTER_SLOT_LEN * s + ROUTER_SLOT_MASK]);
    return held;
}

long mesh_carried(const struct board *board)
{
    return ports_in(board->arriving);
}
