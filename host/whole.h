/* whole.h - the router that never turns over (document 01): times are whole numbers, and no byte of state is seen. */
#ifndef WHOLE_H
#define WHOLE_H

#include "router.h"

/* A place and the packet that it holds; it is empty if no port is left. */
struct whole_place {
    int64_t time;     /* u, the true logical arrival time */
    int64_t deadline; /* D = u + d */
    uint8_t out_id;
    uint8_t data[ROUTER_DATA_LEN];
    uint8_t left;     /* ports left */
};

struct whole_entry {
    uint8_t out_id;
    uint8_t delay;
    uint8_t mask;
};

struct whole {
    int64_t clock; /* T */
    uint8_t horizon[ROUTER_PORTS];
    struct whole_entry written; /* registers 0, 1 and 2 */
    uint8_t ports;              /* register 4 */
    struct whole_entry table[ROUTER_CONNECTIONS];
    struct whole_place place[ROUTER_SLOTS];
    uint8_t free[ROUTER_SLOTS]; /* free places, the first one first */
    unsigned free_count;
};

/* Makes the router with T the given clock, nothing open, all places empty and free in order. */
void whole_fresh(struct whole *w, uint8_t clock);

/* A control write; returns 0 or its refusal. */
uint8_t whole_control(struct whole *w, uint8_t reg, uint8_t value);

/*
 * A tick; returns 0 or its refusal. time[p] is the true logical arrival time of the packet at port p, and is read
 * only where arrivals_mask has the port. Outgoing and answers are written as by router_tick.
 */
uint8_t whole_tick(struct whole *w,
                   const uint8_t *arrivals, size_t arrivals_len, const int64_t *time,
                   uint8_t *outgoing, size_t outgoing_len,
                   uint8_t *answers, size_t answers_len,
                   uint8_t arrivals_mask, uint8_t best_effort_mask);

/* A whole time cut to a byte: its remainder by 256, 0 to 255, also below zero. */
uint8_t whole_cut(int64_t time);

#endif
