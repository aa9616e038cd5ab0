/* cabinet.h - a cabinet of sixteen boards over router.h: the mesh, the planner, the traffic and the pictures. */
#ifndef CABINET_H
#define CABINET_H

#include <stdint.h>

#include "router.h"

/* ---- The mesh (mesh.c) ---- */

#define SIDE 4
#define BOARDS (SIDE * SIDE)
#define NO_BOARD (-1)

/* Ports; a packet that leaves by one of the last four enters the neighbour by the opposite one. */
enum { LOCAL, PLUS_X, MINUS_X, PLUS_Y, MINUS_Y };

/* What a board has done with packets. An arrival for k ports counts k - 1 extra copies. */
struct account {
    long arrived, extra, sent, withdrawn, closed, late, full;
    long misjudged; /* full with a slot free, or stored with none */
};

struct board {
    uint8_t state[ROUTER_STATE_LEN];
    uint8_t memory[ROUTER_MEMORY_LEN];
    uint8_t arrivals[ROUTER_ARRIVALS_LEN];
    uint8_t outgoing[ROUTER_OUTGOING_LEN];
    uint8_t answers[ROUTER_ANSWERS_LEN];
    uint8_t arriving;    /* ports with a packet for the coming tick */
    uint8_t best_effort; /* ports with best-effort traffic waiting in the coming tick */
    struct account account;
};

/* Sixteen boards and the common time, which does not turn over; the boards' clocks are its low byte. */
struct mesh {
    struct board board[BOARDS];
    long now;
};

void mesh_fresh(struct mesh *mesh, uint8_t clock);
void mesh_connect(struct mesh *mesh, int board, uint8_t in_id, uint8_t out_id, uint8_t delay, uint8_t mask);
void mesh_horizon(struct mesh *mesh, uint8_t horizon);

/* Lays a packet on the local port of a board for the coming tick. */
void mesh_inject(struct mesh *mesh, int board, const uint8_t *packet);

/* One tick on every board; answers and outgoing show it until the next. */
void mesh_tick(struct mesh *mesh);

/* After a tick, carries what was sent to the neighbours and advances the time. */
void mesh_carry(struct mesh *mesh);

/* Free slots of a board, copies it has still to send, and packets laid on its ports for the coming tick. */
int mesh_free(const struct board *board);
long mesh_held(const struct board *board);
long mesh_carried(const struct board *board);

/* The board behind a port, or NO_BOARD; LOCAL has none. */
int neighbour(int board, int port);

/* ---- Channels (route.c) and the planner (plan.c) ---- */

#define HOPS_MAX (2 * SIDE - 1)
#define DESTINATIONS_MAX 4
#define CHANNELS_MAX 1024
#define OFF_TREE (-1)

/* A channel has two settings of its per-hop delays, between which a source may change; they are equal for most. */
#define SETTINGS 2

/* What a channel is on one board: how many links from its source, and its entry of the connection table. */
struct hop {
    int depth; /* or OFF_TREE */
    uint8_t in_id, out_id, mask;
};

struct channel {
    int source;
    int destinations, destination[DESTINATIONS_MAX];
    int interval;                  /* I_min */
    int ahead;                     /* a message enters at most so long before its logical arrival time */
    int delay[SETTINGS][HOPS_MAX]; /* d_j by depth */
    struct hop hop[BOARDS];
};

/* Demand is tabled for windows up to WINDOW_MAX; see plan.c for why that is enough. */
#define LINK_CHANNELS_MAX 64
#define LOAD_PARTS 64
#define WINDOW_MAX (LINK_CHANNELS_MAX * LOAD_PARTS)

struct plan {
    int horizon; /* of every port */
    int channels;
    struct channel channel[CHANNELS_MAX];
    int slots[BOARDS]; /* reserved */
    uint8_t taken[BOARDS][ROUTER_CONNECTIONS];
    int link_channels[BOARDS][ROUTER_PORTS];
    double load[BOARDS][ROUTER_PORTS], entry_load[BOARDS];
    uint16_t demand[BOARDS][ROUTER_PORTS][WINDOW_MAX + 1];
};

enum verdict { ADMITTED, NO_CHANNEL, NO_RANGE, NO_IDENTIFIER, NO_LINK, NO_SLOTS, VERDICTS };

void plan_fresh(struct plan *plan, int horizon);

/* Routes a channel, of which source, destinations, interval, ahead and delays are given, and admits it or not. */
enum verdict plan_admit(struct plan *plan, const struct channel *request);

/* The same without the tests of links and slots. */
enum verdict plan_force(struct plan *plan, const struct channel *request);

/* Sets the tree of a channel: depths and masks; then its identifiers, if each board has one left. */
void route_tree(struct channel *channel);
int route_name(const struct plan *plan, struct channel *channel);

/* Writes a channel's entry on a board, or all entries and the horizon on all boards. */
void plan_write_hop(const struct plan *plan, struct mesh *mesh, int channel, int board, int setting);
void plan_write(const struct plan *plan, struct mesh *mesh);

/* Logical arrival time at a depth less that at the source; at depth + 1 it is the deadline. */
int plan_start(const struct channel *channel, int setting, int depth);
int plan_bound(const struct channel *channel, int destination);

/* Slots that a channel needs on a board when its messages are at least `interval` apart and `ahead` early. */
int plan_slots(const struct plan *plan, const struct channel *channel, int board, int interval, int ahead);

/* Do two channels have a link in common, deliveries included? */
int plan_share_link(const struct channel *a, const struct channel *b);

/* ---- Traffic (traffic.c) ---- */

#define EXCESS 10 /* a misbehaving source has so many times its rate */

/* How a source makes messages, and what a misbehaving one does with its logical arrival times. */
enum rhythm { PERIODIC, BURSTY, GREEDY, RHYTHMS };
enum manner { CONFORMING, KEEPS_TIMES, TIMES_RUN, LIES, FLOODS, SILENT };

/* One destination of a channel. */
struct arrivals {
    uint8_t *seen; /* by message number */
    long delivered, late, twice;
    long least, most;
    double sum;
};

struct source {
    enum rhythm rhythm;
    enum manner manner;
    long last;  /* logical arrival time of the last message */
    long ready; /* no message before this time */
    int burst;  /* messages left of this burst */
    long made;  /* messages handed to the board */
    long refused;
    int setting, until_change;
    uint8_t written[BOARDS]; /* setting in the boards' tables */
    struct arrivals arrivals[DESTINATIONS_MAX];
};

struct run {
    struct mesh mesh;
    const struct plan *plan;
    struct source source[CHANNELS_MAX];
    uint64_t random;
    long begin;
    long messages_max;
    int best_effort_percent;
    int together;         /* bring the channels of a link together now and then */
    int turn[BOARDS];     /* channel of the last message of a board */
    int offered[BOARDS];  /* channel of the message in this tick, or -1 */
    long wrong_header;    /* sent with an identifier, time, port or content that the plan does not give it */
    long after_deadline;  /* sent after the deadline of a hop */
    long before_horizon;  /* sent earlier than the horizon allows */
    long early_first;     /* sent early where best-effort traffic waited */
    long wrong_code;      /* port code that does not fit what was sent */
    long unbalanced;      /* ticks and boards at which the accounts did not add up */
    long best_effort_sent, early_sent;
    long rewritten;       /* sent after the entry they came by was rewritten */
    int least_slack;      /* between sending and deadline, over all links */
    int most_slots[BOARDS];
    uint64_t digest;      /* of who sent what when, with times counted from the beginning */
};

void run_begin(struct run *run, const struct plan *plan, uint8_t clock, uint64_t seed, long ticks);
void run_ticks(struct run *run, long ticks);

/* Lets everything in the mesh arrive or be withdrawn; the sources are silent from here on. */
void run_drain(struct run *run);
void run_end(struct run *run);

/* Copies that the boards hold and packets between them. */
long run_under_way(const struct run *run);

/* Messages of a channel, counted by destination, that were made and not delivered. */
long run_lost(const struct run *run, int channel);
struct account run_total(const struct run *run);
uint32_t run_random(struct run *run, uint32_t below);

/* ---- Pictures (picture.c) ---- */

/* A column for each channel and destination, and a panel of them for each horizon. */
struct column {
    int bound;
    long least, most;
    double mean;
};

struct panel {
    int horizon, columns;
    int least; /* of the columns, or 0 */
    struct column column[CHANNELS_MAX * DESTINATIONS_MAX];
};

int picture_latency(const char *path, struct panel *panel, int panels);

#define FIG10_CONNECTIONS 3
#define FIG10_TICKS 240

/* Cumulative packets of each connection, and then of best-effort traffic, after each tick. */
struct service {
    int delay[FIG10_CONNECTIONS], interval[FIG10_CONNECTIONS];
    int packets[FIG10_CONNECTIONS + 1][FIG10_TICKS + 1];
};

int picture_fig10(const char *path, const struct service *service);

#endif
