/* traffic.c - sources that put messages into the mesh, and a watch that checks each packet on each link. */

#include <limits.h>
#include <stdio.h>
#include <stdlib.h>
#include <string.h>

#include "cabinet.h"

/* A message in the data of a packet: channel, number, logical arrival time at its source, setting, fill. */
#define AT_CHANNEL 0
#define AT_NUMBER 2
#define AT_TIME 6
#define AT_SETTING 10
#define AT_FILL 11

#define NEVER (-1000000L) /* long before any time of a run */
#define TIME_BIAS 1024    /* times are written so much larger, as they may lie before 0 */
#define CLOCK_TURN 256
#define BURST_MAX 4       /* messages */
#define PAUSE_MAX 4       /* intervals between bursts */
#define EPOCH 400         /* ticks between two attempts to bring channels together on a link */
#define CHANGE_EVERY 60   /* messages between two changes of setting */
#define FLOOD_LATE 12     /* a flood's times lie so far back .. */
#define FLOOD_AHEAD 100   /* .. and so far ahead; half of them are the present */
#define DRAIN_MAX 4096    /* ticks */

struct message {
    int channel;
    long number, time;
    int setting;
};

/* ---- Random numbers, messages ---- */

static uint64_t mix(uint64_t z)
{
    z = (z ^ z >> 30) * UINT64_C(0xbf58476d1ce4e5b9);
    z = (z ^ z >> 27) * UINT64_C(0x94d049bb133111eb);
    return z ^ z >> 31;
}

uint32_t run_random(struct run *run, uint32_t below)
{
    run->random += UINT64_C(0x9e3779b97f4a7c15);
    return (uint32_t)((mix(run->random) >> 32) * below >> 32);
}

static void put(uint8_t *at, int bytes, uint64_t value)
{
    for (int i = 0; i < bytes; i++)
        at[i] = (uint8_t)(value >> 8 * i);
}

static uint64_t get(const uint8_t *at, int bytes)
{
    uint64_t value = 0;

    for (int i = bytes - 1; i >= 0; i--)
        value = value << 8 | at[i];
    return value;
}

static void write_message(uint8_t *data, const struct message *m)
{
    put(data + AT_CHANNEL, 2, (uint64_t)m->channel);
    put(data + AT_NUMBER, 4, (uint64_t)m->number);
    put(data + AT_TIME, 4, (uint64_t)(m->time + TIME_BIAS));
    data[AT_SETTING] = (uint8_t)m->setting;
    put(data + AT_FILL, ROUTER_DATA_LEN - AT_FILL, mix(get(data, 8)));
}

/* Reads a message and says if its content is whole. */
static int read_message(const uint8_t *data, struct message *m)
{
    uint8_t same[ROUTER_DATA_LEN];

    m->channel = (int)get(data + AT_CHANNEL, 2);
    m->number = (long)get(data + AT_NUMBER, 4);
    m->time = (long)get(data + AT_TIME, 4) - TIME_BIAS;
    m->setting = data[AT_SETTING];
    write_message(same, m);
    return memcmp(same, data, sizeof same) == 0;
}

/* ---- Sources ---- */

void run_begin(struct run *run, const struct plan *plan, uint8_t clock, uint64_t seed, long ticks)
{
    memset(run, 0, sizeof *run);
    mesh_fresh(&run->mesh, clock);
    plan_write(plan, &run->mesh);
    run->plan = plan;
    run->random = seed;
    run->begin = clock;
    run->messages_max = ticks + 1;
    run->least_slack = INT_MAX;
    for (int c = 0; c < plan->channels; c++) {
        struct source *s = &run->source[c];

        s->rhythm = (enum rhythm)(c % RHYTHMS);
        s->last = NEVER;
        s->ready = run->begin + run_random(run, (uint32_t)plan->channel[c].interval);
        s->until_change = CHANGE_EVERY;
        for (int k = 0; k < plan->channel[c].destinations; k++) {
            s->arrivals[k].seen = calloc((size_t)run->messages_max, 1);
            s->arrivals[k].least = LONG_MAX;
            if (s->arrivals[k].seen == NULL)
                exit(EXIT_FAILURE);
        }
    }
}

void run_end(struct run *run)
{
    for (int c = 0; c < run->plan->channels; c++) {
        for (int k = 0; k < run->plan->channel[c].destinations; k++)
            free(run->source[c].arrivals[k].seen);
    }
}

/* The logical arrival time of a message made now. */
static long logical_time(struct run *run, int channel)
{
    struct source *s = &run->source[channel];
    long next = s->last + run->plan->channel[channel].interval;

    if (s->manner == LIES)
        return run->mesh.now;
    if (s->manner == FLOODS) {
        if (run_random(run, 2) == 0)
            return run->mesh.now;
        return run->mesh.now - FLOOD_LATE + (long)run_random(run, FLOOD_LATE + FLOOD_AHEAD);
    }
    return next > run->mesh.now ? next : run->mesh.now;
}

static int wants(struct run *run, int channel)
{
    const struct channel *c = &run->plan->channel[channel];
    struct source *s = &run->source[channel];

    if (s->manner == SILENT || run->mesh.now < s->ready || s->made == run->messages_max)
        return 0;
    return s->manner != CONFORMING || s->last + c->interval - run->mesh.now <= c->ahead;
}

/* Sets when a source makes its next message. */
static void pace(struct run *run, int channel)
{
    struct source *s = &run->source[channel];
    int interval = run->plan->channel[channel].interval;

    if (s->manner == FLOODS)
        return;
    if (s->manner != CONFORMING) {
        s->ready += (interval + EXCESS - 1) / EXCESS;
    } else if (s->rhythm == PERIODIC) {
        s->ready += interval;
    } else if (s->rhythm == BURSTY && s->burst-- <= 0) {
        s->burst = (int)run_random(run, BURST_MAX);
        s->ready = run->mesh.now + run_random(run, (uint32_t)(PAUSE_MAX * interval));
    }
}

/*
 * A source changes its setting: it is silent until its messages under way have arrived, and each board gets the new
 * entry as soon as the last of them is stored there.
 */
static void change_setting(struct run *run, int channel)
{
    const struct channel *c = &run->plan->channel[channel];
    struct source *s = &run->source[channel];

    if (memcmp(c->delay[0], c->delay[1], sizeof c->delay[0]) == 0 || s->manner != CONFORMING)
        return;
    if (--s->until_change == 0) {
        s->until_change = CHANGE_EVERY;
        s->setting ^= 1;
        s->ready = s->last + c->interval + plan_bound(c, 0) + 2;
    }
}

static void write_setting(struct run *run, int channel, int board)
{
    struct source *s = &run->source[channel];

    if (run->plan->channel[channel].hop[board].depth != OFF_TREE && s->written[board] != s->setting) {
        plan_write_hop(run->plan, &run->mesh, channel, board, s->setting);
        s->written[board] = (uint8_t)s->setting;
    }
}

static void hand_over(struct run *run, int channel)
{
    const struct channel *c = &run->plan->channel[channel];
    struct source *s = &run->source[channel];
    struct message m = {channel, s->made, logical_time(run, channel), s->setting};
    uint8_t packet[ROUTER_PACKET_LEN];

    for (int b = 0; b < BOARDS; b++)
        write_setting(run, channel, b);
    s->last = m.time;
    if (s->manner == TIMES_RUN) /* The watch takes the time for what its byte says. */
        m.time = run->mesh.now - ROUTER_DELAY_MAX - 1 +
                 (m.time - run->mesh.now + ROUTER_DELAY_MAX + 1) % CLOCK_TURN;
    packet[ROUTER_PACKET_ID] = c->hop[c->source].in_id;
    packet[ROUTER_PACKET_TIME] = (uint8_t)m.time;
    write_message(packet + ROUTER_PACKET_DATA, &m);
    mesh_inject(&run->mesh, c->source, packet);
    run->offered[c->source] = channel;
    s->made++;
    pace(run, channel);
    change_setting(run, channel);
}

/* Each board hands over at most one message, its channels in turn. */
static void make_messages(struct run *run)
{
    int channels = run->plan->channels;

    for (int b = 0; b < BOARDS; b++) {
        run->offered[b] = -1;
        for (int i = 1; i <= channels; i++) {
            int c = (run->turn[b] + i) % channels;

            if (run->plan->channel[c].source == b && wants(run, c)) {
                run->turn[b] = c;
                hand_over(run, c);
                break;
            }
        }
    }
}

/* Holds the channels of one link back so that each has a message with the same logical arrival time there. */
static void bring_together(struct run *run)
{
    int board = (int)run_random(run, BOARDS), port = (int)run_random(run, ROUTER_PORTS);
    int reach = 0;

    for (int pass = 0; pass < 2; pass++) {
        for (int i = 0; i < run->plan->channels; i++) {
            const struct channel *c = &run->plan->channel[i];
            struct source *s = &run->source[i];
            int start;

            if ((c->hop[board].mask >> port & 1) == 0 || s->manner != CONFORMING)
                continue;
            start = plan_start(c, s->setting, c->hop[board].depth);
            if (pass == 0 && start > reach)
                reach = start;
            if (pass == 1 && run->mesh.now + reach - start > s->ready) {
                s->ready = run->mesh.now + reach - start;
                s->burst = BURST_MAX;
            }
        }
    }
}

/* ---- The watch ---- */

static void digest(struct run *run, uint64_t value)
{
    run->digest = (run->digest ^ value) * UINT64_C(0x100000001b3) + 1;
}

static void deliver(struct run *run, int board, const struct message *m)
{
    const struct channel *c = &run->plan->channel[m->channel];
    long latency = run->mesh.now - m->time;

    for (int k = 0; k < c->destinations; k++) {
        struct arrivals *a = &run->source[m->channel].arrivals[k];

        if (c->destination[k] != board)
            continue;
        if (a->seen[m->number])
            a->twice++;
        a->seen[m->number] = 1;
        a->delivered++;
        a->late += latency > plan_bound(c, k);
        a->sum += (double)latency;
        if (latency < a->least)
            a->least = latency;
        if (a->delivered == 1 || latency > a->most)
            a->most = latency;
    }
}

/* A packet sent by a board: it is where the plan has it, under the header that the plan gives it, and in time. */
static void watch_sent(struct run *run, int board, int port, uint8_t code)
{
    const struct board *b = &run->mesh.board[board];
    const uint8_t *packet = b->outgoing + ROUTER_PACKET_LEN * port;
    const struct channel *c;
    struct message m;
    int depth;
    long start, deadline, now = run->mesh.now;

    if (!read_message(packet + ROUTER_PACKET_DATA, &m) || m.channel >= run->plan->channels || m.setting >= SETTINGS ||
        m.number >= run->source[m.channel].made) {
        run->wrong_header++;
        return;
    }
    c = &run->plan->channel[m.channel];
    depth = c->hop[board].depth;
    if (depth == OFF_TREE || (c->hop[board].mask >> port & 1) == 0) {
        run->wrong_header++;
        return;
    }
    start = m.time + plan_start(c, m.setting, depth);
    deadline = m.time + plan_start(c, m.setting, depth + 1);
    run->wrong_header += packet[ROUTER_PACKET_ID] != c->hop[board].out_id ||
                         packet[ROUTER_PACKET_TIME] != (uint8_t)deadline;
    run->after_deadline += now > deadline;
    run->before_horizon += start - now > run->plan->horizon;
    run->early_first += start > now && (b->best_effort >> port & 1) != 0;
    run->wrong_code += code != (start > now ? ROUTER_PORT_EARLY : ROUTER_PORT_ON_TIME);
    run->early_sent += start > now;
    run->rewritten += m.setting != run->source[m.channel].written[board];
    if (deadline - now < run->least_slack)
        run->least_slack = (int)(deadline - now);
    digest(run, (uint64_t)m.channel << 32 | (uint64_t)m.number);
    if (port == LOCAL)
        deliver(run, board, &m);
}

/* A packet that a board has stored: after the last message under the old setting the board gets the new entry. */
static void watch_stored(struct run *run, int board, int port)
{
    struct message m;

    if (read_message(run->mesh.board[board].arrivals + ROUTER_PACKET_LEN * port + ROUTER_PACKET_DATA, &m) &&
        m.channel < run->plan->channels && m.number == run->source[m.channel].made - 1 &&
        m.setting != run->source[m.channel].setting)
        write_setting(run, m.channel, board);
}

static void watch_offered(struct run *run, int board)
{
    int channel = run->offered[board];
    struct source *s = &run->source[channel];

    if (run->mesh.board[board].answers[ROUTER_ANSWERS_ARRIVALS + LOCAL] == ROUTER_ARRIVAL_STORED)
        return;
    s->refused++;
    if (s->manner == KEEPS_TIMES) /* A refused message takes no logical time. */
        s->last -= run->plan->channel[channel].interval;
}

static void watch(struct run *run, int board)
{
    const struct board *b = &run->mesh.board[board];
    const struct account *a = &b->account;
    int used = ROUTER_SLOTS - mesh_free(b);

    for (int p = 0; p < ROUTER_PORTS; p++) {
        uint8_t code = b->answers[ROUTER_ANSWERS_PORTS + p];

        digest(run, (uint64_t)code << 8 | b->answers[ROUTER_ANSWERS_ARRIVALS + p]);
        if (code == ROUTER_PORT_ON_TIME || code == ROUTER_PORT_EARLY)
            watch_sent(run, board, p, code);
        if (code == ROUTER_PORT_BEST_EFFORT) {
            run->best_effort_sent++;
            run->wrong_code += (b->best_effort >> p & 1) == 0;
        }
    }
    for (int p = 0; p < ROUTER_PORTS; p++) {
        if (b->answers[ROUTER_ANSWERS_ARRIVALS + p] == ROUTER_ARRIVAL_STORED)
            watch_stored(run, board, p);
    }
    if (run->offered[board] >= 0)
        watch_offered(run, board);
    if (used > run->most_slots[board])
        run->most_slots[board] = used;
    digest(run, (uint64_t)a->withdrawn);
    run->unbalanced += a->arrived + a->extra !=
                       a->sent + a->withdrawn + a->closed + a->late + a->full + mesh_held(b);
}

void run_ticks(struct run *run, long ticks)
{
    for (long i = 0; i < ticks; i++) {
        if (run->together && (run->mesh.now - run->begin) % EPOCH == 0)
            bring_together(run);
        make_messages(run);
        for (int b = 0; b < BOARDS; b++) {
            run->mesh.board[b].best_effort = 0;
            for (int p = 0; p < ROUTER_PORTS; p++)
                run->mesh.board[b].best_effort |=
                    (uint8_t)((run_random(run, 100) < (uint32_t)run->best_effort_percent) << p);
        }
        mesh_tick(&run->mesh);
        digest(run, (uint64_t)(run->mesh.now - run->begin));
        for (int b = 0; b < BOARDS; b++)
            watch(run, b);
        mesh_carry(&run->mesh);
    }
}

long run_under_way(const struct run *run)
{
    long n = 0;

    for (int b = 0; b < BOARDS; b++)
        n += mesh_held(&run->mesh.board[b]) + mesh_carried(&run->mesh.board[b]);
    return n;
}

void run_drain(struct run *run)
{
    for (int c = 0; c < run->plan->channels; c++)
        run->source[c].manner = SILENT;
    for (int i = 0; i < DRAIN_MAX && run_under_way(run) > 0; i++)
        run_ticks(run, 1);
}

long run_lost(const struct run *run, int channel)
{
    const struct source *s = &run->source[channel];
    long lost = 0;

    for (int k = 0; k < run->plan->channel[channel].destinations; k++)
        lost += s->made - (s->arrivals[k].delivered - s->arrivals[k].twice);
    return lost;
}

struct account run_total(const struct run *run)
{
    struct account total = {0, 0, 0, 0, 0, 0, 0, 0};

    for (int b = 0; b < BOARDS; b++) {
        const struct account *a = &run->mesh.board[b].account;

        total.arrived += a->arrived;
        total.extra += a->extra;
        total.sent += a->sent;
        total.withdrawn += a->withdrawn;
        total.closed += a->closed;
        total.late += a->late;
        total.full += a->full;
        total.misjudged += a->misjudged;
    }
    return total;
}
