/* scenarios.c - the scenarios of the cabinet: tables of what happened, and claims about it that are checked. */

#include <stdio.h>
#include <stdlib.h>
#include <string.h>

#include "cabinet.h"

#define SEED_PLAN 20
#define SEED_TRAFFIC 7
#define SEED_OVERLOAD 40

#define REFUSALS_IN_A_ROW 400 /* requests that the planner refuses before a plan counts as full */
#define HIGH_LOAD 0.7
#define MULTICAST_PERCENT 25
#define INTERVAL_MIN 8
#define INTERVAL_MAX 90
#define DELAY_MIN 3
#define DELAY_MAX 60
#define JITTER 8              /* ahead of a periodic source */
#define AHEAD_MAX 100
#define BEST_EFFORT_PERCENT 50
#define CULPRIT_SOURCE 4
#define CULPRIT_DESTINATION 14
#define CULPRIT_INTERVAL 20
#define CULPRIT_DELAY 14
#define OVERLOAD_CHANNELS 160
#define OVERLOAD_HORIZON 10
#define OVERLOAD_SHORT_DELAYS 8
#define CLOCK_BEFORE_TURN 255

/* Horizons of scenario (a); the middle one is that of (b). */
#define HORIZONS 3
static const int horizons[HORIZONS] = {0, 6, 60};
#define HORIZON_SMALL 6

struct lengths {
    long admitted, misbehaving, overload, turn;
};
static const struct lengths short_run = {8000, 6000, 3000, 1500};
static const struct lengths long_run = {100000, 30000, 20000, 10000};

static int failed;
static struct plan plan;
static struct run run, other;
static struct panel panels[HORIZONS];

static void claim(const char *scenario, const char *what, int holds)
{
    failed += !holds;
    printf("%s %s: %s\n", holds ? "ok  " : "FAIL", scenario, what);
}

/* ---- Plans ---- */

static uint32_t random_below(uint32_t below)
{
    return run_random(&other, below);
}

static struct channel random_channel(int multicast_percent)
{
    struct channel c;
    int wanted = (int)random_below(100) < multicast_percent ? 2 + (int)random_below(DESTINATIONS_MAX - 1) : 1;
    int delay_max;

    memset(&c, 0, sizeof c);
    c.source = (int)random_below(BOARDS);
    while (c.destinations < wanted) {
        int b = (int)random_below(BOARDS), known = b == c.source;

        for (int k = 0; k < c.destinations; k++)
            known |= c.destination[k] == b;
        if (!known)
            c.destination[c.destinations++] = b;
    }
    c.interval = INTERVAL_MIN + (int)random_below(INTERVAL_MAX - INTERVAL_MIN + 1);
    c.ahead = JITTER + (int)random_below(4) * c.interval;
    if (c.ahead > AHEAD_MAX)
        c.ahead = AHEAD_MAX;
    delay_max = c.interval < DELAY_MAX ? c.interval : DELAY_MAX;
    for (int j = 0; j < HOPS_MAX; j++)
        c.delay[0][j] = DELAY_MIN + (int)random_below((uint32_t)(delay_max - DELAY_MIN + 1));
    memcpy(c.delay[1], c.delay[0], sizeof c.delay[1]);
    return c;
}

/* Gives a channel with one destination a second setting: the delays in the opposite order. */
static void turn_delays(struct channel *c)
{
    int a = c->source, b = c->destination[0];
    int last = abs(a % SIDE - b % SIDE) + abs(a / SIDE - b / SIDE);

    for (int j = 0; c->destinations == 1 && j <= last; j++)
        c->delay[1][j] = c->delay[0][last - j];
}

/* Is there a window on a link that the admitted channels can fill? */
static int has_full_window(int board, int port)
{
    for (int length = 1; length <= WINDOW_MAX; length++) {
        if (plan.demand[board][port][length] == length)
            return 1;
    }
    return 0;
}

/* The channel that misbehaves in (b), with a route through the middle of the mesh. */
static struct channel culprit_channel(void)
{
    struct channel c;

    memset(&c, 0, sizeof c);
    c.source = CULPRIT_SOURCE;
    c.destinations = 1;
    c.destination[0] = CULPRIT_DESTINATION;
    c.interval = CULPRIT_INTERVAL;
    c.ahead = CULPRIT_INTERVAL;
    for (int v = 0; v < SETTINGS; v++) {
        for (int j = 0; j < HOPS_MAX; j++)
            c.delay[v][j] = CULPRIT_DELAY;
    }
    return c;
}

/* Sets aside the slots of its boards, and the turns on its own, that the culprit's excess takes. */
static void set_aside_excess(const struct channel *c)
{
    for (int b = 0; b < BOARDS; b++) {
        if (c->hop[b].depth != OFF_TREE)
            plan.slots[b] += plan_slots(&plan, c, b, c->interval / EXCESS, ROUTER_DELAY_MAX) -
                             plan_slots(&plan, c, b, c->interval, c->ahead);
    }
    plan.entry_load[c->source] += (double)(EXCESS - 1) / c->interval;
}

/* Asks for random channels until the planner has no more room. With a culprit, that is channel 0. */
static void full_plan(int horizon, int with_culprit)
{
    int verdicts[VERDICTS] = {0}, slots = 0, loaded = 0, full = 0;
    double most = 0;

    other.random = SEED_PLAN;
    plan_fresh(&plan, horizon);
    if (with_culprit) {
        struct channel c = culprit_channel();

        verdicts[plan_admit(&plan, &c)]++;
        set_aside_excess(&plan.channel[0]);
    }
    for (int row = 0; row < REFUSALS_IN_A_ROW && plan.channels < CHANNELS_MAX; row++) {
        struct channel c = random_channel(MULTICAST_PERCENT);
        enum verdict v;

        turn_delays(&c);
        v = plan_admit(&plan, &c);
        verdicts[v]++;
        if (v == ADMITTED)
            row = 0;
    }
    for (int b = 0; b < BOARDS; b++) {
        if (plan.slots[b] > slots)
            slots = plan.slots[b];
        for (int p = 0; p < ROUTER_PORTS; p++) {
            loaded += plan.load[b][p] > HIGH_LOAD;
            full += has_full_window(b, p);
            if (plan.load[b][p] > most)
                most = plan.load[b][p];
        }
    }
    printf("plan, horizon %d: %d channels admitted; refused %d by a link, %d by slots, %d by range, %d by names\n",
           horizon, verdicts[ADMITTED], verdicts[NO_LINK], verdicts[NO_SLOTS], verdicts[NO_RANGE],
           verdicts[NO_IDENTIFIER]);
    printf("highest load %.3f, %d links above %.1f, %d with a window full to the last tick, %d slots reserved\n",
           most, loaded, HIGH_LOAD, full, slots);
}

/* ---- What every run has to keep ---- */

static void claim_run(const char *scenario, const struct run *r)
{
    claim(scenario, "each packet is sent where, and under the header, that the plan gives it", r->wrong_header == 0);
    claim(scenario, "no packet is sent after its deadline at any hop", r->after_deadline == 0);
    claim(scenario, "no packet is sent before the horizon", r->before_horizon == 0);
    claim(scenario, "no packet is sent early where best-effort traffic waits", r->early_first == 0);
    claim(scenario, "port codes say what was sent", r->wrong_code == 0);
    claim(scenario, "sent + withdrawn + refused + stored = arrived, on each board after each tick", r->unbalanced == 0);
    claim(scenario, "an arrival is refused for want of a slot exactly if none is free", run_total(r).misjudged == 0);
}

struct sums {
    long made, wanted, delivered, late, twice, lost;
    double ratio_sum, ratio_most;
    double rate; /* messages made in a tick if each I_min brought one */
};

static struct sums sum_up(const struct run *r)
{
    struct sums s = {0, 0, 0, 0, 0, 0, 0, 0, 0};

    for (int i = 0; i < r->plan->channels; i++) {
        const struct channel *c = &r->plan->channel[i];

        s.made += r->source[i].made;
        s.rate += 1.0 / c->interval;
        s.lost += run_lost(r, i);
        for (int k = 0; k < c->destinations; k++) {
            const struct arrivals *a = &r->source[i].arrivals[k];
            double bound = plan_bound(c, k);

            s.wanted += r->source[i].made;
            s.delivered += a->delivered;
            s.late += a->late;
            s.twice += a->twice;
            s.ratio_sum += a->sum / bound;
            if (a->delivered > 0 && a->most / bound > s.ratio_most)
                s.ratio_most = a->most / bound;
        }
    }
    return s;
}

/* ---- (a) Admitted load ---- */

static void fill_panel(struct panel *panel, const struct run *r)
{
    panel->horizon = r->plan->horizon;
    panel->columns = 0;
    for (int i = 0; i < r->plan->channels; i++) {
        for (int k = 0; k < r->plan->channel[i].destinations; k++) {
            const struct arrivals *a = &r->source[i].arrivals[k];
            struct column *column = &panel->column[panel->columns];

            if (a->delivered == 0)
                continue;
            column->bound = plan_bound(&r->plan->channel[i], k);
            column->least = a->least;
            column->most = a->most;
            column->mean = a->sum / (double)a->delivered;
            panel->columns++;
        }
    }
}

static void begin_admitted(struct run *r, uint8_t clock, long ticks)
{
    run_begin(r, &plan, clock, SEED_TRAFFIC, ticks);
    r->best_effort_percent = BEST_EFFORT_PERCENT;
    r->together = 1;
}

static void admitted(long ticks)
{
    char rows[HORIZONS][200];

    for (int i = 0; i < HORIZONS; i++) {
        char name[32];
        struct account total;
        struct sums s;
        int over = 0, most = 0;

        sprintf(name, "(a) horizon %d", horizons[i]);
        full_plan(horizons[i], 0);
        begin_admitted(&run, 0, ticks);
        run_ticks(&run, ticks);
        run_drain(&run);
        total = run_total(&run);
        s = sum_up(&run);
        for (int b = 0; b < BOARDS; b++) {
            over += run.most_slots[b] > plan.slots[b];
            if (run.most_slots[b] > most)
                most = run.most_slots[b];
        }
        claim(name, "every packet arrives within its bound", s.late == 0);
        claim(name, "none is withdrawn", total.withdrawn == 0);
        claim(name, "none is refused", total.closed + total.late + total.full == 0);
        claim(name, "each message arrives at each destination", s.lost == 0 && run_under_way(&run) == 0);
        claim(name, "none arrives twice", s.twice == 0);
        claim(name, "no board holds more than the planner reserved", over == 0);
        claim(name, "packets are sent after their entry was rewritten", run.rewritten > 0);
        claim_run(name, &run);
        sprintf(rows[i], "%7d %8d %8ld %6.2f %10ld %5ld %9ld %7ld %9.3f %8.3f %11d %5d %9ld %8ld %11ld",
                horizons[i], plan.channels, s.made, (double)s.made / (s.rate * (double)ticks), s.delivered, s.late,
                total.withdrawn, total.closed + total.late + total.full,
                s.ratio_sum / (double)s.delivered, s.ratio_most, run.least_slack, most, run.rewritten, run.early_sent,
                run.best_effort_sent);
        fill_panel(&panels[i], &run);
        run_end(&run);
    }
    printf("\n(a) %ld ticks; latency as a part of the bound, slack between sending and deadline, slots used,\n"
           "packets sent after their entry was rewritten\n", ticks);
    printf("horizon channels messages / rate deliveries  late withdrawn refused mean/bnd most/bnd least slack slots "
           "rewritten    early best-effort\n");
    for (int i = 0; i < HORIZONS; i++)
        printf("%s\n", rows[i]);
    printf("\n");
}

/*
 * ---- (b) A misbehaving source ----
 *
 * A source that keeps l(m_i) = max(l(m_i-1) + I_min, t) takes no more of a link than was planned, however often it
 * sends. Its times run ahead of the clock until its own board refuses them; a refused message takes no logical time.
 * Its board has to have slots for what comes up to 127 ticks early.
 *
 * A source that lies, or whose times run further ahead than their byte can say, has more packets on time than was
 * planned. Channels that share a link with it can then lose packets. Others cannot, if the slots suffice: what is
 * withdrawn on a shared link only takes load from the links after it.
 */

static void misbehaving(long ticks)
{
    static const enum manner manners[] = {KEEPS_TIMES, TIMES_RUN, LIES};
    static const char *const names[] = {"(b) keeps its times", "(b) times run away", "(b) lies"};
    const int culprit = 0;
    char rows[3][200];

    full_plan(HORIZON_SMALL, 1);
    for (int i = 0; i < 3; i++) {
        const struct source *s = &run.source[culprit];
        long sharing = 0, lost_sharing = 0, lost_apart = 0, hurt = 0, accepted_lost;
        struct account total;
        struct sums sums;

        begin_admitted(&run, 0, ticks);
        run.source[culprit].manner = manners[i];
        run_ticks(&run, ticks);
        run_drain(&run);
        total = run_total(&run);
        sums = sum_up(&run);
        for (int c = 0; c < plan.channels; c++) {
            long lost = run_lost(&run, c);

            if (c == culprit)
                continue;
            if (plan_share_link(&plan.channel[c], &plan.channel[culprit])) {
                sharing++;
                lost_sharing += lost;
                hurt += lost > 0;
            } else {
                lost_apart += lost;
            }
        }
        accepted_lost = run_lost(&run, culprit) - s->refused * plan.channel[culprit].destinations;
        claim(names[i], "whatever arrives, arrives within its bound and once", sums.late == 0 && sums.twice == 0);
        claim(names[i], "channels that share no link with the culprit lose nothing", lost_apart == 0);
        claim(names[i], "no board's memory is full", total.full == 0);
        claim_run(names[i], &run);
        if (manners[i] == KEEPS_TIMES) {
            claim(names[i], "the other channels lose nothing", lost_sharing == 0);
            claim(names[i], "the culprit's losses are refusals by its own board, of times too far ahead",
                  accepted_lost == 0 && s->refused > 0 && total.late == s->refused && total.withdrawn == 0);
        } else {
            claim(names[i], "channels that share a link with the culprit are not protected", lost_sharing > 0);
            claim(names[i], "their losses are withdrawals", total.closed == 0 && total.late == s->refused &&
                  total.withdrawn > 0);
        }
        sprintf(rows[i], "%-20s %8ld %8ld %9ld %9ld %7ld %5ld %8ld %10ld", names[i], s->made, s->refused, accepted_lost,
                total.withdrawn, sharing, hurt, lost_sharing, lost_apart);
        run_end(&run);
    }
    printf("\n(b) %ld ticks; one channel of %d, I_min %d, sends %d times as often\n", ticks, plan.channels,
           CULPRIT_INTERVAL, EXCESS);
    printf("culprit                  made  refused  its other withdrawn sharing  hurt their lost lost apart\n");
    for (int i = 0; i < 3; i++)
        printf("%s\n", rows[i]);
    printf("\n");
}

/* ---- (c) Overload ---- */

/* Many channels without admission, with all delays that keep early times within half a turn of the clock. */
static void overload_plan(void)
{
    other.random = SEED_OVERLOAD;
    plan_fresh(&plan, OVERLOAD_HORIZON);
    while (plan.channels < OVERLOAD_CHANNELS) {
        struct channel c = random_channel(100);

        for (int j = 0; j < HOPS_MAX; j++) {
            if (random_below(4) == 0)
                c.delay[0][j] = (int)random_below(OVERLOAD_SHORT_DELAYS);
            else
                c.delay[0][j] = (int)random_below(ROUTER_DELAY_MAX + 1 - OVERLOAD_HORIZON);
        }
        memcpy(c.delay[1], c.delay[0], sizeof c.delay[1]);
        plan_force(&plan, &c);
    }
}

/* Every source floods; one channel is closed at its end. */
static void begin_overload(struct run *r, uint8_t clock, long ticks)
{
    const struct channel *cut = &plan.channel[0];
    int end = cut->destination[0];

    run_begin(r, &plan, clock, SEED_TRAFFIC, ticks);
    r->best_effort_percent = BEST_EFFORT_PERCENT;
    for (int c = 0; c < plan.channels; c++) {
        r->source[c].manner = FLOODS;
        r->source[c].ready = r->begin;
    }
    mesh_connect(&r->mesh, end, cut->hop[end].in_id, 0, 0, 0);
}

static void account_row(const char *name, const struct account *a, long held)
{
    printf("%-6s %9ld %8ld %9ld %9ld %8ld %8ld %8ld %6ld\n", name, a->arrived, a->extra, a->sent, a->withdrawn,
           a->closed, a->late, a->full, held);
}

/* Injected messages and extra copies are delivered, withdrawn, refused or still there. */
static int whole_balances(const struct run *r)
{
    struct account total = run_total(r);
    struct sums s = sum_up(r);

    return s.made + total.extra ==
           s.delivered + total.withdrawn + total.closed + total.late + total.full + run_under_way(r);
}

static void overload(long ticks)
{
    struct account total;
    struct sums s;
    long held = 0;

    overload_plan();
    begin_overload(&run, 0, ticks);
    run_ticks(&run, ticks);
    total = run_total(&run);
    claim("(c)", "sent + withdrawn + refused + stored = injected, in the whole", whole_balances(&run));
    claim("(c)", "there are withdrawals and refusals of each kind",
          total.withdrawn > 0 && total.closed > 0 && total.late > 0 && total.full > 0);
    printf("\n(c) %ld ticks, %d channels without admission, each board injects in every tick\n", ticks, plan.channels);
    printf("board    arrived    extra      sent withdrawn   closed     late     full stored\n");
    for (int b = 0; b < BOARDS; b++) {
        char name[16];

        sprintf(name, "%d", b);
        held += mesh_held(&run.mesh.board[b]);
        account_row(name, &run.mesh.board[b].account, mesh_held(&run.mesh.board[b]));
    }
    account_row("all", &total, held);
    run_drain(&run);
    s = sum_up(&run);
    printf("injected %ld, delivered %ld\n\n", s.made, s.delivered);
    claim("(c)", "the same when nothing is left under way", whole_balances(&run) && run_under_way(&run) == 0);
    claim("(c)", "whatever arrives, arrives within its bound and once", s.late == 0 && s.twice == 0);
    claim_run("(c)", &run);
    run_end(&run);
}

/* ---- (d) Clocks that start before the turn ---- */

static void turn_of_clock(long ticks)
{
    for (int i = 0; i < HORIZONS + 1; i++) {
        void (*begin)(struct run *, uint8_t, long) = i < HORIZONS ? begin_admitted : begin_overload;
        char name[32];
        struct run *both[2] = {&run, &other};

        if (i < HORIZONS)
            full_plan(horizons[i], 0);
        else
            overload_plan();
        sprintf(name, i < HORIZONS ? "(d) as (a) %d" : "(d) as (c)", i < HORIZONS ? horizons[i] : 0);
        for (int k = 0; k < 2; k++) {
            begin(both[k], k == 0 ? 0 : CLOCK_BEFORE_TURN, ticks);
            run_ticks(both[k], ticks);
            run_drain(both[k]);
        }
        claim(name, "clocks that start at 255 and at 0 send the same at the same ticks", run.digest == other.digest);
        if (i < HORIZONS)
            claim(name, "every packet arrives, within its bound", sum_up(&other).late == 0 && sum_up(&other).lost == 0);
        claim_run(name, &other);
        run_end(&run);
        run_end(&other);
    }
}

/* ---- The planner's limit is sharp ---- */

#define SHARP_BOARD 5
#define SHARP_TIME 10

static struct channel two_hops(int source, int destination, int first_delay, int second_delay)
{
    struct channel c;

    memset(&c, 0, sizeof c);
    c.source = source;
    c.destinations = 1;
    c.destination[0] = destination;
    c.interval = INTERVAL_MAX;
    c.ahead = 1;
    for (int v = 0; v < SETTINGS; v++) {
        for (int j = 0; j < HOPS_MAX; j++)
            c.delay[v][j] = INTERVAL_MIN;
        c.delay[v][0] = first_delay;
        c.delay[v][1] = second_delay;
    }
    return c;
}

/*
 * Two channels meet on a link with d = 1 there. On the boards before, each is held up to its deadline by another
 * channel, so that both come one tick after their logical arrival time and have one tick left between them.
 */
static void sharp_limit(void)
{
    const int left = neighbour(SHARP_BOARD, MINUS_X), right = neighbour(SHARP_BOARD, PLUS_X);
    const int up = neighbour(SHARP_BOARD, PLUS_Y);
    struct channel meets[2] = {two_hops(left, up, 1, 1), two_hops(right, up, 1, 1)};
    struct channel holds_up[2] = {two_hops(left, SHARP_BOARD, 0, INTERVAL_MIN),
                                  two_hops(right, SHARP_BOARD, 0, INTERVAL_MIN)};

    plan_fresh(&plan, 0);
    claim("(e)", "the planner admits both that hold up and one that meets",
          plan_admit(&plan, &holds_up[0]) == ADMITTED && plan_admit(&plan, &holds_up[1]) == ADMITTED &&
          plan_admit(&plan, &meets[0]) == ADMITTED);
    claim("(e)", "it refuses the other that meets", plan_admit(&plan, &meets[1]) == NO_LINK);
    plan_force(&plan, &meets[1]);
    run_begin(&run, &plan, 0, SEED_TRAFFIC, 0);
    for (int c = 0; c < plan.channels; c++) {
        run.source[c].last = SHARP_TIME - INTERVAL_MAX;
        run.source[c].ready = c < 2 ? SHARP_TIME : SHARP_TIME - 1;
    }
    run_ticks(&run, 2 * SHARP_TIME);
    run_drain(&run);
    claim("(e)", "with both, each having kept its contract, one packet is withdrawn", run_total(&run).withdrawn == 1 &&
          run_lost(&run, 2) + run_lost(&run, 3) == 1 && run_lost(&run, 0) + run_lost(&run, 1) == 0);
    claim_run("(e)", &run);
    run_end(&run);
}

/*
 * ---- (f) Ties, (g) a full memory ----
 *
 * Each neighbour of a board hands over a packet in one tick, and the board itself one in the next, so that five come to
 * it at once, all for its local port. The packet that comes by port p has identifier id + p; the first byte of its data
 * is p + 1, or 0 if it is only there to hold the others up.
 */

#define MEET_BOARD 5
#define MEET_ID 1
#define HOLD_ID (MEET_ID + ROUTER_PORTS)
#define MEET_DELAY 20
#define MEET_ROUNDS 51        /* of five packets, which leave one slot */
#define MEET_DELAY_BEFORE 110 /* more than the ticks of so many rounds */
#define CLOCK_TURN 256

/* The delays of the packet that comes by each port: on the board before, which makes its time, and on this one. */
struct delays {
    uint8_t before[ROUTER_PORTS], here[ROUTER_PORTS];
};

static struct board *const meet_board = &run.mesh.board[MEET_BOARD];

static struct delays same_delays(uint8_t before, uint8_t here)
{
    struct delays d;

    memset(d.before, before, sizeof d.before);
    memset(d.here, here, sizeof d.here);
    return d;
}

static void meet_begin(uint8_t clock, uint8_t horizon)
{
    mesh_fresh(&run.mesh, clock);
    mesh_horizon(&run.mesh, horizon);
}

static void meet_connect(uint8_t id, const struct delays *d)
{
    for (uint8_t p = LOCAL; p < ROUTER_PORTS; p++) {
        uint8_t own = (uint8_t)(id + p);

        mesh_connect(&run.mesh, MEET_BOARD, own, own, d->here[p], 1u << LOCAL);
        for (int back = PLUS_X; p != LOCAL && back < ROUTER_PORTS; back++) {
            if (neighbour(neighbour(MEET_BOARD, p), back) == MEET_BOARD)
                mesh_connect(&run.mesh, neighbour(MEET_BOARD, p), own, own, d->before[p], (uint8_t)(1u << back));
        }
    }
}

static void meet_inject(int board, uint8_t id, int port, long time)
{
    uint8_t packet[ROUTER_PACKET_LEN] = {(uint8_t)(id + port), (uint8_t)time, (uint8_t)(id == MEET_ID ? port + 1 : 0)};

    mesh_inject(&run.mesh, board, packet);
}

static void meet_tick(void)
{
    mesh_tick(&run.mesh);
    mesh_carry(&run.mesh);
}

/* Lays a packet on each port of the board for the coming tick. */
static void meet(uint8_t id, const struct delays *d)
{
    long now = run.mesh.now;

    for (int p = PLUS_X; p < ROUTER_PORTS; p++)
        meet_inject(neighbour(MEET_BOARD, p), id, p, now);
    meet_tick();
    meet_inject(MEET_BOARD, id, LOCAL, now + d->before[LOCAL]);
}

/* The ports, counted from 1, by which the packets came that the board sends with this code, the first sent first. */
static long meet_order(uint8_t code)
{
    long order = 0;

    for (int i = 0; i < 2 * MEET_DELAY; i++) {
        meet_tick();
        if (meet_board->answers[ROUTER_ANSWERS_PORTS + LOCAL] == code)
            order = 10 * order + meet_board->outgoing[ROUTER_PACKET_LEN * LOCAL + ROUTER_PACKET_DATA];
    }
    return order;
}

/*
 * On a fresh board port 0 gets slot 0, port 1 slot 1, and so on. They are given back one by one, slot 4 last, so that
 * in a second round port 0 gets slot 4, and port 4 slot 0.
 */
static void ties_by_slot(void)
{
    static const struct {
        const char *name;
        uint8_t horizon, code;
    } kinds[] = {{"(f) on time", 0, ROUTER_PORT_ON_TIME}, {"(f) early", MEET_DELAY, ROUTER_PORT_EARLY}};
    struct delays d = same_delays(MEET_DELAY, MEET_DELAY);

    for (int i = 0; i < 2; i++) {
        long first, second;

        meet_begin(0, kinds[i].horizon);
        meet_connect(MEET_ID, &d);
        meet(MEET_ID, &d);
        first = meet_order(kinds[i].code);
        meet(MEET_ID, &d);
        second = meet_order(kinds[i].code);
        claim(kinds[i].name, "of five with one time and one deadline the lower slot is sent first", first == 12345);
        claim(kinds[i].name, "so it is where the slots were taken in falling order", second == 54321);
    }
}

/* Five of one deadline, whose times rise with their rank. Five others hold them up until the last time has come. */
static long one_deadline(uint8_t clock, const int *rank)
{
    struct delays d, hold = same_delays(1, ROUTER_PORTS);

    for (int p = LOCAL; p < ROUTER_PORTS; p++) {
        d.before[p] = (uint8_t)(1 + rank[p]);
        d.here[p] = (uint8_t)(MEET_DELAY - rank[p]);
    }
    meet_begin(clock, 0);
    meet_connect(MEET_ID, &d);
    meet_connect(HOLD_ID, &hold);
    meet(HOLD_ID, &hold);
    meet(MEET_ID, &d);
    return meet_order(ROUTER_PORT_ON_TIME);
}

/* Five of one time, whose deadlines rise with their rank and lie about half a turn of the clock ahead. */
static long one_time(uint8_t clock, const int *rank)
{
    struct delays d = same_delays(MEET_DELAY, 0);

    for (int p = LOCAL; p < ROUTER_PORTS; p++)
        d.here[p] = (uint8_t)(CLOCK_TURN / 2 - MEET_DELAY - 2 + rank[p]);
    meet_begin(clock, MEET_DELAY);
    meet_connect(MEET_ID, &d);
    meet(MEET_ID, &d);
    return meet_order(ROUTER_PORT_EARLY);
}

/* Of any two ports, and so of any two slots, each goes first in one of the two rows; at every clock. */
static void ties_by_time_or_deadline(void)
{
    static const int rank[2][ROUTER_PORTS] = {{3, 1, 4, 0, 2}, {1, 3, 0, 4, 2}};
    static const long order[2] = {42513, 31524};
    int by_time = 1, by_deadline = 1;

    for (int clock = 0; clock < CLOCK_TURN; clock++) {
        for (int i = 0; i < 2; i++) {
            by_time &= one_deadline((uint8_t)clock, rank[i]) == order[i];
            by_deadline &= one_time((uint8_t)clock, rank[i]) == order[i];
        }
    }
    claim("(f) on time", "of five with one deadline the earliest time is sent first, whatever their slots", by_time);
    claim("(f) early", "of five with one time the earliest deadline is sent first, whatever their slots", by_deadline);
}

static uint8_t meet_answer(void)
{
    meet_inject(MEET_BOARD, MEET_ID, LOCAL, run.mesh.now + MEET_DELAY_BEFORE);
    meet_tick();
    return meet_board->answers[ROUTER_ANSWERS_ARRIVALS + LOCAL];
}

static void full_memory(void)
{
    const struct account *a = &meet_board->account;
    struct delays d = same_delays(MEET_DELAY_BEFORE, MEET_DELAY);
    int full = 1;

    meet_begin(0, 0);
    meet_connect(MEET_ID, &d);
    for (int i = 0; i < MEET_ROUNDS; i++) {
        meet(MEET_ID, &d);
        meet_tick();
    }
    claim("(g)", "a board stores 255 packets, and none is sent",
          a->full == 0 && a->sent == 0 && mesh_free(meet_board) == 1);
    claim("(g)", "the 256th gets the last slot",
          meet_answer() == ROUTER_ARRIVAL_STORED && mesh_free(meet_board) == 0);
    for (int i = 0; i < ROUTER_SLOTS && full && a->sent == 0; i++)
        full = meet_answer() == ROUTER_ARRIVAL_FULL;
    claim("(g)", "each arrival after it is refused, in the tick that frees a slot too",
          full && a->sent == 1 && mesh_free(meet_board) == 1);
    claim("(g)", "the tick after that has a slot for one", meet_answer() == ROUTER_ARRIVAL_STORED);
    for (int i = 0; i < 2 * ROUTER_DELAY_MAX; i++)
        meet_tick();
    claim("(g)", "in the end every slot is free, and each packet stored is sent or withdrawn",
          mesh_free(meet_board) == ROUTER_SLOTS && a->arrived == a->sent + a->withdrawn + a->full);
    claim("(g)", "an arrival is refused for want of a slot exactly if none is free", a->misjudged == 0);
}

/* ---- Figure 10 of document 001 ---- */

static struct service service = {{8, 5, 3}, {9, 7, 4}, {{0}}};

static void figure_10(void)
{
    int even = 1, idle = 0;

    plan_fresh(&plan, 0);
    for (int i = 0; i < FIG10_CONNECTIONS; i++) {
        struct channel c;

        memset(&c, 0, sizeof c);
        c.source = 0;
        c.destinations = 1;
        c.destination[0] = neighbour(0, PLUS_X);
        c.interval = service.interval[i];
        c.ahead = AHEAD_MAX;
        for (int v = 0; v < SETTINGS; v++) {
            for (int j = 0; j < HOPS_MAX; j++)
                c.delay[v][j] = service.delay[i];
        }
        claim("Fig. 10", "the planner admits the connection", plan_admit(&plan, &c) == ADMITTED);
    }
    run_begin(&run, &plan, 0, SEED_TRAFFIC, FIG10_TICKS);
    run.best_effort_percent = 100;
    for (int i = 0; i < FIG10_CONNECTIONS; i++) {
        run.source[i].rhythm = GREEDY;
        run.source[i].ready = 0;
    }
    for (int t = 1; t <= FIG10_TICKS; t++) {
        const struct board *b = &run.mesh.board[0];
        int total = 0;

        run_ticks(&run, 1);
        for (int i = 0; i <= FIG10_CONNECTIONS; i++)
            service.packets[i][t] = service.packets[i][t - 1];
        if (b->answers[ROUTER_ANSWERS_PORTS + PLUS_X] == ROUTER_PORT_BEST_EFFORT) {
            service.packets[FIG10_CONNECTIONS][t]++;
        } else {
            for (int i = 0; i < FIG10_CONNECTIONS; i++)
                service.packets[i][t] += b->outgoing[ROUTER_PACKET_LEN * PLUS_X + ROUTER_PACKET_ID] ==
                                         plan.channel[i].hop[0].out_id;
        }
        for (int i = 0; i <= FIG10_CONNECTIONS; i++)
            total += service.packets[i][t];
        idle += total != t;
        for (int i = 0; i < FIG10_CONNECTIONS; i++) {
            int share = service.packets[i][t] * service.interval[i];

            even &= share >= t - 2 * service.interval[i] && share <= t + service.interval[i];
        }
    }
    claim("Fig. 10", "each connection has its part 1/I_min of the link, within two packets", even);
    claim("Fig. 10", "best-effort traffic has all the rest", idle == 0);
    claim("Fig. 10", "none is withdrawn or refused", run_total(&run).withdrawn + run_total(&run).late +
          run_total(&run).full + run_total(&run).closed == 0);
    claim_run("Fig. 10", &run);
    printf("\nFig. 10: packets sent on one link in %d ticks: ", FIG10_TICKS);
    for (int i = 0; i < FIG10_CONNECTIONS; i++)
        printf("d %d, I_min %d: %d; ", service.delay[i], service.interval[i], service.packets[i][FIG10_TICKS]);
    printf("best-effort: %d\n\n", service.packets[FIG10_CONNECTIONS][FIG10_TICKS]);
    run_end(&run);
}

/* usage: cabinet short|long [DIRECTORY OF THE PICTURES] */
int main(int argc, char **argv)
{
    const struct lengths *lengths = argc > 1 && strcmp(argv[1], "long") == 0 ? &long_run : &short_run;

    setvbuf(stdout, NULL, _IOLBF, 0); /* what was claimed stands there when the program ends by a signal */
    admitted(lengths->admitted);
    misbehaving(lengths->misbehaving);
    overload(lengths->overload);
    turn_of_clock(lengths->turn);
    sharp_limit();
    ties_by_slot();
    ties_by_time_or_deadline();
    full_memory();
    figure_10();
    if (argc > 2) {
        char path[FILENAME_MAX];

        snprintf(path, sizeof path, "%s/latency.svg", argv[2]);
        claim("pictures", "latency.svg is written", picture_latency(path, panels, HORIZONS));
        snprintf(path, sizeof path, "%s/fig10.svg", argv[2]);
        claim("pictures", "fig10.svg is written", picture_fig10(path, &service));
    }
    return failed == 0 ? EXIT_SUCCESS : EXIT_FAILURE;
}
