/*
 * scenario.c - the calls that the benchmark measures (scenario.h): the router, the service entries and the plain
 * implementations through like calls, on a host and on a board.
 */
#include <stdio.h>
#include <string.h>

#include "fields.h"
#include "scenario.h"

fresh_form plain_o2_fresh, plain_o3_fresh;
control_form plain_o2_control, plain_o3_control;
tick_form plain_o2_tick, plain_o3_tick;
fault_form plain_o2_fault, plain_o3_fault;
queues_fill_form plain_o2_queues_fill, plain_o3_queues_fill;
queues_control_form plain_o2_queues_control, plain_o3_queues_control;
queues_tick_form plain_o2_queues_tick, plain_o3_queues_tick;

/* Stands in for an implementation, to measure what the bench itself takes. */
static uint8_t none_fresh(uint8_t *state, size_t state_len, uint8_t *memory, size_t memory_len, uint8_t clock)
{
    (void)state, (void)state_len, (void)memory, (void)memory_len, (void)clock;
    return ROUTER_ACCEPTED;
}

static uint8_t none_control(uint8_t *state, size_t state_len, const uint8_t *memory, size_t memory_len,
                            uint8_t reg, uint8_t value)
{
    (void)state, (void)state_len, (void)memory, (void)memory_len, (void)reg, (void)value;
    return ROUTER_ACCEPTED;
}

static uint8_t none_tick(uint8_t *state, size_t state_len, uint8_t *memory, size_t memory_len,
                         const uint8_t *arrivals, size_t arrivals_len, uint8_t *outgoing, size_t outgoing_len,
                         uint8_t *answers, size_t answers_len, uint8_t arrivals_mask, uint8_t best_effort_mask)
{
    (void)state, (void)state_len, (void)memory, (void)memory_len, (void)arrivals, (void)arrivals_len;
    (void)outgoing, (void)outgoing_len, (void)answers, (void)answers_len, (void)arrivals_mask;
    (void)best_effort_mask;
    return ROUTER_ACCEPTED;
}

static uint16_t none_fault(const uint8_t *state, size_t state_len, const uint8_t *memory, size_t memory_len)
{
    (void)state, (void)state_len, (void)memory, (void)memory_len;
    return ROUTER_ACCEPTED;
}

static uint8_t none_queues_fill(const uint8_t *state, size_t state_len, const uint8_t *memory, size_t memory_len,
                                uint8_t *queues, size_t queues_len)
{
    (void)state, (void)state_len, (void)memory, (void)memory_len, (void)queues, (void)queues_len;
    return ROUTER_ACCEPTED;
}

static uint8_t none_queues_control(uint8_t *state, size_t state_len, const uint8_t *memory, size_t memory_len,
                                   const uint8_t *queues, size_t queues_len, uint8_t reg, uint8_t value)
{
    (void)queues, (void)queues_len;
    return none_control(state, state_len, memory, memory_len, reg, value);
}

static uint8_t none_queues_tick(uint8_t *state, size_t state_len, uint8_t *memory, size_t memory_len, uint8_t *queues,
                                size_t queues_len, const uint8_t *arrivals, size_t arrivals_len, uint8_t *outgoing,
                                size_t outgoing_len, uint8_t *answers, size_t answers_len, uint8_t arrivals_mask,
                                uint8_t best_effort_mask)
{
    (void)queues, (void)queues_len;
    return none_tick(state, state_len, memory, memory_len, arrivals, arrivals_len, outgoing, outgoing_len, answers,
                     answers_len, arrivals_mask, best_effort_mask);
}

const struct implementation implementations[IMPLEMENTATIONS] = {
    {"none", ENTRIES_OF(none)},
    {"ours", ENTRIES_OF(router)},
    {"O2", ENTRIES_OF(plain_o2)},
    {"O3", ENTRIES_OF(plain_o3)},
};
const char *const subject_name[] = {"router", "engine", "fault"};

/*
 * A busy tick brings five packets and sends five; with 251 before, 256 are stored when the ports choose. The engine's
 * are those of the router, by name, and filling. Questions alone are those of a control write to a register that there
 * is not, which is asked about after the state; router_fault has the same states.
 */
const struct scenario scenarios[] = {
    {"fresh", ROUTER, FRESH, 0},
    {"control-0", ROUTER, CONTROL, 0},
    {"control-256", ROUTER, CONTROL, 256},
    {"questions-0", ROUTER, QUESTIONS, 0},
    {"questions-64", ROUTER, QUESTIONS, 64},
    {"questions-256", ROUTER, QUESTIONS, 256},
    {"tick-0-idle", ROUTER, IDLE, 0},
    {"tick-64-idle", ROUTER, IDLE, 64},
    {"tick-256-idle", ROUTER, IDLE, 256},
    {"tick-0-busy", ROUTER, BUSY, 0},
    {"tick-64-busy", ROUTER, BUSY, 64},
    {"tick-251-busy", ROUTER, BUSY, 251},
    {"queues-fill-0", ENGINE, FILL, 0},
    {"queues-fill-64", ENGINE, FILL, 64},
    {"queues-fill-256", ENGINE, FILL, 256},
    {"queues-control-0", ENGINE, CONTROL, 0},
    {"queues-control-256", ENGINE, CONTROL, 256},
    {"queues-tick-0-idle", ENGINE, IDLE, 0},
    {"queues-tick-64-idle", ENGINE, IDLE, 64},
    {"queues-tick-256-idle", ENGINE, IDLE, 256},
    {"queues-tick-0-busy", ENGINE, BUSY, 0},
    {"queues-tick-64-busy", ENGINE, BUSY, 64},
    {"queues-tick-251-busy", ENGINE, BUSY, 251},
    {"fault-0", FAULT_ENTRY, FAULT, 0},
    {"fault-64", FAULT_ENTRY, FAULT, 64},
    {"fault-256", FAULT_ENTRY, FAULT, 256},
};
const unsigned scenario_count = sizeof scenarios / sizeof *scenarios;

#define PAINTED_LEN (1 << 16)

#define CLOCK 240
#define DELAY 40
#define LAXITY 20      /* on-time packets have 1 to LAXITY ticks to their deadline */
#define AHEAD 100      /* early packets are 1 to AHEAD ticks early */
#define CONNECTION 7   /* the entry that the control write commits; that of port p is CONNECTION + p */

static uint8_t state[ROUTER_STATE_LEN], memory[ROUTER_MEMORY_LEN];
static uint8_t arrivals[ROUTER_ARRIVALS_LEN], outgoing[ROUTER_OUTGOING_LEN], answers[ROUTER_ANSWERS_LEN];
static uint8_t queues[ROUTER_QUEUES_LEN];
static uint8_t first_state[ROUTER_STATE_LEN], first_memory[ROUTER_MEMORY_LEN], first_queues[ROUTER_QUEUES_LEN];

/* Stores packet s as the next one: by turns on time and early in a busy tick and for a fill, early in all others. */
static void store(enum kind kind, unsigned s)
{
    uint8_t *slot = first_state + slot_at(s);
    uint8_t deadline;

    if ((kind == BUSY || kind == FILL) && s % 2 == 0)
        deadline = (uint8_t)(CLOCK + 1 + s % LAXITY);
    else
        deadline = (uint8_t)(CLOCK + 1 + s % AHEAD + DELAY);
    slot[ROUTER_SLOT_TIME] = (uint8_t)(deadline - DELAY);
    slot[ROUTER_SLOT_DEADLINE] = deadline;
    slot[ROUTER_SLOT_MASK] = (uint8_t)(1u << s % ROUTER_PORTS);
    first_memory[ROUTER_PACKET_LEN * s + ROUTER_PACKET_TIME] = deadline;
}

void prepare(const struct scenario *scenario)
{
    plain_o2_fresh(first_state, sizeof first_state, first_memory, sizeof first_memory, CLOCK);
    for (unsigned s = 0; s < scenario->stored; s++)
        store(scenario->kind, s);
    set_free_count(first_state, ROUTER_SLOTS - scenario->stored);
    for (unsigned p = 0; p < ROUTER_PORTS; p++) {
        uint8_t *entry = first_state + entry_at(CONNECTION + p);

        entry[ROUTER_ENTRY_OUT_ID] = (uint8_t)p;
        entry[ROUTER_ENTRY_DELAY] = DELAY;
        entry[ROUTER_ENTRY_MASK] = (uint8_t)(1u << p);
        arrivals[ROUTER_PACKET_LEN * p + ROUTER_PACKET_ID] = (uint8_t)(CONNECTION + p);
        arrivals[ROUTER_PACKET_LEN * p + ROUTER_PACKET_TIME] = CLOCK;
    }
    plain_o2_queues_fill(first_state, sizeof first_state, first_memory, sizeof first_memory, first_queues,
                         sizeof first_queues);
}

static void copy_first(const struct scenario *scenario)
{
    memcpy(state, first_state, sizeof state);
    memcpy(memory, first_memory, sizeof memory);
    if (scenario->subject == ENGINE)
        memcpy(queues, first_queues, sizeof queues);
}

static unsigned call(const struct implementation *router, const struct scenario *scenario)
{
    uint8_t arriving = scenario->kind == BUSY ? ROUTER_MASK_MAX : 0;

    switch (scenario->kind) {
    case FRESH:
        return router->fresh(state, sizeof state, memory, sizeof memory, CLOCK);
    case FILL:
        return router->queues_fill(state, sizeof state, memory, sizeof memory, queues, sizeof queues);
    case CONTROL:
        if (scenario->subject == ENGINE)
            return router->queues_control(state, sizeof state, memory, sizeof memory, queues, sizeof queues,
                                          ROUTER_REG_IN_ID, CONNECTION);
        return router->control(state, sizeof state, memory, sizeof memory, ROUTER_REG_IN_ID, CONNECTION);
    case QUESTIONS:
        return router->control(state, sizeof state, memory, sizeof memory, ROUTER_REGISTERS, 0);
    case FAULT:
        return router->fault(state, sizeof state, memory, sizeof memory);
    default:
        if (scenario->subject == ENGINE)
            return router->queues_tick(state, sizeof state, memory, sizeof memory, queues, sizeof queues, arrivals,
                                       sizeof arrivals, outgoing, sizeof outgoing, answers, sizeof answers, arriving,
                                       0);
        return router->tick(state, sizeof state, memory, sizeof memory, arrivals, sizeof arrivals,
                            outgoing, sizeof outgoing, answers, sizeof answers, arriving, 0);
    }
}

void step(const struct implementation *router, const struct scenario *scenario)
{
    unsigned wanted = scenario->kind == QUESTIONS ? ROUTER_BAD_REGISTER : ROUTER_ACCEPTED, number;

    copy_first(scenario);
    number = call(router, scenario);
    if (number != wanted && router != implementations)
        fail("%s gives %u in %s", router->name, number, scenario->name);
}

/* A busy tick stores five and sends five; an idle one neither. So the figures mean what the scenario says. */
static void check(const struct implementation *router, const struct scenario *scenario)
{
    uint8_t busy = scenario->kind == BUSY;

    step(router, scenario);
    if (router == implementations || (scenario->kind != BUSY && scenario->kind != IDLE))
        return;
    for (unsigned p = 0; p < ROUTER_PORTS; p++) {
        if (answers[ROUTER_ANSWERS_PORTS + p] != (busy ? ROUTER_PORT_ON_TIME : ROUTER_PORT_IDLE) ||
            answers[ROUTER_ANSWERS_ARRIVALS + p] != (busy ? ROUTER_ARRIVAL_STORED : ROUTER_ARRIVAL_NONE))
            fail("%s has other answers in %s", router->name, scenario->name);
    }
}

static uint8_t painted[PAINTED_LEN];
static const struct implementation *stack_router;
static const struct scenario *stack_scenario;

static void call_on_painted(void)
{
    call(stack_router, stack_scenario);
}

/* The bytes from the top of a painted stack down to the deepest one that a call changed. */
static size_t depth(const struct implementation *router, const struct scenario *scenario, int paint)
{
    size_t intact = 0;

    prepare(scenario);
    step(router, scenario);
    copy_first(scenario);
    stack_router = router;
    stack_scenario = scenario;
    memset(painted, paint, sizeof painted);
    run_on(painted, sizeof painted, call_on_painted);
    while (intact < sizeof painted && painted[intact] == paint)
        intact++;
    return sizeof painted - intact;
}

static size_t deepest(const struct implementation *router, const struct scenario *scenario)
{
    size_t one = depth(router, scenario, 0xA5), other = depth(router, scenario, 0x5A);

    return one > other ? one : other;
}

void count(const char *implementation, const char *scenario, long repeats)
{
    for (unsigned i = 0; i < IMPLEMENTATIONS; i++) {
        for (unsigned s = 0; s < scenario_count; s++) {
            if (strcmp(implementation, implementations[i].name) != 0 || strcmp(scenario, scenarios[s].name) != 0)
                continue;
            prepare(&scenarios[s]);
            check(&implementations[i], &scenarios[s]);
            for (long r = 0; r < repeats; r++)
                step(&implementations[i], &scenarios[s]);
            return;
        }
    }
    fail("no implementation %s or scenario %s", implementation, scenario);
}

void print_stacks(void)
{
    for (unsigned s = 0; s < scenario_count; s++) {
        size_t none = deepest(&implementations[0], &scenarios[s]);

        for (unsigned i = 1; i < IMPLEMENTATIONS; i++)
            printf("%s %s %zu\n", implementations[i].name, scenarios[s].name,
                   deepest(&implementations[i], &scenarios[s]) - none);
    }
}
