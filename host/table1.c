/*
 * table1.c - prints the queues of a router as document 001, Table 1, has them, for the service bench.
 *   table1 DUMP             of a dump: the state, 1,804 bytes, and then the memory, 5,120
 *   table1 -t TAPE [N]      of a router that starts at clock 0 and takes the tape's records, the first N or all
 * Ends with status 1 and a word on standard error where there is nothing to show.
 */

#include <ctype.h>
#include <stdlib.h>
#include <string.h>

#include "dump.h"
#include "record.h"

#define MARGIN 19 /* columns for a queue's name and size */
#define CELLS 5   /* packets on a line, of at most 12 columns each */

const char *const program = "table1";
const int stop_status = EXIT_FAILURE;

static uint8_t queues[ROUTER_QUEUES_LEN];

/* What a tape tells besides: a dump has no records, and says nothing of best-effort traffic. */
static long records = -1, refused;
static size_t rest;               /* bytes after the last whole record */
static unsigned waiting;          /* ports with a packet for the coming tick */
static uint8_t arrivals[ROUTER_ARRIVALS_LEN];
static int best_effort_mask = -1; /* of the last tick */

/* ---- The tape ---- */

/* A record does to the router what it does in the program `tape`; returns 0 or its refusal. */
static unsigned take_record(const uint8_t *record)
{
    uint8_t outgoing[ROUTER_OUTGOING_LEN], answers[ROUTER_ANSWERS_LEN];
    unsigned refusal = ask_record(record, waiting), port = record[RECORD_PORT];

    if (refusal != ROUTER_ACCEPTED)
        return refusal;
    switch (record[RECORD_KIND]) {
    case KIND_CONTROL:
        return router_control(state, sizeof state, memory, sizeof memory, record[RECORD_REGISTER],
                              record[RECORD_VALUE]);
    case KIND_ARRIVAL:
        waiting |= 1u << port;
        memcpy(arrivals + ROUTER_PACKET_LEN * port, record + RECORD_PACKET, ROUTER_PACKET_LEN);
        return ROUTER_ACCEPTED;
    default:
        refusal = router_tick(state, sizeof state, memory, sizeof memory, arrivals, sizeof arrivals, outgoing,
                              sizeof outgoing, answers, sizeof answers, (uint8_t)waiting, record[RECORD_BEST_EFFORT]);
        if (refusal != ROUTER_ACCEPTED)
            return refusal;
        waiting = 0;
        best_effort_mask = record[RECORD_BEST_EFFORT];
        return ROUTER_ACCEPTED;
    }
}

/* Takes the first `wanted` records, or all of them where that is negative. */
static void take_tape(const char *name, long wanted)
{
    FILE *file = open_file(name);
    uint8_t record[RECORD_LEN];

    router_fresh(state, sizeof state, memory, sizeof memory, 0);
    for (records = 0; records != wanted; records++) {
        rest = read_some(file, name, record, sizeof record);
        if (rest != sizeof record)
            break;
        rest = 0;
        refused += take_record(record) != ROUTER_ACCEPTED;
    }
    if (records < wanted)
        stop("%s has only %ld records", name, records);
    fclose(file);
}

/* ---- The table ---- */

static void print_queue(const char *label, unsigned port, unsigned sort)
{
    const uint8_t *queue = queues + ROUTER_QUEUE_LEN * (2 * port + sort);
    unsigned size = queue[0] * 256u + queue[1];
    const char *mark = "";

    printf("  %-*s%4u", MARGIN - 6, label, size);
    for (unsigned i = 0; i < size; i++) {
        unsigned s = queue[ROUTER_QUEUE_ENTRIES + size - 1 - i];
        unsigned time = state[slot_at(s) + (sort == ROUTER_QUEUE_EARLY ? ROUTER_SLOT_TIME : ROUTER_SLOT_DEADLINE)];
        unsigned key = (uint8_t)(time - state[ROUTER_STATE_CLOCK]);

        if (i > 0 && i % CELLS == 0)
            printf("\n%*s", MARGIN, "");
        else if (i > 0 && *mark == '\0')
            printf(" ");
        mark = sort == ROUTER_QUEUE_EARLY && key <= state[ROUTER_STATE_HORIZONS + port] ? "*" : "";
        printf(" %3u:%02X %3u%s", s, memory[ROUTER_PACKET_LEN * s + ROUTER_PACKET_ID], key, mark);
    }
    printf("\n");
}

static void print_heading(const char *name)
{
    printf("Table 1 of %s\n", name);
    if (records >= 0)
        printf("after record %ld, with %ld refused\n", records, refused);
    if (rest > 0)
        printf("the tape ends within a record, after %zu bytes of it\n", rest);
    if (waiting != 0) {
        printf("packets for the next tick, which are in no queue yet, at port");
        for (unsigned p = 0; p < ROUTER_PORTS; p++) {
            if ((waiting >> p & 1) != 0)
                printf(" %u", p);
        }
        printf("\n");
    }
    printf("clock %u, %u packets stored, %u slots free\n\n", state[ROUTER_STATE_CLOCK],
           ROUTER_SLOTS - free_count(state), free_count(state));
    printf("Of each queue how many wait, and, first ones first, SLOT:ID KEY of each.\n"
           "ID is the outgoing identifier, in hex. KEY counts ticks: on time to the\n"
           "deadline, early to the logical arrival time; * is within the horizon.\n"
           "Of equal keys the earlier time comes first in queue 1 and the earlier deadline\n"
           "in queue 3, and where these are equal too, the lower slot.\n");
}

static void print_port(unsigned p)
{
    printf("\nport %u, horizon %u\n", p, state[ROUTER_STATE_HORIZONS + p]);
    print_queue("1 on time", p, ROUTER_QUEUE_ON_TIME);
    printf("  %-*s %s\n", MARGIN - 2, "2 best-effort",
           best_effort_mask < 0               ? "not known"
           : (best_effort_mask >> p & 1) != 0 ? "waits"
                                              : "does not wait");
    print_queue("3 early", p, ROUTER_QUEUE_EARLY);
}

int main(int argc, char **argv)
{
    char *end = NULL;
    int tape = argc > 2 && strcmp(argv[1], "-t") == 0;
    long wanted = argc > 3 ? strtol(argv[3], &end, 10) : -1;
    const char *name = tape ? argv[2] : argc == 2 ? argv[1] : NULL;
    uint8_t number;

    if (name == NULL || argc > 4 || (argc > 3 && (!isdigit((unsigned char)*argv[3]) || *end != '\0')))
        stop("usage: table1 DUMP | table1 -t TAPE [N]");
    if (tape)
        take_tape(name, wanted);
    else
        take_dump(name);
    number = router_queues_fill(state, sizeof state, memory, sizeof memory, queues, sizeof queues);
    if (number != ROUTER_ACCEPTED)
        stop("%s: the state is not sound (number %u); the program fault says where", name, number);
    print_heading(name);
    for (unsigned p = 0; p < ROUTER_PORTS; p++)
        print_port(p);
    end_output();
    return EXIT_SUCCESS;
}
