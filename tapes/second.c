/*
 * second.c - the second implementation of the programs `tape` and `page`: prints the lines or the pages of the tape on
 * standard input, by documents 01 and 02 and over the router that never turns over (host/whole.c).
 * usage: second [pages]
 */

#include <stdio.h>
#include <stdlib.h>
#include <string.h>

#include "record.h"
#include "whole.h"

#define PAGE_TICKS 62
#define PAGE_NUMBERS 10000 /* 0 to 9,999 */

/* An accepted tick, as its line has it. */
struct tick {
    unsigned clock;
    uint8_t code[ROUTER_PORTS]; /* how each port went */
    uint8_t sent[ROUTER_PORTS]; /* the identifier of its packet, where it sent one */
    unsigned withdrawn;
};

static struct whole router;

/* Whether pages are printed; else lines. */
static int in_pages;

/* The page at hand: which one it is, from 1 on, and its ticks. */
static unsigned long page = 1;
static struct tick page_tick[PAGE_TICKS];
static unsigned page_ticks;

/* The packets for the coming tick: their ports, their bytes, and the numbers of their records. */
static uint8_t waiting;
static uint8_t arrivals[ROUTER_ARRIVALS_LEN];
static unsigned long arrival_number[ROUTER_PORTS];

/* A page has no refusals. */
static void print_refusal(unsigned long number, unsigned refusal)
{
    if (refusal != ROUTER_ACCEPTED && !in_pages)
        printf("R %06lu %02u\n", number, refusal);
}

/* Keeps an arrival for the coming tick. */
static void keep_arrival(unsigned long number, const uint8_t *record)
{
    unsigned port = record[RECORD_PORT];

    waiting = (uint8_t)(waiting | 1u << port);
    memcpy(arrivals + ROUTER_PACKET_LEN * port, record + RECORD_PACKET, ROUTER_PACKET_LEN);
    arrival_number[port] = number;
}

/* The true time of a packet that arrives now: T and the offset of its byte, which is -128 to 127. */
static int64_t true_time(uint8_t time)
{
    int ahead = (uint8_t)(time - whole_cut(router.clock));

    return router.clock + (ahead > INT8_MAX ? ahead - 256 : ahead);
}

static void print_port(uint8_t code, uint8_t sent)
{
    switch (code) {
    case ROUTER_PORT_IDLE:
        printf(" ---");
        break;
    case ROUTER_PORT_BEST_EFFORT:
        printf(" bef");
        break;
    default:
        printf(" %02X%c", sent, code == ROUTER_PORT_EARLY ? 'E' : 'N');
    }
}

/* The 30 characters of a tick. */
static void print_tick(const struct tick *t)
{
    printf("T %03u", t->clock);
    for (unsigned p = 0; p < ROUTER_PORTS; p++)
        print_port(t->code[p], t->sent[p]);
    printf(" %04u", t->withdrawn);
}

/* 64 lines of 72 characters: the number, 62 lines for the ticks, the total; then the next page is at hand. */
static void print_page(void)
{
    unsigned withdrawn = 0;

    printf("%72lu\n", page % PAGE_NUMBERS);
    for (unsigned i = 0; i < page_ticks; i++) {
        print_tick(&page_tick[i]);
        printf("%42s\n", "");
        withdrawn += page_tick[i].withdrawn;
    }
    for (unsigned i = page_ticks; i < PAGE_TICKS; i++)
        printf("%72s\n", "");
    printf("%06u%66s\n", withdrawn, "");
    page++;
    page_ticks = 0;
}

/* An accepted tick: its refused arrivals and its own line, or one more on the page. */
static void take_tick(const struct tick *t, const uint8_t *arrival_answers)
{
    for (unsigned p = 0; p < ROUTER_PORTS; p++)
        if (arrival_answers[p] != ROUTER_ARRIVAL_NONE && arrival_answers[p] != ROUTER_ARRIVAL_STORED)
            print_refusal(arrival_number[p], arrival_answers[p]);
    if (!in_pages) {
        print_tick(t);
        printf("\n");
        return;
    }
    page_tick[page_ticks++] = *t;
    if (page_ticks == PAGE_TICKS)
        print_page();
}

static struct tick tick_of(unsigned clock, const uint8_t *outgoing, const uint8_t *answers)
{
    struct tick t = {.clock = clock};

    for (unsigned p = 0; p < ROUTER_PORTS; p++) {
        const uint8_t *count = answers + ROUTER_ANSWERS_WITHDRAWN + 2 * p;

        t.code[p] = answers[ROUTER_ANSWERS_PORTS + p];
        t.sent[p] = outgoing[ROUTER_PACKET_LEN * p + ROUTER_PACKET_ID];
        t.withdrawn += count[0] * 256u + count[1];
    }
    return t;
}

/* A refused tick keeps the waiting arrivals. */
static void tick(unsigned long number, uint8_t best_effort)
{
    uint8_t outgoing[ROUTER_OUTGOING_LEN], answers[ROUTER_ANSWERS_LEN];
    uint8_t clock = whole_cut(router.clock);
    int64_t time[ROUTER_PORTS];
    struct tick accepted;
    uint8_t refusal;

    for (unsigned p = 0; p < ROUTER_PORTS; p++)
        time[p] = true_time(arrivals[ROUTER_PACKET_LEN * p + ROUTER_PACKET_TIME]);
    refusal = whole_tick(&router, arrivals, sizeof arrivals, time, outgoing, sizeof outgoing, answers,
                         sizeof answers, waiting, best_effort);
    if (refusal != ROUTER_ACCEPTED) {
        print_refusal(number, refusal);
        return;
    }
    accepted = tick_of(clock, outgoing, answers);
    take_tick(&accepted, answers + ROUTER_ANSWERS_ARRIVALS);
    waiting = 0;
}

static void take_record(unsigned long number, const uint8_t *record)
{
    unsigned refusal = ask_record(record, waiting);

    if (refusal != ROUTER_ACCEPTED)
        print_refusal(number, refusal);
    else if (record[RECORD_KIND] == KIND_CONTROL)
        print_refusal(number, whole_control(&router, record[RECORD_REGISTER], record[RECORD_VALUE]));
    else if (record[RECORD_KIND] == KIND_ARRIVAL)
        keep_arrival(number, record);
    else
        tick(number, record[RECORD_BEST_EFFORT]);
}

int main(int argc, char **argv)
{
    uint8_t record[RECORD_LEN];
    unsigned long number = 1;
    size_t len;

    if (argc > 2 || (argc == 2 && strcmp(argv[1], "pages") != 0)) {
        fprintf(stderr, "usage: second [pages]\n");
        return EXIT_FAILURE;
    }
    in_pages = argc == 2;
    whole_fresh(&router, 0);
    while ((len = fread(record, 1, RECORD_LEN, stdin)) == RECORD_LEN)
        take_record(number++, record);
    if (len != 0)
        print_refusal(number, RECORD_SHORT);
    if (page_ticks != 0)
        print_page();
    return ferror(stdin) || fflush(stdout) != 0 || ferror(stdout) ? EXIT_FAILURE : EXIT_SUCCESS;
}
