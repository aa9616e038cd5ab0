/*
 * example.c - sees that the archive suits the header, opens two connections, sends a packet through each, and prints
 * what leaves in a few ticks.
 */

#include <stdio.h>
#include <stdlib.h>
#include <string.h>

#include "router.h"

static uint8_t state[ROUTER_STATE_LEN], memory[ROUTER_MEMORY_LEN];
static uint8_t arrivals[ROUTER_ARRIVALS_LEN], outgoing[ROUTER_OUTGOING_LEN], answers[ROUTER_ANSWERS_LEN];

static void check(const char *what, uint8_t number)
{
    if (number != ROUTER_ACCEPTED) {
        printf("%s is refused: %u\n", what, number);
        exit(EXIT_FAILURE);
    }
}

static void set(uint8_t reg, uint8_t value)
{
    check("control write", router_control(state, sizeof state, memory, sizeof memory, reg, value));
}

static void open_connection(uint8_t in_id, uint8_t out_id, uint8_t d, uint8_t mask)
{
    set(ROUTER_REG_OUT_ID, out_id);
    set(ROUTER_REG_DELAY, d);
    set(ROUTER_REG_MASK, mask);
    set(ROUTER_REG_IN_ID, in_id);
}

static void put_packet(unsigned port, uint8_t id, uint8_t time, const char *text)
{
    uint8_t *packet = arrivals + ROUTER_PACKET_LEN * port;

    packet[ROUTER_PACKET_ID] = id;
    packet[ROUTER_PACKET_TIME] = time;
    memset(packet + ROUTER_PACKET_DATA, 0, ROUTER_DATA_LEN);
    memcpy(packet + ROUTER_PACKET_DATA, text, strlen(text));
}

static void tick(uint8_t arrivals_mask, uint8_t best_effort_mask)
{
    unsigned clock = state[ROUTER_STATE_CLOCK];

    check("tick", router_tick(state, sizeof state, memory, sizeof memory, arrivals, sizeof arrivals,
                              outgoing, sizeof outgoing, answers, sizeof answers, arrivals_mask, best_effort_mask));
    printf("tick %3u:", clock);
    for (unsigned p = 0; p < ROUTER_PORTS; p++) {
        const uint8_t *packet = outgoing + ROUTER_PACKET_LEN * p;
        const uint8_t *data = outgoing + router_display(outgoing, sizeof outgoing, (uint8_t)p);
        uint8_t code = answers[ROUTER_ANSWERS_PORTS + p];

        if (code == ROUTER_PORT_BEST_EFFORT)
            printf(" [%u best-effort]", p);
        else if (code != ROUTER_PORT_IDLE)
            printf(" [%u %s: connection %u, time %u, \"%.18s\"]", p, code == ROUTER_PORT_EARLY ? "early" : "on time",
                   packet[ROUTER_PACKET_ID], packet[ROUTER_PACKET_TIME], (const char *)data);
    }
    printf("\n");
}

int main(void)
{
    if (router_version() / 10000 != ROUTER_VERSION_MAJOR || router_version() < ROUTER_VERSION) {
        printf("the archive has version %lu, and router.h %d\n", (unsigned long)router_version(), ROUTER_VERSION);
        return EXIT_FAILURE;
    }
    check("fresh", router_fresh(state, sizeof state, memory, sizeof memory, 254));
    open_connection(5, 33, 10, 1 << 1);           /* to port 1 */
    open_connection(6, 34, 20, 1 << 0 | 1 << 4);  /* to ports 0 and 4 */
    set(ROUTER_REG_PORTS, 1 << 4);
    set(ROUTER_REG_HORIZON, 2);                   /* port 4 may send two ticks early */
    put_packet(0, 5, 1, "drum 180");
    put_packet(3, 6, 0, "fan on");
    tick(1 << 0 | 1 << 3, 1 << 0); /* clock 254: times 0 and 1 are early; best-effort waits at port 0 */
    tick(0, 1 << 0);               /* clock 255 */
    tick(0, 1 << 0);               /* clock 0: on time goes before best-effort */
    tick(0, 0);                    /* clock 1 */
    return EXIT_SUCCESS;
}
