/*
 * fault.c - says in a sentence what is wrong with a router, and where, for the service bench.
 *   fault DUMP              of a dump: the state, 1,804 bytes, and then the memory, 5,120
 * router_fault tells the number, and the slot of a bad packet. The program finds the place within that part, the first
 * one in the order of router.h, SOUND, and prints it with its bytes in hex.
 * Exit status: 0 for a sound dump, 1 for one that is not, and 2, with a word on standard error, where there is no
 * dump to look at, or no such fault in it as router_fault tells.
 */

#include <stdarg.h>
#include <stdlib.h>

#include "dump.h"

const char *const program = "fault";
const int stop_status = 2;

/* ---- The sentence ---- */

/* Prints number, part and these words; then come the bytes, in brackets. */
static void begin(unsigned number, const char *format, ...)
{
    static const char *const part[] = {"settings", "stack", "packets"};
    va_list list;

    printf("%u, %s: ", number, part[number - ROUTER_BAD_SETTINGS]);
    va_start(list, format);
    vprintf(format, list);
    va_end(list);
    printf(" (");
}

static void show(const char *label, const uint8_t *bytes, unsigned len)
{
    printf("%s", label);
    for (unsigned i = 0; i < len; i++)
        printf(" %02X", bytes[i]);
}

static void end(void)
{
    printf(").\n");
}

/* ---- The place within each part: says it, or returns 0 where there is none ---- */

static int above(const char *owner, unsigned which, const char *what, uint8_t value, unsigned limit,
                 const uint8_t *bytes, unsigned len)
{
    if (value <= limit)
        return 0;
    begin(ROUTER_BAD_SETTINGS, "%s %u %s %u, above %u", owner, which, what, value, limit);
    show(len == 1 ? "byte" : "bytes", bytes, len);
    end();
    return 1;
}

static int entry_above(unsigned c, const char *what, unsigned field, unsigned limit)
{
    const uint8_t *entry = state + entry_at(c);

    return above("connection", c, what, entry[field], limit, entry, ROUTER_ENTRY_LEN);
}

static int byte_above(const char *owner, unsigned which, const char *what, size_t at, unsigned limit)
{
    return above(owner, which, what, state[at], limit, state + at, 1);
}

static int settings_fault(void)
{
    for (unsigned c = 0; c < ROUTER_CONNECTIONS; c++) {
        if (entry_above(c, "has delay", ROUTER_ENTRY_DELAY, ROUTER_DELAY_MAX) ||
            entry_above(c, "has mask", ROUTER_ENTRY_MASK, ROUTER_MASK_MAX))
            return 1;
    }
    for (unsigned p = 0; p < ROUTER_PORTS; p++) {
        if (byte_above("port", p, "has horizon", ROUTER_STATE_HORIZONS + p, ROUTER_HORIZON_MAX))
            return 1;
    }
    return byte_above("register", ROUTER_REG_DELAY, "holds delay", ROUTER_STATE_DELAY, ROUTER_DELAY_MAX) ||
           byte_above("register", ROUTER_REG_MASK, "holds mask", ROUTER_STATE_MASK, ROUTER_MASK_MAX) ||
           byte_above("register", ROUTER_REG_PORTS, "holds mask", ROUTER_STATE_PORTS, ROUTER_MASK_MAX);
}

/* Two of the first n entries are one slot. Marks the slots that are entries. */
static int entry_twice(unsigned n, uint8_t *marked)
{
    const uint8_t *stack = state + ROUTER_STATE_STACK;

    for (unsigned i = 0; i < n; i++) {
        unsigned first = 0;

        while (stack[first] != stack[i])
            first++;
        if (first < i) {
            begin(ROUTER_BAD_STACK, "entries %u and %u of the first %u are both slot %u", first, i, n, stack[i]);
            show("bytes", stack + first, 1);
            show(" and", stack + i, 1);
            end();
            return 1;
        }
        marked[stack[i]] = 1;
    }
    return 0;
}

/* An entry is a slot with a packet, or an empty slot is no entry. */
static int entries_differ_from_slots(unsigned n, const uint8_t *marked)
{
    for (unsigned i = 0; i < n; i++) {
        unsigned s = state[ROUTER_STATE_STACK + i];

        if (state[slot_at(s) + ROUTER_SLOT_MASK] != 0) {
            begin(ROUTER_BAD_STACK, "entry %u of the first %u is slot %u, whose mask is %u, not 0", i, n, s,
                  state[slot_at(s) + ROUTER_SLOT_MASK]);
            show("slot's bytes", state + slot_at(s), ROUTER_SLOT_LEN);
            end();
            return 1;
        }
    }
    for (unsigned s = 0; s < ROUTER_SLOTS; s++) {
        if (state[slot_at(s) + ROUTER_SLOT_MASK] == 0 && !marked[s]) {
            begin(ROUTER_BAD_STACK, "slot %u has mask 0 and is not among the first %u entries", s, n);
            show("slot's bytes", state + slot_at(s), ROUTER_SLOT_LEN);
            end();
            return 1;
        }
    }
    return 0;
}

static int stack_fault(void)
{
    unsigned n = free_count(state);
    uint8_t marked[ROUTER_SLOTS] = {0};

    if (n > ROUTER_SLOTS) {
        begin(ROUTER_BAD_STACK, "the free count is %u, above %u", n, ROUTER_SLOTS);
        show("bytes", state + ROUTER_STATE_FREE, 2);
        end();
        return 1;
    }
    return entry_twice(n, marked) || entries_differ_from_slots(n, marked);
}

#define OFFSET_MAX 126 /* of a stored packet's time */

static int packet_fault(unsigned s)
{
    const uint8_t *slot = state + slot_at(s), *packet = memory + ROUTER_PACKET_LEN * s;
    unsigned time = slot[ROUTER_SLOT_TIME], deadline = slot[ROUTER_SLOT_DEADLINE], mask = slot[ROUTER_SLOT_MASK];
    unsigned clock = state[ROUTER_STATE_CLOCK], ahead = (uint8_t)(time - clock);
    int d = (uint8_t)(deadline - time), offset = ahead < 128 ? (int)ahead : (int)ahead - 256;

    if (mask == 0)
        return 0;
    if (mask > ROUTER_MASK_MAX)
        begin(ROUTER_BAD_PACKETS, "in slot %u the mask is %u, above %u", s, mask, ROUTER_MASK_MAX);
    else if (d > ROUTER_DELAY_MAX)
        begin(ROUTER_BAD_PACKETS, "in slot %u the deadline %u is %d after the time %u, above %u", s, deadline, d, time,
              ROUTER_DELAY_MAX);
    else if (offset > OFFSET_MAX)
        begin(ROUTER_BAD_PACKETS, "in slot %u the time %u is %d ahead of the clock %u, above %u", s, time, offset,
              clock, OFFSET_MAX);
    else if (offset < -d)
        begin(ROUTER_BAD_PACKETS, "in slot %u the deadline %u has passed, %d before the clock %u", s, deadline,
              -(offset + d), clock);
    else if (packet[ROUTER_PACKET_TIME] != deadline)
        begin(ROUTER_BAD_PACKETS, "in slot %u the deadline is %u, and byte %u of the packet in memory is %u", s,
              deadline, ROUTER_PACKET_TIME, packet[ROUTER_PACKET_TIME]);
    else
        return 0;
    show("slot's bytes", slot, ROUTER_SLOT_LEN);
    show(", packet's first bytes", packet, ROUTER_PACKET_DATA);
    end();
    return 1;
}

/* ---- The program ---- */

/* Says what router_fault tells; returns 0 where that is nothing, or not to be found. */
static int say(unsigned fault)
{
    if (fault == ROUTER_BAD_SETTINGS)
        return settings_fault();
    if (fault == ROUTER_BAD_STACK)
        return stack_fault();
    return ROUTER_FAULT_NUMBER(fault) == ROUTER_BAD_PACKETS && packet_fault(ROUTER_FAULT_SLOT(fault));
}

int main(int argc, char **argv)
{
    unsigned fault;

    if (argc != 2)
        stop("usage: fault DUMP");
    take_dump(argv[1]);
    fault = router_fault(state, sizeof state, memory, sizeof memory);
    if (fault == ROUTER_ACCEPTED)
        printf("sound: %u packets stored, %u slots free.\n", ROUTER_SLOTS - free_count(state), free_count(state));
    else if (!say(fault))
        stop("%s: router_fault tells number %u, slot %u, and the dump has no such fault", argv[1],
             ROUTER_FAULT_NUMBER(fault), ROUTER_FAULT_SLOT(fault));
    end_output();
    return fault == ROUTER_ACCEPTED ? EXIT_SUCCESS : EXIT_FAILURE;
}
