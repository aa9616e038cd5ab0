/*
 * router.h - the packet router of the control boards: entries over byte areas that the caller lends.
 *
 * The router forwards packets of 20 bytes from five inputs to five outputs by deadline. It has an 8-bit clock,
 * 256 connections and a packet memory of 256 slots. All it knows lies in two areas of the caller, the state and
 * the packet memory; it keeps no variable and no pointer of its own, allocates nothing and calls nobody back.
 * A board makes the two areas fresh once, opens connections with control writes, and then calls a tick once per
 * packet time; display software finds the data of a port with router_display. The service bench may run the queue
 * engine in their place (see THE QUEUE ENGINE): the same router, with every port's queues in a third area. When a board
 * refuses its calls because its state is not sound, router_fault says which part is bad, and which slot.
 *
 *
 * LINKING
 *
 * librouter.a has router_fresh, router_control, router_tick, router_display and router_version; libservice.a has
 * router_fault, router_queues_fill, router_queues_control, router_queues_tick and service_version. A board links the
 * first alone; neither needs the other, and a program may link both. For the board's own processor, named as clang
 * names it, the two are written by
 *
 *     sh host/archive-for.sh -mcpu=cortex-m4 thumbv7em-none-eabi router librouter.a
 *     sh host/archive-for.sh -mcpu=cortex-m4 thumbv7em-none-eabi service libservice.a
 *
 * which proves the library and compiles the proved module for that processor: of either byte order, with pointers and a
 * size_t of 32 or 64 bits, by the C calling convention of the triple. Firmware compiled with -mfloat-abi=hard takes the
 * triple that ends in eabihf. For Linux on x86-64 `sh host/build.sh router service` writes the same to target/staticlib.
 * An archive needs memcpy, memmove and memset, or some of them, and nothing else: no start-up code, no heap, no other
 * function. On ARM they have the names that its compilers give them: __aeabi_memcpy, __aeabi_memmove, __aeabi_memset and
 * __aeabi_memclr, also with 4 or 8 behind. No area has to lie on a word. docs/BENCH.md has the stack of each call.
 * For a processor that the kit's clang has not, there are host/plain.c and host/plain_queues.c, the same entries in C99
 * (under these names by host/self.c and host/self_queues.c): they are tested against these archives byte for byte, and
 * not proved.
 *
 *
 * AREAS
 *
 * An area is handed over as a pointer and then its length in bytes. For every call the caller answers for this:
 *   - each area is at least as long as the length handed over with it, readable, and (unless const) writable;
 *   - the areas of one call do not overlap;
 *   - no pointer is null, not even with length 0.
 * A call whose lengths are not those below is refused; none of its areas is then read or written. A call touches
 * nothing outside its areas. Calls on different state and memory are independent of each other.
 *
 *
 * ANSWERS AND REFUSALS
 *
 * Each call but router_display and those of the versions returns one number: ROUTER_ACCEPTED (0), or the number of the
 * first question, in the order of the list "Numbers" below, that the call does not pass; router_fault can add a slot to
 * it. A refused call changes nothing: each byte of each area is as it was, outgoing packets and answers included. The
 * number and every byte of every area after a call depend on nothing but the numbers and the bytes handed over.
 *
 *
 * TIMES
 *
 * The clock counts ticks and turns over at 256, as do all sums and differences of times. The offset of a time is
 * (time - clock) read as a signed byte, -128 to 127. A packet is on time if the offset of its logical arrival
 * time is at most 0, and early if it is above 0.
 *
 *
 * ORDER
 *
 * Of the packets that wait for a port, those on time go before the early ones. With t the clock:
 *   - on time the least deadline - t goes first, and of equal ones the least offset of the time, so the earliest time;
 *   - early the least time - t goes first, and of equal ones the least deadline - t, so the earliest deadline.
 * Of packets with one time and one deadline the lowest slot goes first. The differences are 0 to 255, without a sign:
 * an early packet's deadline can be 254 ticks ahead.
 */
#ifndef ROUTER_H
#define ROUTER_H

#include <stddef.h>
#include <stdint.h>

#ifdef __cplusplus
extern "C" {
#endif

/*
 * The version of the header and of the archives it describes, to be compared by #if. The first number changes with what
 * a call does, returns or needs, or with the layout of an area, so that a caller has to look; the second with what is
 * only added; the third with anything else. router_version and service_version tell it of the archives at run time.
 */
#define ROUTER_VERSION_MAJOR 3
#define ROUTER_VERSION_MINOR 1
#define ROUTER_VERSION_PATCH 0
#define ROUTER_VERSION (ROUTER_VERSION_MAJOR * 10000 + ROUTER_VERSION_MINOR * 100 + ROUTER_VERSION_PATCH)

/* Counts. */
#define ROUTER_PORTS 5
#define ROUTER_SLOTS 256
#define ROUTER_CONNECTIONS 256
#define ROUTER_REGISTERS 6

/* Lengths of the areas, in bytes. */
#define ROUTER_STATE_LEN 1804
#define ROUTER_MEMORY_LEN 5120
#define ROUTER_ARRIVALS_LEN 100
#define ROUTER_OUTGOING_LEN 100
#define ROUTER_ANSWERS_LEN 20

/* Largest values. A port mask has bit p (1 << p) for port p. */
#define ROUTER_MASK_MAX 31
#define ROUTER_DELAY_MAX 127
#define ROUTER_HORIZON_MAX 127

/*
 * A packet. Slot s has bytes ROUTER_PACKET_LEN * s and following of the memory; port p likewise in the arrivals
 * and outgoing areas. A packet arrives with its connection identifier and its logical arrival time; in memory
 * and when it leaves it has the outgoing identifier and its deadline, the logical arrival time at the next node.
 */
#define ROUTER_PACKET_LEN 20
#define ROUTER_PACKET_ID 0
#define ROUTER_PACKET_TIME 1
#define ROUTER_PACKET_DATA 2
#define ROUTER_DATA_LEN 18

/* The state, by offset. */
#define ROUTER_STATE_CLOCK 0
#define ROUTER_STATE_HORIZONS 1  /* one byte per port */
#define ROUTER_STATE_OUT_ID 6    /* last write to ROUTER_REG_OUT_ID */
#define ROUTER_STATE_DELAY 7     /* last write to ROUTER_REG_DELAY */
#define ROUTER_STATE_MASK 8      /* last write to ROUTER_REG_MASK */
#define ROUTER_STATE_PORTS 9     /* last write to ROUTER_REG_PORTS */
#define ROUTER_STATE_FREE 10     /* free count n, two bytes, high byte first */
#define ROUTER_STATE_STACK 12    /* idle addresses; the top is entry n - 1, the next to be taken */
#define ROUTER_STATE_SLOTS 268   /* ROUTER_SLOT_LEN bytes per slot */
#define ROUTER_STATE_TABLE 1036  /* ROUTER_ENTRY_LEN bytes per connection, by incoming identifier */

/* A slot; it is empty if its mask is 0. */
#define ROUTER_SLOT_LEN 3
#define ROUTER_SLOT_TIME 0       /* logical arrival time */
#define ROUTER_SLOT_DEADLINE 1   /* logical arrival time + d */
#define ROUTER_SLOT_MASK 2       /* ports still to serve */

/* An entry of the connection table; the connection is closed if its mask is 0. */
#define ROUTER_ENTRY_LEN 3
#define ROUTER_ENTRY_OUT_ID 0
#define ROUTER_ENTRY_DELAY 1
#define ROUTER_ENTRY_MASK 2

/* Control registers. A write to ROUTER_REG_IN_ID or ROUTER_REG_HORIZON is a commit; the others wait for one. */
#define ROUTER_REG_OUT_ID 0      /* outgoing identifier, 0 to 255 */
#define ROUTER_REG_DELAY 1       /* delay d, 0 to ROUTER_DELAY_MAX */
#define ROUTER_REG_MASK 2        /* mask of output ports, 0 to ROUTER_MASK_MAX */
#define ROUTER_REG_IN_ID 3       /* incoming identifier, 0 to 255: commits registers 0, 1 and 2 to that entry */
#define ROUTER_REG_PORTS 4       /* mask of ports for the next horizon, 0 to ROUTER_MASK_MAX */
#define ROUTER_REG_HORIZON 5     /* horizon, 0 to ROUTER_HORIZON_MAX: commits it to the ports of register 4 */

/* The answers of a tick, by offset. */
#define ROUTER_ANSWERS_PORTS 0      /* a port code per output */
#define ROUTER_ANSWERS_ARRIVALS 5   /* an arrival number per input */
#define ROUTER_ANSWERS_WITHDRAWN 10 /* packets withdrawn per output, two bytes, high byte first */

/* Numbers returned by a call, in the order in which the questions are put. */
#define ROUTER_ACCEPTED 0
#define ROUTER_BAD_LENGTH 1      /* an area does not have its length */
#define ROUTER_BAD_SETTINGS 13   /* the settings are not sound (see SOUND, for the next two also) */
#define ROUTER_BAD_STACK 14      /* the idle-address stack or the free count is not sound */
#define ROUTER_BAD_PACKETS 15    /* a stored packet is not sound */
#define ROUTER_BAD_PORT_MASK 3   /* tick: a mask is above ROUTER_MASK_MAX */
#define ROUTER_BAD_REGISTER 4    /* control: there is no such register */
#define ROUTER_BAD_VALUE 5       /* control: the value does not fit the register */
#define ROUTER_BAD_QUEUES 21     /* queue engine: the queues are not those of the state (see BELONG) */

/* Arrival numbers, one per input in the answers; the refusals are put in this order. */
#define ROUTER_ARRIVAL_NONE 0    /* the arrivals mask does not have this port */
#define ROUTER_ARRIVAL_STORED 1
#define ROUTER_ARRIVAL_CLOSED 6  /* the entry of its identifier has mask 0 */
#define ROUTER_ARRIVAL_LATE 7    /* the offset of its time is below -d */
#define ROUTER_ARRIVAL_FULL 8    /* no slot is idle at its turn; slots that this tick frees come too late */

/* Port codes, one per output in the answers. */
#define ROUTER_PORT_IDLE 0
#define ROUTER_PORT_ON_TIME 1
#define ROUTER_PORT_BEST_EFFORT 2
#define ROUTER_PORT_EARLY 3

/*
 * SOUND. A state and its memory are sound if three parts of them are. Every call but router_fresh and router_display
 * asks about these in this order; each has its number:
 *
 *   ROUTER_BAD_SETTINGS: the settings.
 *     - In each entry of the connection table d is at most ROUTER_DELAY_MAX and the mask at most ROUTER_MASK_MAX.
 *     - Each horizon is at most ROUTER_HORIZON_MAX.
 *     - Register 1 is at most ROUTER_DELAY_MAX, and registers 2 and 4 are at most ROUTER_MASK_MAX.
 *   ROUTER_BAD_STACK: the idle-address stack and the free count.
 *     - n is at most 256.
 *     - The first n stack entries differ from each other.
 *     - They are exactly the empty slots. A slot is empty if its mask is 0; other masks are all alike here.
 *   ROUTER_BAD_PACKETS: the stored packets, in the slots that are not empty.
 *     - The mask is at most ROUTER_MASK_MAX.
 *     - d = deadline - time is at most ROUTER_DELAY_MAX.
 *     - The offset of the time is -d to 126.
 *     - The byte ROUTER_PACKET_TIME of the slot's memory equals the deadline.
 *
 * So a mask of 32 is a fault of the stack if its slot is among the first n stack entries, and else of the packets.
 * Nothing else matters: the stack from entry n on, the other bytes of an empty slot and of its memory, and all
 * identifiers and data may be anything. router_fresh makes them sound, and every accepted call keeps them so.
 * The clock byte is the router's: to set it on a router that holds packets makes the state unsound in general.
 */

/*
 * router_fresh makes a router with the given clock, no connection and no packet.
 *
 * The old content of the areas is not looked at. If accepted it writes every byte of both: the clock; n = 256;
 * stack entry i is 255 - i, so that slot 0 is taken first; every other byte of state and memory is zero.
 *
 * Returns ROUTER_ACCEPTED or ROUTER_BAD_LENGTH. Every clock is accepted.
 */
uint8_t router_fresh(uint8_t *state, size_t state_len,
                     uint8_t *memory, size_t memory_len,
                     uint8_t clock);

/*
 * router_control writes one control register.
 *
 * Reads state and memory (the memory for the question whether they are sound, and only reads it). If accepted it
 * writes state bytes only:
 *   ROUTER_REG_OUT_ID, _DELAY, _MASK, _PORTS   the value is stored at ROUTER_STATE_OUT_ID, _DELAY, _MASK, _PORTS;
 *   ROUTER_REG_IN_ID                           table entry `value` gets the three stored bytes outgoing
 *                                              identifier, d and mask; with mask 0 this closes the connection;
 *   ROUTER_REG_HORIZON                         each port in the stored ports mask gets `value` as its horizon.
 * A commit leaves the stored bytes as they are. Packets already in memory do not change when their entry does.
 *
 * The router limits d and horizons each alone. Whoever chooses them keeps their sum below 128 on each port: a packet
 * sent far ahead of its time must still be less than half a turn of the clock early at the next board.
 *
 * Returns ROUTER_ACCEPTED, ROUTER_BAD_LENGTH, ROUTER_BAD_SETTINGS, ROUTER_BAD_STACK, ROUTER_BAD_PACKETS,
 * ROUTER_BAD_REGISTER or ROUTER_BAD_VALUE.
 */
uint8_t router_control(uint8_t *state, size_t state_len,
                       const uint8_t *memory, size_t memory_len,
                       uint8_t reg, uint8_t value);

/*
 * router_tick runs one packet time.
 *
 * Reads state, memory, and of the arrivals (which it only reads) the packets of the ports in arrivals_mask; the
 * other packets there may be anything. The old content of outgoing and answers is not looked at. If accepted it
 * writes state and memory, all of outgoing and all of answers. With t the clock:
 *
 *   1. Arrivals, port 0 first. An arrival that gets none of the refusals ROUTER_ARRIVAL_CLOSED, _LATE, _FULL
 *      takes the top idle address. Its slot gets its time, deadline = time + d, and the entry's mask; the memory
 *      gets the packet with the outgoing identifier and the deadline in the place of identifier and time. A
 *      refused arrival changes nothing but its answer, and the tick goes on.
 *   2. Each port looks at the slots whose mask has it. Of the packets on time the one that goes first (see ORDER)
 *      is sent, ROUTER_PORT_ON_TIME. If there is none: where best_effort_mask has the port, best-effort traffic
 *      has it, ROUTER_PORT_BEST_EFFORT. Else of the early packets the one that goes first is sent if its time - t
 *      is at most the port's horizon, ROUTER_PORT_EARLY. Else ROUTER_PORT_IDLE.
 *   3. A sent packet is copied from memory to its port in outgoing; a port without a packet gets 20 zero bytes.
 *      The port leaves the slot's mask; a packet for several ports stays until each of them is served.
 *   4. A packet with ports still to serve and deadline t is withdrawn: it counts one for each of these ports in
 *      ROUTER_ANSWERS_WITHDRAWN, and its mask becomes 0.
 *   5. The slots emptied in this tick are given back to the stack, the lowest address first. Their other bytes
 *      and their memory stay.
 *   6. The clock advances by 1 and turns over after 255.
 *
 * Returns ROUTER_ACCEPTED, ROUTER_BAD_LENGTH, ROUTER_BAD_SETTINGS, ROUTER_BAD_STACK, ROUTER_BAD_PACKETS or
 * ROUTER_BAD_PORT_MASK.
 */
uint8_t router_tick(uint8_t *state, size_t state_len,
                    uint8_t *memory, size_t memory_len,
                    const uint8_t *arrivals, size_t arrivals_len,
                    uint8_t *outgoing, size_t outgoing_len,
                    uint8_t *answers, size_t answers_len,
                    uint8_t arrivals_mask, uint8_t best_effort_mask);

/*
 * router_display says where the data of a port starts in an outgoing area: ROUTER_DATA_LEN bytes from there are the
 * port's. There is no such part exactly if outgoing_len is not ROUTER_OUTGOING_LEN or the port is above 4, and then it
 * returns outgoing_len. It puts none of the questions and changes nothing.
 *
 *     size_t start = router_display(outgoing, sizeof outgoing, port);
 *
 *     if (start < sizeof outgoing)
 *         show(outgoing + start, ROUTER_DATA_LEN);
 */
size_t router_display(const uint8_t *outgoing, size_t outgoing_len, uint8_t port);

/*
 * router_version, of librouter.a, and service_version, of libservice.a, tell of which version the archive is that was
 * linked, as ROUTER_VERSION tells it of the header. They read and change nothing. An archive has all that this header
 * describes if its first number is the header's and it is not older; an archive older than 3.1.0 has no such function,
 * and the program doesn't link. So a program asks once, at start-up, of each archive that it links:
 *
 *     if (router_version() / 10000 != ROUTER_VERSION_MAJOR || router_version() < ROUTER_VERSION)
 *         stop("librouter.a is not the one of this router.h");
 */
uint32_t router_version(void);
uint32_t service_version(void);

/*
 * router_fault, of libservice.a, says which part of a state and its memory is not sound.
 *
 * Reads state and memory, and only reads them.
 *
 * Returns ROUTER_ACCEPTED if they are sound, ROUTER_BAD_LENGTH, ROUTER_BAD_SETTINGS, ROUTER_BAD_STACK, or
 * ROUTER_BAD_PACKETS + 256 * s, where s is the lowest slot whose packet is not sound. Other calls return the number
 * without the slot. The two are taken apart by
 *
 *     uint16_t fault = router_fault(state, sizeof state, memory, sizeof memory);
 *
 *     if (ROUTER_FAULT_NUMBER(fault) == ROUTER_BAD_PACKETS)
 *         show(ROUTER_FAULT_SLOT(fault));
 *
 * The program host/fault.c says in a sentence which rule is broken, and where.
 */
#define ROUTER_FAULT_NUMBER(fault) ((fault) % 256)
#define ROUTER_FAULT_SLOT(fault) ((fault) / 256)
uint16_t router_fault(const uint8_t *state, size_t state_len,
                      const uint8_t *memory, size_t memory_len);

/*
 * THE QUEUE ENGINE, of libservice.a: the router as the table of its scheduling model has it, with three queues for
 * each port. Queue 1 has the packets on time and queue 3 the early ones, as ORDER puts them; queue 2 is best-effort
 * traffic, of which the router knows only that it waits. A port sends the first of queue 1; else queue 2 has it, where
 * it waits; else it sends the first of queue 3, if that is within its horizon. A packet moves from queue 3 to queue 1
 * when its logical arrival time comes.
 *
 * Queues 1 and 3 of all ports lie in a third area of the caller, the queues, so that anybody can read them there at
 * any time. router_queues_fill fills them from a sound state; from then on router_queues_control and
 * router_queues_tick, called in the place of router_control and router_tick, keep them, and do to all other areas, and
 * return, what these do. After each of the three every queue has exactly the stored slots of its port and sort, in that
 * order.
 * Whoever changes the state or the memory in another way, by router_fresh or router_tick for instance, fills the queues
 * again before the next call of the engine. router_control may come in between: it changes no stored packet.
 *
 * The queues area, by offset; `at` is ROUTER_QUEUE_LEN * (2 * port + sort):
 *
 *     at                                       the size n of the queue, 0 to 256, two bytes, high byte first
 *     at + ROUTER_QUEUE_ENTRIES + n - 1        the slot that is first in the queue
 *     at + ROUTER_QUEUE_ENTRIES + n - 2        the next one, and so on
 *     at + ROUTER_QUEUE_ENTRIES                the last one
 *     at + ROUTER_QUEUE_ENTRIES + n            from here on to the end of the queue's bytes: no part of it
 *
 *     port      0          1          2          3          4
 *     on time   0-257      516-773    1032-1289  1548-1805  2064-2321
 *     early     258-515    774-1031   1290-1547  1806-2063  2322-2579
 *
 * So the slots of a queue are walked, first ones first, by
 *
 *     const uint8_t *queue = queues + ROUTER_QUEUE_LEN * (2 * port + ROUTER_QUEUE_ON_TIME);
 *
 *     for (unsigned n = queue[0] << 8 | queue[1]; n > 0; n--)
 *         show(queue[ROUTER_QUEUE_ENTRIES + n - 1]);
 */
#define ROUTER_QUEUES_LEN 2580
#define ROUTER_QUEUE_LEN 258
#define ROUTER_QUEUE_ENTRIES 2   /* offset of entry 0 in a queue, one byte per entry */
#define ROUTER_QUEUE_ON_TIME 0   /* sorts */
#define ROUTER_QUEUE_EARLY 1

/*
 * BELONG. For a control write or a tick the queues belong to the state as far as can be told at once if for each port
 *   - the sizes of its two queues make the number of slots whose mask has the port;
 *   - the first slot of each queue that is not empty has the port in its mask, and is of the queue's sort.
 * Queues that the three calls below have kept always do. Those of another state, or of the same from before a tick of
 * router_tick, as a rule do not, and are refused; a wrong entry behind the first one is not seen. What a tick then does
 * is still within its areas and determined by their bytes, but need not be what router_tick does.
 */

/*
 * router_queues_fill fills the queues from a state and its memory.
 *
 * Reads state and memory, and only reads them. The old content of the queues is not looked at. If accepted it writes
 * all of the queues: sizes and entries as above, and zero from entry n on.
 *
 * Returns ROUTER_ACCEPTED, ROUTER_BAD_LENGTH, ROUTER_BAD_SETTINGS, ROUTER_BAD_STACK or ROUTER_BAD_PACKETS.
 */
uint8_t router_queues_fill(const uint8_t *state, size_t state_len,
                           const uint8_t *memory, size_t memory_len,
                           uint8_t *queues, size_t queues_len);

/*
 * router_queues_control writes one control register, as router_control does.
 *
 * Reads state, memory and queues (memory and queues for the questions whether they are sound and belong, and only
 * reads these two). If accepted it writes what router_control writes, state bytes only: no stored packet changes, and
 * so no queue.
 *
 * Returns what router_control returns, or ROUTER_BAD_LENGTH if the queues do not have their length; if it would be
 * accepted otherwise, ROUTER_BAD_QUEUES if the queues do not belong to the state.
 */
uint8_t router_queues_control(uint8_t *state, size_t state_len,
                              const uint8_t *memory, size_t memory_len,
                              const uint8_t *queues, size_t queues_len,
                              uint8_t reg, uint8_t value);

/*
 * router_queues_tick runs one packet time, as router_tick does, by the queues.
 *
 * Reads and writes what router_tick does, and the queues. If accepted, with the steps of router_tick:
 *
 *   1. A stored arrival enters the queue of its sort, on each port of its mask, at its place in the order.
 *   2. Each port sends by its three queues as above.
 *   3. What a port sends leaves its queue; on other ports it stays.
 *   4. Packets with deadline t, which are first in the queues of packets on time, leave them.
 *   6. Once the clock has advanced, the first ones of each early queue whose time has come move over.
 *
 * A slot that enters moves those that go before it up by one entry. A slot that leaves, first ones only, lowers the
 * size and stays behind as a byte. No other byte of the queues changes.
 *
 * Returns what router_tick returns, or ROUTER_BAD_LENGTH if the queues do not have their length; if it would be
 * accepted otherwise, ROUTER_BAD_QUEUES if the queues do not belong to the state.
 */
uint8_t router_queues_tick(uint8_t *state, size_t state_len,
                           uint8_t *memory, size_t memory_len,
                           uint8_t *queues, size_t queues_len,
                           const uint8_t *arrivals, size_t arrivals_len,
                           uint8_t *outgoing, size_t outgoing_len,
                           uint8_t *answers, size_t answers_len,
                           uint8_t arrivals_mask, uint8_t best_effort_mask);

#ifdef __cplusplus
}
#endif

#endif
