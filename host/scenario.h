/*
 * scenario.h - the calls that the benchmark measures, and each implementation that makes them: bench.c counts and times
 * them on a host, board/bench.c on a board.
 */
#ifndef SCENARIO_H
#define SCENARIO_H

#include "entries.h"

#define IMPLEMENTATIONS 4 /* none, which stands in for one to measure the bench itself, the archive's, gcc -O2 and -O3 */

extern const struct implementation implementations[IMPLEMENTATIONS];

enum subject { ROUTER, ENGINE, FAULT_ENTRY };
enum kind { FRESH, FILL, CONTROL, QUESTIONS, FAULT, IDLE, BUSY };

extern const char *const subject_name[];

struct scenario {
    const char *name;
    enum subject subject;
    enum kind kind;
    unsigned stored; /* packets in memory before the call */
};

extern const struct scenario scenarios[];
extern const unsigned scenario_count;

/* Makes the areas as they are before each call of a scenario. */
void prepare(const struct scenario *scenario);

/* One call from the prepared areas; the copying is measured alone with "none" and taken off. */
void step(const struct implementation *router, const struct scenario *scenario);

/* Repeats the call, for an instruction count from outside. */
void count(const char *implementation, const char *scenario, long repeats);

/* Prints for each implementation and scenario the bytes of stack that the call writes. */
void print_stacks(void);

/* ---- Of the host or the board ---- */

/* Says what is wrong, and ends the program. */
void fail(const char *format, ...);

/* Runs a function on another stack. */
void run_on(uint8_t *stack, size_t len, void (*run)(void));

#endif
