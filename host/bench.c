/*
 * bench.c - the benchmark on a host, over the scenarios of scenario.c; bench.sh makes the tables from it.
 *   bench count IMPLEMENTATION SCENARIO REPEATS   repeats the call, for an instruction count from outside
 *   bench wall ROUNDS                             prints nanoseconds per call, the implementations alternating
 *   bench stack                                   prints the bytes of stack that a call writes
 *   bench names router|engine|fault               prints the scenarios of one of them
 */
#define _DEFAULT_SOURCE

#include <stdarg.h>
#include <stdio.h>
#include <stdlib.h>
#include <string.h>
#include <time.h>
#include <ucontext.h>

#include "scenario.h"

void fail(const char *format, ...)
{
    va_list list;

    fprintf(stderr, "bench: ");
    va_start(list, format);
    vfprintf(stderr, format, list);
    va_end(list);
    fprintf(stderr, "\n");
    exit(EXIT_FAILURE);
}

void run_on(uint8_t *stack, size_t len, void (*run)(void))
{
    static ucontext_t caller, other;

    getcontext(&other);
    other.uc_stack.ss_sp = stack;
    other.uc_stack.ss_size = len;
    other.uc_link = &caller;
    makecontext(&other, run, 0);
    swapcontext(&caller, &other);
}

static double now(void)
{
    struct timespec time;

    clock_gettime(CLOCK_MONOTONIC, &time);
    return (double)time.tv_sec * 1e9 + (double)time.tv_nsec;
}

/* The least time per call of several rounds; the implementations take turns within a round. */
static void wall(long rounds)
{
    enum { CALLS = 200 };

    for (unsigned s = 0; s < scenario_count; s++) {
        double least[IMPLEMENTATIONS] = {0};

        prepare(&scenarios[s]);
        for (long round = 0; round < rounds; round++) {
            for (unsigned i = 0; i < IMPLEMENTATIONS; i++) {
                double start = now(), taken;

                for (unsigned c = 0; c < CALLS; c++)
                    step(&implementations[i], &scenarios[s]);
                taken = (now() - start) / CALLS;
                if (round == 0 || taken < least[i])
                    least[i] = taken;
            }
        }
        for (unsigned i = 1; i < IMPLEMENTATIONS; i++)
            printf("%s %s %.0f\n", implementations[i].name, scenarios[s].name, least[i] - least[0]);
    }
}

int main(int argc, char **argv)
{
    if (argc == 5 && strcmp(argv[1], "count") == 0) {
        count(argv[2], argv[3], strtol(argv[4], NULL, 10));
        return EXIT_SUCCESS;
    }
    if (argc == 3 && strcmp(argv[1], "wall") == 0) {
        wall(strtol(argv[2], NULL, 10));
        return EXIT_SUCCESS;
    }
    if (argc == 2 && strcmp(argv[1], "stack") == 0) {
        print_stacks();
        return EXIT_SUCCESS;
    }
    if (argc == 3 && strcmp(argv[1], "names") == 0) {
        for (unsigned s = 0; s < scenario_count; s++) {
            if (strcmp(argv[2], subject_name[scenarios[s].subject]) == 0)
                puts(scenarios[s].name);
        }
        return EXIT_SUCCESS;
    }
    fprintf(stderr, "usage: bench count IMPLEMENTATION SCENARIO REPEATS | wall ROUNDS | stack |\n"
                    "       names router|engine|fault\n");
    return EXIT_FAILURE;
}
