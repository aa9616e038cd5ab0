/*
 * bench.c - the benchmark on a board, over the scenarios of host/scenario.c; bench.sh makes the table from it. Compiled
 * with IMPLEMENTATION, SCENARIO and REPEATS it repeats that call, for an instruction count from outside; else it prints
 * the stack of each.
 */
#include <stdarg.h>
#include <stdio.h>

#include "platform.h"
#include "scenario.h"

void fail(const char *format, ...)
{
    va_list list;

    va_start(list, format);
    vprintf(format, list);
    va_end(list);
    printf("\n");
    quit(1);
}

int main(void)
{
#ifdef SCENARIO
    count(IMPLEMENTATION, SCENARIO, REPEATS);
#else
    print_stacks();
#endif
    return 0;
}
