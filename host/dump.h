/*
 * dump.h - what the service programs share: the router that they look at, its dump in a file, and their end with a word
 * where there is nothing to show.
 */
#ifndef DUMP_H
#define DUMP_H

#include <stdio.h>

#include "fields.h"

/* The router. */
extern uint8_t state[ROUTER_STATE_LEN], memory[ROUTER_MEMORY_LEN];

/* Of each program: its name, and its exit status where it stops. */
extern const char *const program;
extern const int stop_status;

/* Ends the program with these words on standard error. */
void stop(const char *format, ...);

/* They stop where the file can't be opened or read. Reads up to len bytes; says how many. */
FILE *open_file(const char *name);
size_t read_some(FILE *file, const char *name, uint8_t *bytes, size_t len);

/* Takes the router from a file with the state, 1,804 bytes, and then the memory, 5,120, or stops. */
void take_dump(const char *name);

/* Stops where what was printed can't be written. */
void end_output(void);

#endif
