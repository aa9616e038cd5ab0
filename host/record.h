/* record.h - the records of a tape (document 01, "Tape program"), and the questions that one is asked. */
#ifndef RECORD_H
#define RECORD_H

#include "router.h"

/* A record. */
#define RECORD_LEN 24
#define RECORD_KIND 0
#define RECORD_REGISTER 1    /* control */
#define RECORD_VALUE 2       /* control */
#define RECORD_PORT 1        /* arrival */
#define RECORD_PACKET 4      /* arrival */
#define RECORD_BEST_EFFORT 1 /* tick */

#define KIND_CONTROL 0x43
#define KIND_ARRIVAL 0x41
#define KIND_TICK 0x54

/* Refusals of a record; those of the router have the numbers of router.h. */
#define RECORD_SHORT 9
#define RECORD_BAD_KIND 10
#define RECORD_BAD_BYTES 11
#define RECORD_PORT_TAKEN 12

/*
 * Questions 10 to 12, put to a whole record: the first that it doesn't pass, or 0. The ports in `waiting` have a packet
 * for the coming tick.
 */
unsigned ask_record(const uint8_t *record, unsigned waiting);

#endif
