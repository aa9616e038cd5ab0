/* record.c - the questions that a record is asked. */

#include "record.h"

static int is_zero(const uint8_t *bytes, const uint8_t *end)
{
    while (bytes != end && *bytes == 0)
        bytes++;
    return bytes == end;
}

unsigned ask_record(const uint8_t *record, unsigned waiting)
{
    const uint8_t *end = record + RECORD_LEN;

    switch (record[RECORD_KIND]) {
    case KIND_CONTROL:
        return is_zero(record + RECORD_VALUE + 1, end) ? ROUTER_ACCEPTED : RECORD_BAD_BYTES;
    case KIND_ARRIVAL:
        if (!is_zero(record + RECORD_PORT + 1, record + RECORD_PACKET) || record[RECORD_PORT] >= ROUTER_PORTS)
            return RECORD_BAD_BYTES;
        return waiting >> record[RECORD_PORT] & 1 ? RECORD_PORT_TAKEN : ROUTER_ACCEPTED;
    case KIND_TICK:
        return is_zero(record + RECORD_BEST_EFFORT + 1, end) ? ROUTER_ACCEPTED : RECORD_BAD_BYTES;
    default:
        return RECORD_BAD_KIND;
    }
}
