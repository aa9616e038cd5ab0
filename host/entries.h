/* entries.h - the forms of the entries that put questions, and an implementation as the set of its entries. */
#ifndef ENTRIES_H
#define ENTRIES_H

#include "router.h"

typedef uint8_t fresh_form(uint8_t *, size_t, uint8_t *, size_t, uint8_t);
typedef uint8_t control_form(uint8_t *, size_t, const uint8_t *, size_t, uint8_t, uint8_t);
typedef uint8_t tick_form(uint8_t *, size_t, uint8_t *, size_t, const uint8_t *, size_t, uint8_t *, size_t, uint8_t *,
                          size_t, uint8_t, uint8_t);
typedef uint16_t fault_form(const uint8_t *, size_t, const uint8_t *, size_t);
typedef uint8_t queues_fill_form(const uint8_t *, size_t, const uint8_t *, size_t, uint8_t *, size_t);
typedef uint8_t queues_control_form(uint8_t *, size_t, const uint8_t *, size_t, const uint8_t *, size_t, uint8_t,
                                    uint8_t);
typedef uint8_t queues_tick_form(uint8_t *, size_t, uint8_t *, size_t, uint8_t *, size_t, const uint8_t *, size_t,
                                 uint8_t *, size_t, uint8_t *, size_t, uint8_t, uint8_t);

struct implementation {
    const char *name;
    fresh_form *fresh;
    control_form *control;
    tick_form *tick;
    fault_form *fault;
    queues_fill_form *queues_fill;
    queues_control_form *queues_control;
    queues_tick_form *queues_tick;
};

/* The entries of an implementation, by the prefix of their names. */
#define ENTRIES_OF(prefix)                                                                                           \
    prefix##_fresh, prefix##_control, prefix##_tick, prefix##_fault, prefix##_queues_fill, prefix##_queues_control, \
        prefix##_queues_tick

#endif
