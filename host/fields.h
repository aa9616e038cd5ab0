/* fields.h - the free count of a state, and where its slots and its connections start: offsets in the state. */
#ifndef FIELDS_H
#define FIELDS_H

#include "router.h"

static inline unsigned free_count(const uint8_t *state)
{
    return (unsigned)state[ROUTER_STATE_FREE] << 8 | state[ROUTER_STATE_FREE + 1];
}

static inline void set_free_count(uint8_t *state, unsigned n)
{
    state[ROUTER_STATE_FREE] = (uint8_t)(n >> 8);
    state[ROUTER_STATE_FREE + 1] = (uint8_t)n;
}

static inline size_t slot_at(unsigned s)
{
    return ROUTER_STATE_SLOTS + ROUTER_SLOT_LEN * s;
}

static inline size_t entry_at(unsigned connection)
{
    return ROUTER_STATE_TABLE + ROUTER_ENTRY_LEN * connection;
}

#endif
