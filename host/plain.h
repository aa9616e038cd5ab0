/* plain.h - the plain implementations: the entries of router.h, with the same promises, as plain_*. */
#ifndef PLAIN_H
#define PLAIN_H

#include "router.h"

uint8_t plain_fresh(uint8_t *state, size_t state_len,
                    uint8_t *memory, size_t memory_len,
                    uint8_t clock);

uint8_t plain_control(uint8_t *state, size_t state_len,
                      const uint8_t *memory, size_t memory_len,
                      uint8_t reg, uint8_t value);

uint8_t plain_tick(uint8_t *state, size_t state_len,
                   uint8_t *memory, size_t memory_len,
                   const uint8_t *arrivals, size_t arrivals_len,
                   uint8_t *outgoing, size_t outgoing_len,
                   uint8_t *answers, size_t answers_len,
                   uint8_t arrivals_mask, uint8_t best_effort_mask);

size_t plain_display(const uint8_t *outgoing, size_t outgoing_len, uint8_t port);

uint32_t plain_version(void);

/* Of plain_queues.c. */
uint16_t plain_fault(const uint8_t *state, size_t state_len,
                     const uint8_t *memory, size_t memory_len);

uint8_t plain_queues_fill(const uint8_t *state, size_t state_len,
                          const uint8_t *memory, size_t memory_len,
                          uint8_t *queues, size_t queues_len);

uint8_t plain_queues_control(uint8_t *state, size_t state_len,
                             const uint8_t *memory, size_t memory_len,
                             const uint8_t *queues, size_t queues_len,
                             uint8_t reg, uint8_t value);

uint8_t plain_queues_tick(uint8_t *state, size_t state_len,
                          uint8_t *memory, size_t memory_len,
                          uint8_t *queues, size_t queues_len,
                          const uint8_t *arrivals, size_t arrivals_len,
                          uint8_t *outgoing, size_t outgoing_len,
                          uint8_t *answers, size_t answers_len,
                          uint8_t arrivals_mask, uint8_t best_effort_mask);

uint32_t plain_service_version(void);

#endif
