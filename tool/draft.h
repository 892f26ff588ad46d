/* A log that is made event by event. */
#ifndef DRAFT_H
#define DRAFT_H

#include <stdbool.h>
#include <stddef.h>
#include <stdint.h>

#include "library.h"

/* The log so far: in a log's bytes the operands come behind all the kinds. */
struct draft {
    const struct chip *chip; /* NULL until it is named */
    size_t events;
    uint8_t kinds[PALETTE_MOST_EVENTS];
    uint8_t operands[PALETTE_MOST_EVENTS][PALETTE_OPERAND_BYTES];
};

/* Adds an event, unless there are as many as a log may have: then it gives
 * false. */
bool add_event(struct draft *draft, uint8_t kind, const uint8_t *operand);

/* The log's bytes, once the chip is named. */
void put_together(const struct draft *draft, struct log *log);

#endif
