#include "draft.h"

#include <string.h>

bool add_event(struct draft *draft, uint8_t kind, const uint8_t *operand)
{
    if (draft->events == PALETTE_MOST_EVENTS)
        return false;
    draft->kinds[draft->events] = kind;
    memcpy(draft->operands[draft->events], operand, PALETTE_OPERAND_BYTES);
    draft->events++;
    return true;
}

void put_together(const struct draft *draft, struct log *log)
{
    uint8_t *next = log->bytes;
    *next++ = draft->chip->number;
    for (unsigned shift = 0; shift < 32; shift += 8)
        *next++ = (uint8_t)((uint32_t)draft->events >> shift);
    memcpy(next, draft->kinds, draft->events);
    memcpy(next + draft->events, draft->operands, PALETTE_OPERAND_BYTES * draft->events);
    log->len = PALETTE_LOG_BYTES(draft->events);
}
