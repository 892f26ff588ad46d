#include "refusals.h"

#include "files.h"
#include "palette.h"

/* A number of the header as text. The first expands it. */
#define TEXT(number) TEXT_(number)
#define TEXT_(number) #number

const char *refusal_in_words(unsigned refusal)
{
    switch ((enum palette_refusal)refusal) {
    case PALETTE_ACCEPTED:
        return "not refused";
    case PALETTE_REFUSED_SELECTOR:
        return "the selector is over 3";
    case PALETTE_REFUSED_ADDRESS:
        return "no overlay colour or control register has this address";
    case PALETTE_REFUSED_DIRECTION:
        return "the address was set for the other direction";
    case PALETTE_REFUSED_UNDEFINED_BITS:
        return "the event sets overlay, level or data bits that have no meaning";
    case PALETTE_REFUSED_NOT_ON_CHIP:
        return "this chip has no such event";
    case PALETTE_REFUSED_LOG_SHORT:
        return "the log is shorter than its header";
    case PALETTE_REFUSED_LOG_CHIP:
        return "the log names no known chip";
    case PALETTE_REFUSED_LOG_COUNT:
        return "the log has more than " TEXT(PALETTE_MOST_EVENTS) " events";
    case PALETTE_REFUSED_LOG_LENGTH:
        return "the log's length doesn't fit its count";
    case PALETTE_REFUSED_LOG_KIND:
        return "the log has an event of no known kind";
    case PALETTE_REFUSED_LOG_UNUSED:
        return "the log has an operand byte that should be 0";
    case PALETTE_REFUSED_SNAPSHOT_SHORT:
        return "the snapshot is shorter than its header";
    case PALETTE_REFUSED_SNAPSHOT_CHIP:
        return "the snapshot names no known chip";
    case PALETTE_REFUSED_SNAPSHOT_COUNT:
        return "the snapshot has more places than the chip";
    case PALETTE_REFUSED_SNAPSHOT_LENGTH:
        return "the snapshot's length doesn't fit its count";
    case PALETTE_REFUSED_SNAPSHOT_PLACE:
        return "the snapshot has a place outside the chip or out of order";
    case PALETTE_REFUSED_SNAPSHOT_VALUE:
        return "the snapshot has a value that is 0 or too large";
    case PALETTE_REFUSED_TWO_CHIPS:
        return "the snapshot and the log are for two chips";
    case PALETTE_REFUSED_ANSWER_BUFFER:
        return "the answer buffer is too small";
    case PALETTE_REFUSED_END_BUFFER:
        return "the end buffer is too small";
    case PALETTE_REFUSED_CURRENTS_CHIP:
        return "only a TLC34058 has output currents";
    case PALETTE_REFUSED_PLAN_CHIP:
        return "only writes to an HD153129 are planned";
    case PALETTE_REFUSED_WANTED:
        return "the wanted table has another length than the chip's or a value that is too large";
    case PALETTE_REFUSED_PLAN_BUFFER:
        return "the buffer for the writes is too small";
    }
    return "unknown refusal";
}

void say_refused(const char *path, unsigned refusal)
{
    say("%s: refused (%u): %s", path_in_words(path), refusal, refusal_in_words(refusal));
}
