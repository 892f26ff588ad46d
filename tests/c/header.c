/* The header by itself: included twice, its numbers held to the papers', its
 * functions called. Compiled as C99, C11 and C++17; linked with nothing. */
#include "palette.h"
#include "palette.h"

/* A false fact is an array of negative size, in every language version. */
#define FACT(name, holds) typedef char fact_##name[(holds) ? 1 : -1]

FACT(chips, PALETTE_CHIP_TLC34058 == 1 && PALETTE_CHIP_HD153129 == 2 &&
                PALETTE_CHIP_TMS34070 == 3);
FACT(kinds, PALETTE_KIND_WRITE == 0 && PALETTE_KIND_READ == 1 && PALETTE_KIND_TICK == 2 &&
                PALETTE_KIND_VERTICAL == 3 && PALETTE_KIND_SAVE == 4 && PALETTE_KIND_LOAD == 5);

FACT(snapshot_parts, PALETTE_SNAPSHOT_HEADER_BYTES == 3 && PALETTE_PLACE_BYTES == 3);
FACT(snapshot, PALETTE_SNAPSHOT_BYTES(0) == 3 && PALETTE_SNAPSHOT_BYTES(1 + 1) == 9);
FACT(places, PALETTE_TLC34058_PLACES == 792 && PALETTE_HD153129_PLACES == 774 &&
                 PALETTE_TMS34070_PLACES == 86);
FACT(most_places, PALETTE_MOST_PLACES == 792);
FACT(end, PALETTE_END_BYTES == 2379);
FACT(log_parts, PALETTE_LOG_HEADER_BYTES == 5 && PALETTE_OPERAND_BYTES == 8 &&
                    PALETTE_EVENT_BYTES == 9);
FACT(log, PALETTE_LOG_BYTES(0) == 5 && PALETTE_LOG_BYTES(1 + 1) == 23);
FACT(events, PALETTE_MOST_EVENTS == 7000);
FACT(most_log, PALETTE_MOST_LOG_BYTES == 63005);
FACT(answer, PALETTE_ANSWER_BYTES == 18);
FACT(answers, PALETTE_MOST_ANSWER_BYTES == 126000);
FACT(painted, PALETTE_PAINTED_OVERLAY == 256 && PALETTE_PAINTED_READ_MASK == 260 &&
                  PALETTE_PAINTED_BLINK_MASK == 261 && PALETTE_PAINTED_COMMAND == 262 &&
                  PALETTE_PAINTED_PIXEL_MASK == 260);
FACT(outputs, PALETTE_OUTPUT_GREEN == 0 && PALETTE_OUTPUT_RED == 1 && PALETTE_OUTPUT_BLUE == 2);
FACT(currents, PALETTE_TICK_PIXELS == 5 && PALETTE_CURRENTS_BYTES == 48);
FACT(wanted, PALETTE_HD153129_ENTRIES == 256 && PALETTE_WANTED_BYTES == 768);
FACT(plan, PALETTE_WRITE_BYTES == 2 && PALETTE_MOST_WRITES == 769 && PALETTE_PLAN_BYTES == 1538);

FACT(accepted, PALETTE_ACCEPTED == 0);
FACT(in_answers, PALETTE_REFUSED_SELECTOR == 1 && PALETTE_REFUSED_ADDRESS == 2 &&
                     PALETTE_REFUSED_DIRECTION == 3 && PALETTE_REFUSED_UNDEFINED_BITS == 4 &&
                     PALETTE_REFUSED_NOT_ON_CHIP == 5);
FACT(of_logs, PALETTE_REFUSED_LOG_SHORT == 10 && PALETTE_REFUSED_LOG_CHIP == 11 &&
                  PALETTE_REFUSED_LOG_COUNT == 12 && PALETTE_REFUSED_LOG_LENGTH == 13 &&
                  PALETTE_REFUSED_LOG_KIND == 14 && PALETTE_REFUSED_LOG_UNUSED == 15);
FACT(of_snapshots, PALETTE_REFUSED_SNAPSHOT_SHORT == 20 && PALETTE_REFUSED_SNAPSHOT_CHIP == 21 &&
                       PALETTE_REFUSED_SNAPSHOT_COUNT == 22 &&
                       PALETTE_REFUSED_SNAPSHOT_LENGTH == 23 &&
                       PALETTE_REFUSED_SNAPSHOT_PLACE == 24 &&
                       PALETTE_REFUSED_SNAPSHOT_VALUE == 25 && PALETTE_REFUSED_TWO_CHIPS == 26);
FACT(of_buffers, PALETTE_REFUSED_ANSWER_BUFFER == 30 && PALETTE_REFUSED_END_BUFFER == 31);
FACT(of_currents, PALETTE_REFUSED_CURRENTS_CHIP == 40);
FACT(of_plans, PALETTE_REFUSED_PLAN_CHIP == 41 && PALETTE_REFUSED_WANTED == 42 &&
                   PALETTE_REFUSED_PLAN_BUFFER == 43);
FACT(refusal, PALETTE_REFUSAL(UINT64_C(31) * 65536) == 31 && PALETTE_REFUSAL(2379) == 0);
FACT(length, PALETTE_LENGTH(2379) == 2379 && PALETTE_LENGTH(UINT64_C(31) * 65536) == 0);
FACT(count, PALETTE_COUNT(769) == 769 && PALETTE_COUNT(UINT64_C(43) * 65536) == 0);

/* A count as a log holds it, in 32 bits, is multiplied in the width of a size. */
FACT(any_count, sizeof(size_t) < 8 || PALETTE_LOG_BYTES(UINT32_MAX) / 9 == UINT32_MAX);

/* These can stand in an #if, and the version is one string that others can be
 * put beside. */
#if PALETTE_VERSION_MAJOR < 0 || PALETTE_VERSION_MINOR < 0 || PALETTE_VERSION_PATCH < 0 || \
    PALETTE_END_BYTES != 2379 || PALETTE_MOST_LOG_BYTES != 63005 || \
    PALETTE_MOST_ANSWER_BYTES != 126000 || PALETTE_CURRENTS_BYTES != 48 || \
    PALETTE_WANTED_BYTES != 768 || PALETTE_MOST_WRITES != 769 || PALETTE_PLAN_BYTES != 1538
#error "a number of the header"
#endif
FACT(version, sizeof "palette " PALETTE_VERSION >= sizeof "palette 0.0.0");

extern const uint8_t snapshot[PALETTE_SNAPSHOT_BYTES(0)], log_bytes[PALETTE_LOG_BYTES(0)];
extern uint8_t end_buffer[PALETTE_END_BYTES];
size_t example(void);

size_t example(void)
{
    uint64_t result = palette_run(snapshot, sizeof snapshot, log_bytes, sizeof log_bytes,
                                  NULL, 0, end_buffer, sizeof end_buffer);
    return PALETTE_REFUSAL(result) == PALETTE_ACCEPTED ? PALETTE_LENGTH(result) : 0;
}

unsigned painted(const uint8_t *answers, size_t event);

unsigned painted(const uint8_t *answers, size_t event)
{
    return PALETTE_PAINTED(answers + PALETTE_ANSWER_BYTES * event);
}

extern const uint8_t operand[PALETTE_OPERAND_BYTES];
extern uint8_t out[PALETTE_CURRENTS_BYTES];
unsigned blue_of_pixel_e(void);

unsigned blue_of_pixel_e(void)
{
    uint64_t result = palette_currents(snapshot, sizeof snapshot, operand, sizeof operand, out,
                                       sizeof out, end_buffer, sizeof end_buffer);
    return PALETTE_REFUSAL(result) == PALETTE_ACCEPTED
               ? PALETTE_CURRENT(out, PALETTE_TICK_PIXELS - 1, PALETTE_OUTPUT_BLUE)
               : 0;
}

extern const uint8_t wanted[PALETTE_WANTED_BYTES];
extern uint8_t writes[PALETTE_PLAN_BYTES];
unsigned last_byte_of_the_plan(void);

unsigned last_byte_of_the_plan(void)
{
    uint64_t result = palette_plan(snapshot, sizeof snapshot, wanted, sizeof wanted, writes,
                                   sizeof writes);
    size_t count = PALETTE_REFUSAL(result) == PALETTE_ACCEPTED ? PALETTE_COUNT(result) : 0;
    return count > 0 ? writes[PALETTE_WRITE_BYTES * count - 1] : 0;
}
