#include "library.h"

#include <string.h>

#include "files.h"
#include "refusals.h"

bool read_snapshot(const char *path, struct snapshot *snapshot)
{
    return read_file(path, snapshot->bytes, sizeof snapshot->bytes, &snapshot->len);
}

bool read_log(const char *path, struct log *log)
{
    return read_file(path, log->bytes, sizeof log->bytes, &log->len);
}

bool read_wanted(const char *path, struct wanted *wanted)
{
    return read_file(path, wanted->bytes, sizeof wanted->bytes, &wanted->len);
}

/* Its places are all 0, so it has none. */
static void fresh_snapshot(uint8_t chip, struct snapshot *snapshot)
{
    memset(snapshot->bytes, 0, PALETTE_SNAPSHOT_HEADER_BYTES);
    snapshot->bytes[0] = chip;
    snapshot->len = PALETTE_SNAPSHOT_HEADER_BYTES;
}

void make_fresh(const struct log *log, struct snapshot *snapshot)
{
    fresh_snapshot(log->len > 0 ? log->bytes[0] : PALETTE_CHIP_TLC34058, snapshot);
    if (snapshot_refusal(snapshot) != PALETTE_ACCEPTED)
        fresh_snapshot(PALETTE_CHIP_TLC34058, snapshot);
}

unsigned run_log(const struct snapshot *snapshot, const struct log *log, struct answers *answers)
{
    uint64_t result =
        palette_run(snapshot->bytes, snapshot->len, log->bytes, log->len, answers->bytes,
                    sizeof answers->bytes, answers->end, sizeof answers->end);
    answers->end_len = PALETTE_LENGTH(result);
    return PALETTE_REFUSAL(result);
}

/* With a log of no event for the same chip. */
unsigned snapshot_refusal(const struct snapshot *snapshot)
{
    uint8_t empty[PALETTE_LOG_HEADER_BYTES] = {0}, end[PALETTE_END_BYTES];
    empty[0] = snapshot->len > 0 ? snapshot->bytes[0] : PALETTE_CHIP_TLC34058;
    return PALETTE_REFUSAL(palette_run(snapshot->bytes, snapshot->len, empty, sizeof empty, NULL,
                                       0, end, sizeof end));
}

unsigned log_refusal(const struct log *log)
{
    static struct answers answers;
    struct snapshot fresh;
    make_fresh(log, &fresh);
    return run_log(&fresh, log, &answers);
}

unsigned tick_currents(const struct snapshot *snapshot, const uint8_t *operand, uint8_t *out)
{
    uint8_t end[PALETTE_END_BYTES];
    return PALETTE_REFUSAL(palette_currents(snapshot->bytes, snapshot->len, operand,
                                            PALETTE_OPERAND_BYTES, out, PALETTE_CURRENTS_BYTES,
                                            end, sizeof end));
}

/* With a tick of zeros. */
unsigned currents_refusal(const struct snapshot *snapshot)
{
    static const uint8_t operand[PALETTE_OPERAND_BYTES] = {0};
    uint8_t out[PALETTE_CURRENTS_BYTES];
    return tick_currents(snapshot, operand, out);
}

unsigned plan_writes(const struct snapshot *snapshot, const struct wanted *wanted,
                     struct plan *plan)
{
    uint64_t result = palette_plan(snapshot->bytes, snapshot->len, wanted->bytes, wanted->len,
                                   plan->bytes, sizeof plan->bytes);
    plan->count = PALETTE_COUNT(result);
    return PALETTE_REFUSAL(result);
}

const uint8_t *write_of(const struct plan *plan, size_t write)
{
    return plan->bytes + PALETTE_WRITE_BYTES * write;
}

size_t pixel_count(const uint8_t *answer)
{
    return answer[1];
}

const uint8_t *pixel_of(const uint8_t *answer, size_t pixel)
{
    return answer + 3 + COMPONENTS * pixel;
}

unsigned pixel_bit_of(const uint8_t *answer, size_t pixel)
{
    return answer[2] >> (1 + pixel) & 1u;
}

size_t event_count(const struct log *log)
{
    return (log->len - PALETTE_LOG_HEADER_BYTES) / PALETTE_EVENT_BYTES;
}

uint8_t kind_of(const struct log *log, size_t event)
{
    return log->bytes[PALETTE_LOG_HEADER_BYTES + event];
}

const uint8_t *operand_of(const struct log *log, size_t event)
{
    return log->bytes + PALETTE_LOG_HEADER_BYTES + event_count(log) +
           PALETTE_OPERAND_BYTES * event;
}

/* Of an accepted snapshot: the numbers of its places, low byte first, then
 * their values. */
static void take_apart(const struct snapshot *snapshot, uint8_t *places)
{
    const uint8_t *numbers = snapshot->bytes + PALETTE_SNAPSHOT_HEADER_BYTES;
    size_t count = (snapshot->len - PALETTE_SNAPSHOT_HEADER_BYTES) / PALETTE_PLACE_BYTES;
    const uint8_t *values = numbers + 2 * count;
    memset(places, 0, PALETTE_MOST_PLACES);
    for (size_t i = 0; i < count; i++)
        places[numbers[2 * i] + 256u * numbers[2 * i + 1]] = values[i];
}

int read_state(const char *path, struct state *state)
{
    struct snapshot snapshot;
    if (!read_snapshot(path, &snapshot))
        return STATUS_FAILED;
    unsigned refusal = snapshot_refusal(&snapshot);
    if (refusal != PALETTE_ACCEPTED) {
        say_refused(path, refusal);
        return STATUS_REFUSED;
    }
    state->chip = accepted_chip(snapshot.bytes[0]);
    if (state->chip == NULL)
        return STATUS_FAILED;
    take_apart(&snapshot, state->places);
    return STATUS_DONE;
}

const uint8_t *entry_of(const struct state *state, size_t entry)
{
    return state->places + state->chip->entry_places * entry;
}
