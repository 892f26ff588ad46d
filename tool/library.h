/* The library's byte strings: snapshots, logs and wanted tables from files, and the
 * calls that say whether they are accepted. */
#ifndef LIBRARY_H
#define LIBRARY_H

#include <stdbool.h>
#include <stddef.h>
#include <stdint.h>

#include "chips.h"

/* One byte more than the longest that is accepted. Of a longer file the rest is
 * not read: whatever it holds, the refusal is the one that the bytes here give. */
struct snapshot {
    uint8_t bytes[PALETTE_END_BYTES + 1];
    size_t len;
};

struct log {
    uint8_t bytes[PALETTE_MOST_LOG_BYTES + 1];
    size_t len;
};

struct wanted {
    uint8_t bytes[PALETTE_WANTED_BYTES + 1];
    size_t len;
};

/* What a run leaves. */
struct answers {
    uint8_t bytes[PALETTE_MOST_ANSWER_BYTES];
    uint8_t end[PALETTE_END_BYTES];
    size_t end_len;
};

/* The fewest writes to a wanted table. */
struct plan {
    uint8_t bytes[PALETTE_PLAN_BYTES];
    size_t count;
};

bool read_snapshot(const char *path, struct snapshot *snapshot);
bool read_log(const char *path, struct log *log);
bool read_wanted(const char *path, struct wanted *wanted);

/* A snapshot of the fresh chip that the log names, of a fresh chip 1 where it
 * names none. */
void make_fresh(const struct log *log, struct snapshot *snapshot);

/* Runs a log; gives the refusal. */
unsigned run_log(const struct snapshot *snapshot, const struct log *log,
                 struct answers *answers);

/* Whether a snapshot is accepted, and a log with the fresh chip that it names:
 * the refusal. */
unsigned snapshot_refusal(const struct snapshot *snapshot);
unsigned log_refusal(const struct log *log);

/* A tick's answer and its currents, on the chip of a snapshot; gives the refusal. */
unsigned tick_currents(const struct snapshot *snapshot, const uint8_t *operand, uint8_t *out);

/* Whether currents are given for a snapshot, whatever the tick: the refusal. */
unsigned currents_refusal(const struct snapshot *snapshot);

/* The writes that give the chip of a snapshot the wanted table; gives the refusal. */
unsigned plan_writes(const struct snapshot *snapshot, const struct wanted *wanted,
                     struct plan *plan);

/* Of a plan: a write's selector and its byte, as in the operand of its event. */
const uint8_t *write_of(const struct plan *plan, size_t write);

/* Of a tick's answer: byte 1 the pixel count, byte 2 the levels, then each pixel's
 * codes. Where pixels have a bit beside their colour, the first one's is bit 1 of
 * byte 2. */
size_t pixel_count(const uint8_t *answer);
const uint8_t *pixel_of(const uint8_t *answer, size_t pixel);
unsigned pixel_bit_of(const uint8_t *answer, size_t pixel);

/* Of an accepted log. */
size_t event_count(const struct log *log);
uint8_t kind_of(const struct log *log, size_t event);
const uint8_t *operand_of(const struct log *log, size_t event);

/* The places of a chip. */
struct state {
    const struct chip *chip;
    uint8_t places[PALETTE_MOST_PLACES];
};

/* Reads a snapshot and takes it apart, once the library has accepted it. Gives a
 * status, and has said what is wrong. */
int read_state(const char *path, struct state *state);

/* An entry's places: the three codes of its colour, then its attributes. */
const uint8_t *entry_of(const struct state *state, size_t entry);

#endif
