/*
 * No byte outside a call's byte strings is touched, not even read: each string
 * is laid against a page that can't be accessed, behind it or before it, so a
 * step outside kills this program.
 *
 *   edges SNAPSHOT LOG
 *
 * The snapshot and the log must be accepted together, and the log must hold an
 * event. They are run whole, then with each shorter length of either, which
 * must be refused. Then the currents of a tick are asked for, whole and with
 * shorter strings alike; of another chip than a TLC34058 they are refused. So
 * are the writes to a wanted table in which every colour differs from the
 * snapshot's; of another chip than an HD153129 they are refused. At last a
 * log that reads the test register is run from a TLC34058's longest snapshot of a
 * version before 0.7.0, which has no last pixel.
 */
#define _DEFAULT_SOURCE

#include <stdbool.h>
#include <stdio.h>
#include <stdlib.h>
#include <string.h>
#include <sys/mman.h>
#include <unistd.h>

#include "palette.h"

enum {
    STRINGS = 4,
    SNAPSHOT = 0,
    LOG,
    ANSWERS,
    END,
    OPERAND = LOG,
    OUT = ANSWERS,
    WANTED = LOG,
    WRITES = ANSWERS
};

/* Room for one byte string between two pages that can't be accessed. */
struct room {
    uint8_t *start;
    size_t size;
};

static struct room rooms[STRINGS];

static void fail(const char *what)
{
    perror(what);
    exit(2);
}

static struct room make_room(size_t most)
{
    size_t page = (size_t)sysconf(_SC_PAGESIZE);
    size_t size = (most + page - 1) / page * page;
    uint8_t *pages = mmap(NULL, size + 2 * page, PROT_READ | PROT_WRITE,
                          MAP_PRIVATE | MAP_ANONYMOUS, -1, 0);
    if (pages == MAP_FAILED || mprotect(pages, page, PROT_NONE) != 0 ||
        mprotect(pages + page + size, page, PROT_NONE) != 0)
        fail("pages");
    return (struct room){pages + page, size};
}

/* Where a string of this length lies: against the page behind or before it. */
static uint8_t *place(unsigned string, size_t len, bool behind)
{
    return rooms[string].start + (behind ? rooms[string].size - len : 0);
}

static uint8_t *place_copy(unsigned string, const uint8_t *bytes, size_t len, bool behind)
{
    uint8_t *copy = place(string, len, behind);
    memcpy(copy, bytes, len);
    return copy;
}

/* A snapshot or a log; the longest log is the longer of the two. */
struct input {
    uint8_t bytes[PALETTE_MOST_LOG_BYTES];
    size_t len;
};

static void read_input(const char *path, struct input *input)
{
    FILE *file = fopen(path, "rb");
    if (file == NULL)
        fail(path);
    input->len = fread(input->bytes, 1, sizeof input->bytes, file);
    if (ferror(file) || fclose(file) != 0)
        fail(path);
}

static unsigned run(const struct input *snapshot, size_t snapshot_len, const struct input *log,
                    size_t log_len, size_t answers_len, size_t end_len, bool behind)
{
    uint64_t result = palette_run(
        place_copy(SNAPSHOT, snapshot->bytes, snapshot_len, behind), snapshot_len,
        place_copy(LOG, log->bytes, log_len, behind), log_len,
        place(ANSWERS, answers_len, behind), answers_len, place(END, end_len, behind), end_len);
    return PALETTE_REFUSAL(result);
}

/* The number of runs that were not judged as they should be. */
static unsigned run_all(const struct input *snapshot, const struct input *log, bool behind)
{
    size_t events = (log->len - PALETTE_LOG_HEADER_BYTES) / PALETTE_EVENT_BYTES;
    size_t answers_len = PALETTE_ANSWER_BYTES * events;
    unsigned wrong = 0;
    wrong += run(snapshot, snapshot->len, log, log->len, answers_len, PALETTE_END_BYTES,
                 behind) != PALETTE_ACCEPTED;
    wrong += run(snapshot, snapshot->len, log, log->len, answers_len - 1, PALETTE_END_BYTES,
                 behind) != PALETTE_REFUSED_ANSWER_BUFFER;
    wrong += run(snapshot, snapshot->len, log, log->len, answers_len, PALETTE_END_BYTES - 1,
                 behind) != PALETTE_REFUSED_END_BUFFER;
    for (size_t len = 0; len < snapshot->len; len++)
        wrong += run(snapshot, len, log, log->len, answers_len, PALETTE_END_BYTES, behind) !=
                 (len < PALETTE_SNAPSHOT_HEADER_BYTES ? PALETTE_REFUSED_SNAPSHOT_SHORT
                                                      : PALETTE_REFUSED_SNAPSHOT_LENGTH);
    for (size_t len = 0; len < log->len; len++)
        wrong += run(snapshot, snapshot->len, log, len, answers_len, PALETTE_END_BYTES, behind) !=
                 (len < PALETTE_LOG_HEADER_BYTES ? PALETTE_REFUSED_LOG_SHORT
                                                 : PALETTE_REFUSED_LOG_LENGTH);
    return wrong;
}

static unsigned currents(const struct input *snapshot, size_t snapshot_len, size_t operand_len,
                         size_t out_len, size_t end_len, bool behind)
{
    static const uint8_t operand[PALETTE_OPERAND_BYTES + 1] = {1, 2, 3, 4, 5, 6, 7, 3};
    uint64_t result = palette_currents(
        place_copy(SNAPSHOT, snapshot->bytes, snapshot_len, behind), snapshot_len,
        place_copy(OPERAND, operand, operand_len, behind), operand_len,
        place(OUT, out_len, behind), out_len, place(END, end_len, behind), end_len);
    return PALETTE_REFUSAL(result);
}

/* The number of calls that were not judged as they should be. */
static unsigned currents_of_all(const struct input *snapshot, bool behind)
{
    const size_t operand = PALETTE_OPERAND_BYTES, out = PALETTE_CURRENTS_BYTES,
                 end = PALETTE_END_BYTES;
    bool known = snapshot->bytes[0] == PALETTE_CHIP_TLC34058;
    unsigned wrong = 0;
    wrong += currents(snapshot, snapshot->len, operand, out, end, behind) !=
             (known ? PALETTE_ACCEPTED : PALETTE_REFUSED_CURRENTS_CHIP);
    wrong += currents(snapshot, snapshot->len, operand, out - 1, end, behind) !=
             (known ? PALETTE_REFUSED_ANSWER_BUFFER : PALETTE_REFUSED_CURRENTS_CHIP);
    wrong += currents(snapshot, snapshot->len, operand, out, end - 1, behind) !=
             (known ? PALETTE_REFUSED_END_BUFFER : PALETTE_REFUSED_CURRENTS_CHIP);
    for (size_t len = 0; len <= operand + 1; len++)
        if (len != operand)
            wrong += currents(snapshot, snapshot->len, len, out, end, behind) !=
                     (known ? PALETTE_REFUSED_LOG_LENGTH : PALETTE_REFUSED_CURRENTS_CHIP);
    for (size_t len = 0; len < snapshot->len; len++)
        wrong += currents(snapshot, len, operand, out, end, behind) !=
                 (len < PALETTE_SNAPSHOT_HEADER_BYTES ? PALETTE_REFUSED_SNAPSHOT_SHORT
                                                      : PALETTE_REFUSED_SNAPSHOT_LENGTH);
    return wrong;
}

static uint64_t plan(const struct input *snapshot, size_t snapshot_len, const uint8_t *wanted,
                     size_t wanted_len, size_t writes_len, bool behind)
{
    return palette_plan(place_copy(SNAPSHOT, snapshot->bytes, snapshot_len, behind), snapshot_len,
                        place_copy(WANTED, wanted, wanted_len, behind), wanted_len,
                        place(WRITES, writes_len, behind), writes_len);
}

/* The number of calls that were not judged as they should be. */
static unsigned plan_all(const struct input *snapshot, bool behind)
{
    const size_t table = PALETTE_WANTED_BYTES, writes = PALETTE_PLAN_BYTES;
    uint8_t wanted[PALETTE_WANTED_BYTES + 1];
    bool known = snapshot->bytes[0] == PALETTE_CHIP_HD153129;
    unsigned wrong = 0;
    memset(wanted, 1, sizeof wanted);
    uint64_t whole = plan(snapshot, snapshot->len, wanted, table, writes, behind);
    wrong += PALETTE_REFUSAL(whole) != (known ? PALETTE_ACCEPTED : PALETTE_REFUSED_PLAN_CHIP);
    wrong += PALETTE_COUNT(whole) != (known ? PALETTE_MOST_WRITES : 0);
    for (size_t len = 0; len < writes; len++)
        wrong += PALETTE_REFUSAL(plan(snapshot, snapshot->len, wanted, table, len, behind)) !=
                 (known ? PALETTE_REFUSED_PLAN_BUFFER : PALETTE_REFUSED_PLAN_CHIP);
    for (size_t len = 0; len <= table + 1; len++)
        if (len != table)
            wrong += PALETTE_REFUSAL(plan(snapshot, snapshot->len, wanted, len, writes, behind)) !=
                     (known ? PALETTE_REFUSED_WANTED : PALETTE_REFUSED_PLAN_CHIP);
    for (size_t len = 0; len < snapshot->len; len++)
        wrong += PALETTE_REFUSAL(plan(snapshot, len, wanted, table, writes, behind)) !=
                 (len < PALETTE_SNAPSHOT_HEADER_BYTES ? PALETTE_REFUSED_SNAPSHOT_SHORT
                                                      : PALETTE_REFUSED_SNAPSHOT_LENGTH);
    return wrong;
}

/* Every place holds 1, but those of the last pixel. */
static void make_older_snapshot(struct input *snapshot)
{
    const size_t places = 789;
    uint8_t *number = snapshot->bytes + PALETTE_SNAPSHOT_HEADER_BYTES;
    snapshot->bytes[0] = PALETTE_CHIP_TLC34058;
    snapshot->bytes[1] = (uint8_t)places;
    snapshot->bytes[2] = (uint8_t)(places >> 8);
    for (size_t i = 0; i < places; i++) {
        *number++ = (uint8_t)i;
        *number++ = (uint8_t)(i >> 8);
    }
    memset(number, 1, places);
    snapshot->len = PALETTE_SNAPSHOT_BYTES(places);
}

/* The test register is 01h, red's high half, and each pixel shows overlay 0. The
 * address write leaves position 0 and the palette read position 1, so no place is
 * 0 at the end, and the end snapshot is the longest. */
static const struct input test_log = {
    {PALETTE_CHIP_TLC34058, 6, 0, 0, 0,
     PALETTE_KIND_WRITE, PALETTE_KIND_READ, PALETTE_KIND_TICK, PALETTE_KIND_WRITE,
     PALETTE_KIND_READ, PALETTE_KIND_READ,
     0, 7, 0, 0, 0, 0, 0, 0,     /* address 07h */
     2, 0, 0, 0, 0, 0, 0, 0,     /* black: 01h */
     0, 0, 0, 0, 0, 0, 0, 1,     /* shown */
     2, 0x0A, 0, 0, 0, 0, 0, 0,  /* green's low half */
     2, 0, 0, 0, 0, 0, 0, 0,     /* 01h: 1Ah */
     1, 0, 0, 0, 0, 0, 0, 0},    /* a palette read, 01h */
    PALETTE_LOG_BYTES(6)};

/* The number of runs that were not judged, or reads not answered, as they should
 * be. */
static unsigned run_test_log(bool behind)
{
    /* A byte too small, and what a program compiled with an older header lends. */
    static const size_t too_small[] = {2378, 2370};
    static struct input snapshot;
    const size_t answers_len = 6 * PALETTE_ANSWER_BYTES;
    const uint8_t *answers = place(ANSWERS, answers_len, behind);
    const uint8_t *end = place(END, 2379, behind);
    unsigned wrong = 0;
    make_older_snapshot(&snapshot);
    for (size_t i = 0; i < sizeof too_small / sizeof too_small[0]; i++)
        wrong += run(&snapshot, snapshot.len, &test_log, test_log.len, answers_len, too_small[i],
                     behind) != PALETTE_REFUSED_END_BUFFER;
    wrong += run(&snapshot, snapshot.len, &test_log, test_log.len, answers_len, 2379, behind) !=
             PALETTE_ACCEPTED;
    wrong += answers[1 * PALETTE_ANSWER_BYTES + 1] != 0x01;
    wrong += answers[4 * PALETTE_ANSWER_BYTES + 1] != 0x1A;
    /* All 792 places; the last values are the last pixel's. */
    wrong += end[1] + 256 * end[2] != 792;
    for (size_t i = 2376; i < 2379; i++)
        wrong += end[i] != 1;
    return wrong;
}

int main(int argc, char **argv)
{
    static struct input snapshot, log;
    if (argc != 3) {
        fprintf(stderr, "usage: edges SNAPSHOT LOG\n");
        return 2;
    }
    read_input(argv[1], &snapshot);
    read_input(argv[2], &log);
    if (log.len < PALETTE_LOG_BYTES(1)) {
        fprintf(stderr, "edges: %s has no event\n", argv[2]);
        return 2;
    }
    rooms[SNAPSHOT] = make_room(sizeof snapshot.bytes);
    rooms[LOG] = make_room(sizeof log.bytes);
    rooms[ANSWERS] = make_room(PALETTE_MOST_ANSWER_BYTES);
    rooms[END] = make_room(PALETTE_END_BYTES);
    unsigned wrong = run_all(&snapshot, &log, true) + run_all(&snapshot, &log, false) +
                     currents_of_all(&snapshot, true) + currents_of_all(&snapshot, false) +
                     plan_all(&snapshot, true) + plan_all(&snapshot, false) +
                     run_test_log(true) + run_test_log(false);
    printf("%u calls judged wrongly\n", wrong);
    return wrong == 0 ? 0 : 1;
}
