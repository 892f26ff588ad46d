/*
 * Times palette_plan against the plain baseline on many wanted tables, in one run
 * and turn by turn, after checking that both give the same bytes.
 *
 *   plans [REPEATS]
 *
 * A table's time is the smallest of the repeats; a row's time is the mean of its
 * tables.
 */
#define _POSIX_C_SOURCE 200809L

#include <stdbool.h>
#include <stdio.h>
#include <stdlib.h>
#include <string.h>
#include <time.h>

#include "palette.h"
#include "plain.h"

enum { TABLES = 40, DEFAULT_REPEATS = 1000, LARGEST_COLOUR = 63 };

typedef uint64_t plan_function(const uint8_t *, size_t, const uint8_t *, size_t, uint8_t *,
                               size_t);

/* A chip with colours everywhere, and what it is to have. */
static struct {
    uint8_t snapshot[PALETTE_SNAPSHOT_BYTES(PALETTE_WANTED_BYTES)];
    uint8_t wanted[PALETTE_WANTED_BYTES];
} input;

static uint8_t writes[PALETTE_PLAN_BYTES], plain_writes[PALETTE_PLAN_BYTES];
static unsigned seed = 1;

/* The numbers of the C standard's example, so that every machine times the same
 * tables. */
static unsigned below(unsigned limit)
{
    seed = seed * 1103515245 + 12345;
    return seed / 65536 % 32768 % limit;
}

/* No place of the colours is 0, so each has its number and its value. */
static void make_snapshot(uint8_t *snapshot)
{
    uint8_t *number = snapshot + PALETTE_SNAPSHOT_HEADER_BYTES;
    uint8_t *value = number + 2 * PALETTE_WANTED_BYTES;
    snapshot[0] = PALETTE_CHIP_HD153129;
    snapshot[1] = PALETTE_WANTED_BYTES % 256;
    snapshot[2] = PALETTE_WANTED_BYTES / 256;
    for (unsigned place = 0; place < PALETTE_WANTED_BYTES; place++) {
        *number++ = (uint8_t)place;
        *number++ = (uint8_t)(place >> 8);
        *value++ = (uint8_t)(1 + below(LARGEST_COLOUR));
    }
}

/* So many of a hundred entries differ, in a component at least. */
static void make_input(unsigned share)
{
    make_snapshot(input.snapshot);
    memcpy(input.wanted,
           input.snapshot + PALETTE_SNAPSHOT_HEADER_BYTES + 2 * PALETTE_WANTED_BYTES,
           PALETTE_WANTED_BYTES);
    for (unsigned entry = 0; entry < PALETTE_HD153129_ENTRIES; entry++) {
        if (below(100) < share)
            input.wanted[3 * entry + below(3)] = 0;
    }
}

static uint64_t call(plan_function *plan, uint8_t *to)
{
    return plan(input.snapshot, sizeof input.snapshot, input.wanted, sizeof input.wanted, to,
                PALETTE_PLAN_BYTES);
}

static bool alike(void)
{
    memset(writes, 0xA5, sizeof writes);
    memset(plain_writes, 0xA5, sizeof plain_writes);
    uint64_t result = call(palette_plan, writes);
    return result == call(plain_plan, plain_writes) &&
           PALETTE_REFUSAL(result) == PALETTE_ACCEPTED &&
           memcmp(writes, plain_writes, sizeof writes) == 0;
}

/* Nanoseconds. */
static double time_of(plan_function *plan)
{
    struct timespec started, stopped;
    clock_gettime(CLOCK_MONOTONIC, &started);
    volatile uint64_t result = call(plan, writes);
    clock_gettime(CLOCK_MONOTONIC, &stopped);
    (void)result;
    return (double)(stopped.tv_sec - started.tv_sec) * 1e9 +
           (double)(stopped.tv_nsec - started.tv_nsec);
}

/* Both programs in turn: 0 is palette_plan, 1 the plain one. */
static void measure(unsigned repeats, double *smallest)
{
    static plan_function *const plans[] = {palette_plan, plain_plan};
    for (unsigned turn = 0; turn < 2 * repeats; turn++) {
        double time = time_of(plans[turn % 2]);
        if (turn < 2 || time < smallest[turn % 2])
            smallest[turn % 2] = time;
    }
}

static bool bench_share(unsigned share, unsigned repeats)
{
    double sums[2] = {0, 0}, count = 0;
    for (unsigned i = 0; i < TABLES; i++) {
        double smallest[2];
        make_input(share);
        if (!alike()) {
            printf("table %u: palette_plan and plain_plan differ\n", i);
            return false;
        }
        measure(repeats, smallest);
        count += (double)PALETTE_COUNT(call(palette_plan, writes));
        sums[0] += smallest[0];
        sums[1] += smallest[1];
    }
    printf("%6u  %6.0f  %8.2f  %15.2f  %5.2f\n", share, count / TABLES, sums[1] / TABLES / 1000,
           sums[0] / TABLES / 1000, sums[0] / sums[1]);
    return true;
}

int main(int argc, char **argv)
{
    int repeats = argc > 1 ? atoi(argv[1]) : DEFAULT_REPEATS;
    if (repeats < 1 || argc > 2) {
        fprintf(stderr, "usage: plans [REPEATS]\n");
        return 2;
    }
    printf("Plans: %d wanted tables in each row, the smallest of %d repeats, both programs in\n"
           "turn. So many of 100 entries differ.\n\n",
           TABLES, repeats);
    printf("differ  writes  plain us  palette_plan us  ratio\n");
    for (unsigned share = 0; share <= 100; share += 25) {
        if (!bench_share(share, (unsigned)repeats))
            return 1;
    }
    return 0;
}
