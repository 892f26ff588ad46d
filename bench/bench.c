/*
 * Times palette_run against the plain baseline on many different logs, in one
 * run and turn by turn, after checking that both give the same bytes.
 *
 *   bench [REPEATS]
 *
 * A log's time is the smallest of the repeats, which are more for short logs; a
 * mix's time is the sum over its logs, divided by its events.
 */
#define _POSIX_C_SOURCE 200809L

#include <stdbool.h>
#include <stdio.h>
#include <stdlib.h>
#include <string.h>
#include <time.h>

#include "palette.h"
#include "plain.h"

enum { LOGS = 40, MIX_EVENTS = 3000, DEFAULT_REPEATS = 25 };

typedef uint64_t run_function(const uint8_t *, size_t, const uint8_t *, size_t,
                              uint8_t *, size_t, uint8_t *, size_t);

/* How many of a thousand events are writes, reads, ticks, vertical periods and
 * saves, by their kind bytes, and the ratio to stay at or under. */
struct mix {
    const char *name;
    unsigned share[PALETTE_KIND_SAVE + 1];
    double goal;
};

static const struct mix mixes[] = {
    {"mixed", {450, 200, 300, 45, 5}, 1.3},
    {"write-heavy", {900, 50, 40, 10, 0}, 1.3},
    {"tick-heavy", {80, 20, 850, 50, 0}, 1.3},
    {"save-heavy", {350, 100, 250, 50, 250}, 1.5},
};

/* What the inputs of a chip are made from. */
struct chip {
    uint8_t number;
    unsigned places, colour_places, colour_largest;
    void (*make_registers)(uint8_t *places);
    void (*make_tick)(uint8_t *operand);
    bool has_low_addresses; /* registers and overlays at addresses 0 to 7 */
    /* What nearly all events of each kind in a mix become: the kind itself, or
     * another if the chip refuses it. */
    unsigned becomes[PALETTE_KIND_SAVE + 1];
    double goal; /* of all its mixes, where it has one of its own */
};

struct input {
    uint8_t snapshot[PALETTE_END_BYTES];
    size_t snapshot_len;
    uint8_t log[PALETTE_MOST_LOG_BYTES];
    size_t log_len, events;
};

static struct input inputs[LOGS];
static uint8_t answers[PALETTE_MOST_ANSWER_BYTES];
static uint8_t plain_answers[PALETTE_MOST_ANSWER_BYTES];
static uint8_t end[PALETTE_END_BYTES];
static uint8_t plain_end[PALETTE_END_BYTES];
static uint64_t seed;

/* splitmix64, so that every machine times the same logs. */
static uint64_t next_random(void)
{
    seed += UINT64_C(0x9E3779B97F4A7C15);
    uint64_t z = seed;
    z = (z ^ z >> 30) * UINT64_C(0xBF58476D1CE4E5B9);
    z = (z ^ z >> 27) * UINT64_C(0x94D049BB133111EB);
    return z ^ z >> 31;
}

static unsigned below(unsigned limit)
{
    return (unsigned)(next_random() % limit);
}

/* Registers that show the colours; the last pixel shown was entry 0. */
static void make_tlc34058_registers(uint8_t *places)
{
    places[784] = 255;
    places[785] = (uint8_t)below(256);
    places[786] = (uint8_t)(0x43 + (below(2) << 7));
    places[787] = 1; /* a read of the test register gives red's high half */
    places[788] = (uint8_t)below(128);
    memcpy(places + 789, places, 3);
}

static void make_hd153129_registers(uint8_t *places)
{
    places[773] = 255;
}

/* All its places: registers, load position, held values and colour before. */
static void make_tms34070_registers(uint8_t *places)
{
    for (unsigned place = 0; place < 80; place += 5) {
        for (unsigned component = 0; component < 3; component++)
            places[place + component] = (uint8_t)below(16);
        places[place + 3] = below(4) == 0;
        places[place + 4] = below(4) == 0;
    }
    places[80] = (uint8_t)below(32);
    places[81] = (uint8_t)below(16);
    places[82] = (uint8_t)below(4);
    for (unsigned place = 83; place < 86; place++)
        places[place] = (uint8_t)below(16);
}

static void make_tlc34058_tick(uint8_t *operand)
{
    operand[0] = (uint8_t)below(256);
    operand[7] = below(8) != 0;
    for (unsigned pixel = 1; pixel < 5; pixel++)
        operand[pixel] = (uint8_t)below(256);
    operand[5] = (uint8_t)(below(32) & below(32));
    operand[6] = (uint8_t)(below(32) & below(32));
    operand[7] |= (uint8_t)(below(2) << 1);
}

static void make_hd153129_tick(uint8_t *operand)
{
    operand[0] = (uint8_t)below(256);
    operand[7] = below(8) != 0;
}

static void make_tms34070_tick(uint8_t *operand)
{
    operand[0] = (uint8_t)below(16);
    operand[1] = (uint8_t)below(16);
    operand[7] = below(8) != 0;
}

static const struct chip chips[] = {
    {
        .number = PALETTE_CHIP_TLC34058,
        .places = PALETTE_TLC34058_PLACES,
        .colour_places = 780,
        .colour_largest = 255,
        .make_registers = make_tlc34058_registers,
        .make_tick = make_tlc34058_tick,
        .has_low_addresses = true,
        .becomes = {PALETTE_KIND_WRITE, PALETTE_KIND_READ, PALETTE_KIND_TICK,
                    PALETTE_KIND_VERTICAL, PALETTE_KIND_SAVE},
    },
    {
        .number = PALETTE_CHIP_HD153129,
        .places = PALETTE_HD153129_PLACES,
        .colour_places = 768,
        .colour_largest = 63,
        .make_registers = make_hd153129_registers,
        .make_tick = make_hd153129_tick,
        .becomes = {PALETTE_KIND_WRITE, PALETTE_KIND_READ, PALETTE_KIND_TICK, PALETTE_KIND_TICK,
                    PALETTE_KIND_SAVE},
    },
    {
        .number = PALETTE_CHIP_TMS34070,
        .places = PALETTE_TMS34070_PLACES,
        .goal = 1.2,
        .make_registers = make_tms34070_registers,
        .make_tick = make_tms34070_tick,
        .becomes = {PALETTE_KIND_LOAD, PALETTE_KIND_LOAD, PALETTE_KIND_TICK, PALETTE_KIND_TICK,
                    PALETTE_KIND_SAVE},
    },
};
enum { CHIPS = sizeof chips / sizeof chips[0] };

/* A start with colours everywhere. */
static void make_snapshot(struct input *input, const struct chip *chip)
{
    uint8_t places[PALETTE_MOST_PLACES] = {0};
    for (unsigned place = 0; place < chip->colour_places; place++)
        places[place] = (uint8_t)below(chip->colour_largest + 1);
    chip->make_registers(places);

    unsigned count = 0;
    for (unsigned place = 0; place < chip->places; place++)
        count += places[place] != 0;
    uint8_t *number = input->snapshot + PALETTE_SNAPSHOT_HEADER_BYTES;
    uint8_t *value = number + 2 * count;
    for (unsigned place = 0; place < chip->places; place++) {
        if (places[place] != 0) {
            *number++ = (uint8_t)place;
            *number++ = (uint8_t)(place >> 8);
            *value++ = places[place];
        }
    }
    input->snapshot[0] = chip->number;
    input->snapshot[1] = (uint8_t)count;
    input->snapshot[2] = (uint8_t)(count >> 8);
    input->snapshot_len = PALETTE_SNAPSHOT_BYTES(count);
}

/* Most accesses are colour accesses in sequence, as when a table is loaded;
 * some set an address or a register; a few are refused. */
static void make_access(const struct chip *chip, bool write, uint8_t *operand)
{
    unsigned chance = below(100);
    operand[0] = 1;
    if (chance < 12)
        operand[0] = 0;
    else if (chance < 17)
        operand[0] = 2;
    else if (chance < 22)
        operand[0] = 3;
    else if (chance < 23)
        operand[0] = 4;
    if (write)
        operand[1] = (uint8_t)below(256);
    if (write && operand[0] == 0 && chip->has_low_addresses && below(3) == 0)
        operand[1] &= 7;
}

/* Loads fill one register after the other, EXT and REP set in a quarter of
 * them; a few are refused. */
static void make_load(uint8_t *operand)
{
    operand[0] = (uint8_t)below(16);
    operand[1] = (uint8_t)(below(16) & below(16));
    if (below(100) == 0)
        operand[0] |= 16;
}

static unsigned make_kind(const struct mix *mix, const struct chip *chip)
{
    unsigned chance = below(1000), kind = 0;
    while (chance >= mix->share[kind])
        chance -= mix->share[kind++];
    if (chip->becomes[kind] != kind && below(50) != 0)
        kind = chip->becomes[kind];
    return kind;
}

static void make_log(struct input *input, const struct mix *mix, const struct chip *chip,
                     size_t events)
{
    uint8_t *kinds = input->log + PALETTE_LOG_HEADER_BYTES, *operands = kinds + events;
    memset(input->log, 0, sizeof input->log);
    input->log[0] = chip->number;
    input->log[1] = (uint8_t)events;
    input->log[2] = (uint8_t)(events >> 8);
    for (size_t i = 0; i < events; i++) {
        uint8_t *operand = operands + PALETTE_OPERAND_BYTES * i;
        unsigned kind = make_kind(mix, chip);
        kinds[i] = (uint8_t)kind;
        if (kind == PALETTE_KIND_WRITE || kind == PALETTE_KIND_READ)
            make_access(chip, kind == PALETTE_KIND_WRITE, operand);
        else if (kind == PALETTE_KIND_TICK)
            chip->make_tick(operand);
        else if (kind == PALETTE_KIND_LOAD)
            make_load(operand);
    }
    input->log_len = PALETTE_LOG_BYTES(events);
    input->events = events;
}

static void make_inputs(const struct mix *mix, const struct chip *chip, size_t events)
{
    seed = UINT64_C(0x5EED) + events;
    for (unsigned i = 0; i < LOGS; i++) {
        make_snapshot(&inputs[i], chip);
        make_log(&inputs[i], mix, chip, events);
    }
}

static uint64_t call(run_function *run, const struct input *input, uint8_t *to, uint8_t *end_to)
{
    return run(input->snapshot, input->snapshot_len, input->log, input->log_len, to,
               PALETTE_ANSWER_BYTES * input->events, end_to, PALETTE_END_BYTES);
}

/* Both must give the same number and the same bytes, in buffers that held the
 * same bytes before. */
static bool alike(const struct input *input)
{
    memset(answers, 0xA5, sizeof answers);
    memset(plain_answers, 0xA5, sizeof plain_answers);
    memset(end, 0x5A, sizeof end);
    memset(plain_end, 0x5A, sizeof plain_end);
    uint64_t result = call(palette_run, input, answers, end);
    uint64_t plain_result = call(plain_run, input, plain_answers, plain_end);
    return result == plain_result && PALETTE_REFUSAL(result) == PALETTE_ACCEPTED &&
           memcmp(answers, plain_answers, sizeof answers) == 0 &&
           memcmp(end, plain_end, sizeof end) == 0;
}

static double now(void)
{
    struct timespec time;
    clock_gettime(CLOCK_MONOTONIC, &time);
    return (double)time.tv_sec * 1e9 + (double)time.tv_nsec;
}

/* Where the stack lies beside the buffers, by steps of a cache line's quarter up
 * to a page, decides some of a short run's time. It is another place in each
 * process, so each repeat takes another: the smallest time is then that of a good
 * one. */
enum { STACK_STEP = 16, STACK_STEPS = 256, STACK_STRIDE = 41 };

static size_t stack_room(unsigned repeat)
{
    return 1 + STACK_STEP * (size_t)(repeat * STACK_STRIDE % STACK_STEPS);
}

/* The buffers are cleared before each run, outside the time taken. */
static double time_of(run_function *run, const struct input *input, unsigned repeat)
{
    volatile uint8_t room[stack_room(repeat)];
    room[0] = 0;
    (void)room[0];
    memset(answers, 0, sizeof answers);
    memset(end, 0, sizeof end);
    double started = now();
    volatile uint64_t result = call(run, input, answers, end);
    double stopped = now();
    (void)result;
    return stopped - started;
}

struct times {
    double palette, plain; /* nanoseconds */
};

static double smaller(double a, double b)
{
    return a < b ? a : b;
}

/* One log by both programs. They take turns at going first, for the second
 * finds the log in the cache. */
static struct times time_both(const struct input *input, unsigned repeat)
{
    struct times times;
    if (repeat % 2 == 0) {
        times.palette = time_of(palette_run, input, repeat);
        times.plain = time_of(plain_run, input, repeat);
    } else {
        times.plain = time_of(plain_run, input, repeat);
        times.palette = time_of(palette_run, input, repeat);
    }
    return times;
}

/* Nanoseconds for each event. A short log is repeated until it has as many events
 * as a long one's repeats. */
static struct times measure(unsigned repeats)
{
    static double palette[LOGS], plain[LOGS];
    if (inputs[0].events < MIX_EVENTS)
        repeats *= MIX_EVENTS / (unsigned)inputs[0].events;
    for (unsigned repeat = 0; repeat < repeats; repeat++) {
        for (unsigned i = 0; i < LOGS; i++) {
            struct times times = time_both(&inputs[i], repeat);
            palette[i] = repeat == 0 ? times.palette : smaller(palette[i], times.palette);
            plain[i] = repeat == 0 ? times.plain : smaller(plain[i], times.plain);
        }
    }
    struct times sum = {0, 0};
    double events = 0;
    for (unsigned i = 0; i < LOGS; i++) {
        sum.palette += palette[i];
        sum.plain += plain[i];
        events += (double)inputs[i].events;
    }
    sum.palette /= events;
    sum.plain /= events;
    return sum;
}

static bool all_alike(const char *name, const struct chip *chip)
{
    for (unsigned i = 0; i < LOGS; i++) {
        if (!alike(&inputs[i])) {
            printf("chip %u, %s, log %u: palette_run and plain_run differ\n", chip->number, name,
                   i);
            return false;
        }
    }
    return true;
}

static bool bench_mixes(unsigned repeats)
{
    printf("chip  mix           plain ns/event  palette_run ns/event  ratio  goal\n");
    for (const struct chip *chip = chips; chip < chips + CHIPS; chip++) {
        for (unsigned i = 0; i < sizeof mixes / sizeof mixes[0]; i++) {
            make_inputs(&mixes[i], chip, MIX_EVENTS);
            if (!all_alike(mixes[i].name, chip))
                return false;
            struct times times = measure(repeats);
            double ratio = times.palette / times.plain;
            double goal = chip->goal > 0 ? chip->goal : mixes[i].goal;
            printf("%4u  %-12s  %14.2f  %20.2f  %5.2f  %4.1f%s\n", chip->number, mixes[i].name,
                   times.plain, times.palette, ratio, goal, ratio > goal ? "  missed" : "");
            fflush(stdout);
        }
    }
    return true;
}

static bool bench_growth(unsigned repeats)
{
    static const size_t sizes[] = {100, 300, 1000, MIX_EVENTS, PALETTE_MOST_EVENTS};
    printf("\nmixed logs by length\n");
    printf("chip  events  plain us/run  palette_run us/run  palette_run ns/event  ratio\n");
    for (const struct chip *chip = chips; chip < chips + CHIPS; chip++) {
        for (unsigned i = 0; i < sizeof sizes / sizeof sizes[0]; i++) {
            make_inputs(&mixes[0], chip, sizes[i]);
            if (!all_alike("mixed", chip))
                return false;
            struct times times = measure(repeats);
            double events = (double)sizes[i];
            printf("%4u  %6zu  %12.2f  %18.2f  %20.2f  %5.2f\n", chip->number, sizes[i],
                   times.plain * events / 1000, times.palette * events / 1000, times.palette,
                   times.palette / times.plain);
            fflush(stdout);
        }
    }
    return true;
}

int main(int argc, char **argv)
{
    int repeats = argc > 1 ? atoi(argv[1]) : DEFAULT_REPEATS;
    if (repeats < 1 || argc > 2) {
        fprintf(stderr, "usage: bench [REPEATS]\n");
        return 2;
    }
    printf("%d logs of %d events in each mix, the smallest of %d repeats, both programs in turn;\n"
           "of shorter logs more repeats.\n",
           LOGS, MIX_EVENTS, repeats);
    printf("Both buffers are cleared before each run, outside the time taken.\n");
    printf("Of 1,000 events, writes, reads, ticks, vertical periods and saves:\n");
    for (unsigned i = 0; i < sizeof mixes / sizeof mixes[0]; i++)
        printf("  %-12s %u, %u, %u, %u, %u\n", mixes[i].name, mixes[i].share[PALETTE_KIND_WRITE],
               mixes[i].share[PALETTE_KIND_READ], mixes[i].share[PALETTE_KIND_TICK],
               mixes[i].share[PALETTE_KIND_VERTICAL], mixes[i].share[PALETTE_KIND_SAVE]);
    printf("On chips 2 and 3 nearly all vertical periods are ticks, on chip 3 nearly all writes\n"
           "and reads are loads.\n\n");
    return bench_mixes((unsigned)repeats) && bench_growth((unsigned)repeats) ? 0 : 1;
}
