/* palette run: plays a log and says what the console shows. */
#include <stdlib.h>
#include <string.h>

#include "files.h"
#include "library.h"
#include "outputs.h"
#include "picture.h"
#include "print.h"
#include "refusals.h"
#include "subcommands.h"

/* An accepted run. */
struct played {
    const struct chip *chip;
    const struct log *log;
    const struct answers *answers;
};

static const uint8_t *answer_to(const struct played *played, size_t event)
{
    return played->answers->bytes + PALETTE_ANSWER_BYTES * event;
}

static bool is_shown_tick(const struct played *played, size_t event)
{
    return kind_of(played->log, event) == PALETTE_KIND_TICK &&
           answer_to(played, event)[0] == PALETTE_ACCEPTED;
}

/* Byte 1 of another event's answer says something else. */
static bool is_painting_write(const struct played *played, size_t event)
{
    return kind_of(played->log, event) == PALETTE_KIND_WRITE && answer_to(played, event)[1] == 1;
}

static void print_pixel_bits(const struct chip *chip, const uint8_t *answer)
{
    print(", %s", chip->pixel_bit);
    for (size_t pixel = 0; pixel < pixel_count(answer); pixel++)
        print(" %u", pixel_bit_of(answer, pixel));
}

static void print_tick(const struct played *played, size_t event)
{
    const uint8_t *answer = answer_to(played, event);
    print("event %zu, tick%s:", event, (answer[2] & 1) != 0 ? "" : ", blanked");
    for (size_t pixel = 0; pixel < pixel_count(answer); pixel++)
        print_colour(played->chip, pixel_of(answer, pixel));
    if (played->chip->pixel_bit != NULL)
        print_pixel_bits(played->chip, answer);
    print("\n");
}

static void print_painted(const struct played *played, size_t event)
{
    char name[NAME_ROOM];
    name_painted(played->chip, PALETTE_PAINTED(answer_to(played, event)), name);
    print("event %zu, write: painted %s\n", event, name);
}

static void print_refused(const struct played *played, size_t event)
{
    uint8_t kind = kind_of(played->log, event), refusal = answer_to(played, event)[0];
    print("event %zu, %s: refused (%u): %s\n", event, kind_words[kind], refusal,
          refusal_in_words(refusal));
}

/* What the console shows, event by event. */
static void print_played(const struct played *played)
{
    size_t events = event_count(played->log), ticks = 0, refused = 0;
    print_chip(played->chip);
    for (size_t event = 0; event < events; event++) {
        if (answer_to(played, event)[0] != PALETTE_ACCEPTED) {
            print_refused(played, event);
            refused++;
        } else if (is_shown_tick(played, event)) {
            print_tick(played, event);
            ticks++;
        } else if (is_painting_write(played, event)) {
            print_painted(played, event);
        }
    }
    print("%zu events, %zu ticks shown, %zu refused, end snapshot of %zu bytes\n", events, ticks,
          refused, played->answers->end_len);
}

/* A picture has a row for each tick shown, as wide as the widest. */
static void measure(const struct played *played, size_t *width, size_t *height)
{
    *width = *height = 0;
    for (size_t event = 0; event < event_count(played->log); event++) {
        if (is_shown_tick(played, event)) {
            size_t pixels = pixel_count(answer_to(played, event));
            *width = pixels > *width ? pixels : *width;
            ++*height;
        }
    }
}

/* Rows of fewer pixels end in black. */
static void draw(const struct played *played, struct picture *picture)
{
    size_t row = 0;
    for (size_t event = 0; event < event_count(played->log); event++) {
        if (!is_shown_tick(played, event))
            continue;
        const uint8_t *answer = answer_to(played, event);
        for (size_t pixel = 0; pixel < pixel_count(answer); pixel++)
            set_pixel(picture, pixel, row, played->chip, pixel_of(answer, pixel));
        row++;
    }
}

/* The picture and the end snapshot, if they are wanted. */
static bool write_wanted(const struct words *words, const struct played *played)
{
    struct output outputs[2];
    struct picture picture = {0};
    size_t count = 0, width, height;
    const char *ppm = words->option[OPTION_PPM], *end = words->option[OPTION_END];
    measure(played, &width, &height);
    if (ppm != NULL && height == 0) {
        say("no tick is shown, so there is no picture");
    } else if (ppm != NULL) {
        if (!start_picture(&picture, width, height))
            return false;
        draw(played, &picture);
        outputs[count++] =
            (struct output){.path = ppm, .bytes = picture.bytes, .len = picture.len};
    }
    if (end != NULL)
        outputs[count++] = (struct output){
            .path = end, .bytes = played->answers->end, .len = played->answers->end_len};
    bool good = write_files(outputs, count);
    free(picture.bytes);
    return good;
}

/* The file that the library refuses by itself; if neither, it refuses the two
 * together. */
static void say_which_refused(const struct words *words, const struct snapshot *snapshot,
                              const struct log *log, unsigned refusal)
{
    if (snapshot_refusal(snapshot) == refusal)
        say_refused(words->operand[0], refusal);
    else if (log_refusal(log) == refusal)
        say_refused(words->operand[1], refusal);
    else
        say("refused (%u): %s", refusal, refusal_in_words(refusal));
}

static int play(const struct words *words)
{
    static struct log log;
    static struct answers answers;
    struct snapshot snapshot;
    bool fresh = strcmp(words->operand[0], "fresh") == 0;
    if (!fresh && !read_snapshot(words->operand[0], &snapshot))
        return STATUS_FAILED;
    if (!read_log(words->operand[1], &log))
        return STATUS_FAILED;
    if (fresh)
        make_fresh(&log, &snapshot);
    unsigned refusal = run_log(&snapshot, &log, &answers);
    if (refusal != PALETTE_ACCEPTED) {
        say_which_refused(words, &snapshot, &log, refusal);
        return STATUS_REFUSED;
    }
    struct played played = {accepted_chip(log.bytes[0]), &log, &answers};
    if (played.chip == NULL)
        return STATUS_FAILED;
    print_played(&played);
    bool wanted = words->option[OPTION_END] != NULL || words->option[OPTION_PPM] != NULL;
    return finish_printing(wanted) && write_wanted(words, &played) ? STATUS_DONE : STATUS_FAILED;
}

const struct subcommand run_subcommand = {
    .name = "run",
    .synopsis = "[--end FILE] [--ppm FILE] SNAPSHOT LOG",
    .help = "Plays a log from a snapshot. Prints what each write painted, each tick's pixels\n"
            "as colours #rrggbb, in the chip's own codes, of a TMS34070 also their EXT bits,\n"
            "and each event that the chip refuses.\n"
            "\n"
            "SNAPSHOT may be fresh: the fresh chip that the log names, or a fresh chip 1\n"
            "where it names none.\n"
            "\n"
            "  --end FILE   write the snapshot at the log's end\n"
            "  --ppm FILE   write a picture, a row for each tick shown, if there is one\n",
    .takes = {[OPTION_END] = true, [OPTION_PPM] = true},
    .operands = 2,
    .files = 2,
    .play = play,
};
