/* palette currents: the output currents of a tick. */
#include <string.h>

#include "files.h"
#include "library.h"
#include "print.h"
#include "refusals.h"
#include "subcommands.h"
#include "text.h"

/* The tick that a word of the command line has: a line of a log's text. */
static bool read_tick(const char *word, const struct chip *chip, uint8_t *operand)
{
    static struct text text;
    text.path = "TICK";
    text.rest = word;
    if (!read_line(&text))
        return false;
    if (*text.rest != '\0')
        return fault(&text, "it has more than one line");
    if (text.words == 0 || strcmp(text.word[0], kind_words[PALETTE_KIND_TICK]) != 0)
        return fault(&text, "it doesn't start with the word tick");
    return operand_bytes(&text, &chip->tick, operand);
}

static void print_current(const char *name, unsigned hundredths)
{
    print("%s %2u.%02u mA", name, hundredths / 100, hundredths % 100);
}

/* The levels and pixels of a TLC34058: the library gives no other chip's currents. */
static void print_currents(const struct chip *chip, const uint8_t *out)
{
    print_chip(chip);
    print("BLK %s, SYNC %s\n", (out[2] & 1) != 0 ? "high" : "low",
          (out[2] & 2) != 0 ? "high" : "low");
    for (size_t pixel = 0; pixel < pixel_count(out); pixel++) {
        print("pixel %c", (char)('A' + pixel));
        print_colour(chip, pixel_of(out, pixel));
        print_current(": green", PALETTE_CURRENT(out, pixel, PALETTE_OUTPUT_GREEN));
        print_current(", red", PALETTE_CURRENT(out, pixel, PALETTE_OUTPUT_RED));
        print_current(", blue", PALETTE_CURRENT(out, pixel, PALETTE_OUTPUT_BLUE));
        print("\n");
    }
}

static int play(const struct words *words)
{
    struct snapshot snapshot;
    uint8_t operand[PALETTE_OPERAND_BYTES], out[PALETTE_CURRENTS_BYTES];
    if (!read_snapshot(words->operand[0], &snapshot))
        return STATUS_FAILED;
    unsigned refusal = currents_refusal(&snapshot);
    if (refusal != PALETTE_ACCEPTED) {
        say_refused(words->operand[0], refusal);
        return STATUS_REFUSED;
    }
    const struct chip *chip = accepted_chip(snapshot.bytes[0]);
    if (chip == NULL)
        return STATUS_FAILED;
    if (!read_tick(words->operand[1], chip, operand))
        return STATUS_REFUSED;
    refusal = tick_currents(&snapshot, operand, out);
    if (refusal != PALETTE_ACCEPTED) {
        say_refused(words->operand[0], refusal);
        return STATUS_REFUSED;
    }
    if (out[0] != PALETTE_ACCEPTED) {
        say_refused("TICK", out[0]);
        return STATUS_REFUSED;
    }
    print_currents(chip, out);
    return finish_printing(false) ? STATUS_DONE : STATUS_FAILED;
}

const struct subcommand currents_subcommand = {
    .name = "currents",
    .synopsis = "SNAPSHOT TICK",
    .help = "Prints the output currents of a TLC34058 for a tick: green, red and blue of each\n"
            "pixel, in milliamperes, by the data sheet's Table 6.\n"
            "\n"
            "TICK is one word, a tick of chip 1 as palette assemble has it in a text:\n"
            "\n"
            "  'tick A B C D E ol0 N ol1 N levels N'\n",
    .operands = 2,
    .files = 1,
    .play = play,
};
