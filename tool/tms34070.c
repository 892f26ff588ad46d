/* The TMS34070's words: its data sheet's, and document 02's where that has none. */
#include <stdio.h>

#include "chips.h"
#include "print.h"

enum { REGISTERS = 16 };

/* The places of a register: its colour, then its attributes. */
static const struct place colour_register[] = {
    {"red", false}, {"green", false}, {"blue", false}, {"EXT", true}, {"REP", true},
};
enum { REGISTER_PLACES = sizeof colour_register / sizeof colour_register[0] };

/* The places behind the registers, in their order. */
enum {
    LOAD_POSITION = REGISTER_PLACES * REGISTERS,
    HELD_RED,
    HELD_ATTRIBUTES,
    RED_BEFORE,
    GREEN_BEFORE,
    BLUE_BEFORE,
    PLACES
};
_Static_assert(PLACES == PALETTE_TMS34070_PLACES, "every place has its name");

static const struct place rest[PLACES - LOAD_POSITION] = {
    [LOAD_POSITION - LOAD_POSITION] = {"load position", true},
    [HELD_RED - LOAD_POSITION] = {"held red", false},
    [HELD_ATTRIBUTES - LOAD_POSITION] = {"held EXT + 2 x REP", true},
    [RED_BEFORE - LOAD_POSITION] = {"colour before, red", false},
    [GREEN_BEFORE - LOAD_POSITION] = {"colour before, green", false},
    [BLUE_BEFORE - LOAD_POSITION] = {"colour before, blue", false},
};

static const struct field tick[] = {{NULL, 0}, {NULL, 1}, {"levels", 7}};

static void name_entry(size_t entry, char *name)
{
    snprintf(name, NAME_ROOM, "register %zu", entry);
}

/* Two loads fill a register. */
static void print_load_position(const struct chip *chip, const uint8_t *places)
{
    static const char *const halves[] = {"red, EXT and REP next", "green and blue next"};
    char words[64];
    unsigned position = places[LOAD_POSITION];
    snprintf(words, sizeof words, "register %u, %s", position / 2, halves[position % 2]);
    print_place(chip, places, LOAD_POSITION, words);
}

static void print_rest(const struct chip *chip, const uint8_t *places)
{
    static const char *const attributes[] = {"EXT 0, REP 0", "EXT 1, REP 0", "EXT 0, REP 1",
                                             "EXT 1, REP 1"};
    print_load_position(chip, places);
    print_place(chip, places, HELD_RED, NULL);
    print_place(chip, places, HELD_ATTRIBUTES, attributes[places[HELD_ATTRIBUTES]]);
    print_name("colour before");
    print_colour(chip, places + RED_BEFORE);
    print("\n");
}

/* Its registers are loaded from the frame buffer, so no selector has a name. */
const struct chip tms34070 = {
    .number = PALETTE_CHIP_TMS34070,
    .name = "TMS34070",
    .colour_bits = 4,
    .entries = REGISTERS,
    .entry = colour_register,
    .entry_places = REGISTER_PLACES,
    .name_entry = name_entry,
    .listed = "registers that aren't 0",
    .rest = rest,
    .rest_count = PLACES - LOAD_POSITION,
    .print_rest = print_rest,
    .tick = {tick, sizeof tick / sizeof tick[0]},
    .pixel_bit = "EXT",
};
