/* The HD153129's words: its data sheet's, and document 01's where that has none. */
#include <stdio.h>

#include "chips.h"
#include "print.h"

enum { ENTRIES = 256 };

/* The places behind the entries, in their order. */
enum {
    ADDRESS = COMPONENTS * ENTRIES,
    POSITION,
    DIRECTION,
    HELD_RED,
    HELD_GREEN,
    PIXEL_MASK,
    PLACES
};
_Static_assert(PLACES == PALETTE_HD153129_PLACES, "every place has its name");

enum { DIRECTIONS = 2 };

static const struct place rest[PLACES - ADDRESS] = {
    [ADDRESS - ADDRESS] = {"address register", false},
    [POSITION - ADDRESS] = {"position", true},
    [DIRECTION - ADDRESS] = {"direction", true},
    [HELD_RED - ADDRESS] = {"held red (R register)", false},
    [HELD_GREEN - ADDRESS] = {"held green (G register)", false},
    [PIXEL_MASK - ADDRESS] = {"pixel mask register", false},
};

static const struct painted painted[] = {{PALETTE_PAINTED_PIXEL_MASK, PIXEL_MASK}};

static const char *const selectors[] = {"address", "colour", "mask", "read-address"};

static const struct field tick[] = {{NULL, 0}, {"levels", 7}};

static void name_entry(size_t entry, char *name)
{
    snprintf(name, NAME_ROOM, "CLT %02zXh", entry);
}

static void print_rest(const struct chip *chip, const uint8_t *places)
{
    static const char *const directions[DIRECTIONS] = {"write mode", "read mode"};
    static const char *const positions[DIRECTIONS][COMPONENTS] = {
        {"red next", "red written, green next", "green written, blue next"},
        {"red next", "red read, green next", "green read, blue next"},
    };
    print_place(chip, places, ADDRESS, NULL);
    print_place(chip, places, POSITION, positions[places[DIRECTION]][places[POSITION]]);
    print_place(chip, places, DIRECTION, directions[places[DIRECTION]]);
    print_place(chip, places, HELD_RED, NULL);
    print_place(chip, places, HELD_GREEN, NULL);
    print_mask(chip, places, PIXEL_MASK, "planes enabled:");
}

const struct chip hd153129 = {
    .number = PALETTE_CHIP_HD153129,
    .name = "HD153129",
    .colour_bits = 6,
    .entries = ENTRIES,
    .entry = colour_places,
    .entry_places = COMPONENTS,
    .name_entry = name_entry,
    .listed = colours_listed,
    .rest = rest,
    .rest_count = PLACES - ADDRESS,
    .print_rest = print_rest,
    .selectors = selectors,
    .selector_count = sizeof selectors / sizeof selectors[0],
    .painted = painted,
    .painted_count = sizeof painted / sizeof painted[0],
    .tick = {tick, sizeof tick / sizeof tick[0]},
};
