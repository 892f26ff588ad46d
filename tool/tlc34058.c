/* The TLC34058's words: its data sheet's, and document 01's where that has none. */
#include <stdio.h>

#include "chips.h"
#include "print.h"

enum { PALETTE = 256, OVERLAYS = 4, ENTRIES = PALETTE + OVERLAYS };

/* The places behind the entries, in their order. */
enum {
    ADDRESS = COMPONENTS * ENTRIES,
    POSITION,
    HELD_RED,
    HELD_GREEN,
    READ_MASK,
    BLINK_MASK,
    COMMAND,
    TEST,
    BLINK_COUNT,
    LAST_RED,
    LAST_GREEN,
    LAST_BLUE,
    PLACES
};
_Static_assert(PLACES == PALETTE_TLC34058_PLACES, "every place has its name");

static const struct place rest[PLACES - ADDRESS] = {
    [ADDRESS - ADDRESS] = {"address register (ADDR0-7)", false},
    [POSITION - ADDRESS] = {"position (ADDRa,b)", true},
    [HELD_RED - ADDRESS] = {"held red (RREG)", false},
    [HELD_GREEN - ADDRESS] = {"held green (GREG)", false},
    [READ_MASK - ADDRESS] = {"read mask register (04h)", false},
    [BLINK_MASK - ADDRESS] = {"blink mask register (05h)", false},
    [COMMAND - ADDRESS] = {"command register (06h)", false},
    [TEST - ADDRESS] = {"test register (07h)", false},
    [BLINK_COUNT - ADDRESS] = {"blink count", true},
    [LAST_RED - ADDRESS] = {"last pixel, red", false},
    [LAST_GREEN - ADDRESS] = {"last pixel, green", false},
    [LAST_BLUE - ADDRESS] = {"last pixel, blue", false},
};

static const struct painted painted[] = {
    {PALETTE_PAINTED_READ_MASK, READ_MASK},
    {PALETTE_PAINTED_BLINK_MASK, BLINK_MASK},
    {PALETTE_PAINTED_COMMAND, COMMAND},
};

static const char *const selectors[] = {"address", "palette", "control", "overlay"};

static const struct field tick[] = {
    {NULL, 0}, {NULL, 1}, {NULL, 2}, {NULL, 3}, {NULL, 4}, {"ol0", 5}, {"ol1", 6}, {"levels", 7},
};

/* Bits of a register, and what each of their values says. */
struct bits {
    const char *name;
    unsigned lowest, values;
    const char *words[4];
};

/* Table 7. */
static const struct bits command_bits[] = {
    {"  CR7", 7, 2, {"4:1 multiplexing, pixels A to D", "5:1 multiplexing, pixels A to E"}},
    {"  CR6", 6, 2,
     {"overlay 0 where OL1 and OL0 are 0", "palette RAM where OL1 and OL0 are 0"}},
    {"  CR5, CR4", 4, 4,
     {"blink rate 16 on, 48 off", "blink rate 16 on, 16 off", "blink rate 32 on, 32 off",
      "blink rate 64 on, 64 off"}},
    {"  CR3", 3, 2, {"OL1 blinking disabled", "OL1 blinking enabled"}},
    {"  CR2", 2, 2, {"OL0 blinking disabled", "OL0 blinking enabled"}},
    {"  CR1", 1, 2, {"OL1 display disabled", "OL1 display enabled"}},
    {"  CR0", 0, 2, {"OL0 display disabled", "OL0 display enabled"}},
};
enum { COMMAND_BITS = sizeof command_bits / sizeof command_bits[0] };

/* Table 8, by which TR3 is low for the MSBs; the text below it has them the other
 * way round. */
static const struct bits test_bits[] = {
    {"  TR3", 3, 2, {"4 MSBs of the data input", "4 LSBs of the data input"}},
    {"  TR2", 2, 2, {"blue DAC not selected", "blue DAC selected"}},
    {"  TR1", 1, 2, {"green DAC not selected", "green DAC selected"}},
    {"  TR0", 0, 2, {"red DAC not selected", "red DAC selected"}},
};
enum { TEST_BITS = sizeof test_bits / sizeof test_bits[0] };

static void name_entry(size_t entry, char *name)
{
    if (entry < PALETTE)
        snprintf(name, NAME_ROOM, "palette %02zXh", entry);
    else
        snprintf(name, NAME_ROOM, "overlay %zu", entry - PALETTE);
}

static void print_bits(const struct bits *bits, size_t count, uint8_t byte)
{
    for (size_t i = 0; i < count; i++) {
        unsigned value = (unsigned)byte >> bits[i].lowest & (bits[i].values - 1);
        print_name(bits[i].name);
        if (bits[i].values == 4)
            print(" %u%u", value >> 1, value & 1);
        else
            print(" %u", value);
        print(": %s\n", bits[i].words[value]);
    }
}

static void print_rest(const struct chip *chip, const uint8_t *places)
{
    /* Reads move the position like writes, and it doesn't tell which they were. */
    static const char *const positions[COMPONENTS] = {
        "red next",
        "red written, green next (or red read)",
        "green written, blue next (or green read)",
    };
    print_place(chip, places, ADDRESS, NULL);
    print_place(chip, places, POSITION, positions[places[POSITION]]);
    print_place(chip, places, HELD_RED, NULL);
    print_place(chip, places, HELD_GREEN, NULL);
    print_mask(chip, places, READ_MASK, "planes enabled:");
    print_mask(chip, places, BLINK_MASK, "planes blinking:");
    print_place(chip, places, COMMAND, NULL);
    print_bits(command_bits, COMMAND_BITS, places[COMMAND]);
    print_place(chip, places, TEST, NULL);
    print_bits(test_bits, TEST_BITS, places[TEST]);
    print_place(chip, places, BLINK_COUNT, NULL);
    print_name("last pixel (DAC inputs)");
    print_colour(chip, places + LAST_RED);
    print("\n");
}

const struct chip tlc34058 = {
    .number = PALETTE_CHIP_TLC34058,
    .name = "TLC34058",
    .colour_bits = 8,
    .entries = ENTRIES,
    .entry = colour_places,
    .entry_places = COMPONENTS,
    .name_entry = name_entry,
    .listed = colours_listed,
    .rest = rest,
    .rest_count = PLACES - ADDRESS,
    .print_rest = print_rest,
    .selectors = selectors,
    .selector_count = sizeof selectors / sizeof selectors[0],
    .painted = painted,
    .painted_count = sizeof painted / sizeof painted[0],
    .tick = {tick, sizeof tick / sizeof tick[0]},
};
