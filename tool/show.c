/* palette show: what a chip holds. */
#include <stdio.h>
#include <stdlib.h>

#include "files.h"
#include "library.h"
#include "outputs.h"
#include "picture.h"
#include "print.h"
#include "subcommands.h"

/* A swatch has so many entries in a row, each a square of so many pixels. */
enum { SWATCH_COLUMNS = 16, SWATCH_SIDE = 16 };

/* Whether an entry has a line: its attributes count, too, if it has any. */
static bool is_listed(const struct state *state, size_t entry)
{
    const uint8_t *values = entry_of(state, entry);
    for (size_t i = 0; i < state->chip->entry_places; i++) {
        if (values[i] != 0)
            return true;
    }
    return false;
}

static void print_entry(const struct state *state, size_t entry)
{
    const struct chip *chip = state->chip;
    const uint8_t *values = entry_of(state, entry);
    char name[NAME_ROOM], line[NAME_ROOM + 2];
    chip->name_entry(entry, name);
    snprintf(line, sizeof line, "  %s", name);
    print_name(line);
    print_colour(chip, values);
    for (size_t i = COMPONENTS; i < chip->entry_places; i++)
        print(", %s %u", chip->entry[i].name, values[i]);
    print("\n");
}

static void print_entries(const struct state *state)
{
    size_t entries = state->chip->entries, listed = 0;
    for (size_t entry = 0; entry < entries; entry++)
        listed += is_listed(state, entry);
    print("%s: %zu of %zu\n", state->chip->listed, listed, entries);
    for (size_t entry = 0; entry < entries; entry++) {
        if (is_listed(state, entry))
            print_entry(state, entry);
    }
}

static void draw_entry(const struct state *state, size_t entry, struct picture *picture)
{
    size_t left = entry % SWATCH_COLUMNS * SWATCH_SIDE, top = entry / SWATCH_COLUMNS * SWATCH_SIDE;
    for (size_t y = top; y < top + SWATCH_SIDE; y++) {
        for (size_t x = left; x < left + SWATCH_SIDE; x++)
            set_pixel(picture, x, y, state->chip, entry_of(state, entry));
    }
}

static bool write_swatch(const struct state *state, const char *path)
{
    size_t entries = state->chip->entries;
    size_t rows = (entries + SWATCH_COLUMNS - 1) / SWATCH_COLUMNS;
    struct picture picture;
    if (!start_picture(&picture, SWATCH_COLUMNS * SWATCH_SIDE, rows * SWATCH_SIDE))
        return false;
    for (size_t entry = 0; entry < entries; entry++)
        draw_entry(state, entry, &picture);
    struct output output = {.path = path, .bytes = picture.bytes, .len = picture.len};
    bool good = write_files(&output, 1);
    free(picture.bytes);
    return good;
}

static int play(const struct words *words)
{
    struct state state;
    const char *ppm = words->option[OPTION_PPM];
    int status = read_state(words->operand[0], &state);
    if (status != STATUS_DONE)
        return status;
    print_chip(state.chip);
    state.chip->print_rest(state.chip, state.places);
    print_entries(&state);
    bool good = finish_printing(ppm != NULL) && (ppm == NULL || write_swatch(&state, ppm));
    return good ? STATUS_DONE : STATUS_FAILED;
}

const struct subcommand show_subcommand = {
    .name = "show",
    .synopsis = "[--ppm FILE] SNAPSHOT",
    .help = "Prints what a chip holds: address and position, held bytes, registers with their\n"
            "bits in words, of a TLC34058 the last pixel, which its test register reads, and\n"
            "the colours that aren't black, in the chip's own codes. Of a TMS34070: load\n"
            "position, held values, the colour before, and the registers that aren't 0, with\n"
            "EXT and REP.\n"
            "\n"
            "  --ppm FILE   write a swatch of all colours, 16 to a row\n",
    .takes = {[OPTION_PPM] = true},
    .operands = 1,
    .files = 1,
    .play = play,
};
