#include "chips.h"

#include <stdio.h>
#include <string.h>

#include "files.h"

static const struct chip *const chips[] = {&tlc34058, &hd153129, &tms34070};
enum { CHIPS = sizeof chips / sizeof chips[0] };

const char *const kind_words[KINDS] = {
    [PALETTE_KIND_WRITE] = "write",
    [PALETTE_KIND_READ] = "read",
    [PALETTE_KIND_TICK] = "tick",
    [PALETTE_KIND_VERTICAL] = "vertical",
    [PALETTE_KIND_SAVE] = "save",
    [PALETTE_KIND_LOAD] = "load",
};

static const struct field data[] = {{NULL, 0}, {NULL, 1}};
const struct fields load_fields = {data, sizeof data / sizeof data[0]};

const struct place colour_places[COMPONENTS] = {{"red", false}, {"green", false}, {"blue", false}};
const char colours_listed[] = "colours that aren't black";

const struct chip *accepted_chip(uint8_t number)
{
    for (size_t i = 0; i < CHIPS; i++) {
        if (chips[i]->number == number)
            return chips[i];
    }
    say("chip %u is not known here, only to the library", number);
    return NULL;
}

size_t places_of_entries(const struct chip *chip)
{
    return chip->entry_places * chip->entries;
}

size_t places_of(const struct chip *chip)
{
    return places_of_entries(chip) + chip->rest_count;
}

static const struct place *place_at(const struct chip *chip, size_t place)
{
    size_t behind = places_of_entries(chip);
    return place < behind ? &chip->entry[place % chip->entry_places] : &chip->rest[place - behind];
}

bool is_count(const struct chip *chip, size_t place)
{
    return place_at(chip, place)->is_count;
}

void name_place(const struct chip *chip, size_t place, char *name)
{
    const char *own = place_at(chip, place)->name;
    if (place >= places_of_entries(chip)) {
        snprintf(name, NAME_ROOM, "%s", own);
        return;
    }
    chip->name_entry(place / chip->entry_places, name);
    size_t len = strlen(name);
    snprintf(name + len, NAME_ROOM - len, " %s", own);
}

void name_painted(const struct chip *chip, unsigned number, char *name)
{
    if (number < chip->entries) {
        chip->name_entry(number, name);
        return;
    }
    for (size_t i = 0; i < chip->painted_count; i++) {
        if (chip->painted[i].number == number) {
            name_place(chip, chip->painted[i].place, name);
            return;
        }
    }
    /* The library knows something that the tool doesn't. */
    snprintf(name, NAME_ROOM, "number %u", number);
}
