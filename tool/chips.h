/* What the tool knows of the chips: words for what stands in the library's byte
 * strings. It has no rules: what a chip does, and what is refused, is for the
 * library to say. */
#ifndef CHIPS_H
#define CHIPS_H

#include <stdbool.h>
#include <stddef.h>
#include <stdint.h>

#include "palette.h"

enum { COMPONENTS = 3, KINDS = PALETTE_KIND_LOAD + 1, NAME_ROOM = 32 };

/* An operand byte in a log's text, and the word before it, if any. */
struct field {
    const char *word;
    unsigned byte;
};

/* The operand bytes of an event, in the order in which its line has them. */
struct fields {
    const struct field *list;
    size_t count;
};

/* A place behind the entries, or one of those that each entry has. */
struct place {
    const char *name;
    bool is_count; /* printed in decimal, not as a byte */
};

/* A register that writes paint, by the number in their answers, and its place. */
struct painted {
    unsigned number;
    size_t place;
};

struct chip {
    uint8_t number;
    const char *name;
    unsigned colour_bits; /* 4 to 8 */
    size_t entries;
    const struct place *entry; /* the places of each: its colour, then its attributes */
    size_t entry_places;
    void (*name_entry)(size_t entry, char *name);
    const char *listed;       /* what the entries are that aren't all 0 */
    const struct place *rest; /* the places behind the entries */
    size_t rest_count;
    void (*print_rest)(const struct chip *chip, const uint8_t *places);
    const char *const *selectors; /* the names of the first ones */
    size_t selector_count;
    const struct painted *painted; /* the registers that writes paint */
    size_t painted_count;
    struct fields tick;
    const char *pixel_bit; /* what each pixel has beside its colour, or NULL */
};

/* A file each. */
extern const struct chip tlc34058, hd153129, tms34070;

/* The places of an entry that is a colour alone, and what such entries are if
 * they aren't all 0. */
extern const struct place colour_places[COMPONENTS];
extern const char colours_listed[];

/* The words for the kinds of events. */
extern const char *const kind_words[KINDS];

/* A load has the same operand bytes in any chip's log. */
extern const struct fields load_fields;

/* The chip of a number that the library has accepted; NULL if the tool doesn't
 * know it, and says so. */
const struct chip *accepted_chip(uint8_t number);

/* How many places a chip has, and how many of them, the first, are entries'. */
size_t places_of(const struct chip *chip);
size_t places_of_entries(const struct chip *chip);

/* Whether a place's value is printed in decimal. */
bool is_count(const struct chip *chip, size_t place);

/* A name of at most NAME_ROOM bytes with the one that ends it: of a place, and of
 * what a write painted, by the number in its answer. */
void name_place(const struct chip *chip, size_t place, char *name);
void name_painted(const struct chip *chip, unsigned number, char *name);

#endif
