/* What the subcommands print: lines of two columns, and colours. */
#ifndef PRINT_H
#define PRINT_H

#include <stdbool.h>
#include <stddef.h>
#include <stdint.h>

#include "chips.h"
#include "files.h"
#include "options.h"

/* Printed is on standard output, or on standard error if a file is written to
 * standard output. Colours are printed as cells, too, if standard output is a
 * terminal that shows them, unless the user wants none. */
void settle_printing(const struct words *words);

/* As printf does. */
void print(const char *format, ...) PRINTF_LIKE(1, 2);

/* What has been printed is out, or says that it can't be written. Of a pipe that
 * its reader has closed nothing is said, unless files were to follow; of standard
 * error nothing can be said. */
bool finish_printing(bool files_follow);

/* On a terminal that shows colours, a space and a cell of this colour. */
void print_cell(const struct chip *chip, const uint8_t *codes);

/* The cell, a space, # and the three codes as the chip has them. */
void print_colour(const struct chip *chip, const uint8_t *codes);

/* A code of 8 bits for a picture or a screen. */
uint8_t scaled(const struct chip *chip, uint8_t code);

/* The line that names a chip. */
void print_chip(const struct chip *chip);

/* The first column of a line. */
void print_name(const char *name);

/* A space and a place's value. */
void print_value(const struct chip *chip, size_t place, uint8_t value);

/* The line of a place behind the entries, with words for its value or NULL. */
void print_place(const struct chip *chip, const uint8_t *places, size_t place,
                 const char *words);

/* The same of a mask, with the bit planes whose bits are 1. */
void print_mask(const struct chip *chip, const uint8_t *places, size_t place,
                const char *words);

#endif
