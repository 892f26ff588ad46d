#define _XOPEN_SOURCE 700

#include "print.h"

#include <errno.h>
#include <stdarg.h>
#include <stdio.h>
#include <stdlib.h>
#include <string.h>
#include <unistd.h>

static bool to_standard_error = false, cells = false;

/* By what the environment says of the terminal. */
static bool shows_colours(void)
{
    const char *terminal = getenv("TERM"), *colours = getenv("COLORTERM");
    if (terminal == NULL || strcmp(terminal, "dumb") == 0)
        return false;
    return (colours != NULL && *colours != '\0') || strstr(terminal, "color") != NULL ||
           strstr(terminal, "direct") != NULL || strncmp(terminal, "xterm", 5) == 0;
}

void settle_printing(const struct words *words)
{
    const char *none = getenv("NO_COLOR");
    for (enum option i = 0; i < OPTIONS; i++) {
        if (words->option[i] != NULL && is_standard(words->option[i]))
            to_standard_error = true;
    }
    cells = !to_standard_error && words->option[OPTION_PLAIN] == NULL &&
            (none == NULL || *none == '\0') && isatty(STDOUT_FILENO) && shows_colours();
}

void print(const char *format, ...)
{
    va_list arguments;
    va_start(arguments, format);
    vfprintf(to_standard_error ? stderr : stdout, format, arguments);
    va_end(arguments);
}

bool finish_printing(bool files_follow)
{
    if (to_standard_error)
        return !ferror(stderr);
    if (fflush(stdout) == 0 && !ferror(stdout))
        return true;
    if (files_follow || errno != EPIPE)
        complain("standard output");
    return false;
}

/* The upper bits are repeated below, so that the largest code gives 255. */
uint8_t scaled(const struct chip *chip, uint8_t code)
{
    return (uint8_t)(code << (8 - chip->colour_bits) | code >> (2 * chip->colour_bits - 8));
}

void print_cell(const struct chip *chip, const uint8_t *codes)
{
    if (cells)
        print(" \x1b[48;2;%u;%u;%um  \x1b[0m", scaled(chip, codes[0]), scaled(chip, codes[1]),
              scaled(chip, codes[2]));
}

void print_colour(const struct chip *chip, const uint8_t *codes)
{
    print_cell(chip, codes);
    print(" #%02x%02x%02x", codes[0], codes[1], codes[2]);
}

void print_chip(const struct chip *chip)
{
    print("chip %u, %s", chip->number, chip->name);
    if (chip->colour_bits < 8)
        print(", colours of %u bits (00 to %02x)", chip->colour_bits,
              (1u << chip->colour_bits) - 1);
    print("\n");
}

void print_name(const char *name)
{
    print("%-27s", name);
}

void print_value(const struct chip *chip, size_t place, uint8_t value)
{
    print(is_count(chip, place) ? " %u" : " %02Xh", value);
}

void print_place(const struct chip *chip, const uint8_t *places, size_t place,
                 const char *words)
{
    char name[NAME_ROOM];
    name_place(chip, place, name);
    print_name(name);
    print_value(chip, place, places[place]);
    if (words != NULL)
        print(": %s", words);
    print("\n");
}

void print_mask(const struct chip *chip, const uint8_t *places, size_t place,
                const char *words)
{
    char text[64];
    int len = snprintf(text, sizeof text, "%s", words);
    for (unsigned plane = 0; plane < 8; plane++) {
        if ((places[place] >> plane & 1) != 0)
            len += snprintf(text + len, sizeof text - (size_t)len, " %u", plane);
    }
    if (places[place] == 0)
        snprintf(text + len, sizeof text - (size_t)len, " none");
    print_place(chip, places, place, text);
}
