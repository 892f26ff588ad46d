/* Texts: lines of words, and what their words stand for. */
#ifndef TEXT_H
#define TEXT_H

#include <stdbool.h>
#include <stddef.h>
#include <stdint.h>
#include <stdio.h>

#include "chips.h"
#include "files.h"

/* No line that is understood has a longer word, or more of them. */
enum { WORD_ROOM = 32, MOST_WORDS = 12 };

struct text {
    FILE *file;       /* NULL: the text is a word of the command line */
    const char *rest; /* what is to be read of that word */
    const char *path; /* the file's, or what the word is called */
    unsigned long long line; /* the number of the line at hand */
    size_t words;            /* how many words it has; the first ones are kept */
    char word[MOST_WORDS][WORD_ROOM];
};

/* Says what is wrong with the line at hand. Gives false, as all of these do if
 * they have said so. */
bool fault(const struct text *text, const char *format, ...) PRINTF_LIKE(2, 3);

/* The same of a word, whatever bytes it has. */
bool word_fault(const struct text *text, const char *what, const char *word);

/* Reads the words of the next line, without its comment. */
bool read_line(struct text *text);

bool has_words(const struct text *text, size_t count);

/* A decimal number, or a hexadecimal one with an h behind it. Of one that is too
 * large for any use here only that is given. */
enum { TOO_LARGE = 65536 };
bool number(const struct text *text, const char *word, unsigned *value);

bool byte(const struct text *text, const char *word, uint8_t *value);

/* A selector's name or its number. */
bool selector(const struct text *text, const struct chip *chip, const char *word,
              uint8_t *value);

/* An event's operand, from the words behind the line's first one. */
bool operand_bytes(const struct text *text, const struct fields *fields, uint8_t *operand);

#endif
