#include "text.h"

#include <ctype.h>
#include <stdarg.h>
#include <string.h>

bool fault(const struct text *text, const char *format, ...)
{
    char what[256];
    va_list arguments;
    va_start(arguments, format);
    vsnprintf(what, sizeof what, format, arguments);
    va_end(arguments);
    if (text->file != NULL)
        say("%s, line %llu: %s", path_in_words(text->path), text->line, what);
    else
        say("%s: %s", text->path, what);
    return false;
}

/* A word may be no text at all, or cut inside a character: nothing but ASCII is
 * shown of it as it is. */
bool word_fault(const struct text *text, const char *what, const char *word)
{
    char shown[4 * WORD_ROOM];
    size_t len = 0;
    for (; *word != '\0'; word++) {
        unsigned char c = (unsigned char)*word;
        const char *format = c > ' ' && c <= '~' ? "%c" : "\\x%02X";
        len += (size_t)snprintf(shown + len, sizeof shown - len, format, c);
    }
    return fault(text, "%s: %s", what, shown);
}

/* --- lines ----------------------------------------------------------------- */

static bool ends_line(int c)
{
    return c == '\n' || c == EOF;
}

static int next_character(struct text *text)
{
    if (text->file != NULL)
        return getc(text->file);
    return *text->rest != '\0' ? (unsigned char)*text->rest++ : EOF;
}

/* Reads the word that starts with c; c is then the character behind it. */
static bool read_word(struct text *text, int *c)
{
    char more[WORD_ROOM], *word = text->words < MOST_WORDS ? text->word[text->words] : more;
    size_t len = 0;
    for (; !ends_line(*c) && *c != '#' && !isspace(*c); *c = next_character(text)) {
        if (*c == '\0')
            return fault(text, "a zero byte: this is not a text");
        word[len++] = (char)*c;
        word[len] = '\0';
        if (len == WORD_ROOM - 1)
            return word_fault(text, "a word is too long", word);
    }
    text->words++;
    return true;
}

bool read_line(struct text *text)
{
    int c = next_character(text);
    /* What is behind the last line's end is no line. */
    if (c != EOF || text->line == 0)
        text->line++;
    text->words = 0;
    while (!ends_line(c)) {
        if (c == '#') {
            while (!ends_line(c))
                c = next_character(text);
        } else if (isspace(c)) {
            c = next_character(text);
        } else if (!read_word(text, &c)) {
            return false;
        }
    }
    return true;
}

/* --- words ----------------------------------------------------------------- */

bool has_words(const struct text *text, size_t count)
{
    return text->words == count || fault(text, "wrong number of words");
}

/* The value of a digit, or the base if it is none. */
static unsigned digit_value(char digit, unsigned base)
{
    static const char digits[] = "0123456789abcdef";
    const char *at = memchr(digits, tolower((unsigned char)digit), base);
    return at != NULL ? (unsigned)(at - digits) : base;
}

/* How many digits a number has, or 0 if the word isn't one: decimal, or
 * hexadecimal with an h behind it. */
static size_t number_digits(const char *word, unsigned *base)
{
    size_t len = strlen(word);
    bool hexadecimal = len > 0 && word[len - 1] == 'h';
    size_t digits = hexadecimal ? len - 1 : len;
    *base = hexadecimal ? 16 : 10;
    for (size_t i = 0; i < digits; i++) {
        if (digit_value(word[i], *base) == *base)
            return 0;
    }
    return digits;
}

bool number(const struct text *text, const char *word, unsigned *value)
{
    unsigned base;
    size_t digits = number_digits(word, &base);
    *value = 0;
    for (size_t i = 0; i < digits && *value < TOO_LARGE; i++)
        *value = base * *value + digit_value(word[i], base);
    return digits > 0 || word_fault(text, "not a number", word);
}

bool byte(const struct text *text, const char *word, uint8_t *value)
{
    unsigned found;
    if (!number(text, word, &found))
        return false;
    *value = (uint8_t)found;
    return found <= UINT8_MAX || word_fault(text, "over 255", word);
}

bool selector(const struct text *text, const struct chip *chip, const char *word,
              uint8_t *value)
{
    unsigned base;
    for (size_t i = 0; i < chip->selector_count; i++) {
        if (strcmp(chip->selectors[i], word) == 0) {
            *value = (uint8_t)i;
            return true;
        }
    }
    if (number_digits(word, &base) == 0)
        return word_fault(text, "no such selector", word);
    return byte(text, word, value);
}

/* How many words an event's line has, its first one too. */
static size_t words_of(const struct fields *fields)
{
    size_t words = 1;
    for (size_t i = 0; i < fields->count; i++)
        words += fields->list[i].word != NULL ? 2 : 1;
    return words;
}

bool operand_bytes(const struct text *text, const struct fields *fields, uint8_t *operand)
{
    size_t next = 1;
    memset(operand, 0, PALETTE_OPERAND_BYTES);
    if (!has_words(text, words_of(fields)))
        return false;
    for (size_t i = 0; i < fields->count; i++) {
        const struct field *field = &fields->list[i];
        if (field->word != NULL && strcmp(text->word[next], field->word) != 0) {
            char what[32];
            snprintf(what, sizeof what, "expected %s, found", field->word);
            return word_fault(text, what, text->word[next]);
        }
        next += field->word != NULL;
        if (!byte(text, text->word[next++], &operand[field->byte]))
            return false;
    }
    return true;
}
