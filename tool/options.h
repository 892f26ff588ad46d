/* The command line: a subcommand, its options and its operands. */
#ifndef OPTIONS_H
#define OPTIONS_H

#include <stdbool.h>
#include <stddef.h>

enum option {
    OPTION_END,
    OPTION_PPM,
    OPTION_LOG,
    OPTION_NUMBERS,
    OPTION_PLAIN,
    OPTION_HELP,
    OPTIONS
};

enum { MOST_OPERANDS = 2 };

/* What was given. An option that takes no value has its own name as value. */
struct words {
    const char *option[OPTIONS]; /* NULL if it wasn't given */
    const char *operand[MOST_OPERANDS];
};

struct subcommand {
    const char *name;
    const char *synopsis; /* what follows the name */
    const char *help;
    bool takes[OPTIONS]; /* beside --plain and --help */
    size_t operands;
    size_t files; /* so many of the first operands are files to read */
    int (*play)(const struct words *words);
};

/* Sorts the words behind the subcommand's name; says what is wrong with them.
 * With --help it doesn't matter how many operands there are. */
bool parse(const struct subcommand *subcommand, char **arguments, struct words *words);

#endif
