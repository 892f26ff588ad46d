#include "options.h"

#include <string.h>

#include "files.h"

static const struct {
    const char *name;
    bool is_file; /* its value is a file to write */
} options[OPTIONS] = {
    [OPTION_END] = {"--end", true},
    [OPTION_PPM] = {"--ppm", true},
    [OPTION_LOG] = {"--log", true},
    [OPTION_NUMBERS] = {"--numbers", false},
    [OPTION_PLAIN] = {"--plain", false},
    [OPTION_HELP] = {"--help", false},
};

/* The option that a word names, alone or before a "=", or OPTIONS. */
static enum option option_named(const struct subcommand *subcommand, const char *word)
{
    size_t len = strcspn(word, "=");
    for (enum option i = 0; i < OPTIONS; i++) {
        bool known = subcommand->takes[i] || i == OPTION_PLAIN || i == OPTION_HELP;
        if (known && strlen(options[i].name) == len && memcmp(options[i].name, word, len) == 0)
            return i;
    }
    return OPTIONS;
}

/* Takes an option and, if it has one, its value, from the same word or the
 * next. */
static bool take_option(const struct subcommand *subcommand, char ***next, struct words *words)
{
    const char *word = *(*next)++;
    enum option option = option_named(subcommand, word);
    const char *value = strchr(word, '=');
    if (option == OPTIONS) {
        say("no such option: %s", word);
        return false;
    }
    if (!options[option].is_file) {
        words->option[option] = options[option].name;
        if (value != NULL)
            say("%s takes no value", options[option].name);
        return value == NULL;
    }
    words->option[option] = value != NULL ? value + 1 : **next != NULL ? *(*next)++ : "";
    if (*words->option[option] == '\0')
        say("%s takes a file", options[option].name);
    return *words->option[option] != '\0';
}

bool parse(const struct subcommand *subcommand, char **arguments, struct words *words)
{
    size_t operands = 0;
    bool only_operands = false;
    *words = (struct words){0};
    while (*arguments != NULL) {
        if (!only_operands && strcmp(*arguments, "--") == 0) {
            only_operands = true;
            arguments++;
        } else if (!only_operands && **arguments == '-' && !is_standard(*arguments)) {
            if (!take_option(subcommand, &arguments, words))
                return false;
        } else {
            if (operands < MOST_OPERANDS)
                words->operand[operands] = *arguments;
            operands++;
            arguments++;
        }
    }
    if (words->option[OPTION_HELP] != NULL)
        return true;
    if (operands != subcommand->operands) {
        say(operands < subcommand->operands ? "a word is missing" : "a word too many");
        return false;
    }
    size_t standard = 0;
    for (size_t i = 0; i < subcommand->files; i++)
        standard += is_standard(words->operand[i]);
    if (standard > 1) {
        say("standard input can be read only once");
        return false;
    }
    return true;
}
