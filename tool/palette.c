/*
 * palette: shows, compares, plays and takes apart the snapshots and logs of
 * palette chips. Each subcommand is in a file of its own; palette.1 is the
 * manual page.
 */
#define _XOPEN_SOURCE 700

#include <fcntl.h>
#include <signal.h>
#include <stdio.h>
#include <string.h>
#include <unistd.h>

#include "files.h"
#include "palette.h"
#include "print.h"
#include "subcommands.h"

static const struct subcommand *const subcommands[] = {
    &run_subcommand,      &show_subcommand, &diff_subcommand,
    &assemble_subcommand, &list_subcommand, &currents_subcommand,
    &plan_subcommand,
};
enum { SUBCOMMANDS = sizeof subcommands / sizeof subcommands[0] };

static void print_usage(FILE *out)
{
    for (size_t i = 0; i < SUBCOMMANDS; i++)
        fprintf(out, "%s palette %s %s\n", i == 0 ? "usage:" : "      ", subcommands[i]->name,
                subcommands[i]->synopsis);
}

static void print_usage_of(FILE *out, const struct subcommand *subcommand)
{
    fprintf(out, "usage: palette %s %s\n", subcommand->name, subcommand->synopsis);
}

/* What holds of every subcommand. */
static void print_common_help(void)
{
    puts("\n"
         "  --plain      no coloured cells on a terminal; nor with NO_COLOR set\n"
         "  --help       this text\n"
         "\n"
         "- is standard input or, of a file to write, standard output.\n"
         "Exit status: 0 done, 1 refused (diff: different), 2 wrong usage or files.");
}

static int help(void)
{
    print_usage(stdout);
    puts("\npalette SUBCOMMAND --help says more of each; palette --version names the version.");
    print_common_help();
    return finish_printing(false) ? STATUS_DONE : STATUS_FAILED;
}

static int help_of(const struct subcommand *subcommand)
{
    print_usage_of(stdout, subcommand);
    printf("\n%s", subcommand->help);
    print_common_help();
    return finish_printing(false) ? STATUS_DONE : STATUS_FAILED;
}

static int version(void)
{
    puts("palette " PALETTE_VERSION);
    return finish_printing(false) ? STATUS_DONE : STATUS_FAILED;
}

static const struct subcommand *subcommand_named(const char *name)
{
    for (size_t i = 0; i < SUBCOMMANDS; i++) {
        if (strcmp(subcommands[i]->name, name) == 0)
            return subcommands[i];
    }
    return NULL;
}

static int play(const struct subcommand *subcommand, char **arguments)
{
    struct words words;
    speak_as(subcommand->name);
    if (!parse(subcommand, arguments, &words)) {
        print_usage_of(stderr, subcommand);
        return STATUS_FAILED;
    }
    if (words.option[OPTION_HELP] != NULL)
        return help_of(subcommand);
    settle_printing(&words);
    return subcommand->play(&words);
}

/* Standard input, output and error are open from here on, so that no file takes
 * their place: reading from and writing to one that wasn't gives an error. */
static bool open_standard(void)
{
    for (int file = STDIN_FILENO; file <= STDERR_FILENO; file++) {
        if (fcntl(file, F_GETFD) < 0 &&
            open("/dev/null", file == STDIN_FILENO ? O_WRONLY : O_RDONLY) != file)
            return false;
    }
    return true;
}

int main(int argc, char **argv)
{
    /* A closed pipe and a full disk are errors of the write, and are said so. */
    signal(SIGPIPE, SIG_IGN);
    signal(SIGXFSZ, SIG_IGN);
    if (!open_standard())
        return STATUS_FAILED;
    if (argc > 1 && strcmp(argv[1], "--help") == 0)
        return help();
    if (argc > 1 && strcmp(argv[1], "--version") == 0)
        return version();
    const struct subcommand *subcommand = argc > 1 ? subcommand_named(argv[1]) : NULL;
    if (subcommand != NULL)
        return play(subcommand, argv + 2);
    if (argc > 1)
        say("no such subcommand: %s", argv[1]);
    print_usage(stderr);
    return STATUS_FAILED;
}
