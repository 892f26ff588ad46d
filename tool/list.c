/* palette list: a log as the text that assembles to it. */
#include "files.h"
#include "library.h"
#include "listing.h"
#include "print.h"
#include "refusals.h"
#include "subcommands.h"

static int play(const struct words *words)
{
    static struct log log;
    const char *path = words->operand[0];
    if (!read_log(path, &log))
        return STATUS_FAILED;
    unsigned refusal = log_refusal(&log);
    if (refusal != PALETTE_ACCEPTED) {
        say_refused(path, refusal);
        return STATUS_REFUSED;
    }
    const struct chip *chip = accepted_chip(log.bytes[0]);
    if (chip == NULL)
        return STATUS_FAILED;
    print_log(chip, &log, words->option[OPTION_NUMBERS] != NULL);
    return finish_printing(false) ? STATUS_DONE : STATUS_FAILED;
}

const struct subcommand list_subcommand = {
    .name = "list",
    .synopsis = "[--numbers] LOG",
    .help = "Prints a log as text, which palette assemble makes the same bytes of.\n"
            "\n"
            "  --numbers    name each line's events in a comment, by the numbers that palette\n"
            "               run has for them\n",
    .takes = {[OPTION_NUMBERS] = true},
    .operands = 1,
    .files = 1,
    .play = play,
};
