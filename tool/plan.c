/* palette plan: the fewest writes to a wanted table. */
#include <string.h>

#include "draft.h"
#include "files.h"
#include "library.h"
#include "listing.h"
#include "outputs.h"
#include "print.h"
#include "refusals.h"
#include "subcommands.h"

/* The selector of the write that starts a run; the others are an entry's colours. */
enum { ADDRESS_SELECTOR = 0 };

_Static_assert(PALETTE_MOST_WRITES <= PALETTE_MOST_EVENTS, "every plan is a log");

static void make_log(const struct chip *chip, const struct plan *plan, struct log *log)
{
    static struct draft draft;
    draft.chip = chip;
    for (size_t write = 0; write < plan->count; write++) {
        uint8_t operand[PALETTE_OPERAND_BYTES] = {0};
        memcpy(operand, write_of(plan, write), PALETTE_WRITE_BYTES);
        add_event(&draft, PALETTE_KIND_WRITE, operand);
    }
    put_together(&draft, log);
}

/* A comment, so that all that is printed is the text of a log. */
static void print_sums(const struct plan *plan)
{
    size_t runs = 0;
    for (size_t write = 0; write < plan->count; write++)
        runs += write_of(plan, write)[0] == ADDRESS_SELECTOR;
    print("# %zu writes: %zu entries in %zu runs\n", plan->count,
          (plan->count - runs) / COMPONENTS, runs);
}

static int play(const struct words *words)
{
    static struct log log;
    struct snapshot snapshot;
    struct wanted wanted;
    struct plan plan;
    const char *target = words->option[OPTION_LOG];
    if (!read_snapshot(words->operand[0], &snapshot) ||
        !read_wanted(words->operand[1], &wanted))
        return STATUS_FAILED;
    unsigned refusal = plan_writes(&snapshot, &wanted, &plan);
    if (refusal != PALETTE_ACCEPTED) {
        say_refused(words->operand[refusal == PALETTE_REFUSED_WANTED ? 1 : 0], refusal);
        return STATUS_REFUSED;
    }
    const struct chip *chip = accepted_chip(snapshot.bytes[0]);
    if (chip == NULL)
        return STATUS_FAILED;
    make_log(chip, &plan, &log);
    print_log(chip, &log, false);
    print_sums(&plan);
    struct output output = {.path = target, .bytes = log.bytes, .len = log.len};
    bool good = finish_printing(target != NULL) && (target == NULL || write_files(&output, 1));
    return good ? STATUS_DONE : STATUS_FAILED;
}

const struct subcommand plan_subcommand = {
    .name = "plan",
    .synopsis = "[--log FILE] SNAPSHOT WANTED",
    .help = "Prints the fewest writes that leave an HD153129 with the wanted colours, as the\n"
            "text of a log. The last line, a comment, has the sums.\n"
            "\n"
            "WANTED is a file of 768 bytes: red, green and blue of entry 0, then of entry 1, up\n"
            "to 255, each at most 63.\n"
            "\n"
            "  --log FILE   write the log to a file, too, whole or not at all; palette run\n"
            "               plays it from SNAPSHOT\n",
    .takes = {[OPTION_LOG] = true},
    .operands = 2,
    .files = 2,
    .play = play,
};
