/* palette diff: the places in which two snapshots differ. */
#include "files.h"
#include "library.h"
#include "print.h"
#include "subcommands.h"

static void print_difference(const struct state *old, const struct state *new, size_t place)
{
    char name[NAME_ROOM];
    name_place(old->chip, place, name);
    print_name(name);
    print_value(old->chip, place, old->places[place]);
    print(" ->");
    print_value(old->chip, place, new->places[place]);
    if (place < places_of_entries(old->chip)) {
        print_cell(old->chip, entry_of(old, place / old->chip->entry_places));
        print_cell(old->chip, entry_of(new, place / old->chip->entry_places));
    }
    print("\n");
}

/* Prints the differences; gives how many there are. */
static size_t print_differences(const struct state *old, const struct state *new)
{
    size_t differences = 0;
    if (old->chip != new->chip) {
        print_name("chip");
        print(" %s -> %s\n", old->chip->name, new->chip->name);
        return 1;
    }
    for (size_t place = 0; place < places_of(old->chip); place++) {
        if (old->places[place] != new->places[place]) {
            print_difference(old, new, place);
            differences++;
        }
    }
    return differences;
}

static int play(const struct words *words)
{
    struct state old, new;
    int status = read_state(words->operand[0], &old);
    if (status == STATUS_DONE)
        status = read_state(words->operand[1], &new);
    if (status != STATUS_DONE)
        return status;
    size_t differences = print_differences(&old, &new);
    if (!finish_printing(false))
        return STATUS_FAILED;
    return differences == 0 ? STATUS_DONE : STATUS_DIFFERENT;
}

const struct subcommand diff_subcommand = {
    .name = "diff",
    .synopsis = "A B",
    .help = "Prints the places in which two snapshots differ, by name, A's value and then B's.\n"
            "Of two chips it says that alone. Status 1 if they differ.\n",
    .operands = 2,
    .files = 2,
    .play = play,
};
