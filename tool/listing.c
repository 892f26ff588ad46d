#include "listing.h"

#include "print.h"

static void print_selector(const struct chip *chip, uint8_t selector)
{
    if (selector < chip->selector_count)
        print(" %s", chip->selectors[selector]);
    else
        print(" %u", selector);
}

static void print_fields(const struct fields *fields, const uint8_t *operand)
{
    for (size_t i = 0; i < fields->count; i++) {
        if (fields->list[i].word != NULL)
            print(" %s", fields->list[i].word);
        print(" %02Xh", operand[fields->list[i].byte]);
    }
}

/* One line of the text, for an event or, of vertical periods, some that follow
 * each other. */
static void print_event(const struct chip *chip, uint8_t kind, const uint8_t *operand,
                        size_t times)
{
    print("%s", kind_words[kind]);
    switch ((enum palette_kind)kind) {
    case PALETTE_KIND_WRITE:
        print_selector(chip, operand[0]);
        print(" %02Xh", operand[1]);
        break;
    case PALETTE_KIND_READ:
        print_selector(chip, operand[0]);
        break;
    case PALETTE_KIND_TICK:
        print_fields(&chip->tick, operand);
        break;
    case PALETTE_KIND_VERTICAL:
        if (times > 1)
            print(" %zu", times);
        break;
    case PALETTE_KIND_SAVE:
        break;
    case PALETTE_KIND_LOAD:
        print_fields(&load_fields, operand);
        break;
    }
}

/* How many events from this one make one line. */
static size_t on_one_line(const struct log *log, size_t event)
{
    size_t times = 1;
    if (kind_of(log, event) != PALETTE_KIND_VERTICAL)
        return times;
    while (event + times < event_count(log) &&
           kind_of(log, event + times) == PALETTE_KIND_VERTICAL)
        times++;
    return times;
}

void print_log(const struct chip *chip, const struct log *log, bool numbers)
{
    size_t times;
    print("chip %u\n", chip->number);
    for (size_t event = 0; event < event_count(log); event += times) {
        times = on_one_line(log, event);
        print_event(chip, kind_of(log, event), operand_of(log, event), times);
        if (numbers && times == 1)
            print(" # event %zu", event);
        else if (numbers)
            print(" # events %zu to %zu", event, event + times - 1);
        print("\n");
    }
}
