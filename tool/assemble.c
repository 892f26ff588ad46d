/* palette assemble: a log from its text. */
#include <stdio.h>
#include <string.h>

#include "draft.h"
#include "files.h"
#include "library.h"
#include "outputs.h"
#include "refusals.h"
#include "subcommands.h"
#include "text.h"

static bool refused(const struct text *text, unsigned refusal)
{
    return fault(text, "refused (%u): %s", refusal, refusal_in_words(refusal));
}

/* --- events ---------------------------------------------------------------- */

static bool add(const struct text *text, struct draft *draft, uint8_t kind,
                const uint8_t *operand)
{
    return add_event(draft, kind, operand) || refused(text, PALETTE_REFUSED_LOG_COUNT);
}

static bool add_write(const struct text *text, struct draft *draft)
{
    uint8_t operand[PALETTE_OPERAND_BYTES] = {0};
    return has_words(text, 3) && selector(text, draft->chip, text->word[1], &operand[0]) &&
           byte(text, text->word[2], &operand[1]) &&
           add(text, draft, PALETTE_KIND_WRITE, operand);
}

static bool add_read(const struct text *text, struct draft *draft)
{
    uint8_t operand[PALETTE_OPERAND_BYTES] = {0};
    return has_words(text, 2) && selector(text, draft->chip, text->word[1], &operand[0]) &&
           add(text, draft, PALETTE_KIND_READ, operand);
}

static bool add_tick(const struct text *text, struct draft *draft)
{
    uint8_t operand[PALETTE_OPERAND_BYTES];
    return operand_bytes(text, &draft->chip->tick, operand) &&
           add(text, draft, PALETTE_KIND_TICK, operand);
}

_Static_assert(PALETTE_MOST_EVENTS < TOO_LARGE, "no log has so many events");

/* One vertical period or, with a number, so many. */
static bool add_verticals(const struct text *text, struct draft *draft)
{
    static const uint8_t operand[PALETTE_OPERAND_BYTES] = {0};
    unsigned left = 1;
    if (text->words > 1 && !(has_words(text, 2) && number(text, text->word[1], &left)))
        return false;
    for (; left > 0; left--) {
        if (!add(text, draft, PALETTE_KIND_VERTICAL, operand))
            return false;
    }
    return true;
}

static bool add_save(const struct text *text, struct draft *draft)
{
    static const uint8_t operand[PALETTE_OPERAND_BYTES] = {0};
    return has_words(text, 1) && add(text, draft, PALETTE_KIND_SAVE, operand);
}

static bool add_load(const struct text *text, struct draft *draft)
{
    uint8_t operand[PALETTE_OPERAND_BYTES];
    return operand_bytes(text, &load_fields, operand) &&
           add(text, draft, PALETTE_KIND_LOAD, operand);
}

static bool (*const adders[KINDS])(const struct text *text, struct draft *draft) = {
    [PALETTE_KIND_WRITE] = add_write,
    [PALETTE_KIND_READ] = add_read,
    [PALETTE_KIND_TICK] = add_tick,
    [PALETTE_KIND_VERTICAL] = add_verticals,
    [PALETTE_KIND_SAVE] = add_save,
    [PALETTE_KIND_LOAD] = add_load,
};

/* --- the text -------------------------------------------------------------- */

/* The library says whether there is such a chip, by a log of no events. */
static bool name_chip(const struct text *text, struct draft *draft)
{
    static struct log empty;
    if (draft->chip != NULL)
        return fault(text, "the chip is named already");
    if (!has_words(text, 2) || !byte(text, text->word[1], &empty.bytes[0]))
        return false;
    empty.len = PALETTE_LOG_HEADER_BYTES;
    unsigned refusal = log_refusal(&empty);
    if (refusal != PALETTE_ACCEPTED)
        return refused(text, refusal);
    draft->chip = accepted_chip(empty.bytes[0]);
    return draft->chip != NULL;
}

static bool understand(const struct text *text, struct draft *draft)
{
    if (text->words == 0)
        return true;
    if (strcmp(text->word[0], "chip") == 0)
        return name_chip(text, draft);
    if (draft->chip == NULL)
        return fault(text, "the first line names the chip, as in: chip 1");
    for (size_t kind = 0; kind < KINDS; kind++) {
        if (strcmp(text->word[0], kind_words[kind]) == 0)
            return adders[kind](text, draft);
    }
    return word_fault(text, "no such event", text->word[0]);
}

/* Reads the whole text; gives a status. */
static int read_text(struct text *text, struct draft *draft)
{
    while (!feof(text->file)) {
        bool good = read_line(text);
        if (ferror(text->file)) {
            complain(path_in_words(text->path));
            return STATUS_FAILED;
        }
        if (!good || !understand(text, draft))
            return STATUS_REFUSED;
    }
    if (draft->chip != NULL)
        return STATUS_DONE;
    fault(text, "the text ends and has named no chip");
    return STATUS_REFUSED;
}

static int play(const struct words *words)
{
    static struct text text;
    static struct draft draft;
    static struct log log;
    const char *target = words->option[OPTION_LOG];
    text.path = words->operand[0];
    text.file = is_standard(text.path) ? stdin : fopen(text.path, "r");
    if (text.file == NULL) {
        complain(text.path);
        return STATUS_FAILED;
    }
    int status = read_text(&text, &draft);
    if (text.file != stdin)
        fclose(text.file);
    if (status != STATUS_DONE)
        return status;
    put_together(&draft, &log);
    unsigned refusal = log_refusal(&log);
    if (refusal != PALETTE_ACCEPTED) {
        say_refused(text.path, refusal);
        return STATUS_REFUSED;
    }
    struct output output = {
        .path = target != NULL ? target : "-", .bytes = log.bytes, .len = log.len};
    return write_files(&output, 1) ? STATUS_DONE : STATUS_FAILED;
}

const struct subcommand assemble_subcommand = {
    .name = "assemble",
    .synopsis = "[--log FILE] TEXT",
    .help = "Makes a log from its text and writes it to standard output. A line names the\n"
            "chip or an event; # starts a comment. Numbers are decimal, or hexadecimal with an\n"
            "h behind them.\n"
            "\n"
            "  chip N                                   1, 2 or 3\n"
            "  write SELECTOR BYTE\n"
            "  read SELECTOR\n"
            "  tick A B C D E ol0 N ol1 N levels N      on chip 1\n"
            "  tick PIXEL levels N                      on chip 2\n"
            "  tick DA DB levels N                      on chip 3\n"
            "  vertical [HOW MANY]\n"
            "  save\n"
            "  load DA DB\n"
            "\n"
            "SELECTOR is a number or a name, on chip 1 address, palette, control or overlay,\n"
            "on chip 2 address, colour, mask or read-address. ol0 and ol1 have pixel A in\n"
            "bit 0 up to E in bit 4; levels has BLK in bit 0 and SYNC in bit 1, on chip 2\n"
            "BLANK in bit 0, on chip 3 DATEN in bit 0. An event that the chip doesn't have may\n"
            "stand in a log, too: palette run says that the chip refuses it.\n"
            "\n"
            "  --log FILE   write the log to a file, whole or not at all\n",
    .takes = {[OPTION_LOG] = true},
    .operands = 1,
    .files = 1,
    .play = play,
};
