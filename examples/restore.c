/*
 * restore: the shortest program that plays a log and keeps the chip's state, to
 * show how the library is called. tool/ has the program to work with.
 *
 *   restore SNAPSHOT LOG END
 *
 * Exit status: 0 if the log ran, 1 if the run was refused, 2 for wrong usage or
 * a file that can't be read or written.
 */
#include <stdio.h>

#include "palette.h"

/* Room for the longest of each, and one byte more: a longer file is then refused
 * for its length. */
static uint8_t snapshot[PALETTE_END_BYTES + 1], log[PALETTE_MOST_LOG_BYTES + 1];
static uint8_t answers[PALETTE_MOST_ANSWER_BYTES], end[PALETTE_END_BYTES];

static int read_file(const char *path, uint8_t *bytes, size_t room, size_t *len)
{
    FILE *file = fopen(path, "rb");
    if (file == NULL) {
        perror(path);
        return 0;
    }
    *len = fread(bytes, 1, room, file);
    int good = !ferror(file);
    if (!good)
        perror(path);
    fclose(file);
    return good;
}

static int write_file(const char *path, const uint8_t *bytes, size_t len)
{
    FILE *file = fopen(path, "wb");
    int good = file != NULL && fwrite(bytes, 1, len, file) == len;
    if (file != NULL && fclose(file) != 0)
        good = 0;
    if (!good)
        perror(path);
    return good;
}

int main(int argc, char **argv)
{
    size_t snapshot_len, log_len, refused = 0;
    if (argc != 4) {
        fprintf(stderr, "usage: restore SNAPSHOT LOG END\n");
        return 2;
    }
    if (!read_file(argv[1], snapshot, sizeof snapshot, &snapshot_len) ||
        !read_file(argv[2], log, sizeof log, &log_len))
        return 2;
    uint64_t result = palette_run(snapshot, snapshot_len, log, log_len, answers, sizeof answers,
                                  end, sizeof end);
    if (PALETTE_REFUSAL(result) != PALETTE_ACCEPTED) {
        fprintf(stderr, "restore: refused (%u)\n", PALETTE_REFUSAL(result));
        return 1;
    }
    size_t events = (log_len - PALETTE_LOG_HEADER_BYTES) / PALETTE_EVENT_BYTES;
    for (size_t event = 0; event < events; event++)
        refused += answers[PALETTE_ANSWER_BYTES * event] != PALETTE_ACCEPTED;
    printf("%zu events, %zu refused, end snapshot of %zu bytes\n", events, refused,
           PALETTE_LENGTH(result));
    return write_file(argv[3], end, PALETTE_LENGTH(result)) ? 0 : 2;
}
