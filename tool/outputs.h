/* The files that the subcommands write. */
#ifndef OUTPUTS_H
#define OUTPUTS_H

#include <stdbool.h>
#include <stddef.h>
#include <stdint.h>
#include <sys/stat.h>

/* Bytes that are to become a file. */
struct output {
    const char *path;
    const uint8_t *bytes;
    size_t len;
    /* Only write_files uses these. */
    char *target, *temporary;
    struct stat known_by; /* what is there, or the folder of a new file */
    bool is_new;
};

/* Writes the files. Each is replaced in one step, and none before all are
 * written beside their places: whoever looks finds the old file or the whole
 * new one. */
bool write_files(struct output *outputs, size_t count);

#endif
