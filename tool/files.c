#define _XOPEN_SOURCE 700

#include "files.h"

#include <ctype.h>
#include <errno.h>
#include <fcntl.h>
#include <stdarg.h>
#include <stdio.h>
#include <string.h>
#include <unistd.h>

static const char *speaker = "";

bool is_standard(const char *path)
{
    return strcmp(path, "-") == 0;
}

const char *path_in_words(const char *path)
{
    return is_standard(path) ? "standard input" : path;
}

void speak_as(const char *subcommand)
{
    speaker = subcommand;
}

/* Names of files come from anywhere: a terminal is shown no control character. */
void say(const char *format, ...)
{
    static char text[8192];
    va_list arguments;
    va_start(arguments, format);
    vsnprintf(text, sizeof text, format, arguments);
    va_end(arguments);
    fprintf(stderr, "palette%s%s: ", *speaker != '\0' ? " " : "", speaker);
    for (const char *c = text; *c != '\0'; c++)
        fprintf(stderr, iscntrl((unsigned char)*c) ? "\\x%02X" : "%c", (unsigned char)*c);
    fputc('\n', stderr);
}

void complain(const char *path)
{
    say("%s: %s", path, strerror(errno));
}

/* Reads until the room is full or the file ends. */
static bool fill(int file, uint8_t *bytes, size_t room, size_t *len)
{
    *len = 0;
    while (*len < room) {
        ssize_t got = read(file, bytes + *len, room - *len);
        if (got < 0 && errno == EINTR)
            continue;
        if (got < 0)
            return false;
        if (got == 0)
            break;
        *len += (size_t)got;
    }
    return true;
}

bool read_file(const char *path, uint8_t *bytes, size_t room, size_t *len)
{
    int file = is_standard(path) ? STDIN_FILENO : open(path, O_RDONLY);
    bool good = file >= 0 && fill(file, bytes, room, len);
    if (!good)
        complain(path_in_words(path));
    if (file > STDERR_FILENO)
        close(file);
    return good;
}
