/* What the subcommands read, and what they say on standard error. */
#ifndef FILES_H
#define FILES_H

#include <stdbool.h>
#include <stddef.h>
#include <stdint.h>

/* Lets the compiler hold the arguments to the format. */
#ifdef __GNUC__
#define PRINTF_LIKE(text, first) __attribute__((format(printf, text, first)))
#else
#define PRINTF_LIKE(text, first)
#endif

/* Exit statuses. */
enum { STATUS_DONE = 0, STATUS_REFUSED = 1, STATUS_DIFFERENT = 1, STATUS_FAILED = 2 };

/* "-": standard input or output. */
bool is_standard(const char *path);

/* A path as messages have it. */
const char *path_in_words(const char *path);

/* The subcommand that speaks in messages from here on. */
void speak_as(const char *subcommand);

/* Says a line on standard error. */
void say(const char *format, ...) PRINTF_LIKE(1, 2);

/* Says what errno says of a file. */
void complain(const char *path);

/* Reads a file's first bytes, `room` of them or all that it has: what comes
 * behind them is left unread. */
bool read_file(const char *path, uint8_t *bytes, size_t room, size_t *len);

#endif
