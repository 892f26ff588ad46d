/* A log as the text that palette assemble makes its bytes of. */
#ifndef LISTING_H
#define LISTING_H

#include <stdbool.h>

#include "library.h"

/* Prints an accepted log: the chip, then a line for each event or, of vertical
 * periods, for those that follow each other. With `numbers` each line ends in a
 * comment that names its events. */
void print_log(const struct chip *chip, const struct log *log, bool numbers);

#endif
