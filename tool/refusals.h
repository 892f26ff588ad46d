/* The refusals in words. */
#ifndef REFUSALS_H
#define REFUSALS_H

const char *refusal_in_words(unsigned refusal);

/* Says that a file is refused. */
void say_refused(const char *path, unsigned refusal);

#endif
