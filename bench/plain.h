/* The plain baseline: palette_run's rules, and palette_plan's, in ordinary C. */
#ifndef PLAIN_H
#define PLAIN_H

#include <stddef.h>
#include <stdint.h>

/* It starts a cache line, so that its speed doesn't depend on how much code
 * stands before it. */
__attribute__((aligned(64)))
uint64_t plain_run(const uint8_t *snapshot, size_t snapshot_len,
                   const uint8_t *log, size_t log_len,
                   uint8_t *answers, size_t answers_len,
                   uint8_t *end, size_t end_len);

uint64_t plain_plan(const uint8_t *snapshot, size_t snapshot_len,
                    const uint8_t *wanted, size_t wanted_len,
                    uint8_t *writes, size_t writes_len);

#endif
