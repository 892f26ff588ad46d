/*
 * palette.h: runs a log of events on a model of a video palette chip,
 * the TLC34058 (chip 1), the HD153129 (chip 2) or the TMS34070 (chip 3), gives
 * the output currents of a TLC34058, and lists the fewest writes that fill an
 * HD153129's table with wanted colours.
 *
 * Snapshots, logs, answers and plans are byte strings; docs/FORMATS.md describes
 * them. Link with libpalette.a. C99 or later, or C++.
 */
#ifndef PALETTE_H
#define PALETTE_H

#include <stddef.h>
#include <stdint.h>

#ifdef __cplusplus
extern "C" {
#endif

/* The version: three numbers for #if, and the text "major.minor.patch". */
#define PALETTE_VERSION_MAJOR 0
#define PALETTE_VERSION_MINOR 7
#define PALETTE_VERSION_PATCH 0
#define PALETTE_VERSION                                                        \
    PALETTE_VERSION_TEXT(PALETTE_VERSION_MAJOR, PALETTE_VERSION_MINOR,         \
                         PALETTE_VERSION_PATCH)
/* Only PALETTE_VERSION uses these two. The first expands the numbers, the
 * second makes text of them. */
#define PALETTE_VERSION_TEXT(major, minor, patch)                              \
    PALETTE_VERSION_TEXT_(major, minor, patch)
#define PALETTE_VERSION_TEXT_(major, minor, patch) #major "." #minor "." #patch

/* The chip byte, which starts every snapshot and every log. A library before
 * version 0.4.0 has no TMS34070: it refuses its snapshots with
 * PALETTE_REFUSED_SNAPSHOT_CHIP and its logs with PALETTE_REFUSED_LOG_CHIP. */
enum palette_chip {
    PALETTE_CHIP_TLC34058 = 1,
    PALETTE_CHIP_HD153129 = 2,
    PALETTE_CHIP_TMS34070 = 3
};

/* The kind byte of an event. Any chip's log may hold any of them; an event that
 * the chip doesn't have is answered with PALETTE_REFUSED_NOT_ON_CHIP. A library
 * before version 0.4.0 refuses a log that holds a load with
 * PALETTE_REFUSED_LOG_KIND. */
enum palette_kind {
    PALETTE_KIND_WRITE = 0,
    PALETTE_KIND_READ = 1,
    PALETTE_KIND_TICK = 2,
    PALETTE_KIND_VERTICAL = 3,
    PALETTE_KIND_SAVE = 4,
    PALETTE_KIND_LOAD = 5
};

/*
 * Snapshots.
 */

/* The chip byte and the 2-byte count. The snapshot of a fresh chip has no more:
 * its chip byte and a count of 0. */
#define PALETTE_SNAPSHOT_HEADER_BYTES 3
/* The 2-byte number of a place and its value. */
#define PALETTE_PLACE_BYTES 3
/* How long a snapshot of so many places is. */
#define PALETTE_SNAPSHOT_BYTES(places)                                         \
    (PALETTE_SNAPSHOT_HEADER_BYTES + PALETTE_PLACE_BYTES * (size_t)(places))
/* How many places each chip has, and the most that any chip has. A TLC34058's last
 * three, 789 to 791, are red, green and blue of the last pixel that it showed. A
 * library before version 0.7.0 has no such places: it refuses a snapshot that
 * names one with PALETTE_REFUSED_SNAPSHOT_PLACE, or for more than 789 places with
 * PALETTE_REFUSED_SNAPSHOT_COUNT. Older snapshots mean what they meant, the last
 * pixel being black. */
#define PALETTE_TLC34058_PLACES 792
#define PALETTE_HD153129_PLACES 774
#define PALETTE_TMS34070_PLACES 86
#define PALETTE_MOST_PLACES PALETTE_TLC34058_PLACES
/* The smallest end buffer that is accepted, whatever snapshot it will hold:
 * 2,379 bytes, the longest snapshot of any chip. In a program that was compiled
 * with a header before version 0.7.0 it has 2,370 bytes, and until the program is
 * compiled again this library refuses with PALETTE_REFUSED_END_BUFFER every run and
 * every call for currents that it would accept otherwise, whatever the chip. */
#define PALETTE_END_BYTES                                                      \
    (PALETTE_SNAPSHOT_HEADER_BYTES + PALETTE_PLACE_BYTES * PALETTE_MOST_PLACES)

/*
 * Logs.
 */

/* The chip byte and the 4-byte count. */
#define PALETTE_LOG_HEADER_BYTES 5
/* The operand of an event. */
#define PALETTE_OPERAND_BYTES 8
/* An event: its kind byte and its operand. A log has all kind bytes first. */
#define PALETTE_EVENT_BYTES (1 + PALETTE_OPERAND_BYTES)
/* How long a log of so many events is. */
#define PALETTE_LOG_BYTES(events)                                              \
    (PALETTE_LOG_HEADER_BYTES + PALETTE_EVENT_BYTES * (size_t)(events))
/* The most events that a log may hold, and how long it is then: 63,005 bytes.
 * Before version 0.3.0 it was 3,000 events, and an older library refuses a
 * longer log with PALETTE_REFUSED_LOG_COUNT. */
#define PALETTE_MOST_EVENTS 7000
#define PALETTE_MOST_LOG_BYTES                                                 \
    (PALETTE_LOG_HEADER_BYTES + PALETTE_EVENT_BYTES * PALETTE_MOST_EVENTS)

/*
 * Answers.
 */

/* Event i's answer starts at byte PALETTE_ANSWER_BYTES * i. Byte 0 is 0 or the
 * refusal. A read has its byte in byte 1. A write that painted has 1 in byte 1
 * and the number of what it painted in bytes 2 and 3, low byte first. A tick has
 * its number of pixels in byte 1, its levels in byte 2, and red, green and blue
 * of each pixel from byte 3. Every other byte is 0.
 *
 * A TLC34058's test register (control register 07h) reads the DAC inputs: bits 0
 * to 3 are as they were written, and bits 4 to 7 are half of a code of the last
 * pixel shown, red if of bits 0 to 2 just bit 0 is set, green if just bit 1, blue
 * if just bit 2, the low half if bit 3 is set and the high half if it isn't; in
 * any other case they are 0. The last pixel is D, or E in a tick of five; a blanked
 * tick leaves black, and a refused one changes nothing. A library before version
 * 0.7.0 reads back the byte written.
 *
 * A TMS34070's tick has two pixels, DA and DB, with codes of 4 bits, and in byte
 * 2 DATEN (bit 0) and the EXT bits of DA (bit 1) and of DB (bit 2); with DATEN
 * low byte 2 and all codes are 0. */
#define PALETTE_ANSWER_BYTES 18
/* An answer buffer of this size is enough for every log. In a program that was
 * compiled with a header before version 0.3.0 it has 54,000 bytes, and for a log
 * of 3,001 to 7,000 events this library refuses it with
 * PALETTE_REFUSED_ANSWER_BUFFER; or with PALETTE_REFUSED_LOG_LENGTH if that
 * program reads only PALETTE_MOST_LOG_BYTES + 1 bytes of a log, then 27,006. */
#define PALETTE_MOST_ANSWER_BYTES (PALETTE_ANSWER_BYTES * PALETTE_MOST_EVENTS)

/* What a write painted: a palette entry has its number, 0 to 255, overlay k is
 * PALETTE_PAINTED_OVERLAY + k, and the registers that pixels go through have the
 * numbers here. After a write that painted an entry or an overlay every pixel that
 * shows another one looks as it did; after one that painted a register any may
 * look different; after a write with 0 in byte 1 all look as they did. A write
 * paints though it writes what is there already.
 *
 * A library before version 0.5.0 has 0 in these bytes, whatever a write painted. A
 * TMS34070 has no writes, and its loads answer zeros. */
enum palette_painted {
    PALETTE_PAINTED_OVERLAY = 256,
    /* TLC34058: registers 04h, 05h and 06h. */
    PALETTE_PAINTED_READ_MASK = 260,
    PALETTE_PAINTED_BLINK_MASK = 261,
    PALETTE_PAINTED_COMMAND = 262,
    /* HD153129. */
    PALETTE_PAINTED_PIXEL_MASK = 260
};
/* That number; `answer` is the answer to a write that has 1 in byte 1. It is
 * evaluated twice. */
#define PALETTE_PAINTED(answer)                                                \
    ((unsigned)(uint8_t)(answer)[2] + 256u * (unsigned)(uint8_t)(answer)[3])

/*
 * Currents.
 */

/* The outputs of a TLC34058, in the order in which a pixel's currents stand. */
enum palette_output {
    PALETTE_OUTPUT_GREEN = 0,
    PALETTE_OUTPUT_RED = 1,
    PALETTE_OUTPUT_BLUE = 2
};

/* The pixels of a TLC34058's tick, A to E; those past its count, too, have
 * their currents, which are 0. */
#define PALETTE_TICK_PIXELS 5
/* A tick's answer and, behind it, three currents for each pixel, of 2 bytes. */
#define PALETTE_CURRENTS_BYTES (PALETTE_ANSWER_BYTES + 2 * 3 * PALETTE_TICK_PIXELS)
/* The current of an output for a pixel, 0 being A, in hundredths of a
 * milliampere; `out` is what palette_currents has filled. Each argument is
 * evaluated twice. */
#define PALETTE_CURRENT(out, pixel, output)                                    \
    (PALETTE_CURRENT_BYTE(out, pixel, output, 0) +                             \
     256u * PALETTE_CURRENT_BYTE(out, pixel, output, 1))
/* Only PALETTE_CURRENT uses this. */
#define PALETTE_CURRENT_BYTE(out, pixel, output, byte)                         \
    ((unsigned)(uint8_t)(out)[PALETTE_ANSWER_BYTES +                           \
                              2 * (3 * (size_t)(pixel) + (size_t)(output)) +   \
                              (byte)])

/*
 * Plans.
 */

/* The entries of an HD153129's table. */
#define PALETTE_HD153129_ENTRIES 256
/* A wanted table: red, green and blue of each entry, entry 0 first, as in the
 * places of a snapshot. */
#define PALETTE_WANTED_BYTES (3 * PALETTE_HD153129_ENTRIES)
/* A write of a plan: its selector, then its byte. */
#define PALETTE_WRITE_BYTES 2
/* The most writes that a plan has, and how long it is then: all entries in one
 * run, each with its three colours, behind one address. `writes` must have room
 * for so many, 1,538 bytes, however short the plan is. */
#define PALETTE_MOST_WRITES (1 + 3 * PALETTE_HD153129_ENTRIES)
#define PALETTE_PLAN_BYTES (PALETTE_WRITE_BYTES * PALETTE_MOST_WRITES)

/*
 * Results.
 */

/* The two halves of what each call returns: the refusal (0 if the call was
 * accepted) and a number (0 if it was refused), of palette_run and
 * palette_currents the length of the end snapshot, of palette_plan the count of
 * writes. A snapshot has at most PALETTE_END_BYTES bytes, a plan at most
 * PALETTE_MOST_WRITES writes, so the halves never mix. */
#define PALETTE_REFUSAL(result) ((unsigned)((uint64_t)(result) >> 16))
#define PALETTE_LENGTH(result) ((size_t)((uint64_t)(result) & 0xFFFFu))
#define PALETTE_COUNT(result) ((size_t)((uint64_t)(result) & 0xFFFFu))

/*
 * The refusals. A library of another version may have others besides, so a
 * program should have something to say for a number that isn't here.
 *
 * In an answer: a refusal in byte 0 says that the event left the chip as it
 * was. The answer's other bytes are 0, and the run went on.
 *
 * Of a run: palette_run returns the refusal. Nothing was run, and no byte of
 * either buffer was changed. It looks at the snapshot (20 to 25), then at the
 * log (10 to 15), then for 26, 30, 31. In each group the smaller number comes
 * first, except that 24 and 25 are looked for together, index by index, and so
 * are 14 and 15: the lowest index decides, and at one index the smaller number.
 *
 * Of currents: palette_currents returns the refusal, and no byte of either
 * buffer was changed. It looks at the snapshot (20 to 25, as a run does), then
 * for 40, 13, 30, 31.
 *
 * Of a plan: palette_plan returns the refusal, and no byte of `writes` was
 * changed. It looks at the snapshot (20 to 25, as a run does), then for 41, 42,
 * 43.
 */
enum palette_refusal {
    /* Not refused. */
    PALETTE_ACCEPTED = 0,

    /* In an answer, TLC34058 and HD153129: the selector of a write or read is
     * over 3. */
    PALETTE_REFUSED_SELECTOR = 1,
    /* In an answer, TLC34058: an overlay access with the address over 3, or a
     * control access with the address outside 4 to 7. */
    PALETTE_REFUSED_ADDRESS = 2,
    /* In an answer, HD153129: a colour write in direction read, or a colour
     * read in direction write. */
    PALETTE_REFUSED_DIRECTION = 3,
    /* In an answer: a tick with undefined level bits set; TLC34058: a tick with
     * OL bits 5 to 7 set; TMS34070: a load or a tick with DA or DB over 15. */
    PALETTE_REFUSED_UNDEFINED_BITS = 4,
    /* In an answer: an event that the chip doesn't have. TLC34058: a load.
     * HD153129: a vertical period or a load. TMS34070: a write or a read,
     * whatever its selector, or a vertical period. */
    PALETTE_REFUSED_NOT_ON_CHIP = 5,

    /* Of a run: the log has under PALETTE_LOG_HEADER_BYTES bytes. */
    PALETTE_REFUSED_LOG_SHORT = 10,
    /* Of a run: the log's chip byte isn't one of enum palette_chip. */
    PALETTE_REFUSED_LOG_CHIP = 11,
    /* Of a run: the log's count n is over PALETTE_MOST_EVENTS. */
    PALETTE_REFUSED_LOG_COUNT = 12,
    /* Of a run: the log's length isn't PALETTE_LOG_BYTES(n). Of currents: the
     * operand's isn't PALETTE_OPERAND_BYTES. */
    PALETTE_REFUSED_LOG_LENGTH = 13,
    /* Of a run: a kind byte of the log isn't one of enum palette_kind. */
    PALETTE_REFUSED_LOG_KIND = 14,
    /* Of a run: an operand byte that its event doesn't use isn't 0. */
    PALETTE_REFUSED_LOG_UNUSED = 15,

    /* 20 to 25: of a run, of currents and of a plan. */
    /* The snapshot has under PALETTE_SNAPSHOT_HEADER_BYTES bytes. */
    PALETTE_REFUSED_SNAPSHOT_SHORT = 20,
    /* The snapshot's chip byte isn't one of enum palette_chip. */
    PALETTE_REFUSED_SNAPSHOT_CHIP = 21,
    /* The snapshot's count N is over the chip's number of places,
     * PALETTE_TLC34058_PLACES, PALETTE_HD153129_PLACES or
     * PALETTE_TMS34070_PLACES. */
    PALETTE_REFUSED_SNAPSHOT_COUNT = 22,
    /* The snapshot's length isn't PALETTE_SNAPSHOT_BYTES(N). */
    PALETTE_REFUSED_SNAPSHOT_LENGTH = 23,
    /* A place of the snapshot is outside the chip or not above the place
     * before it. */
    PALETTE_REFUSED_SNAPSHOT_PLACE = 24,
    /* A value of the snapshot is 0 or too large for its place. */
    PALETTE_REFUSED_SNAPSHOT_VALUE = 25,
    /* Of a run: the snapshot and the log are for two chips. */
    PALETTE_REFUSED_TWO_CHIPS = 26,

    /* Of a run: the answer buffer has under PALETTE_ANSWER_BYTES * n bytes. Of
     * currents: `out` has under PALETTE_CURRENTS_BYTES. */
    PALETTE_REFUSED_ANSWER_BUFFER = 30,
    /* Of a run and of currents: the end buffer has under PALETTE_END_BYTES
     * bytes. */
    PALETTE_REFUSED_END_BUFFER = 31,

    /* Of currents: the snapshot is of another chip than a TLC34058. */
    PALETTE_REFUSED_CURRENTS_CHIP = 40,

    /* Of a plan: the snapshot is of another chip than an HD153129. */
    PALETTE_REFUSED_PLAN_CHIP = 41,
    /* Of a plan: the wanted table hasn't PALETTE_WANTED_BYTES bytes, or one of
     * them is over 63. */
    PALETTE_REFUSED_WANTED = 42,
    /* Of a plan: `writes` has under PALETTE_PLAN_BYTES bytes. */
    PALETTE_REFUSED_PLAN_BUFFER = 43
};

/*
 * Runs a log from a snapshot.
 *
 * Event i's answer fills the PALETTE_ANSWER_BYTES bytes of `answers` from
 * PALETTE_ANSWER_BYTES * i, the first event being 0. The end snapshot starts
 * `end`. Bytes past either don't change, and a refused run changes no byte.
 *
 * Returns 65,536 * refusal + length of the end snapshot, the length being 0 if
 * the run is refused; PALETTE_REFUSAL and PALETTE_LENGTH take it apart.
 *
 * All four byte strings belong to the caller, before, during and after the
 * call: nothing is allocated, freed or kept, and there is no global state, so
 * calls with buffers of their own may run at the same time.
 *
 * Each pointer must be good for its length, any alignment will do, and a null
 * pointer with length 0 is an empty byte string. `snapshot` and `log` are only
 * read. No two of the four may overlap; if they do, the behaviour is undefined.
 */
uint64_t palette_run(const uint8_t *snapshot, size_t snapshot_len,
                     const uint8_t *log, size_t log_len,
                     uint8_t *answers, size_t answers_len,
                     uint8_t *end, size_t end_len);

/*
 * The output currents of a TLC34058 for one tick, by its data sheet's Table 6.
 *
 * `operand` has the tick's PALETTE_OPERAND_BYTES bytes, as in a log. The tick's
 * answer fills the first PALETTE_ANSWER_BYTES bytes of `out`, and the currents,
 * in hundredths of a milliampere, the rest of its first PALETTE_CURRENTS_BYTES:
 * green, red and blue of pixel A, then of B, up to E, each of 2 bytes, the low
 * one first; PALETTE_CURRENT reads one. Pixels past the tick's count have 0. If
 * the chip refuses the tick (PALETTE_REFUSED_UNDEFINED_BITS in byte 0 of the
 * answer), every current is 0. The snapshot of the chip after the tick starts
 * `end`. Bytes past either don't change, and a refused call changes no byte.
 *
 * Returns 65,536 * refusal + length of the end snapshot, as palette_run does,
 * and asks the same of its byte strings; `snapshot` and `operand` are only
 * read.
 */
uint64_t palette_currents(const uint8_t *snapshot, size_t snapshot_len,
                          const uint8_t *operand, size_t operand_len,
                          uint8_t *out, size_t out_len,
                          uint8_t *end, size_t end_len);

/*
 * The fewest writes to an HD153129 that leave exactly the wanted colours.
 *
 * `wanted` has PALETTE_WANTED_BYTES bytes: red, green and blue of entry 0, then
 * of entry 1, up to 255, each at most 63. The writes fill the start of `writes`,
 * PALETTE_WRITE_BYTES for each in the order in which they are made: its
 * selector, 0 for an address and 1 for a colour, and its byte. `writes` must have
 * PALETTE_PLAN_BYTES bytes, whatever it will hold. Bytes past the list don't
 * change, and a refused call changes no byte.
 *
 * If no colour differs, the list is empty. Otherwise it starts with an address,
 * so it may be sent whatever the port was in the middle of. Entries that differ
 * and follow each other, 0 being behind 255, are one run: an address, then red,
 * green and blue of each, as they are in `wanted`. No list of accesses that
 * starts with an address write (selector 0 or 3) and leaves that table is
 * shorter. In which order the runs come, and with which entry a run of all 256
 * starts, isn't promised.
 *
 * Returns 65,536 * refusal + count of writes, the count being 0 if the call is
 * refused; PALETTE_REFUSAL and PALETTE_COUNT take it apart. The count is 3 * the
 * entries that differ + their runs, at most PALETTE_MOST_WRITES.
 *
 * Of its byte strings it asks what palette_run does: no two of the three may
 * overlap; `snapshot` and `wanted` are only read. A library before version 0.6.0
 * hasn't got this call.
 */
uint64_t palette_plan(const uint8_t *snapshot, size_t snapshot_len,
                      const uint8_t *wanted, size_t wanted_len,
                      uint8_t *writes, size_t writes_len);

#ifdef __cplusplus
}
#endif

#endif
