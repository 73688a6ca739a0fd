/* aprsbook.h: the runs of aprsbook over texts in memory, from libaprsbook.a or libaprsbook.so.
 *
 * Each function does one run of the program and returns how it ended. The region is the memory
 * that the run may take, and belongs to the call: take nothing of it before or meanwhile, and give
 * none of it to another call that runs at the same time. After the call it is the caller's again.
 * Begin with eight times the length of the inputs and 4 MiB, and call again with twice as much at
 * status 3 or 4.
 *
 * An input, an output or a name is a pointer and a length in bytes. No pointer is null, also where
 * the length is 0. What is written to doesn't overlap with anything else.
 *
 * The output has what the run wrote, from its first byte on, where `written` is no more than its
 * length. Where it is more, the output is as it was: call again with as much room. The name has
 * the name of an input's fault in the same way; 16 bytes are enough for any. */
#ifndef APRSBOOK_H
#define APRSBOOK_H

#include <stddef.h>
#include <stdint.h>

#ifdef __cplusplus
extern "C" {
#endif

/* Memory of 16 times `units` bytes from `start` on, which is a multiple of 16. */
struct aprs_region {
    void *start;
    size_t units;
};

/* How a run ended. */
struct aprs_answer {
    /* the program's exit status: 0 where all went well, 1 where an input is refused, 2 where the
     * arguments ask for no run, 3 where the region has no room for what is written (a first part of
     * it was), 4 where it has none for the run */
    uint64_t status;
    uint64_t input;   /* the number of the input at fault, from 0 */
    uint64_t line;    /* its line at fault, from 1; 0 where the fault has no line */
    uint64_t written; /* how many bytes the run wrote */
    uint64_t named;   /* how many bytes the name of the input's fault has; 0 where none is at fault */
};

/* Checks a log: the lines that hold no frame, with the reason, and how many hold one or none. */
struct aprs_answer aprs_check(struct aprs_region region, const uint8_t *input, size_t input_length,
    uint8_t *output, size_t output_length, uint8_t *name, size_t name_length);

/* Writes the frames of a log as a monitor prints them. */
struct aprs_answer aprs_text(struct aprs_region region, const uint8_t *input, size_t input_length,
    uint8_t *output, size_t output_length, uint8_t *name, size_t name_length);

/* Writes the frames of a log as a monitor prints them, each with the kind of its report before it.
 * */
struct aprs_answer aprs_kind(struct aprs_region region, const uint8_t *input, size_t input_length,
    uint8_t *output, size_t output_length, uint8_t *name, size_t name_length);

/* Writes the frames of a log as a KISS stream. */
struct aprs_answer aprs_kiss(struct aprs_region region, const uint8_t *input, size_t input_length,
    uint8_t *output, size_t output_length, uint8_t *name, size_t name_length);

/* Writes a log again, in its one spelling. */
struct aprs_answer aprs_log(struct aprs_region region, const uint8_t *input, size_t input_length,
    uint8_t *output, size_t output_length, uint8_t *name, size_t name_length);

/* Writes a log of a KISS stream, as if this receiver had heard each UI frame at this moment, both
 * texts; status 2 where they are no receiver's name or no moment. Other frames give nothing. */
struct aprs_answer aprs_capture(struct aprs_region region, const uint8_t *receiver,
    size_t receiver_length, const uint8_t *moment, size_t moment_length, const uint8_t *input,
    size_t input_length, uint8_t *output, size_t output_length, uint8_t *name, size_t name_length);

/* Writes the book of several logs and books, which lie one after the other in `inputs` and have
 * these `lengths`, under a gap in seconds; status 2 where the gap isn't 1 to 3,600, or the lengths
 * don't add up to `inputs_length`. */
struct aprs_answer aprs_merge(struct aprs_region region, uint64_t seconds, const uint8_t *inputs,
    size_t inputs_length, const size_t *lengths, size_t count, uint8_t *output, size_t output_length,
    uint8_t *name, size_t name_length);

/* Writes the listing of several logs and books, given as to aprs_merge. */
struct aprs_answer aprs_show(struct aprs_region region, uint64_t seconds, const uint8_t *inputs,
    size_t inputs_length, const size_t *lengths, size_t count, uint8_t *output, size_t output_length,
    uint8_t *name, size_t name_length);

/* Writes the history of several logs and books, given as to aprs_merge: a line for each row of
 * their book, which says what its frame reports. */
struct aprs_answer aprs_history(struct aprs_region region, uint64_t seconds,
    const uint8_t *inputs, size_t inputs_length, const size_t *lengths, size_t count,
    uint8_t *output, size_t output_length, uint8_t *name, size_t name_length);

/* Writes a table of several logs and books, which are given as to aprs_merge: the names of its
 * columns, and its lines, with tabs. `table` is the text that names it, such as "rows"; status 2
 * where no table has that name. */
struct aprs_answer aprs_table(struct aprs_region region, uint64_t seconds, const uint8_t *table,
    size_t table_length, const uint8_t *inputs, size_t inputs_length, const size_t *lengths,
    size_t count, uint8_t *output, size_t output_length, uint8_t *name, size_t name_length);

/* Writes the book of a log or a book under another gap in seconds, no narrower than its own;
 * status 2 where it isn't 1 to 3,600. */
struct aprs_answer aprs_widen(struct aprs_region region, uint64_t seconds, const uint8_t *input,
    size_t input_length, uint8_t *output, size_t output_length, uint8_t *name, size_t name_length);

#ifdef __cplusplus
}
#endif
#endif
