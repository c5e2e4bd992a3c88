/* The proved translate, run, read_recording, run_recorded and agrees, for a host in C: link target/staticlib/libmboxalind.a (x86-64 Linux). */
#ifndef MBOXALIND_H
#define MBOXALIND_H

#include <stddef.h>
#include <stdint.h>

#ifdef __cplusplus
extern "C" {
#endif

/* The answer of all but read_recording: the number of bytes written (of agrees 1 for yes, 0 for no); or, on a refusal, its number in the high 32 bits and its line, from
 * 0, in the low 32. A refusal leaves all lent memory as it was. Each pointer may be read, and if it isn't const written, over the length
 * that follows it; what is lent must not overlap. */

/* A text buffer has so many bytes, and no list is longer; no list needs more cells, or takes more samples. */
enum { MBOXALIND_TEXT = 57344, MBOXALIND_CELLS = 4096, MBOXALIND_SAMPLES = 2048 };

/* Translates a script into list. No list of a script is longer than MBOXALIND_TEXT bytes. A script whose first line is `f00002` follows edition 2,
 * which gives the lowest clear slot of all, and its list begins with that line; run and run_recorded read both kinds of lists. */
uint64_t translate(const uint8_t *script, size_t script_len, uint8_t *list, size_t list_len);

/* Runs a list over cells, two bytes each, high first, and writes what its loads show into out, 7 bytes a load. Cells from the
 * list's size on stay as they are. */
uint64_t run(const uint8_t *list, size_t list_len, uint8_t *cells, size_t cells_len, uint8_t *out, size_t out_len);

/* Reads a part of a recording, lines `30`, four digits, LF: the next state, from 0 at the start on. Its samples are kept in samples, two
 * bytes each, high first, as far as there is room; a list takes MBOXALIND_SAMPLES at most. Where the parts are cut changes nothing. A number that is no
 * reader's state gets 29 times 2^32, and the samples stay. */
uint64_t read_recording(uint64_t state, uint8_t *samples, size_t samples_len, const uint8_t *part, size_t part_len);

/* Runs a list as run does, beside a recording: state is the reader's after all parts, samples what it kept. On success the first four bytes
 * of left, high first, have the number of samples left over. The line of refusal 24 is the recording's. */
uint64_t run_recorded(const uint8_t *list, size_t list_len, uint64_t state, const uint8_t *samples, size_t samples_len, uint8_t *cells,
                      size_t cells_len, uint8_t *out, size_t out_len, uint8_t *left, size_t left_len);

/* Whether a list from elsewhere agrees with a script: 1 or 0. Yes says that its lines are those of the script but for addresses, drain counts and
 * size, and that run on cells as many as its size it prints what the script means. A script that our rules refuse gets a no. Refused are texts
 * that can't be read, by 1 or 2, the script before the list: with the list `900000`, LF, a refusal is the script's. Nothing is written. */
uint64_t agrees(const uint8_t *script, size_t script_len, const uint8_t *list, size_t list_len);

/* 0 if it was no refusal. */
static inline unsigned mboxalind_number(uint64_t answer) { return (unsigned)(answer >> 32); }

/* The line of a refusal, the number of bytes written, or yes and no. */
static inline uint32_t mboxalind_low(uint64_t answer) { return (uint32_t)answer; }

#ifdef __cplusplus
}
#endif
#endif
