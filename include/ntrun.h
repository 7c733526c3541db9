/*
 * ntrun.h: the program ntrun and the interrupt request levels, as functions of a static library.
 *
 * The library is crates/nt_c/out/libnt_c.a, which `rt lib` in crates/nt_c proves and builds. Link a
 * program with it and then with the kit's heap, c/liblibc_c.a beside the kit's folder bin:
 *
 *     cc -Iinclude main.c crates/nt_c/out/libnt_c.a KIT/c/liblibc_c.a -o main
 *
 * The functions call malloc, realloc and free of the program (through that heap), and nothing else
 * of the C library but memcpy and its like. The three come from one allocator, and align a block to
 * each power of two up to 16 that divides its size. What was allocated in a call is freed before it
 * returns. No function keeps a pointer, a buffer or any state between two calls. So two threads may
 * call at the same time, each with buffers of its own; but no signal handler may call, nor the
 * forked child of a process with threads.
 *
 * The functions are proved to do what their contracts say (crates/nt_c), and the contracts require
 * nothing but what the types of Rattle say. A check holds a caller in Rattle to that, and nobody
 * holds one in C to it. So a caller in C has to see to it that
 *   - each pointer is valid for its length: to be read (words, input), or to be read and written
 *     (output, written), with bytes that have a value; a length of 0 still wants a pointer that is
 *     not null;
 *   - no length is above 2^63 - 1;
 *   - output and written lie apart from each other and from words and input, and nobody else reads
 *     or writes any of these during the call.
 */
#ifndef NTRUN_H
#define NTRUN_H

#include <stdbool.h>
#include <stddef.h>
#include <stdint.h>

#ifdef __cplusplus
extern "C" {
#endif

/* What ntrun_call answers. docs/formats.md, "The program", has the causes and the lines. */
enum ntrun_status {
    NTRUN_OK = 0,            /* the text that was asked for was written */
    NTRUN_USAGE = 1,         /* the words are no form; the usage line */
    NTRUN_SCRIPT = 2,        /* a line of the input is refused; its number, and why */
    NTRUN_SCHEDULE = 3,      /* a turn of the schedule is refused; its place, and why */
    NTRUN_READ = 4,          /* reading failed: never of this library */
    NTRUN_WRITE = 5,         /* the text is longer than the output; its front part fills that */
    NTRUN_MEMORY = 6,        /* malloc or realloc gave nothing; `no memory` */
    NTRUN_TOO_LONG = 7,      /* the input has more than 33,554,432 bytes; `input too long` */
    NTRUN_ILLEGAL = 8,       /* check: the history is no settled run; where it goes wrong */
    NTRUN_NO_GOAL = 9,       /* shrink: no DPC or APC object has the name; `no goal` */
    NTRUN_NOT_DELIVERED = 10, /* shrink: no routine of the object begins; `not delivered` */
    NTRUN_TOO_MANY = 11,     /* shrink: more than 1,000 turns; `too many turns` */
    NTRUN_NEEDS_THREADS = 12 /* one of the words is `live` or `audit`; nothing is written */
};

/*
 * Does what the program ntrun does for the words behind its name, and answers its status.
 *
 * words:   the command line, with one space between two words, as "run --turns 500" (without the
 *          program's name, and no 0 behind it). Two spaces have an empty word between them. Bytes
 *          that are no UTF-8 are words of no form.
 * input:   what the program would read from standard input: a script, and behind it a schedule or a
 *          report where the form wants one.
 * output:  gets the text that the program would write to standard output, at its front, without a 0
 *          behind it. What lies behind the text stays as it was. Where the text is longer, the
 *          whole output gets the text's front part, and the status is 5: try again with more.
 * written: gets the number of bytes at the front of the output that were written.
 *
 * The caller owns all three buffers and `written`. The call takes memory of its own for the words,
 * the input and the whole text, whatever the output's length is, and frees it.
 */
uint8_t ntrun_call(const uint8_t *words, size_t words_length,
                   const uint8_t *input, size_t input_length,
                   uint8_t *output, size_t output_length, size_t *written);

/*
 * Whether a request at the level `request` may begin on a processor at the level `level`: exactly
 * where it is above. Levels are 0 to 15. Where one of the two is above 15, the answer is false.
 */
bool ntrun_level_allows(uint8_t level, uint8_t request);

/* Whether the level is one of those at which devices interrupt, 3 to 11. */
bool ntrun_level_is_device(uint8_t level);

#ifdef __cplusplus
}
#endif

#endif
