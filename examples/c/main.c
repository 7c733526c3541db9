/*
 * main WORD..: does what ntrun does with these words, through the static library. It reads standard
 * input, writes the text to standard output, and ends with the status.
 *
 * From the top of the repository, with KIT for the kit's folder:
 *     cc -Iinclude examples/c/main.c crates/nt_c/out/libnt_c.a KIT/c/liblibc_c.a -o main
 *     ./main run < crates/ntrun/stdin
 */
#include <stdio.h>
#include <stdlib.h>
#include <string.h>

#include "ntrun.h"

/* One byte above the longest input that is read: more bytes would not change the answer. */
enum { MOST_INPUT = 33554433, FIRST_OUTPUT = 65536 };

struct bytes {
    uint8_t *at;
    size_t length;
};

/* A block of at least one byte, or the end of the program. */
static uint8_t *block(uint8_t *old, size_t length)
{
    uint8_t *at = realloc(old, length > 0 ? length : 1);
    if (at == NULL) {
        fputs("main: no memory\n", stderr);
        exit(NTRUN_MEMORY);
    }
    return at;
}

/* The arguments with one space between two. */
static struct bytes joined(int count, char **arguments)
{
    struct bytes words = {block(NULL, 0), 0};
    for (int i = 0; i < count; i++) {
        size_t length = strlen(arguments[i]);
        words.at = block(words.at, words.length + length + 1);
        if (i > 0)
            words.at[words.length++] = ' ';
        memcpy(words.at + words.length, arguments[i], length);
        words.length += length;
    }
    return words;
}

/* Standard input, as far as it can matter. */
static struct bytes read_all(void)
{
    struct bytes input = {block(NULL, MOST_INPUT), 0};
    input.length = fread(input.at, 1, MOST_INPUT, stdin);
    if (ferror(stdin)) {
        fputs("main: reading failed\n", stderr);
        exit(NTRUN_READ);
    }
    return input;
}

int main(int count, char **arguments)
{
    struct bytes words = joined(count - 1, arguments + 1);
    struct bytes input = read_all();
    size_t room = FIRST_OUTPUT, written = 0;
    uint8_t *output = block(NULL, room);
    uint8_t status;
    /* A text that is longer than the output is asked for again, with more room. */
    while ((status = ntrun_call(words.at, words.length, input.at, input.length, output, room,
                                &written)) == NTRUN_WRITE) {
        room *= 2;
        output = block(output, room);
    }
    if (status == NTRUN_NEEDS_THREADS)
        fputs("main: live and audit need threads, so they are not in the library\n", stderr);
    if (fwrite(output, 1, written, stdout) != written || fflush(stdout) != 0)
        status = NTRUN_WRITE;
    free(words.at);
    free(input.at);
    free(output);
    return status;
}
