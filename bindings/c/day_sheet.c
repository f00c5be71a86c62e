/* A day sheet from standard input to standard output. */
#include "cp_swap.h"

#include <stdio.h>
#include <stdlib.h>

static uint64_t pool[CP_SWAP_POOL_LENGTH];
static uint64_t ring[CP_SWAP_RING_LENGTH];
static uint64_t sheet[CP_SWAP_SHEET_LENGTH];
static uint8_t held[CP_SWAP_ROW_LENGTH];
static uint64_t progress[CP_SWAP_PROGRESS_LENGTH];
static uint8_t input[1 << 16];
static uint8_t output[1 << 16];

static void fail(const char *what)
{
    perror(what);
    exit(EXIT_FAILURE);
}

static void write_rows(void)
{
    size_t written = progress[CP_SWAP_WRITTEN];
    if (fwrite(output, 1, written, stdout) != written) {
        fail("standard output");
    }
}

/* The pool is this program's own, so the record is one and the calls answer 0. */
static void answer(size_t length)
{
    size_t from = 0;
    while (from < length) {
        cp_swap_day_sheet(pool, ring, sheet, held, input + from, length - from, output,
                          sizeof output, progress);
        write_rows();
        from += progress[CP_SWAP_TAKEN];
    }
}

int main(void)
{
    size_t length;
    while ((length = fread(input, 1, sizeof input, stdin)) > 0) {
        answer(length);
    }
    if (ferror(stdin)) {
        fail("standard input");
    }
    cp_swap_day_sheet_end(pool, ring, sheet, held, output, progress);
    write_rows();
    if (fflush(stdout) != 0) {
        fail("standard output");
    }
    return EXIT_SUCCESS;
}
