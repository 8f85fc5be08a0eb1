/* Prints how many bytes of stack the proved library takes for a run of the image whose file is named: the run has a stack of
   its own, filled with a mark before, and what the run did not touch still has the mark. */
#define _XOPEN_SOURCE 700

#include <stdint.h>
#include <stdio.h>
#include <stdlib.h>
#include <string.h>
#include <ucontext.h>

uint32_t moffatrell_run(const uint8_t *image, size_t length, int32_t *table, size_t entries, uint32_t budget,
                        uint32_t *ticks, uint64_t *instructions, size_t *offset);
uint32_t moffatrell_fill(const uint8_t *image, size_t length, int32_t *table, size_t entries);

enum { IMAGE_LIMIT = 8530, VARIABLE_LIMIT = 64, VARIABLE_LENGTH = 5, MARK = 0xA5 };

static uint8_t image[IMAGE_LIMIT];
static size_t length, entries;
static int32_t table[VARIABLE_LIMIT];
static uint8_t stack[1 << 20];

static void run(void)
{
    uint32_t ticks;
    uint64_t instructions;
    size_t offset;

    if (moffatrell_run(image, length, table, entries, UINT32_MAX, &ticks, &instructions, &offset) != 0)
        fputs("stack: the run does not end by itself\n", stderr);
}

int main(int count, char **files)
{
    ucontext_t caller, callee;
    FILE *input = count == 2 ? fopen(files[1], "rb") : NULL;
    size_t untouched = 0;

    if (!input || (length = fread(image, 1, IMAGE_LIMIT, input)) < 2)
        return EXIT_FAILURE;
    fclose(input);
    entries = (image[0] | (size_t)image[1] << 8) / VARIABLE_LENGTH;
    if (entries > VARIABLE_LIMIT || moffatrell_fill(image, length, table, entries) != 0)
        return EXIT_FAILURE;
    memset(stack, MARK, sizeof stack);
    getcontext(&callee);
    callee.uc_stack.ss_sp = stack;
    callee.uc_stack.ss_size = sizeof stack;
    callee.uc_link = &caller;
    makecontext(&callee, run, 0);
    swapcontext(&caller, &callee);
    while (untouched < sizeof stack && stack[untouched] == MARK)
        untouched++;
    printf("%zu\n", sizeof stack - untouched);
    return EXIT_SUCCESS;
}
