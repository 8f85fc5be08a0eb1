/* Times the proved machine beside the machine in plain C, on the images whose files are named. */
#define _POSIX_C_SOURCE 199309L

#include "machine.h"

#include <inttypes.h>
#include <math.h>
#include <stdbool.h>
#include <stdio.h>
#include <stdlib.h>
#include <string.h>
#include <time.h>

/* The proved static library. */
uint32_t moffatrell_run(const uint8_t *image, size_t length, int32_t *table, size_t entries, uint32_t budget,
                        uint32_t *ticks, uint64_t *instructions, size_t *offset);
uint32_t moffatrell_fill(const uint8_t *image, size_t length, int32_t *table, size_t entries);

enum { IMAGE_LIMIT = 8530, VARIABLE_LIMIT = 64, VARIABLE_LENGTH = 5 };

enum { PROVED, PLAIN, SIDES };

/* A timing is the best of so many, each of at least so many seconds. */
enum { ROUNDS = 10 };
static const double LEAST_SECONDS = 0.2;

struct program {
    const char *name;
    uint8_t image[IMAGE_LIMIT];
    size_t length;
    int32_t initial[VARIABLE_LIMIT];
    size_t entries;
};

struct result {
    int outcome;
    struct report report;
    int32_t table[VARIABLE_LIMIT];
};

static const char *const side_name[SIDES] = { [PROVED] = "proved", [PLAIN] = "C" };

static void fail(const char *name, const char *reason)
{
    fprintf(stderr, "bench: %s: %s\n", name, reason);
    exit(EXIT_FAILURE);
}

/* An image's file, and the table that its initial values fill. */
static void load(struct program *program, const char *file)
{
    const char *slash = strrchr(file, '/');
    FILE *input = fopen(file, "rb");

    if (!input)
        fail(file, "cannot be opened");
    program->name = slash ? slash + 1 : file;
    program->length = fread(program->image, 1, IMAGE_LIMIT, input);
    fclose(input);
    if (program->length < 2)
        fail(file, "is no image");
    program->entries = (program->image[0] | (size_t)program->image[1] << 8) / VARIABLE_LENGTH;
    if (program->entries > VARIABLE_LIMIT
        || moffatrell_fill(program->image, program->length, program->initial, program->entries) != 0)
        fail(file, "fills no table");
}

/* A run from the initial values, with a budget that ends none of the programs. */
static void run(int side, const struct program *program, struct result *result)
{
    struct report *report = &result->report;
    int32_t *table = result->table;

    memcpy(table, program->initial, program->entries * sizeof table[0]);
    if (side == PROVED)
        result->outcome = (int)moffatrell_run(program->image, program->length, table, program->entries, UINT32_MAX,
                                              &report->ticks, &report->instructions, &report->offset);
    else
        result->outcome = c_run(program->image, program->length, table, program->entries, UINT32_MAX, report);
}

static bool are_same(const struct result *a, const struct result *b, size_t entries)
{
    return a->outcome == b->outcome
        && a->report.ticks == b->report.ticks
        && a->report.instructions == b->report.instructions
        && a->report.offset == b->report.offset
        && memcmp(a->table, b->table, entries * sizeof a->table[0]) == 0;
}

static void print_result(int side, const struct result *result, size_t entries)
{
    size_t slot;

    fprintf(stderr, "%8s: outcome %d, ticks %" PRIu32 ", instructions %" PRIu64 ", offset %zu, table", side_name[side],
            result->outcome, result->report.ticks, result->report.instructions, result->report.offset);
    for (slot = 0; slot < entries; slot++)
        fprintf(stderr, " %" PRId32, result->table[slot]);
    fputc('\n', stderr);
}

/* Two sides that differ are not the same machine, and their times say nothing. Gives the instructions of a run. */
static uint64_t compare(const struct program *program)
{
    struct result results[SIDES];
    int side;

    for (side = 0; side < SIDES; side++)
        run(side, program, &results[side]);
    if (!are_same(&results[PROVED], &results[PLAIN], program->entries)) {
        for (side = 0; side < SIDES; side++)
            print_result(side, &results[side], program->entries);
        fail(program->name, "the two sides differ");
    }
    if (results[PLAIN].outcome != 0)
        fail(program->name, "does not run to its end");
    return results[PLAIN].report.instructions;
}

static double seconds_of(int side, const struct program *program, unsigned runs)
{
    struct timespec began, ended;
    struct result result;

    clock_gettime(CLOCK_MONOTONIC, &began);
    while (runs-- > 0)
        run(side, program, &result);
    clock_gettime(CLOCK_MONOTONIC, &ended);
    return (double)(ended.tv_sec - began.tv_sec) + (double)(ended.tv_nsec - began.tv_nsec) / 1e9;
}

/* As many runs as take long enough to be timed. */
static unsigned runs_to_time(int side, const struct program *program)
{
    unsigned runs = 1;

    while (seconds_of(side, program, runs) < LEAST_SECONDS)
        runs *= 2;
    return runs;
}

/* Prints a program's line and gives its ratio. */
static double measure(const struct program *program)
{
    double instructions = (double)compare(program);
    unsigned runs[SIDES];
    double best[SIDES];
    double ratio;
    int round, side;

    for (side = 0; side < SIDES; side++) {
        runs[side] = runs_to_time(side, program);
        best[side] = INFINITY;
    }
    /* Alternately, so that what slows the computer for a while slows both sides. */
    for (round = 0; round < ROUNDS; round++)
        for (side = 0; side < SIDES; side++)
            best[side] = fmin(best[side], seconds_of(side, program, runs[side]) * 1e9 / runs[side] / instructions);
    ratio = best[PROVED] / best[PLAIN];
    printf("%-12s %12.0f %10.2f %10.2f %8.2f\n", program->name, instructions, best[PROVED], best[PLAIN], ratio);
    fflush(stdout);
    return ratio;
}

int main(int count, char **files)
{
    struct program program;
    double logarithms = 0;
    int file;

    if (count < 2)
        fail("usage", "bench IMAGE..");
    printf("%-12s %12s %10s %10s %8s\n", "program", "instructions", "proved ns", "C ns", "ratio");
    for (file = 1; file < count; file++) {
        load(&program, files[file]);
        logarithms += log(measure(&program));
    }
    printf("%-12s %12s %10s %10s %8.2f\n", "mean", "", "", "", exp(logarithms / (count - 1)));
    return EXIT_SUCCESS;
}
