/* The machine in plain C, beside which the proved machine is timed. */
#ifndef MACHINE_H
#define MACHINE_H

#include <stddef.h>
#include <stdint.h>

/* What a run reports beside its outcome and the table. */
struct report {
    uint32_t ticks;
    uint64_t instructions;
    size_t offset;
};

/* Runs an image on a table with a budget of ticks; gives the outcome's number. */
int c_run(const uint8_t *image, size_t length, int32_t *table, size_t entries, uint32_t budget, struct report *out);

#endif
